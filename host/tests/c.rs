// The header for C: the example and small programs, compiled by gcc and linked with the library.
use std::{
    io::Write,
    path::{Path, PathBuf},
    process::{Command, Output, Stdio},
};

use host::{
    generate::{self, Size},
    notice,
    rng::Rng,
    sheet,
};

fn root() -> PathBuf {
    Path::new(env!("CARGO_MANIFEST_DIR")).join("..")
}

fn compiler_absent(name: &str, left_out: &str) -> bool {
    let found = Command::new(name).arg("--version").output().is_ok();
    if !found {
        notice::tell(format!("{name} absent; {left_out}\n"));
    }
    !found
}

// Compiles a file of the repository, linked with the library if that is there; the program.
fn compiled(compiler: &[&str], file: &str) -> PathBuf {
    let name = format!("{}-{}", compiler[0], file.replace('/', "-"));
    let program = Path::new(env!("CARGO_TARGET_TMPDIR")).join(name);
    let mut command = Command::new(compiler[0]);
    command.args(&compiler[1..]);
    command.args(["-Wall", "-Wextra", "-Werror", "-pedantic", "-O2"]);
    command.arg("-I").arg(root().join("include"));
    command.arg(root().join(file));
    if yukhtsami::present() {
        command.args(["-x", "none"]).arg(yukhtsami::file());
    }
    let output = command.arg("-o").arg(&program).output().unwrap();
    let said = String::from_utf8_lossy(&output.stderr).into_owned();
    assert!(output.status.success() && said.is_empty(), "{said}");
    program
}

const C: [&str; 2] = ["gcc", "-std=c11"];
const CPP: [&str; 4] = ["g++", "-std=c++17", "-x", "c++"];

fn run(program: &Path, input: Vec<u8>) -> Output {
    let mut command = Command::new(program);
    command.stdin(Stdio::piped());
    command.stdout(Stdio::piped()).stderr(Stdio::piped());
    let mut child = command.spawn().unwrap();
    let mut pipe = child.stdin.take().unwrap();
    let writer = std::thread::spawn(move || pipe.write_all(&input));
    let output = child.wait_with_output().unwrap();
    // A program that has seen enough does not read to the end.
    let _ = writer.join().unwrap();
    output
}

// Of the C library memset alone: whoever links the archive without one brings no more.
#[test]
fn the_archive_asks_for_memset_alone() {
    if compiler_absent("nm", "what the archive asks for was not looked at")
        || notice::library_absent("what the archive asks for was not looked at")
    {
        return;
    }
    let mut command = Command::new("nm");
    command.arg("--undefined-only").arg(yukhtsami::file());
    let output = command.output().unwrap();
    assert!(output.status.success());
    let said = String::from_utf8(output.stdout).unwrap();
    let asked: Vec<&str> = said
        .lines()
        .filter_map(|line| line.trim_start().strip_prefix("U "))
        .collect();
    assert_eq!(asked, ["memset"]);
}

#[test]
fn the_example_answers_and_refuses() {
    if compiler_absent("gcc", "the example was not compiled")
        || notice::library_absent("the example was not linked")
    {
        return;
    }
    let program = compiled(&C, "examples/c/answer.c");
    let name = "a".repeat(30_000);
    let bound = format!("kind=unify\nfuel=9\nleft=x0:Msg\nright={name}\n");
    let value = format!("verdict=solved\nspent=1\nkey=x0:Msg\nvalue={name}\n");
    for (sheet, status, out, err) in [
        ("kind=equal\nleft=a\nright=a\n", 0, "equal=yes\n", ""),
        (&bound, 0, &value, ""),
        (&"a".repeat(70_000), 1, "", "answer: refusal 1\n"),
        ("kind=equal\n\t", 2, "", "answer: refusal 2\n"),
        ("", 3, "", "answer: refusal 3\n"),
        ("kind=reduce\nterm=(\n", 4, "", "answer: refusal 4\n"),
    ] {
        let output = run(&program, sheet.as_bytes().to_vec());
        let text = |bytes| String::from_utf8(bytes).unwrap();
        let said = (text(output.stdout), text(output.stderr));
        assert_eq!(output.status.code(), Some(status), "{}", said.1);
        assert_eq!(said, (out.to_owned(), err.to_owned()));
    }
}

#[test]
fn null_pointers_of_length_0_are_taken() {
    if notice::library_absent("null pointers were not tried on it") {
        return;
    }
    for compiler in [&C[..], &CPP[..]] {
        if compiler_absent(compiler[0], "null pointers were not tried by it") {
            continue;
        }
        let output = run(&compiled(compiler, "host/tests/c/bare.c"), Vec::new());
        let said = String::from_utf8(output.stdout).unwrap();
        assert_eq!(
            (output.status.code(), &*said),
            (Some(0), "3 0\n11 0\n12 0\n".repeat(2).as_str())
        );
    }
}

#[test]
fn pages_are_given_to_c_and_cpp() {
    if notice::library_absent("pages were not asked of it") {
        return;
    }
    let blank = " ".repeat(72) + "\n";
    let lines = ["PAGE 0001", "verdict  solved", "spent    0"].map(|line| format!("{line:72}\n"));
    let page = lines.concat() + &blank.repeat(47);
    for compiler in [&C[..], &CPP[..]] {
        if compiler_absent(compiler[0], "pages were not asked for by it") {
            continue;
        }
        let output = run(&compiled(compiler, "host/tests/c/page.c"), Vec::new());
        let said = String::from_utf8(output.stdout).unwrap();
        let refused = "12 0\n13\n0 3650\n";
        assert_eq!(
            (output.status.code(), said),
            (Some(0), format!("{refused}{page}"))
        );
    }
}

// Sheets that need words, of every kind, with those that they need.
fn sheets() -> Vec<(Vec<u8>, u64)> {
    let mut rng = Rng::new(41);
    let sheets = (0..3_000).map(|_| generate::sheet(&mut rng, Size::Any));
    let needed = |bytes: Vec<u8>| {
        let words = sheet::words_needed(&bytes, &sheet::read(&bytes).ok()?);
        Some((bytes, words))
    };
    sheets.filter_map(needed).collect()
}

#[test]
fn the_header_counts_the_words_that_are_needed() {
    if compiler_absent("gcc", "the words by the header were not counted") {
        return;
    }
    let sheets = sheets();
    let complete = |(bytes, _): &&(Vec<u8>, u64)| bytes.starts_with(b"kind=complete");
    assert!(sheets.len() > 2_000 && sheets.iter().filter(complete).count() > 100);
    let mut input = Vec::new();
    for (bytes, _) in &sheets {
        input.extend_from_slice(format!("{}\n", bytes.len()).as_bytes());
        input.extend_from_slice(bytes);
    }
    let output = run(&compiled(&C, "host/tests/c/words.c"), input);
    assert_eq!(output.status.code(), Some(0));
    let told = String::from_utf8(output.stdout).unwrap();
    let told: Vec<u64> = told.lines().map(|line| line.parse().unwrap()).collect();
    let needed: Vec<u64> = sheets.iter().map(|(_, words)| *words).collect();
    assert!(told == needed);
}
