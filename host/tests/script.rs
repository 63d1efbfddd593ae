// The script `yukhtsami` in the root of the repository: what it proves and builds, and when. A tree of its own for each test, in which
// `rt` and `cargo` only say what they were asked to do; a prover that is to take long waits for a file.
#[allow(dead_code)]
mod shared;

use std::{
    fs,
    io::{BufRead, BufReader, Read},
    os::unix::process::ExitStatusExt,
    path::Path,
    process::{Child, Command, Stdio},
};

use host::notice;
use shared::{Folder, Ran, folder, ran};

// Where there is a pipe `early` or `late` it holds the pipe open and goes on for ever, with a process below it that does so too.
const RT: &str = r#"#!/bin/sh
folder=$PWD
cd "${0%/bin/rt}" || exit
hold() {
    [ -p "$1" ] || return 0
    exec 7>"$1"
    sleep 600 &
    sleep 600
    echo "not ended" >&7
}
echo "rt $*" | sed 's/ --jobs [1-9][0-9]*$//' >>asked
echo "== below"
[ ! -e waiting ] || until [ -e go ]; do sleep 0.01; done
[ ! -e unneeded ] || [ "$1" != all ] || { echo "rt: the program is not proved"; exit 1; }
[ ! -e failing ] || { echo "rt: the library below did not build"; exit 1; }
hold early
[ "$folder/$1" = "$PWD/crates/yukhtsami_c/lib" ] || exit 0
[ ! -e changing ] || { rm changing; echo more >>crates/below/src/lib.rt; }
mkdir -p crates/yukhtsami_c/out
cat crates/*/src/lib.rt >crates/yukhtsami_c/out/libyukhtsami_c.a
hold late
"#;

const CARGO: &str = r#"#!/bin/sh
echo "cargo $1" >>asked
mkdir -p host/target/command/release
printf '#!/bin/sh\necho answered "$@"\n' >host/target/command/release/yukhtsami
chmod +x host/target/command/release/yukhtsami
"#;

const CRATES: &str = "below:\nmiddle: below\nyukhtsami: middle below\n\
    yukhtsami_c staticlib: yukhtsami\nprogram: yukhtsami io\n";

struct Tree {
    root: Folder,
}

impl Tree {
    fn new(test: &str) -> Self {
        let tree = Self {
            root: folder(&format!("script-{test}")),
        };
        tree.write("host/Cargo.toml", "version = \"1.2.3\"\n");
        for script in ["yukhtsami", "host/link"] {
            let own = Path::new(env!("CARGO_MANIFEST_DIR"))
                .join("..")
                .join(script);
            fs::copy(own, tree.root.join(script)).unwrap();
        }
        tree.write("crates.txt", CRATES);
        for name in ["below", "middle", "yukhtsami", "yukhtsami_c", "program"] {
            tree.write(&format!("crates/{name}/src/lib.rt"), name);
            tree.write(&format!("crates/{name}/proofs/f/Answers.antt"), name);
        }
        tree.write("host/src/cli/help.txt", "Usage\n");
        tree.write("host/src/cli.rs", "");
        for (name, text) in [("rt", RT), ("cargo", CARGO)] {
            tree.write(&format!("bin/{name}"), text);
            tree.shell(&format!("chmod +x bin/{name}"));
        }
        tree
    }

    // A tree in which everything is built.
    fn built(test: &str) -> Self {
        let tree = Self::new(test);
        assert_eq!(tree.run(&["a"]).0, 0);
        tree.write("asked", "");
        tree
    }

    fn write(&self, file: &str, text: &str) {
        let file = self.root.join(file);
        fs::create_dir_all(file.parent().unwrap()).unwrap();
        fs::write(file, text).unwrap();
    }

    // What `rt` and `cargo` were asked since the last look.
    fn asked(&self) -> Vec<String> {
        let text = fs::read_to_string(self.root.join("asked")).unwrap_or_default();
        self.write("asked", "");
        text.lines().map(str::to_owned).collect()
    }

    fn command(&self, program: &str) -> Command {
        let mut command = Command::new(program);
        let path = format!("{}/bin:/usr/bin:/bin", self.root.display());
        command.current_dir(&self.root).env("PATH", path);
        command.env_remove("YUKHTSAMI_LIBRARY");
        command
    }

    fn run(&self, words: &[&str]) -> Ran {
        let mut command = self.command("./yukhtsami");
        command.args(words);
        ran(command, b"")
    }

    fn shell(&self, line: &str) -> Ran {
        let mut command = self.command("sh");
        command.args(["-c", line]);
        ran(command, b"")
    }

    // Asserts that a run answers, and what it asks for.
    fn asks(&self, asked: &[&str]) {
        let (status, out, err) = self.run(&["a", "b"]);
        assert_eq!((status, &*out), (0, "answered a b\n"), "{err}");
        assert_eq!(self.asked(), asked, "{err}");
    }

    // With the signals as a shell at a terminal leaves them: a test that runs in the background, or under
    // nohup, would hand on that they are ignored.
    fn start(&self) -> Started {
        let mut command = self.command("env");
        command.args(["--default-signal=HUP,INT,QUIT,TERM", "./yukhtsami", "a"]);
        command.stdin(Stdio::null());
        command.stdout(Stdio::piped()).stderr(Stdio::piped());
        let mut child = command.spawn().unwrap();
        let err = BufReader::new(child.stderr.take().unwrap());
        Started { child, err }
    }
}

// A run that has not ended yet.
struct Started {
    child: Child,
    err: BufReader<std::process::ChildStderr>,
}

impl Started {
    // Waits for a line of standard error with this text.
    fn says(&mut self, text: &str) {
        let mut line = String::new();
        while !line.contains(text) {
            line.clear();
            let count = self.err.read_line(&mut line).unwrap();
            assert!(count > 0, "`{text}` was not said");
        }
    }

    fn signal(&self, signal: &str) {
        let mut kill = Command::new("kill");
        kill.args(["-s", signal, &self.child.id().to_string()]);
        assert!(kill.status().unwrap().success());
    }

    // The exit status or the signal, and standard output; standard error is read to its end.
    fn end(mut self) -> (Result<i32, i32>, String) {
        let mut rest = String::new();
        self.err.read_to_string(&mut rest).unwrap();
        let output = self.child.wait_with_output().unwrap();
        let (status, signal) = (output.status.code(), output.status.signal());
        let out = String::from_utf8(output.stdout).unwrap();
        (status.ok_or_else(|| signal.unwrap()), out)
    }
}

const FIRST: [&str; 3] = ["rt all check", "rt lib", "cargo build"];

#[test]
fn the_first_run_builds_and_a_later_one_asks_for_nothing() {
    let tree = Tree::new("first");
    tree.asks(&FIRST);
    tree.asks(&[]);
    // Without rt, cargo and standard error, from anywhere, through a link.
    tree.shell("rm bin/rt bin/cargo; ln -s yukhtsami link; ln -s ../link bin/other");
    let (_, out, _) =
        tree.shell("cd bin && ./other a 2>&- && PATH=$PATH:. other b && sh ../yukhtsami c");
    assert_eq!(out, "answered a\nanswered b\nanswered c\n");
}

#[test]
fn what_is_no_change_of_a_source_starts_no_proof() {
    let tree = Tree::built("unchanged");
    for line in [
        "touch crates.txt crates/below/src/lib.rt",
        "echo swap >crates/below/src/.lib.rt.swp; echo old >crates/below/src/lib.rt~",
        "echo x >crates/middle/proofs/f/#Answers.antt#; ln -s nowhere crates/below/src/.#lib.rt",
        "echo '# a note' >>crates.txt; echo other: >>crates.txt",
        "echo more >>crates/program/src/lib.rt",
        "mkdir crates/below/must-fail; echo edit >crates/below/must-fail/a.edit",
        "mkdir -p crates/below/out/rlib; echo kept >crates/below/out/rlib/lib.rt",
        "touch host/src/cli.rs host/Cargo.toml; mkdir host/tests; echo test >host/tests/a.rs",
    ] {
        tree.shell(line);
        tree.asks(&[]);
    }
}

#[test]
fn a_crate_that_the_library_does_not_need_may_fail() {
    let tree = Tree::built("unneeded");
    tree.shell("touch unneeded; echo more >>crates/below/src/lib.rt");
    tree.asks(&FIRST);
}

#[test]
fn a_change_of_a_source_is_proved_and_built() {
    let tree = Tree::built("changed");
    let line = "cp -p crates/below/src/lib.rt kept; echo more >>crates/below/src/lib.rt";
    tree.shell(line);
    tree.asks(&FIRST);
    // An older file that is put back, and the proof of a function that is taken away.
    tree.shell("mv kept crates/below/src/lib.rt");
    tree.asks(&FIRST);
    tree.shell("rm crates/middle/proofs/f/Answers.antt");
    tree.asks(&FIRST[..2]);
    tree.shell("sed -i 's/^yukhtsami:.*/yukhtsami: below/' crates.txt");
    tree.asks(&FIRST[..2]);
    tree.shell("echo more >>host/src/cli.rs");
    tree.asks(&["cargo build"]);
    tree.shell("rm target/staticlib/libyukhtsami.a");
    tree.asks(&FIRST[..2]);
}

#[test]
fn a_library_that_was_linked_alone_is_taken() {
    let tree = Tree::new("alone");
    tree.shell(
        "host/link; touch -d '1 hour ago' crates.txt; find crates -exec touch -d '1 hour ago' {} +",
    );
    tree.asked();
    tree.asks(&["cargo build"]);
    tree.shell("touch crates.txt");
    tree.asks(&[]);
    tree.shell("echo more >>crates/below/src/lib.rt; touch -d '1 minute ago' crates/below/src/lib.rt; host/link");
    tree.asked();
    tree.asks(&["cargo build"]);
}

#[test]
fn another_library_is_taken_as_it_is() {
    let tree = Tree::built("named");
    tree.shell("echo other >other.a; touch -d '1 hour ago' other.a; rm -r crates target");
    let other = |name: &str| tree.shell(&format!("YUKHTSAMI_LIBRARY={name} ./yukhtsami a"));
    for asked in [&["cargo build"][..], &[]] {
        assert_eq!(other("other.a").1, "answered a\n");
        assert_eq!(tree.asked(), asked);
    }
    let (status, out, err) = other("nosuch.a");
    assert_eq!((status, &*out), (69, ""));
    assert!(err.ends_with("/nosuch.a\n"), "{err}");
}

#[test]
fn a_source_that_is_changed_meanwhile_is_proved_again() {
    let tree = Tree::new("meanwhile");
    tree.write("changing", "");
    tree.asks(&[&FIRST[..2], &FIRST[..]].concat());
    tree.asks(&[]);
}

#[test]
fn a_proof_that_fails_is_told_and_tried_again() {
    let tree = Tree::new("failing");
    tree.write("failing", "");
    let (status, out, err) = tree.run(&["a"]);
    assert_eq!((status, &*out), (69, ""));
    assert!(
        err.contains("\nrt: the library below did not build\n"),
        "{err}"
    );
    assert!(err.ends_with("/target/proof-log)\n"), "{err}");
    tree.asked();
    tree.shell("rm failing");
    tree.asks(&FIRST);
    // Nothing to prove with.
    tree.shell("rm bin/rt; echo more >>crates/below/src/lib.rt");
    let (status, _, err) = tree.shell("PATH=bin:/usr/bin:/bin ./yukhtsami a");
    assert_eq!(status, 69);
    assert!(err.ends_with("there is no rt\n"), "{err}");
}

#[test]
fn the_first_run_tells_how_far_it_is() {
    let tree = Tree::new("progress");
    tree.write("waiting", "");
    let mut run = tree.start();
    run.says("yukhtsami: proving crate 2 of 4, ");
    tree.write("go", "");
    run.says("yukhtsami: the library is proved and built, in ");
    assert_eq!(run.end(), (Ok(0), "answered a\n".to_owned()));
}

#[test]
fn on_a_terminal_one_line_tells_how_far_it_is() {
    let tree = Tree::new("terminal");
    tree.write("waiting", "");
    let mut command = tree.command("script");
    command.args(["-qec", "./yukhtsami a", "/dev/null"]);
    command.stdin(Stdio::null()).stdout(Stdio::piped());
    let Ok(mut child) = command.spawn() else {
        notice::tell("no script(1); nothing was run on a terminal\n".to_owned());
        return;
    };
    let mut seen = BufReader::new(child.stdout.take().unwrap());
    let mut part = Vec::new();
    while !part.starts_with(b"yukhtsami: proving crate 2 of 4, ") {
        part.clear();
        assert!(seen.read_until(b'\r', &mut part).unwrap() > 0);
    }
    tree.write("go", "");
    let mut rest = String::new();
    seen.read_to_string(&mut rest).unwrap();
    let parts: Vec<&str> = rest.split('\r').collect();
    assert!(parts.contains(&" ".repeat(60).as_str()), "{rest:?}");
    assert!(rest.ends_with("answered a\r\n"), "{rest:?}");
    assert!(child.wait().unwrap().success());
}

#[test]
fn the_first_run_needs_no_standard_error() {
    for (name, line) in [
        ("none", "./yukhtsami a 2>&-"),
        ("full", "./yukhtsami a 2>/dev/full"),
    ] {
        let tree = Tree::new(name);
        let (status, out, _) = tree.shell(line);
        assert_eq!((status, &*out), (0, "answered a\n"));
        tree.asks(&FIRST);
    }
}

#[test]
fn a_run_that_waits_for_another_says_so() {
    let tree = Tree::new("waiting");
    tree.write("waiting", "");
    let mut first = tree.start();
    first.says("proving crate 2 of 4");
    let mut second = tree.start();
    second.says("another run is proving or building; waiting for it");
    tree.write("go", "");
    for run in [first, second] {
        assert_eq!(run.end(), (Ok(0), "answered a\n".to_owned()));
    }
    assert_eq!(tree.asked(), FIRST);
}

// Ends a run by a signal while `rt` holds a pipe open; whether nothing of `rt` was left.
fn ends_the_prover(tree: &Tree, pipe: &str, signal: &str, number: i32) {
    assert_eq!(tree.shell(&format!("mkfifo {pipe}")).0, 0);
    let run = tree.start();
    let mut held = fs::File::open(tree.root.join(pipe)).unwrap();
    run.signal(signal);
    let mut left = String::new();
    held.read_to_string(&mut left).unwrap();
    assert_eq!(left, "", "{signal}");
    assert_eq!(run.end(), (Err(number), String::new()), "{signal}");
    fs::remove_file(tree.root.join(pipe)).unwrap();
}

#[test]
fn ending_the_command_ends_the_prover() {
    let tree = Tree::new("ended");
    for (signal, number) in [("HUP", 1), ("INT", 2), ("TERM", 15)] {
        ends_the_prover(&tree, "early", signal, number);
    }
    tree.asked();
    tree.asks(&FIRST);
    // A library that was being written is not taken.
    tree.write("crates/below/src/lib.rt", "another");
    ends_the_prover(&tree, "late", "INT", 2);
    tree.asked();
    tree.asks(&FIRST);
}

// Runs a line of shell where the tree is mounted read-only; none where that is not permitted.
fn read_only(tree: &Tree, line: &str) -> Option<Ran> {
    let mount = "mount --bind . . && mount -o remount,bind,ro . && cd \"$PWD\"";
    let mut command = tree.command("unshare");
    command.args(["-rm", "sh", "-c", mount]);
    if !command.output().is_ok_and(|output| output.status.success()) {
        notice::tell("no unshare(1); nothing was run in a read-only tree\n".to_owned());
        return None;
    }
    let mut command = tree.command("unshare");
    command.args(["-rm", "sh", "-c", &format!("{mount} && {line}")]);
    Some(ran(command, b""))
}

#[test]
fn a_built_command_runs_from_a_read_only_tree() {
    let tree = Tree::built("readonly");
    let line = "! touch crates.txt 2>/dev/null && ./yukhtsami a";
    let answered = (0, "answered a\n".to_owned(), String::new());
    let Some(ran) = read_only(&tree, line) else {
        return;
    };
    assert_eq!(ran, answered);
    // Times that tell nothing, as after a copy.
    tree.shell("touch crates.txt crates/below/src/lib.rt host/src/cli.rs");
    assert_eq!(read_only(&tree, line).unwrap(), answered);
    assert!(tree.asked().is_empty());
    tree.shell("echo more >>crates/below/src/lib.rt");
    let (status, _, err) = read_only(&tree, line).unwrap();
    assert_eq!(status, 69);
    assert!(err.ends_with(" cannot be written\n"), "{err}");
}

#[test]
fn help_and_version_are_told_before_anything_is_built() {
    let tree = Tree::new("help");
    let told = |word| tree.run(&[word]);
    assert_eq!(told("--help"), (0, "Usage\n".to_owned(), String::new()));
    let version = "yukhtsami 1.2.3\nproved library: absent\n";
    assert_eq!(told("-V"), (0, version.to_owned(), String::new()));
    assert!(tree.asked().is_empty());
    tree.asks(&FIRST);
    assert_eq!(told("--help").1, "answered --help\n");
    assert_eq!(tree.shell("./yukhtsami a >&-").0, 74);
}
