// The command `yukhtsami` and its streams: an output that takes nothing, progress on a terminal and none in a pipe.
mod shared;

use std::{
    fs::{self, File},
    io,
    process::{Command, Stdio},
};

use host::notice::{self, library_absent as absent};
use shared::{EQUAL, answered, command, folder, run_in};

// The status and standard error with this standard output.
fn run_to(words: &[&str], out: Stdio) -> (i32, String) {
    let mut command = command();
    command.args(words).stdin(File::open("/dev/null").unwrap());
    let output = command.stdout(out).output().unwrap();
    let err = String::from_utf8(output.stderr).unwrap();
    (output.status.code().unwrap(), err)
}

#[test]
fn standard_output_that_takes_nothing_is_74() {
    let closed = || {
        let (reader, writer) = io::pipe().unwrap();
        drop(reader);
        Stdio::from(writer)
    };
    let full = || Stdio::from(File::create("/dev/full").unwrap());
    let mut tries = vec![
        run_to(&["--help"], closed()),
        run_to(&["--version"], full()),
    ];
    if !absent("no answer was written by it") {
        let folder = folder("closed");
        let file = folder.join("a");
        fs::write(&file, EQUAL).unwrap();
        let file = file.to_str().unwrap();
        tries.push(run_to(&[file], closed()));
        tries.push(run_to(&[file, file], full()));
        // Many answers: the output fails in the midst of the run.
        tries.push(run_to(&vec![file; 9_000], closed()));
    }
    for (status, err) in tries {
        assert_eq!(status, 74, "{err}");
        let lines: Vec<&str> = err.lines().collect();
        assert!(
            lines.len() == 1 && lines[0].starts_with("yukhtsami: standard output: "),
            "{err}"
        );
    }
}

// So many that a run of them takes longer than progress waits.
const MANY: usize = 3_000;

#[test]
fn a_long_run_shows_no_progress_in_a_pipe() {
    if absent("no long run was made") {
        return;
    }
    let words = vec!["a"; MANY];
    let ran = run_in("pipe", &[("a", EQUAL.as_bytes())], &words);
    assert_eq!(ran, answered(&"equal=yes\n\n".repeat(MANY)));
}

// What a terminal gets from a line of shell in a folder with a sheet `a`; none without `script`.
fn on_a_terminal(test: &str, line: &str) -> Option<String> {
    let folder = folder(test);
    fs::write(folder.join("a"), EQUAL).unwrap();
    let line = line.replace("yukhtsami", env!("CARGO_BIN_EXE_yukhtsami"));
    let mut command = Command::new("script");
    command.args(["-qec", &line, "/dev/null"]);
    let command = command.current_dir(&folder).stdin(Stdio::null());
    match command.output() {
        Ok(output) => Some(String::from_utf8(output.stdout).unwrap()),
        Err(_) => {
            notice::tell("no script(1); nothing was run on a terminal\n".to_owned());
            None
        }
    }
}

#[test]
fn a_long_run_shows_progress_on_a_terminal_and_leaves_answers_alone() {
    if absent("no long run was made") {
        return;
    }
    // The second file is a pipe that is filled after half a second.
    let slow = "mkfifo p && { { sleep 0.5; cat a > p; } & yukhtsami a p a > out; }";
    if let Some(seen) = on_a_terminal("progress", slow) {
        assert!(
            seen.contains("\r2 of 3 files") && seen.ends_with(" \r"),
            "{seen:?}"
        );
    }
    let files = "a ".repeat(MANY);
    if let Some(seen) = on_a_terminal("answers", &format!("yukhtsami {files}")) {
        assert!(
            seen == "equal=yes\r\n\r\n".repeat(MANY),
            "{} bytes",
            seen.len()
        );
    }
}
