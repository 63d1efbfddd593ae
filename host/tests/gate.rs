// The test command `.ci/run` with stubs in place of rt, cargo and the scripts that it calls: how it ends
// where a part fails, and that it leaves nothing running.
use std::{
    env, fs,
    os::unix::fs::PermissionsExt,
    path::{Path, PathBuf},
    process::{Command, Stdio},
    thread,
    time::{Duration, Instant},
};

// What each stub runs where a test says nothing else. A stub of rt or cargo is named by its first word, one of
// a script by the script's last.
const STUBS: [(&str, &str); 6] = [
    ("rt-ci", CI),
    ("link", "true"),
    ("cargo-fmt", "true"),
    ("cargo-clippy", "true"),
    ("cargo-test", "echo 'test result: ok'"),
    (
        "wrong-definitions",
        "echo '2 wrong definitions, each refused'",
    ),
];

const CI: &str = "echo 'rt: one proved'; echo 'rt: ok; handles allowed: none; must-fail edits: 2 refused; all'; \
    echo '3 passed, 0 failed'";
const BAD: &str = "echo 'rt: ok; handles allowed: none; must-fail edits: 1 refused, 1 bad; all'; \
    echo '3 passed, 0 failed'";

fn program(file: &Path, text: &str) {
    fs::create_dir_all(file.parent().unwrap()).unwrap();
    fs::write(file, text).unwrap();
    fs::set_permissions(file, fs::Permissions::from_mode(0o755)).unwrap();
}

// A folder with the command and the stubs, some of them changed. Each call of a stub is a line of `calls`.
fn folder(name: &str, changed: &[(&str, &str)]) -> PathBuf {
    let folder = Path::new(env!("CARGO_TARGET_TMPDIR")).join(format!("gate-{name}"));
    let _ = fs::remove_dir_all(&folder);
    let run = Path::new(env!("CARGO_MANIFEST_DIR")).join("../.ci/run");
    program(&folder.join(".ci/run"), &fs::read_to_string(run).unwrap());
    for (stub, text) in STUBS.iter().chain(changed) {
        program(&folder.join("stubs").join(stub), text);
    }
    for tool in ["rt", "cargo"] {
        let text = format!("#!/bin/sh\necho \"{tool} $*\" >>calls\n. ./stubs/{tool}-$1\n");
        program(&folder.join("bin").join(tool), &text);
    }
    for (script, stub) in [
        ("host/link", "link"),
        ("wrong-definitions/run", "wrong-definitions"),
    ] {
        let text = format!("#!/bin/sh\necho {stub} >>calls\n. ./stubs/{stub}\n");
        program(&folder.join(script), &text);
    }
    folder
}

fn command(folder: &Path) -> Command {
    let path = env::var("PATH").unwrap();
    let mut command = Command::new(folder.join(".ci/run"));
    command.env("PATH", format!("{}/bin:{path}", folder.display()));
    command.stdin(Stdio::null());
    command
}

// The status and the lines of a run, and the calls that it made.
fn gate(name: &str, changed: &[(&str, &str)]) -> (Option<i32>, Vec<String>, Vec<String>) {
    let folder = folder(name, changed);
    let output = command(&folder).output().unwrap();
    let lines = |text: &str| text.lines().map(str::to_owned).collect::<Vec<String>>();
    let said = String::from_utf8(output.stdout).unwrap();
    let calls = fs::read_to_string(folder.join("calls")).unwrap();
    // made where there is clang
    let calls = lines(&calls)
        .into_iter()
        .filter(|call: &String| !call.contains("host/fuzz/Cargo.toml --target"));
    (output.status.code(), lines(&said), calls.collect())
}

#[test]
fn a_run_in_which_everything_passes_ends_with_the_line_of_rt_ci() {
    let (status, lines, calls) = gate("good", &[]);
    assert_eq!(status, Some(0), "{lines:?}");
    assert_eq!(lines.last().unwrap(), "3 passed, 0 failed");
    let twice = lines.iter().filter(|line| *line == "3 passed, 0 failed");
    assert_eq!(twice.count(), 2, "{lines:?}");
    let parts = ["proving", "edits", "library", "wrong definitions", "host"];
    for part in parts {
        let told = |line: &String| line.starts_with(&format!(".ci/run: {part}: "));
        assert!(lines.iter().any(told), "{part}: {lines:?}");
    }
    let at = |name: &str| calls.iter().position(|call| call.starts_with(name));
    assert_eq!((at("rt ci"), at("link")), (Some(1), Some(2)), "{calls:?}");
    assert!(
        calls.contains(&"rt ci".to_owned()),
        "with no names: {calls:?}"
    );
    let again = calls.iter().filter(|call| call.starts_with("rt "));
    assert_eq!(again.count(), 1, "{calls:?}");
    assert_eq!((calls.len(), at("cargo test")), (6, Some(5)), "{calls:?}");
}

fn good_then(more: &str) -> String {
    format!("{CI}; {more}")
}

#[test]
fn a_run_in_which_a_part_fails_ends_with_its_name() {
    let cases = [
        ("cargo-fmt", "false", "cargo fmt --check"),
        ("rt-ci", "echo '3 passed, 1 failed'; exit 1", "rt ci"),
        ("rt-ci", &good_then("echo '3 passed, 1 failed'"), "rt ci"),
        ("rt-ci", &good_then("echo '0 passed, 0 failed'"), "rt ci"),
        ("rt-ci", &good_then("exit 1"), "rt ci"),
        ("rt-ci", &good_then("echo more"), "rt ci"),
        ("rt-ci", "echo '3 passed, 0 failed'", "rt ci"),
        ("rt-ci", BAD, "rt ci"),
        ("rt-ci", "true", "rt ci"),
        ("link", "exit 2", "library"),
        ("cargo-clippy", "exit 101", "clippy"),
        ("cargo-test", "exit 101", "the host's tests"),
        (
            "wrong-definitions",
            "echo FAILED; exit 1",
            "wrong definitions",
        ),
    ];
    for (number, (stub, text, part)) in cases.into_iter().enumerate() {
        let (status, lines, calls) = gate(&format!("bad-{number}"), &[(stub, text)]);
        assert_eq!(status, Some(1), "{stub}: {text}: {lines:?}");
        assert_eq!(*lines.last().unwrap(), format!("FAILED: {part}"));
        let cheap = part.contains("fmt");
        assert_eq!(calls.contains(&"rt ci".to_owned()), !cheap, "{calls:?}");
    }
}

#[test]
fn parts_that_fail_beside_each_other_are_all_named() {
    let changed = [
        ("cargo-clippy", "exit 101"),
        ("cargo-test", "exit 101"),
        ("wrong-definitions", "sleep 1; exit 1"),
    ];
    let (status, lines, _) = gate("several", &changed);
    let last = "FAILED: clippy, the host's tests, wrong definitions";
    assert_eq!((status, lines.last().unwrap().as_str()), (Some(1), last));
}

#[test]
fn where_the_rust_is_absent_the_line_before_the_last_says_so() {
    let said = "printf '..oracle sources absent: no x; nothing was compared\\n'";
    let (status, lines, _) = gate("absent", &[("cargo-test", said)]);
    assert_eq!(status, Some(0), "{lines:?}");
    let end = ["oracle sources absent: no x", "3 passed, 0 failed"];
    assert_eq!(lines[lines.len() - 2..], end);
}

// Whether a process still runs; one that ended and was not yet waited for does not.
fn runs(process: &str) -> bool {
    let words = fs::read(format!("/proc/{}/cmdline", process));
    words.is_ok_and(|words| !words.is_empty())
}

fn within_ten_seconds(holds: impl Fn() -> bool) -> bool {
    let began = Instant::now();
    while !holds() {
        if began.elapsed() > Duration::from_secs(10) {
            return false;
        }
        thread::sleep(Duration::from_millis(20));
    }
    true
}

#[test]
fn a_run_that_is_ended_leaves_nothing_running() {
    let stay = "sleep 300 & echo $$ $! >>waiting; wait";
    for (name, stubs, count) in [
        ("proof", &["rt-ci"][..], 1),
        ("edits", &["cargo-clippy", "wrong-definitions"], 2),
        ("beside", &["cargo-test", "wrong-definitions"], 2),
    ] {
        let changed: Vec<_> = stubs.iter().map(|stub| (*stub, stay)).collect();
        let folder = folder(&format!("ended-{name}"), &changed);
        let waiting = || fs::read_to_string(folder.join("waiting")).unwrap_or_default();
        let child = command(&folder).stdout(Stdio::piped()).spawn().unwrap();
        let all = within_ten_seconds(|| waiting().lines().count() == count);
        let kill = Command::new("kill").arg(child.id().to_string()).status();
        assert!(all && kill.unwrap().success(), "{name}");
        let output = child.wait_with_output().unwrap();
        let said = String::from_utf8(output.stdout).unwrap();
        assert_eq!(output.status.code(), Some(1), "{said}");
        assert_eq!(said.lines().last(), Some("FAILED: the run was ended"));
        for process in waiting().split_whitespace() {
            assert!(within_ten_seconds(|| !runs(process)), "{name}: {process}");
        }
    }
}
