// The command `yukhtsami` as it is built: answers, refusals with their places, options, exit statuses.
mod shared;

use std::process::Command;

use host::{generate, notice::library_absent as absent, sheet};
use shared::{EQUAL, Ran, answered, command, ran, run_in};

const REDUCE: &str = "kind=reduce\nterm=tamXCfst(tamXCpair(c(1),c(2)))\n";
const UNIFY: &str = "kind=unify\nfuel=1\n";

fn run(words: &[&str], input: &str) -> Ran {
    let mut command = command();
    command.args(words);
    ran(command, input.as_bytes())
}

fn failed(status: i32, message: &str) -> Ran {
    (status, String::new(), format!("yukhtsami: {message}\n"))
}

#[test]
fn one_sheet_is_answered_alone() {
    if absent("the command answered nothing") {
        return;
    }
    assert_eq!(run(&[], EQUAL), answered("equal=yes\n"));
    assert_eq!(run(&["-"], REDUCE), answered("normal=c(1)\n"));
    let file = [("a", UNIFY.as_bytes())];
    let said = "verdict=solved\nspent=0\n";
    assert_eq!(run_in("one", &file, &["a"]), answered(said));
}

#[test]
fn several_answers_are_each_followed_by_an_empty_line() {
    if absent("the command answered nothing") {
        return;
    }
    let files = [("a", EQUAL.as_bytes()), ("--b", REDUCE.as_bytes())];
    let said = "equal=yes\n\nnormal=c(1)\n\nequal=yes\n\n";
    let words = ["a", "--", "--b", "a"];
    assert_eq!(run_in("several", &files, &words), answered(said));
}

// Lines filled with blanks, up to the end of a page.
fn on_paper(lines: &[&str]) -> String {
    let blank = vec![""; 50 - lines.len()];
    let all = lines.iter().chain(&blank);
    all.map(|line| format!("{line:72}\n")).collect()
}

#[test]
fn pages_follow_each_other_as_they_are() {
    if absent("the command answered nothing") {
        return;
    }
    let equal = on_paper(&["PAGE 0001", "equal    yes"]);
    assert_eq!(run(&["--page"], EQUAL), answered(&equal));
    assert_eq!(
        run(&["--page", "--room=3650", "-"], EQUAL),
        answered(&equal)
    );
    let name = "a".repeat(49 * 63 + 1);
    let long = format!("kind=reduce\nterm={name}\n");
    let files = [("a", EQUAL.as_bytes()), ("b", long.as_bytes())];
    let part = format!("         {}", "a".repeat(63));
    let first = format!("normal   {}", "a".repeat(63));
    let mut lines = vec!["PAGE 0001", first.as_str()];
    lines.extend([part.as_str(); 48]);
    let second = on_paper(&lines) + &on_paper(&["PAGE 0002", "         a"]);
    let said = [&equal, &second, &equal].map(String::as_str).concat();
    let words = ["a", "--page", "b", "a"];
    assert_eq!(run_in("pages", &files, &words), answered(&said));
    let bad = [("a", EQUAL.as_bytes()), ("b", b"kind=reduce\nterm=(\n")];
    let (status, out, err) = run_in("pages", &bad, &["b", "a", "--page"]);
    assert_eq!((status, out), (4, equal));
    assert!(err.starts_with("yukhtsami: b: refusal 4, "), "{err}");
}

#[test]
fn pages_that_are_too_many_or_do_not_fit_are_told() {
    if absent("nothing was refused by it") {
        return;
    }
    let over = generate::of_lines(489_952);
    let said = "standard input: refusal 13, too many pages: 10000 pages, where 9999 are the most";
    for words in [&["--page"][..], &["--page", "--room", "0"]] {
        assert_eq!(run(words, &over), failed(13, said));
    }
    let said = "standard input: refusal 12, short output: 3649 bytes lent, 3650 needed";
    let words = ["--page", "--room", "3649"];
    assert_eq!(run(&words, UNIFY), failed(12, said));
}

#[test]
fn the_other_files_are_answered_beside_those_that_are_not() {
    if absent("the command answered nothing") {
        return;
    }
    let files: [(&str, &[u8]); 3] = [
        ("a", EQUAL.as_bytes()),
        ("b", b"kind=reduce\nterm=(\n"),
        ("c", b""),
    ];
    let (status, out, err) = run_in("beside", &files, &["a", "b", "nosuch", "c", "a"]);
    assert_eq!((status, &*out), (4, "equal=yes\n\nequal=yes\n\n"));
    let lines: Vec<&str> = err.lines().collect();
    assert_eq!(lines.len(), 3, "{err}");
    assert!(lines[0].starts_with("yukhtsami: b: refusal 4, "), "{err}");
    assert!(lines[1].starts_with("yukhtsami: nosuch: "), "{err}");
    assert!(lines[2].starts_with("yukhtsami: c: refusal 3, "), "{err}");
    let (status, ..) = run_in("beside", &files, &["nosuch", "b", "a"]);
    assert_eq!(status, 66);
}

#[test]
fn each_refusal_is_told_with_its_number_name_and_place() {
    if absent("nothing was refused by it") {
        return;
    }
    let long = vec![b'a'; 70_000];
    for (sheet, words, status, said) in [
        (
            &long[..],
            &[][..],
            1,
            "too long: 70000 bytes, where 65536 are the most",
        ),
        (
            b"kind=equal\nleft=a\tb\n",
            &[],
            2,
            "foreign byte: line 2, column 7: byte 9 (a tab), at offset 17",
        ),
        (
            b"kind=equal\nfoo=a\n",
            &[],
            3,
            "line out of place: line 2, column 1: expected `left`, found `foo`",
        ),
        (
            b"kind=reduce\nterm=g(a,,b)\n",
            &[],
            4,
            "unreadable term: line 2, column 10: expected a term, found `,`",
        ),
        (
            UNIFY.as_bytes(),
            &["--words", "1048863"],
            11,
            "short work area: 1048863 words lent, 1048864 needed",
        ),
        (
            UNIFY.as_bytes(),
            &["--room", "22"],
            12,
            "short output: 22 bytes lent, 23 needed",
        ),
    ] {
        let words = [words, &["the sheet"]].concat();
        let ran = run_in(&format!("refusal{status}"), &[("the sheet", sheet)], &words);
        let message = format!("the sheet: refusal {status}, {said}");
        assert_eq!(ran, failed(status, &message));
    }
}

#[test]
fn a_sheet_on_standard_input_is_refused_too() {
    if absent("nothing was refused by it") {
        return;
    }
    let long = "a".repeat(200_000);
    let said = "standard input: refusal 1, too long: over 65536 bytes";
    assert_eq!(run(&[], &long), failed(1, said));
    let said = "standard input: refusal 3, line out of place: line 1, column 1: the sheet is empty";
    assert_eq!(run(&[], ""), failed(3, said));
}

#[test]
fn just_enough_words_and_room_serve() {
    if absent("nothing was lent to it") {
        return;
    }
    let said = "verdict=solved\nspent=0\n";
    let words = ["--words=1048864", "--room", "23"];
    assert_eq!(run(&words, UNIFY), answered(said));
    let words = ["--words", "0"];
    let (status, ..) = run(&words, UNIFY);
    assert_eq!(status, 11);
    let (status, ..) = run(&words, "kind=unify\n");
    assert_eq!(status, 3);
    // The room stays what it is after the length of an answer was found.
    let file = [("a", UNIFY.as_bytes())];
    let (status, out, err) = run_in("room", &file, &["--room", "22", "a", "a"]);
    assert_eq!((status, &*out, err.lines().count()), (12, "", 2));
}

// A term that fills its sheet, bound twice: an answer that is longer than a sheet.
fn long_answer() -> (String, String) {
    let name = "a".repeat(30_000);
    let sheet = format!(
        "kind=unify\nfuel=9\nleft=g(x0:Msg,x1:Msg,x2:Msg)\nright=g({name},x0:Msg,x0:Msg)\n"
    );
    let value = |index| format!("key=x{index}:Msg\nvalue={name}\n");
    let said = format!(
        "verdict=solved\nspent=4\n{}{}{}",
        value(0),
        value(1),
        value(2)
    );
    (sheet, said)
}

#[test]
fn the_output_grows_with_the_answer_and_the_work_area_with_the_sheet() {
    if absent("nothing was lent to it") {
        return;
    }
    let (sheet, said) = long_answer();
    assert!(said.len() > sheet::LONGEST);
    assert_eq!(run(&[], &sheet), answered(&said));
    let variables: Vec<String> = (0..40).map(|index| format!("x{index}:Msg")).collect();
    let term = format!("g({})", variables.join(","));
    let sheet = format!("kind=reduce\nterm={term}\n");
    assert!(yukhtsami::words_needed(sheet.as_bytes()) > 3 << 20);
    assert_eq!(run(&[], &sheet), answered(&format!("normal={term}\n")));
}

#[test]
fn deep_terms_are_answered_and_refused() {
    if absent("deep terms were not tried on it") {
        return;
    }
    let term = |end: &str| format!("{}a{end}", "f(".repeat(10_000));
    let (good, bad) = (term(&")".repeat(10_000)), term(&")".repeat(9_999)));
    let sheet = |right: &str| format!("kind=equal\nleft={good}\nright={right}\n");
    assert_eq!(run(&[], &sheet(&good)), answered("equal=yes\n"));
    let said = "standard input: refusal 4, unreadable term: line 3, column 30007: \
                expected `,` or `)`, found the end of the line";
    assert_eq!(run(&[], &sheet(&bad)), failed(4, said));
}

// The command by a shell that limits it first.
fn run_limited(limit: &str, words: &str, input: &str) -> Ran {
    let mut command = Command::new("sh");
    let program = env!("CARGO_BIN_EXE_yukhtsami");
    command.args(["-c", &format!("ulimit {limit} && exec '{program}' {words}")]);
    ran(command, input.as_bytes())
}

#[test]
fn deep_terms_are_answered_where_the_caller_has_a_small_stack() {
    if absent("deep terms were not tried on it") {
        return;
    }
    let under = |leaf: &str| format!("{}{leaf}{}", "h(".repeat(4_094), ")".repeat(4_094));
    let (term, member) = (under("x0:Msg"), under("c(0)"));
    let sheet = format!("kind=sound\nterm={term}\nmember={member}\nkey=x0:Msg\nvalue=c(0)\n");
    assert_eq!(run_limited("-s 256", "", &sheet), answered("sound=yes\n"));
}

#[test]
fn help_and_version_are_told_without_the_library() {
    let (status, out, err) = run(&["a", "--help"], "");
    assert_eq!((status, &*err), (0, ""));
    for part in [
        "Usage: yukhtsami",
        "--page ",
        "--words N",
        "--room N",
        "short output",
        "too many pages",
        "  74  ",
    ] {
        assert!(out.contains(part), "{part}");
    }
    assert!(out.lines().all(|line| line.len() <= 84));
    assert_eq!(run(&["-h"], ""), (0, out, String::new()));
    let (status, out, err) = run(&["--version"], "");
    let version = format!("yukhtsami {}\nproved library: ", env!("CARGO_PKG_VERSION"));
    let library = out.strip_prefix(&version).unwrap();
    assert_eq!((status, &*err), (0, ""));
    assert_eq!(library == "absent\n", !yukhtsami::present());
    assert!(!yukhtsami::present() || library.len() > 64, "{library}");
}

#[test]
fn a_faulty_command_line_is_64() {
    for (words, said) in [
        (&["--wrods", "1"][..], "unknown option '--wrods'"),
        (&["-x"], "unknown option '-x'"),
        (&["--words"], "--words needs a number"),
        (&["--room", "many"], "--room takes a number, not 'many'"),
        (&["--words=-1"], "--words takes a number, not '-1'"),
    ] {
        let said = format!("{said}; see yukhtsami --help");
        assert_eq!(run(words, EQUAL), failed(64, &said));
    }
}

#[test]
fn an_absent_library_is_69() {
    if yukhtsami::present() {
        return;
    }
    assert_eq!(run(&[], EQUAL), failed(69, &yukhtsami::notice()));
}

#[test]
fn files_that_cannot_be_read_are_66_or_74() {
    if absent("no file was read for it") {
        return;
    }
    let (status, out, err) = run_in("files", &[], &["nosuch"]);
    assert_eq!((status, &*out), (66, ""));
    assert!(err.starts_with("yukhtsami: nosuch: "), "{err}");
    assert_eq!(run_in("files", &[], &["."]).0, 66);
    assert_eq!(run_in("files", &[("a", b"")], &["a/b"]).0, 66);
    assert_eq!(run_in("files", &[], &[""]).0, 66);
    // Its first page is never mapped: reading fails.
    assert_eq!(run_in("files", &[], &["/proc/self/mem"]).0, 74);
}

#[test]
fn memory_that_cannot_be_had_is_71() {
    if absent("no memory was asked for") {
        return;
    }
    for count in ["1000000000000000", "18446744073709551615"] {
        let said = format!("standard input: no memory for {count} words of work area");
        assert_eq!(run(&["--words", count], EQUAL), failed(71, &said));
        let said = format!("standard input: no memory for {count} bytes of output");
        assert_eq!(run(&["--room", count], EQUAL), failed(71, &said));
    }
    // Too little for the system to ask about: the allocation itself fails.
    let said = "standard input: no memory for 60000000 words of work area";
    let ran = run_limited("-v 200000", "--words 60000000", EQUAL);
    assert_eq!(ran, failed(71, said));
}
