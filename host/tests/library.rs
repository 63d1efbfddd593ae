// The linked library against the reference: the stored list, generated sheets, what a difference
// shows, and terms that fill a sheet on a small stack.
use std::{path::Path, process::Command};

use host::{
    bench, deep, kinds,
    lent::{self, Asked},
    linked::Comparison,
    notice,
    reference::Reply,
    sheet, store,
};
use yukhtsami::{Call, Refusal};

fn none_differ(comparison: &Comparison) {
    let smallest = comparison.smallest.as_ref().map(ToString::to_string);
    assert_eq!(
        comparison.differences,
        0,
        "{}",
        smallest.unwrap_or_default()
    );
}

#[test]
fn the_library_replies_to_the_stored_list() {
    if notice::library_absent("the stored list was not tried on it") {
        return;
    }
    let records = store::stored().unwrap();
    let mut comparison = Comparison::default();
    comparison.add_stored(&records);
    assert_eq!(comparison.calls, records.len());
    none_differ(&comparison);
}

#[test]
fn the_library_replies_to_generated_sheets() {
    if notice::library_absent("generated sheets were not tried on it") {
        return;
    }
    notice::absent("the library was compared with the model alone");
    let comparison = deep::run(|| {
        let mut comparison = Comparison::default();
        comparison.add_generated(4_000, 21, &kinds::all());
        comparison
    });
    assert_eq!(comparison.calls, 2 * 4_000);
    none_differ(&comparison);
}

const SHEET: &[u8] = b"kind=equal\nleft=tamtplus(a,b)\nright=tamtplus(b,a)\n";

#[test]
fn the_library_answers_with_just_the_words_and_bytes_needed() {
    if notice::library_absent("nothing was lent to it") {
        return;
    }
    let needed = 65_536 * 16 + 16 * SHEET.len();
    let (mut work, mut output) = (vec![7; needed], [0; 10]);
    let less = yukhtsami::answer(SHEET, &mut work[..needed - 1], &mut output);
    assert_eq!((less, work[0]), (Err(Refusal::ShortWorkArea), 7));
    let short = yukhtsami::answer(SHEET, &mut work, &mut output[..9]);
    assert_eq!(
        (short, work[needed - 1], output),
        (Err(Refusal::ShortOutput), 0, [0; 10])
    );
    assert_eq!(yukhtsami::answer(SHEET, &mut work, &mut output), Ok(10));
    assert_eq!(&output, b"equal=yes\n");
}

#[test]
fn the_library_lays_out_with_just_the_words_and_bytes_needed() {
    if notice::library_absent("nothing was lent to it") {
        return;
    }
    let needed = 65_536 * 16 + 16 * SHEET.len();
    let (mut work, mut output) = (vec![7; needed], [0; yukhtsami::PAGE_BYTES + 1]);
    let less = yukhtsami::page(SHEET, &mut work[..needed - 1], &mut output);
    assert_eq!((less, work[0]), (Err(Refusal::ShortWorkArea), 7));
    let short = yukhtsami::page(SHEET, &mut work, &mut output[..yukhtsami::PAGE_BYTES - 1]);
    assert_eq!((short, work[needed - 1]), (Err(Refusal::ShortOutput), 0));
    assert!(output.iter().all(|byte| *byte == 0));
    let written = yukhtsami::page(SHEET, &mut work, &mut output);
    assert_eq!(written, Ok(yukhtsami::PAGE_BYTES));
    assert!(output.starts_with(b"PAGE 0001   ") && output.ends_with(b"  \n\0"));
}

// The crate by itself, as a user of it builds it.
#[test]
fn a_missing_library_is_a_build_error_that_says_what_to_run() {
    let folder = Path::new(env!("CARGO_TARGET_TMPDIR")).join("missing-library");
    let mut cargo = Command::new(env!("CARGO"));
    cargo.args([
        "check",
        "--offline",
        "--package",
        "yukhtsami",
        "--manifest-path",
    ]);
    cargo.arg(concat!(env!("CARGO_MANIFEST_DIR"), "/library/Cargo.toml"));
    cargo.arg("--target-dir").arg(folder);
    let output = cargo
        .env("YUKHTSAMI_LIBRARY", "no/such.a")
        .output()
        .unwrap();
    let said = String::from_utf8(output.stderr).unwrap();
    assert!(!output.status.success(), "{said}");
    for part in ["no/such.a", "`host/link`", "YUKHTSAMI_LIBRARY"] {
        assert!(said.contains(part), "{said}");
    }
}

#[test]
fn a_difference_is_found_and_the_smallest_sheet_kept() {
    if notice::library_absent("no difference was made") {
        return;
    }
    let mut comparison = Comparison::default();
    let words = u64::from(u32::MAX);
    let wrong = || Reply::Answer(b"equal=no\n".to_vec());
    let longer = [SHEET, b" "].concat();
    let asked = |call, sheet| Asked::new(call, sheet, words, 99);
    let (answer, page) = (asked(Call::Answer, SHEET), asked(Call::Page, SHEET));
    let longer = asked(Call::Answer, &longer);
    comparison.add("lines", longer, Reply::Refused(Refusal::ForeignByte));
    comparison.add("wrong", answer, wrong());
    let right = Reply::Answer(b"equal=yes\n".to_vec());
    comparison.add("right", answer, right.clone());
    comparison.add("an answer for pages", page, right);
    comparison.add("short", page, Reply::Refused(Refusal::ShortOutput));
    assert_eq!((comparison.calls, comparison.differences), (5, 3));
    let smallest = comparison.smallest.unwrap();
    assert_eq!(smallest.name, "wrong");
    assert_eq!(smallest.found.len(), 2, "{smallest}");
}

#[test]
fn the_library_replies_to_sheets_that_take_the_rust_long() {
    if notice::library_absent("long sheets were not tried on it") {
        return;
    }
    for (sample, answer) in bench::slow() {
        assert_eq!(on_a_small_stack(sample.name, &sample.sheet), answer);
    }
}

#[test]
fn deep_terms_do_not_exhaust_a_small_stack() {
    if notice::library_absent("deep terms were not tried on it") {
        return;
    }
    let chain = format!("{}a{}", "f(".repeat(10_800), ")".repeat(10_800));
    let sums = format!("{}a{}", "f(tamtplus(b,".repeat(2_100), "))".repeat(2_100));
    for term in [chain, sums] {
        let sheet = format!("kind=equal\nleft={term}\nright={term}\n");
        let (mut work, mut output) = (vec![1; 65_536 * 16 + 16 * sheet.len()], [0; 10]);
        let called = lent::call(
            "deep terms",
            Call::Answer,
            sheet.as_bytes(),
            &mut work,
            &mut output,
        );
        assert_eq!((called.refusal, &output), (0, b"equal=yes\n"));
    }
}

// A leaf under so many levels.
fn nested(front: &str, leaf: &str, depth: usize) -> String {
    format!("{}{leaf}{}", front.repeat(depth), ")".repeat(depth))
}

// The answer with a sheet's own words, on a small stack.
fn on_a_small_stack(name: &str, sheet: &str) -> String {
    let read = sheet::read(sheet.as_bytes()).unwrap();
    let words = sheet::words_needed(sheet.as_bytes(), &read) as usize;
    let (mut work, mut output) = (vec![1; words], vec![0; 2 * sheet::LONGEST]);
    let called = lent::call(name, Call::Answer, sheet.as_bytes(), &mut work, &mut output);
    assert_eq!(called.refusal, 0, "{name}");
    String::from_utf8(output[..called.written].to_vec()).unwrap()
}

#[test]
fn deep_pairs_do_not_exhaust_a_small_stack() {
    if notice::library_absent("deep pairs were not tried on it") {
        return;
    }
    let under = |leaf| nested("h(", leaf, 4_090);
    let (open, shut) = (under("x1:Msg"), under("c(0)"));
    let first = "left=x1:Msg\nright=c(0)\n";
    let second = format!("left=x2:Msg\nright={open}\n");
    let value = format!("key=x2:Msg\nvalue={shut}\n");
    let key = "key=x1:Msg\nvalue=c(0)\n";
    let put_in = on_a_small_stack(
        "a binding put in",
        &format!("kind=unify\nfuel=9\n{first}{second}"),
    );
    assert_eq!(put_in, format!("verdict=solved\nspent=2\n{key}{value}"));
    let composed = on_a_small_stack(
        "a value composed",
        &format!("kind=unify\nfuel=9\n{second}{first}"),
    );
    assert_eq!(composed, format!("verdict=solved\nspent=2\n{value}{key}"));
    for kind in ["unify", "match"] {
        let sheet = format!("kind={kind}\nfuel=65536\nleft={open}\nright={shut}\n");
        let walked = on_a_small_stack("a walk", &sheet);
        assert_eq!(walked, format!("verdict=solved\nspent=4091\n{key}"));
    }
}

#[test]
fn deep_members_do_not_exhaust_a_small_stack() {
    if notice::library_absent("deep members were not tried on it") {
        return;
    }
    for name in ["h", "tamXCfst", "tamXCflip"] {
        let depth = 4_094.min((sheet::LONGEST - 100) / (2 * (name.len() + 2)));
        let under = |leaf| nested(&format!("{name}("), leaf, depth);
        let sheet = format!(
            "kind=sound\nterm={}\nmember={}\nkey=x0:Msg\nvalue=c(0)\n",
            under("x0:Msg"),
            under("c(0)"),
        );
        assert_eq!(on_a_small_stack(name, &sheet), "sound=yes\n");
    }
}

// With 4,000 levels the waiting pairs of the scheme that fires are over their limit, with 1,000 they are not.
#[test]
fn deep_schemes_do_not_exhaust_a_small_stack() {
    if notice::library_absent("deep schemes were not tried on it") {
        return;
    }
    let complete = |term: &str, members: &str| {
        let sheet = format!("kind=complete\nterm={term}\n{members}");
        on_a_small_stack("schemes", &sheet)
    };
    let plain = nested("h(", "x0:Msg", 4_090);
    let itself = complete(&plain, &format!("member={plain}\n"));
    assert_eq!(itself, "complete=yes\n");
    for (depth, both, one) in [(1_000, "yes", "no"), (4_000, "none", "none")] {
        let under = |leaf| nested("h(", leaf, depth);
        let (stays, first) = (under("tamXCfst(x0:Msg)"), under("x1:Msg"));
        let alone = format!("member={stays}\n");
        let family = format!("{alone}member={first}\nkey=x0:Msg\nvalue=tamXCpair(x1:Msg,x2:Msg)\n");
        for (members, said) in [(family, both), (alone, one)] {
            let answer = complete(&stays, &members);
            assert_eq!(answer, format!("complete={said}\n"), "{depth}");
        }
    }
}
