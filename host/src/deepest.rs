// Both calls on the deepest sheets of each kind, as records of a list whose replies are the library's own:
// for measuring the stack of a call (`host/stack`).
use yukhtsami::Call;

use crate::{
    bench,
    generate::Case,
    kinds::{Form, KINDS, Kind},
    lent,
    reference::Reply,
    sheet::{self, LONGEST},
    store::Record,
};

/// What stands around each level of a term, the nodes of a level, and the leaf.
const LEVELS: [(&str, &str, &str, usize, &str); 16] = [
    ("chain", "h(", ")", 1, "c(0)"),
    ("first-child", "g(", ",a)", 2, "c(0)"),
    ("last-child", "g(a,", ")", 2, "c(0)"),
    ("middle-child", "g(a,", ",a)", 3, "c(0)"),
    ("third-child", "g(a,a,", ")", 3, "c(0)"),
    ("first-of-pair", "tamXCpair(", ",c(0))", 2, "c(0)"),
    ("last-of-pair", "tamXCpair(c(0),", ")", 2, "c(0)"),
    ("left-sums", "tamtplus(", ",t(0))", 2, "t(1)"),
    ("right-sums", "tamtplus(t(0),", ")", 2, "t(1)"),
    ("sums-under", "h(tamtplus(", ",t(0)))", 3, "t(1)"),
    ("sums-under-last", "g(a,tamtplus(t(0),", "))", 4, "t(1)"),
    ("projected", "tamXCfst(", ")", 1, "c(0)"),
    ("flipped", "tamXCflip(", ")", 1, "tamXCroleA"),
    ("decrypted-first", "tamXCsdec(", ",c(1))", 2, "c(0)"),
    ("decrypted-last", "tamXCsdec(c(1),", ")", 2, "c(0)"),
    (
        "decrypted",
        "tamXCsdec(tamXCsenc(",
        ",c(1)),c(1))",
        4,
        "c(0)",
    ),
];
const MOST_NODES: usize = 4_096;

// As many levels as so many bytes and nodes have room for, over a leaf.
fn nested(level: (&str, &str, usize), leaf: &str, bytes: usize, nodes: usize) -> String {
    let (front, back, of_level) = level;
    let most = (bytes - leaf.len()) / (front.len() + back.len());
    let depth = most.min((nodes - 1) / of_level);
    format!("{}{leaf}{}", front.repeat(depth), back.repeat(depth))
}

fn sheet_of(kind: &Kind, level: (&str, &str, usize), leaf: &str) -> String {
    let bytes = LONGEST / 2 - 100;
    let sort = if leaf.starts_with('t') {
        "TamNat"
    } else {
        "Msg"
    };
    let variable = format!("x0:{sort}");
    let nodes = if kind.loose { usize::MAX } else { MOST_NODES };
    let term = |leaf: &str| nested(level, leaf, bytes, nodes);
    let (shut, open) = (term(leaf), term(&variable));
    let lines = match kind.form {
        Form::Sides => format!("left={shut}\nright={shut}\n"),
        Form::Term => format!("term={shut}\n"),
        Form::FuelPairs => format!("fuel=65536\nleft={open}\nright={shut}\n"),
        Form::PairsMembers => {
            format!("left=x1:{sort}\nright={shut}\nmember=\nkey=x1:{sort}\nvalue={open}\n")
        }
        Form::TermMember => {
            format!("term={open}\nmember={shut}\nkey={variable}\nvalue={leaf}\n")
        }
        Form::TermMembers => format!("term={open}\nmember={open}\n"),
    };
    format!("kind={}\n{lines}", kind.name)
}

// A variable bound to the term, and the leaf's variable bound later.
fn bound(level: (&str, &str, usize), leaf: &str) -> String {
    let sort = if leaf.starts_with('t') {
        "TamNat"
    } else {
        "Msg"
    };
    let open = nested(level, &format!("x0:{sort}"), LONGEST / 2, MOST_NODES);
    format!("kind=unify\nfuel=9\nleft=x1:{sort}\nright={open}\nleft=x0:{sort}\nright={leaf}\n")
}

fn record(label: String, call: Call, text: String) -> Record {
    let sheet = text.into_bytes();
    let read = sheet::read(&sheet).expect("a deep sheet is a sheet");
    let words = sheet::words_needed(&sheet, &read);
    let room = 64 * LONGEST;
    let (mut work, mut output) = (vec![0; words as usize], vec![0; room]);
    let called = lent::call(&label, call, &sheet, &mut work, &mut output);
    let reply = Reply::given(called, &output);
    let case = Case {
        call,
        sheet,
        words,
        room,
        reply,
    };
    Record { label, case }
}

/// Every kind with each form of level, and the sheets that are timed, with their labels.
pub fn sheets() -> Vec<(String, String)> {
    let mut sheets = Vec::new();
    for (name, front, back, nodes, leaf) in LEVELS {
        let level = (front, back, nodes);
        for kind in KINDS {
            let label = format!("{}-{name}", kind.name);
            sheets.push((label, sheet_of(kind, level, leaf)));
        }
        sheets.push((format!("bound-{name}"), bound(level, leaf)));
    }
    let slow = bench::slow().into_iter().map(|(sample, _)| sample);
    let timed = KINDS.iter().flat_map(|kind| (kind.samples)()).chain(slow);
    for (index, sample) in timed.enumerate() {
        let name = sample.name.replace(' ', "-").replace(',', "");
        sheets.push((format!("timed-{index}-{name}"), sample.sheet));
    }
    sheets
}

/// These sheets with the library's replies.
pub fn records() -> Vec<Record> {
    let mut records = Vec::new();
    for (label, sheet) in sheets() {
        records.push(record(format!("{label}-page"), Call::Page, sheet.clone()));
        records.push(record(label, Call::Answer, sheet));
    }
    records
}
