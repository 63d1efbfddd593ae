// The must-fail edits: each names what it does wrong and the function that is refused for it, and beside
// them stands, for the crate's text as it is, which goal of that function's own proof failed.
use std::{collections::BTreeSet, fs};

use host::{
    documents,
    edits::{self, Edit},
};

fn all() -> Vec<Edit> {
    let names = documents::crates();
    names.iter().flat_map(|name| edits::of(name)).collect()
}

#[test]
fn each_change_of_an_edit_is_one_wrong_program_of_another_function() {
    for edit in all() {
        let place = format!("{}/{}", edit.crate_name, edit.label);
        assert_eq!(edit.changes, edit.wrongs.len(), "{place}");
        let functions: BTreeSet<&str> = edit.wrongs.iter().map(|w| w.refused.as_str()).collect();
        assert_eq!(functions.len(), edit.wrongs.len(), "{place}");
        assert!(!functions.contains(""), "{place}");
    }
}

#[test]
fn the_wrong_programs_of_a_crate_have_names_of_their_own() {
    let mut names = BTreeSet::new();
    for edit in all() {
        for wrong in edit.wrongs {
            let name = format!("{}/{}", edit.crate_name, wrong.name);
            assert!(names.insert(name.clone()), "{name} stands twice");
        }
    }
    assert!(names.len() > 60, "{} wrong programs", names.len());
}

#[test]
fn each_wrong_program_is_refused_by_its_own_proof() {
    let mut stale = Vec::new();
    for name in documents::crates() {
        let file = edits::refused_file(&name);
        if edits::of(&name).is_empty() {
            assert!(!file.exists(), "{name} has no edits");
            continue;
        }
        let text = fs::read_to_string(&file).unwrap_or_default();
        if let Some(why) = edits::misfit(&name, &text) {
            stale.push(format!("{name}: {why}"));
        }
    }
    assert!(stale.is_empty(), "run host/try-edits for these: {stale:#?}");
}

#[test]
fn a_record_of_another_text_or_with_other_rows_does_not_fit() {
    let name = "text";
    let log = |edit: &Edit| {
        let lines = edit.wrongs.iter().map(|wrong| {
            let path = wrong.refused.replace("::", "/");
            format!("./proofs/{path}/Answers.antt:1:1: error: `returns`: no\n")
        });
        lines.collect::<String>()
    };
    let text = edits::refused(name, log).unwrap();
    assert_eq!(edits::misfit(name, &text), None);
    let rows: Vec<&str> = text.lines().collect();
    let all_but_last = rows[..rows.len() - 1].join("\n") + "\n";
    let swapped = text.replacen("| first |", "| second |", 1);
    let no_goal = text.replacen("`returns`", "``", 1);
    let (before, after) = text.split_once("sum is ").unwrap();
    let other_sum = format!("{before}sum is {:016x}{}", 7, &after[16..]);
    for text in ["", &all_but_last, &swapped, &no_goal, &other_sum] {
        assert!(edits::misfit(name, text).is_some(), "{text}");
    }
    assert!(edits::refused(name, |_| String::new()).is_err());
}

#[test]
fn a_caller_of_a_wrong_function_is_not_refused_by_itself() {
    let log = "./proofs/m/+f_g/Answers.antt:41:15: error: `f-returns-2`: no\n\
        ./proofs/m/+f_g/Answers.antt:47:15: error: `e-returns`: no\n\
        ./proofs/m/+own/Invariants.antt:4:1: error: `shape_of-work`: no\n\
        ./proofs/m/i/Answers.antt:9:3: note: no\n\
        fn c::m::f: not proved\n\
        fn c::m::g: not proved\n\
        fn c::m::own: not proved; it calls `c::m::f`, which is not proved\n\
        fn c::h: no proof: it calls `c::m::f`, which is not proved\n\
        note: src/lib.rt:30:1: it is not proved that what the function ensures holds (`returns`)\n\
        note: to see how far a `search` got, write `search rules`\n\
        fn c::k: no proof: expected answers in ./proofs/k/Answers.antt; `search` did not prove `returns`\n\
        fn c::l: no proof: it calls `c::k`, which is not proved\n\
        note: src/lib.rt:50:1: it is not proved that an index is in range (`index-x`)\n\
        fn c::n: not proved; it calls `c::k`, which is not proved\n";
    for function in ["m::f", "m::own", "k", "n"] {
        assert!(edits::own_goal(log, "c", function).is_some(), "{function}");
    }
    for function in ["l", "f", "m::e", "m::g", "m::h", "m::i", "i", "own"] {
        assert!(edits::own_goal(log, "c", function).is_none(), "{function}");
    }
}

#[test]
fn a_proof_that_no_longer_fits_the_code_shows_no_refusal() {
    let misfits = [
        "`returns-then-x-eq1`: `goal.returns-then-x-eq1`: module `c.proofs.f.Goals` has no `returns-then-x-eq1` that can be named from here",
        "`returns`: `c.if-x.true`: a record `c.Known` has no field `if-x`",
        "`returns`: `lost` is not in scope",
        "1 declaration that depends on `lost`, which was not admitted, was not checked: returns",
    ];
    let note = "note: src/lib.rt:3:1: it is not proved that what the function ensures holds (`returns`)\n\
        fn c::f: not proved\n";
    let at = "./proofs/f/Answers.antt:5:2: error: ";
    for misfit in misfits {
        let log = format!("{at}{misfit}\n{note}");
        assert!(edits::own_goal(&log, "c", "f").is_none(), "{misfit}");
        let log = format!("{at}{misfit}\n{at}`index-x`: no\n{note}");
        assert!(edits::own_goal(&log, "c", "f").is_some(), "{misfit}");
    }
}
