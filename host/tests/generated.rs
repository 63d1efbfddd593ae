// Generated sheets: the model against the Rust, and what comes up among them.
use host::{
    deep, definitions,
    generate::{self, Size},
    kinds::KINDS,
    model, notice,
    reference::Reply,
    rng::Rng,
    tally::Tally,
};
use yukhtsami::{Call, Refusal};

fn generated(count: usize, seed: u64) -> Tally {
    notice::absent("generated sheets were not compared with the Rust");
    deep::run(|| {
        let mut rng = Rng::new(seed);
        let mut tally = Tally::default();
        for _ in 0..count {
            for case in generate::cases(&mut rng, Size::Any) {
                tally.add(case.call, &case.sheet, &case.reply);
            }
        }
        tally
    })
}

// A disagreement ends the reference's call, and so the test, with the sheet.
#[test]
fn the_model_and_the_rust_agree() {
    generated(3_000, 3);
}

#[test]
fn every_kind_verdict_and_refusal_comes_up() {
    let tally = generated(10_000, 6);
    assert_eq!(tally.missing(), Vec::<String>::new());
    for call in Call::ALL {
        for kind in KINDS {
            let count = |word: &&str| tally.count(call, kind.name, word);
            let counts: Vec<_> = kind.answers.iter().map(count).collect();
            assert!(
                counts.iter().all(|count| *count >= 50),
                "{call:?}, {kind:?}: {counts:?}"
            );
        }
        for kind in ["unify", "match"] {
            let unsupported = tally.count(call, kind, "verdict=unsupported");
            assert!(tally.count(call, kind, "verdict=solved") > unsupported);
            assert!(tally.count(call, kind, "verdict=failed") > unsupported);
        }
    }
    assert_eq!(tally.refused(Call::Answer, Refusal::TooManyPages), 0);
}

#[test]
fn failures_come_after_many_pairs_too() {
    let deep_failures = deep::run(|| {
        let mut rng = Rng::new(5);
        let cases = (0..5_000).map(|_| {
            let [answered, _] = generate::cases(&mut rng, Size::Small);
            answered
        });
        cases.filter(|case| failed_after(&case.reply, 5)).count()
    });
    assert!(deep_failures >= 20, "{deep_failures}");
}

fn failed_after(reply: &Reply, pairs: usize) -> bool {
    let Reply::Answer(answer) = reply else {
        return false;
    };
    let text = String::from_utf8_lossy(answer);
    let spent = text.strip_prefix("verdict=failed\nspent=");
    spent.is_some_and(|spent| {
        spent
            .trim_end()
            .parse::<usize>()
            .is_ok_and(|spent| spent >= pairs)
    })
}

#[test]
fn the_same_seed_gives_the_same_sheets() {
    let sheets = |seed| {
        let mut rng = Rng::new(seed);
        (0..200)
            .map(|_| generate::sheet(&mut rng, Size::Any))
            .collect::<Vec<_>>()
    };
    let (first, again, other) = deep::run(|| (sheets(8), sheets(8), sheets(9)));
    assert!(first == again);
    assert!(first != other);
}

#[test]
fn a_term_written_out_reads_as_the_same_term() {
    deep::run(|| {
        for text in [
            "g(x0:Msg,p(0),tamtplus(t(1),t(2),t(3)))",
            "x1:Msg(a)",
            "7(tamtplus)",
        ] {
            let term = model::read(text).expect("a readable text");
            assert_eq!(model::read(&term.to_string()), Some(term));
        }
    });
}

#[test]
fn the_rows_for_the_definitions_are_distinct_and_of_every_class() {
    let cases = definitions::cases(400, 1);
    let mut missing = definitions::tally(&cases).missing();
    // The row for refusal 1 is made by a function of the definitions; a sheet with too many pages is not
    // small.
    let large = ["refusal  1", "page: refusal  1", "page: refusal 13"];
    missing.retain(|name| !large.contains(&name.as_str()));
    assert_eq!(missing, Vec::<String>::new());
    let text = definitions::module(&cases, 25);
    for part in ["refused 1 ", "\npub rows5_right", "page_rows5_right"] {
        assert!(text.contains(part), "{part}");
    }
}
