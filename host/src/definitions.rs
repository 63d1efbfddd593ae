// A module of rows for the definitions: small sheets with the reference's replies, and a theorem
// for every few rows that the definitions give the same.
use std::{collections::BTreeMap, collections::BTreeSet, fmt::Write};

use yukhtsami::{Call, PAGE_BYTES, Refusal};

use crate::{
    deep, examples,
    generate::{self, Case, Size},
    reference::Reply,
    rng::Rng,
    sheet,
    tally::{Tally, class},
};

const LONGEST: usize = 400;

const HEAD: &str = "\
-- Generated sheets with the replies of the Rust, by computation.
use mathlib.Core.List.{List, [], ◌∷◌}
use mathlib.Core.Path.{◌≡◌, refl}
use mathlib.Core.Bool.{true}
use lib.ListN.{replicate}
use Rattle.rules.specs.Text.{bytes}
use Rattle.rules.specs.Call.{refused, passed, call}
use Rattle.rules.specs.PageCall.{page_call}
use Rattle.rules.specs.Table.{Row, right}
";

// An example with exactly the words needed, where it does not say what is lent.
fn example_cases() -> Vec<Case> {
    let case = |example: examples::Example| {
        let needed = sheet::read(&example.sheet)
            .map_or(0, |sheet| sheet::words_needed(&example.sheet, &sheet));
        let room = match example.call {
            Call::Answer => 1_000,
            Call::Page => 3 * PAGE_BYTES,
        };
        Case {
            call: example.call,
            words: example.words.unwrap_or(needed),
            room: example.room.unwrap_or(room),
            sheet: example.sheet,
            reply: example.reply,
        }
    };
    examples::all().into_iter().map(case).collect()
}

/// So many distinct small sheets, with no class of reply much more frequent than others; an example
/// may come again with other words or room.
pub fn cases(count: usize, seed: u64) -> Vec<Case> {
    deep::run(|| {
        let mut rng = Rng::new(seed);
        let mut seen = BTreeSet::new();
        let mut classes: BTreeMap<String, usize> = BTreeMap::new();
        let mut found = Vec::new();
        let examples = example_cases();
        let given = examples.len();
        let mut waiting = examples.into_iter();
        let mut generated = Vec::new();
        for turn in 0..count * 200 {
            if seen.len() == count {
                break;
            }
            let case = waiting.next().unwrap_or_else(|| {
                if generated.is_empty() {
                    generated.extend(generate::cases(&mut rng, Size::Small));
                }
                generated.pop().expect("a case of two")
            });
            let class = class(case.call, &case.sheet, &case.reply);
            let tally = classes.entry(class).or_default();
            let short = case.sheet.len() <= LONGEST;
            let most = count / 32 + 1;
            if short && *tally < most && (seen.insert(case.sheet.clone()) || turn < given) {
                *tally += 1;
                found.push(case);
            }
        }
        found
    })
}

// A text as antt takes it: a literal, or a list of numbers where it has bytes that a literal lacks.
fn text(bytes: &[u8]) -> String {
    if bytes
        .iter()
        .all(|byte| matches!(byte, 10 | 32..=126) && !matches!(byte, b'"' | b'\\'))
    {
        let literal = String::from_utf8_lossy(bytes).replace('\n', "\\n");
        return format!("bytes \"{literal}\"");
    }
    let numbers: Vec<String> = bytes.iter().map(|byte| format!("{byte} ∷ ")).collect();
    format!("({}[])", numbers.concat())
}

fn row(sheet: &str, words: u64, room: usize, reply: &Reply) -> String {
    let reply = match reply {
        Reply::Refused(refusal) => format!("refused {}", refusal.number()),
        Reply::Answer(answer) => format!("passed ({})", text(answer)),
    };
    format!("record {{ sheet = {sheet}; words = {words}; room = {room}; reply = {reply} }}")
}

fn theorem(out: &mut String, name: &str, call: Call, rows: &[String]) {
    let call = match call {
        Call::Answer => "call",
        Call::Page => "page_call",
    };
    let list: String = rows.iter().map(|row| format!("\n    {row} ∷")).collect();
    let written = write!(
        out,
        "\nabbrev {name} : List Row\n{name} ={list} []\n\
         \npub {name}_right : right {call} {name} ≡ true\nunfolding right {call}\n{name}_right = refl\n"
    );
    written.expect("a text takes what is written");
}

/// The module's text, with so many rows to a theorem.
pub fn module(cases: &[Case], chunk: usize) -> String {
    let mut out = HEAD.to_owned();
    for (call, name) in [(Call::Answer, "rows"), (Call::Page, "page_rows")] {
        let rows: Vec<String> = cases
            .iter()
            .filter(|case| case.call == call)
            .map(|case| row(&text(&case.sheet), case.words, case.room, &case.reply))
            .collect();
        for (index, rows) in rows.chunks(chunk).enumerate() {
            theorem(&mut out, &format!("{name}{}", index + 1), call, rows);
        }
    }
    let long = |count: usize, refusal: Refusal| {
        row(
            &format!("replicate {count} 97"),
            0,
            0,
            &Reply::Refused(refusal),
        )
    };
    theorem(
        &mut out,
        "long_rows",
        Call::Answer,
        &[
            long(65_537, Refusal::TooLong),
            long(65_536, Refusal::LineOutOfPlace),
        ],
    );
    out
}

pub fn tally(cases: &[Case]) -> Tally {
    let mut tally = Tally::default();
    for case in cases {
        tally.add(case.call, &case.sheet, &case.reply);
    }
    tally
}
