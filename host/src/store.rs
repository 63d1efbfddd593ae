// The stored list: calls on sheets with what is lent and the reply, in one plain text file.
use std::{
    collections::{BTreeMap, BTreeSet},
    fs,
    path::PathBuf,
};

use yukhtsami::{Call, Refusal};

use crate::{
    deep, examples,
    generate::{self, Case, Size},
    reference::{self, Reply},
    rng::Rng,
    sheet,
    tally::class,
};

pub const SEED: u64 = 2026;
/// What a program that has only a stack can lend.
pub const MODEST_WORDS: u64 = 1_441_792;
const MODEST_ROOM: usize = 4_096;

#[derive(Clone, Debug, PartialEq, Eq)]
pub struct Record {
    pub label: String,
    pub case: Case,
}

impl Record {
    /// Whether its reply is the reference's.
    fn right(&self) -> bool {
        let case = &self.case;
        reference::call(case.call, &case.sheet, case.words, case.room) == case.reply
    }
}

// The word that a record of a call begins with; `crates/replay` takes each to have five letters.
fn word(call: Call) -> &'static str {
    match call {
        Call::Answer => "sheet",
        Call::Page => "pages",
    }
}

pub fn path() -> PathBuf {
    PathBuf::from(env!("CARGO_MANIFEST_DIR")).join("data/sheets.txt")
}

/// The copy of the list that the program `crates/replay` reads.
pub fn replay_path() -> PathBuf {
    PathBuf::from(env!("CARGO_MANIFEST_DIR")).join("../crates/replay/stdin")
}

fn examples() -> Vec<Record> {
    let record = |example: examples::Example| {
        let needed = sheet::read(&example.sheet)
            .map_or(0, |sheet| sheet::words_needed(&example.sheet, &sheet));
        let words = example.words.unwrap_or(needed.max(MODEST_WORDS));
        let length = match &example.reply {
            Reply::Refused(_) => 0,
            Reply::Answer(answer) => answer.len(),
        };
        let room = example.room.unwrap_or(length.max(MODEST_ROOM));
        let record = Record {
            label: example.label.to_owned(),
            case: Case {
                call: example.call,
                sheet: example.sheet,
                words,
                room,
                reply: example.reply,
            },
        };
        assert!(record.right(), "example {}", record.label);
        record
    };
    examples::all().into_iter().map(record).collect()
}

// How many generated sheets of a class of reply are stored: few with a page, which has 3,650 bytes.
fn of_a_class(case: &Case) -> usize {
    match (case.call, &case.reply) {
        (Call::Page, Reply::Answer(_)) => 1,
        (Call::Page, Reply::Refused(_)) => 3,
        (Call::Answer, _) => 9,
    }
}

// Small generated sheets, equally many of each class of reply.
fn generated(seen: &mut BTreeSet<Vec<u8>>) -> Vec<Record> {
    let mut rng = Rng::new(SEED);
    let mut classes: BTreeMap<String, usize> = BTreeMap::new();
    let mut records = Vec::new();
    for _ in 0..20_000 {
        let cases = generate::cases(&mut rng, Size::Small);
        let most = if rng.once_in(4) {
            2 * MODEST_WORDS
        } else {
            MODEST_WORDS
        };
        for case in cases {
            if case.words > most || case.sheet.len() > 600 {
                continue;
            }
            let class = class(case.call, &case.sheet, &case.reply);
            let count = classes.entry(class).or_default();
            if *count < of_a_class(&case) && seen.insert(case.sheet.clone()) {
                *count += 1;
                let label = format!("generated-{}", records.len() + 1);
                records.push(Record { label, case });
            }
        }
    }
    records
}

/// Both calls on generated sheets of any size as records; those that lend more words or bytes than this
/// are left out.
pub fn of_any_size(count: usize, seed: u64) -> Vec<Record> {
    const MOST_WORDS: u64 = 1 << 23;
    const MOST_ROOM: usize = 1 << 20;
    deep::run(|| {
        let mut rng = Rng::new(seed);
        let mut records = Vec::new();
        for index in 1..=count {
            let cases = generate::cases(&mut rng, Size::Any).into_iter();
            let lent = |case: &Case| case.words <= MOST_WORDS && case.room <= MOST_ROOM;
            records.extend(cases.filter(lent).map(|case| Record {
                label: format!("generated-{index}"),
                case,
            }));
        }
        records
    })
}

/// The records of the list, made anew.
pub fn made() -> Vec<Record> {
    deep::run(|| {
        let mut records = examples();
        let mut seen = records
            .iter()
            .map(|record| record.case.sheet.clone())
            .collect();
        records.extend(generated(&mut seen));
        records
    })
}

fn head() -> String {
    format!(
        "# Sheets with their replies, made by `cargo run --release --manifest-path host/Cargo.toml -- store`.\n\
         # Answers by the Rust of trancee/cairn 045324b408, `spent` by the host's model; seed {SEED}.\n\
         # A record: `sheet WORDS ROOM REFUSAL SHEETBYTES ANSWERBYTES LABEL`, the sheet, the answer, byte 10;\n\
         # `pages` in place of `sheet` where the answer is laid out in pages.\n"
    )
}

pub fn written(records: &[Record]) -> Vec<u8> {
    let mut out = head().into_bytes();
    for Record { label, case } in records {
        let (refusal, answer): (u32, &[u8]) = match &case.reply {
            Reply::Refused(refusal) => (refusal.number(), &[]),
            Reply::Answer(answer) => (0, answer),
        };
        let (length, written) = (case.sheet.len(), answer.len());
        let (word, words, room) = (word(case.call), case.words, case.room);
        let line = format!("{word} {words} {room} {refusal} {length} {written} {label}\n");
        out.extend([line.as_bytes(), &case.sheet, answer, b"\n"].concat());
    }
    out
}

// The line at the front and what follows it.
fn line(bytes: &[u8]) -> Result<(&str, &[u8]), String> {
    let end = bytes
        .iter()
        .position(|byte| *byte == 10)
        .ok_or("a line without an end")?;
    let line = str::from_utf8(&bytes[..end]).map_err(|error| error.to_string())?;
    Ok((line, &bytes[end + 1..]))
}

fn taken<'a>(rest: &mut &'a [u8], count: usize) -> Result<&'a [u8], String> {
    let (front, after) = rest
        .split_at_checked(count)
        .ok_or("the list ends inside a record")?;
    *rest = after;
    Ok(front)
}

fn number<T: std::str::FromStr>(word: Option<&str>, line: &str) -> Result<T, String> {
    let parsed = word.and_then(|word| word.parse().ok());
    parsed.ok_or_else(|| format!("not a record's first line: {line}"))
}

fn record(text: &str, rest: &mut &[u8]) -> Result<Record, String> {
    let mut words = text.split(' ');
    let first = words.next();
    let called = |call: &Call| first == Some(word(*call));
    let call = Call::ALL.into_iter().find(called);
    let call = call.ok_or_else(|| format!("not a record's first line: {text}"))?;
    let lent = number(words.next(), text)?;
    let room = number(words.next(), text)?;
    let refusal: u32 = number(words.next(), text)?;
    let length = number(words.next(), text)?;
    let written: usize = number(words.next(), text)?;
    let label: String = number(words.next(), text)?;
    let sheet = taken(rest, length)?.to_vec();
    let answer = taken(rest, written)?.to_vec();
    if taken(rest, 1)? != b"\n" || words.next().is_some() || refusal != 0 && written != 0 {
        return Err(format!("a record out of form: {text}"));
    }
    let reply = match Refusal::of(refusal) {
        None => Reply::Answer(answer),
        Some(refusal) => Reply::Refused(refusal),
    };
    let words = lent;
    let case = Case {
        call,
        sheet,
        words,
        room,
        reply,
    };
    Ok(Record { label, case })
}

/// The records of a list.
pub fn read(bytes: &[u8]) -> Result<Vec<Record>, String> {
    str::from_utf8(bytes).map_err(|error| format!("the list is not UTF-8: {error}"))?;
    let mut rest = bytes;
    let mut records = Vec::new();
    while !rest.is_empty() {
        let (text, after) = line(rest)?;
        rest = after;
        if records.is_empty() && text.starts_with('#') {
            continue;
        }
        records.push(record(text, &mut rest)?);
    }
    Ok(records)
}

/// The records of the repository's list.
pub fn stored() -> Result<Vec<Record>, String> {
    let path = path();
    let bytes = fs::read(&path).map_err(|error| format!("{}: {error}", path.display()))?;
    read(&bytes)
}

/// The records whose reply is not the reference's.
pub fn wrong(records: &[Record]) -> Vec<&Record> {
    deep::run(|| records.iter().filter(|record| !record.right()).collect())
}
