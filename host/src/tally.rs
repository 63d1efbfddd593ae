// A tally of replies: how many of each call, kind, verdict, claim and refusal.
use std::{collections::BTreeMap, fmt};

use yukhtsami::{Call, Refusal};

use crate::{
    kinds::{KINDS, Kind},
    page,
    reference::Reply,
    sheet,
};

#[derive(Default)]
pub struct Tally(BTreeMap<String, usize>);

fn named(call: Call, name: &str) -> String {
    match call {
        Call::Answer => name.to_owned(),
        Call::Page => format!("page: {name}"),
    }
}

fn answer_name(call: Call, kind: &str, word: &str) -> String {
    named(call, &format!("{kind} {word}"))
}

fn refusal_name(call: Call, refusal: Refusal) -> String {
    named(call, &format!("refusal {:>2}", refusal.number()))
}

// The answer that a call's text holds; pages that cannot be read back hold an empty one.
fn held(call: Call, text: &[u8]) -> String {
    match call {
        Call::Answer => String::from_utf8_lossy(text).into_owned(),
        Call::Page => page::read_back(text).unwrap_or_default(),
    }
}

// What an answer begins with: its first line, or the key where a term follows.
fn word<'a>(kind: &Kind, answer: &'a str) -> &'a str {
    let line = answer.lines().next().unwrap_or_default();
    let key = line.split('=').next().unwrap_or_default();
    if kind.answers.contains(&key) {
        key
    } else {
        line
    }
}

/// What a reply counts as: its call, and its refusal or its kind and the word that the answer begins
/// with.
pub fn class(call: Call, bytes: &[u8], reply: &Reply) -> String {
    match reply {
        Reply::Refused(refusal) => refusal_name(call, *refusal),
        Reply::Answer(text) => {
            let text = held(call, text);
            match sheet::read(bytes) {
                Ok(sheet) => answer_name(call, sheet.kind.name, word(sheet.kind, &text)),
                Err(_) => answer_name(call, "unread", text.lines().next().unwrap_or_default()),
            }
        }
    }
}

impl Tally {
    pub fn add(&mut self, call: Call, bytes: &[u8], reply: &Reply) {
        let name = class(call, bytes, reply);
        *self.0.entry(name).or_default() += 1;
    }

    fn of(&self, name: &str) -> usize {
        self.0.get(name).copied().unwrap_or_default()
    }

    pub fn count(&self, call: Call, kind: &str, word: &str) -> usize {
        self.of(&answer_name(call, kind, word))
    }

    pub fn refused(&self, call: Call, refusal: Refusal) -> usize {
        self.of(&refusal_name(call, refusal))
    }

    /// The kinds with their words, and the refusals, that did not come up.
    pub fn missing(&self) -> Vec<String> {
        let all = Call::ALL.into_iter().flat_map(classes);
        all.filter(|name| !self.0.contains_key(name)).collect()
    }
}

// All that a reply of a call counts as.
fn classes(call: Call) -> impl Iterator<Item = String> {
    let words = KINDS
        .iter()
        .flat_map(|kind| kind.answers.iter().map(|word| (kind.name, word)));
    let answers = words.map(move |(kind, word)| answer_name(call, kind, word));
    let given = move |refusal: &Refusal| call == Call::Page || *refusal != Refusal::TooManyPages;
    let refusals = Refusal::ALL.into_iter().filter(given);
    answers.chain(refusals.map(move |refusal| refusal_name(call, refusal)))
}

impl fmt::Display for Tally {
    fn fmt(&self, out: &mut fmt::Formatter) -> fmt::Result {
        for (name, count) in &self.0 {
            writeln!(out, "{count:>8}  {name}")?;
        }
        Ok(())
    }
}
