// The linked library against the reference, on generated sheets and the stored list.
use std::fmt;

use yukhtsami::{Call, Refusal};

use crate::{
    generate::{self, Size},
    kinds::Kind,
    lent::{Asked, Lent},
    reference::Reply,
    rng::Rng,
    sheet,
    store::Record,
    tally::Tally,
};

/// A call that was not as the reference says.
pub struct Difference {
    pub name: String,
    pub call: Call,
    pub sheet: Vec<u8>,
    pub words: usize,
    pub room: usize,
    pub reply: Reply,
    pub found: Vec<String>,
}

/// What came of a comparison.
#[derive(Default)]
pub struct Comparison {
    lent: Lent,
    pub calls: usize,
    pub tally: Tally,
    pub differences: usize,
    /// The difference with the fewest bytes of sheet.
    pub smallest: Option<Difference>,
}

/// The reply with so many words, from the reference's with as many as are asked for.
pub fn with_words(bytes: &[u8], words: usize, reply: Reply) -> Reply {
    match sheet::read(bytes) {
        Ok(sheet) if sheet::words_needed(bytes, &sheet) > words as u64 => {
            Reply::Refused(Refusal::ShortWorkArea)
        }
        _ => reply,
    }
}

// Whether a call gives the refusal on a sheet whose lines and words are right.
fn after_reading(call: Call, refusal: Refusal) -> bool {
    match refusal {
        Refusal::UnreadableTerm | Refusal::ShortOutput => true,
        Refusal::TooManyPages => call == Call::Page,
        _ => false,
    }
}

impl Comparison {
    /// One call, with the reply that it has with as many words as are asked for.
    pub fn add(&mut self, name: &str, asked: Asked, reply: Reply) {
        let reply = with_words(asked.sheet, asked.words, reply);
        let found = self.lent.differences(name, asked, &reply);
        self.count(name, asked, reply, found);
    }

    /// One call whose answer is not compared: what it leaves is held to what it gives, which is no
    /// refusal of the lines or the words.
    pub fn add_unjudged(&mut self, name: &str, asked: Asked) {
        let (reply, mut found) = self.lent.unjudged(name, asked);
        if matches!(reply, Reply::Refused(refusal) if !after_reading(asked.call, refusal)) {
            found.push("a sheet whose lines and words are right is refused".to_owned());
        }
        self.count(name, asked, reply, found);
    }

    fn count(&mut self, name: &str, asked: Asked, reply: Reply, found: Vec<String>) {
        self.calls += 1;
        self.tally.add(asked.call, asked.sheet, &reply);
        if found.is_empty() {
            return;
        }
        self.differences += 1;
        let smaller = |known: &Difference| asked.sheet.len() < known.sheet.len();
        if self.smallest.as_ref().is_none_or(smaller) {
            self.smallest = Some(Difference {
                name: name.to_owned(),
                call: asked.call,
                sheet: asked.sheet.to_vec(),
                words: asked.words,
                room: asked.room,
                reply,
                found,
            });
        }
    }

    /// The records of a stored list.
    pub fn add_stored(&mut self, records: &[Record]) {
        for Record { label, case } in records {
            self.add(label, case.asked(), case.reply.clone());
        }
    }

    /// Generated sheets of these kinds, each through both calls.
    pub fn add_generated(&mut self, count: usize, seed: u64, kinds: &[&Kind]) {
        let mut rng = Rng::new(seed);
        for index in 1..=count {
            let sheet = generate::sheet_for(&mut rng, Size::Any, kinds);
            let name = format!("sheet {index} of seed {seed}");
            for case in generate::lend(&mut rng, sheet) {
                self.add(&name, case.asked(), case.reply.clone());
            }
        }
    }
}

impl fmt::Display for Difference {
    fn fmt(&self, out: &mut fmt::Formatter) -> fmt::Result {
        let reply = match &self.reply {
            Reply::Refused(refusal) => format!("refusal {}, {refusal}", refusal.number()),
            Reply::Answer(answer) => String::from_utf8_lossy(answer).into_owned(),
        };
        let Self { name, call, .. } = self;
        writeln!(out, "{name}, {call:?}: {}", self.found.join("; "))?;
        writeln!(out, "words lent: {}; bytes lent: {}", self.words, self.room)?;
        writeln!(out, "sheet:\n{}", String::from_utf8_lossy(&self.sheet))?;
        writeln!(out, "reply:\n{reply}")
    }
}
