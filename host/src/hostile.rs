// Hostile input: two bytes that choose the call and what is lent, then a sheet, and the linked library
// against the reference on it. The reference is asked where it answers soon.
mod bound;
pub mod change;

use yukhtsami::{Call, Refusal};

use crate::{
    lent::Asked,
    linked::Comparison,
    reference::{self, Reply},
    sheet::{self, LONGEST},
    store::Record,
};

/// The most words that are lent; a sheet that needs more is tried with refusal 11 alone.
const MOST_WORDS: u64 = 1 << 24;
/// The words that the choice goes by where a sheet is refused for its bytes or lines.
const SOME_WORDS: u64 = 4_096;
const SOME_ROOM: usize = 100;
const LARGE_ROOM: usize = 65_536;
/// The bit of the first byte that asks for pages.
const PAGES: u8 = 1 << 6;
/// The bytes of an input before its sheet.
pub const CHOICE: usize = 2;

/// The call and what is lent: the first byte says which and how, the second how much more.
#[derive(Clone, Copy)]
struct Choice {
    how: u8,
    more: u8,
}

impl Choice {
    fn words(self, needed: u64) -> u64 {
        let words = match self.how & 7 {
            0..=2 => needed,
            3 => needed - 1,
            4 => needed + u64::from(self.more),
            5 => needed + 4_096 * u64::from(self.more),
            6 => 0,
            _ => needed / 2,
        };
        words.min(MOST_WORDS)
    }

    fn room(self, length: usize) -> usize {
        match self.how >> 3 & 7 {
            0 | 1 => length,
            2 => length.saturating_sub(1),
            3 => 0,
            4 => length + usize::from(self.more),
            _ => LARGE_ROOM,
        }
    }

    fn call(self) -> Call {
        if self.how & PAGES == 0 {
            Call::Answer
        } else {
            Call::Page
        }
    }

    /// Whether blanks are put into the last line, up to about the most bytes of a sheet.
    fn stretches(self) -> bool {
        self.how >> 7 == 1 && self.more & 1 == 1
    }
}

fn stretched(choice: Choice, mut sheet: Vec<u8>) -> Vec<u8> {
    let length = LONGEST - 1 + usize::from(choice.more % 3);
    if choice.stretches() && sheet.len() < length && sheet.last() == Some(&10) {
        let end = sheet.len() - 1;
        let blanks = vec![b' '; length - sheet.len()];
        sheet.splice(end..end, blanks);
    }
    sheet
}

fn parted(input: &[u8]) -> (Choice, Vec<u8>) {
    let byte = |at: usize| input.get(at).copied().unwrap_or_default();
    let choice = Choice {
        how: byte(0),
        more: byte(1),
    };
    let sheet = input.get(CHOICE..).unwrap_or_default().to_vec();
    (choice, stretched(choice, sheet))
}

/// The input with a record's call and sheet that lends the needed words, and large room.
pub fn seed(record: &Record) -> Vec<u8> {
    let pages = match record.case.call {
        Call::Answer => 0,
        Call::Page => PAGES,
    };
    [&[5 << 3 | pages, 0], record.case.sheet.as_slice()].concat()
}

/// What came of some inputs.
#[derive(Default)]
pub struct Hostile {
    pub compared: Comparison,
    /// Calls on sheets for which the reference was not asked.
    pub unjudged: usize,
}

impl Hostile {
    /// The call that an input says. An error tells how it differs from the reference.
    pub fn call(&mut self, input: &[u8]) -> Result<(), String> {
        let (choice, sheet) = parted(input);
        self.lend(choice, &sheet);
        match &self.compared.smallest {
            None => Ok(()),
            Some(difference) => Err(difference.to_string()),
        }
    }

    fn lend(&mut self, choice: Choice, bytes: &[u8]) {
        const NAME: &str = "an input";
        let call = choice.call();
        let asked = |words, room| Asked::new(call, bytes, words, room);
        let read = match sheet::read(bytes) {
            Ok(read) => read,
            Err(refusal) => {
                let asked = asked(choice.words(SOME_WORDS), choice.room(SOME_ROOM));
                return self.compared.add(NAME, asked, Reply::Refused(refusal));
            }
        };
        let needed = sheet::words_needed(bytes, &read);
        let words = choice.words(needed);
        if words < needed {
            let asked = asked(words, choice.room(SOME_ROOM));
            let reply = Reply::Refused(Refusal::ShortWorkArea);
            return self.compared.add(NAME, asked, reply);
        }
        if !bound::soon(bytes, &read) {
            self.unjudged += 1;
            return self.compared.add_unjudged(NAME, asked(words, LARGE_ROOM));
        }
        let admitted = reference::admit(bytes).expect("lines that were read");
        let given = reference::given(call, admitted.answer);
        let room = choice.room(given.as_ref().map_or(SOME_ROOM, Vec::len));
        let reply = reference::settled(given, room);
        self.compared.add(NAME, asked(words, room), reply);
    }
}
