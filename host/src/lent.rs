// What is lent to the linked library: a work area and an output full of garbage, with a margin
// beyond what is lent, and the tests of what a call left there.
use std::thread;

use yukhtsami::{Call, Called};

use crate::{
    reference::{self, Reply},
    rng::Rng,
    sheet,
};

/// The stack that a call has.
pub const STACK: usize = 2 << 20;
/// The most words that are lent.
pub const MOST_WORDS: usize = 1 << 26;
const MARGIN: usize = 1_024;
/// The words after those that a call clears that are looked at, if so many are lent.
const SEEN: usize = 1 << 21;
const SEED: u64 = 11;
/// The words, and the bytes, after which the garbage is the same again.
const PERIOD: usize = 4_093;

/// A call that is asked for: on which sheet, with so many words and bytes of output lent.
#[derive(Clone, Copy)]
pub struct Asked<'a> {
    pub call: Call,
    pub sheet: &'a [u8],
    pub words: usize,
    pub room: usize,
}

impl<'a> Asked<'a> {
    /// More words than can be lent are cut to the most.
    pub fn new(call: Call, sheet: &'a [u8], words: u64, room: usize) -> Self {
        let words = words.min(MOST_WORDS as u64) as usize;
        Self {
            call,
            sheet,
            words,
            room,
        }
    }
}

/// The lent memory. Between calls both halves of each pair are the same.
pub struct Lent {
    words: Vec<u32>,
    bytes: Vec<u8>,
    work_before: Vec<u32>,
    work: Vec<u32>,
    output_before: Vec<u8>,
    output: Vec<u8>,
}

impl Default for Lent {
    fn default() -> Self {
        let mut rng = Rng::new(SEED);
        Self {
            words: (0..PERIOD).map(|_| garbage(&mut rng)).collect(),
            bytes: (0..PERIOD).map(|_| rng.number() as u8).collect(),
            work_before: Vec::new(),
            work: Vec::new(),
            output_before: Vec::new(),
            output: Vec::new(),
        }
    }
}

/// A call of the linked library on a thread of its own, with a stack of 2 MiB.
pub fn call(name: &str, call: Call, sheet: &[u8], work: &mut [u32], output: &mut [u8]) -> Called {
    on_a_small_stack(name, || yukhtsami::call(call, sheet, work, output))
}

/// A function on a thread with the stack that a call has. An exhausted stack ends the program with
/// the thread's name.
pub fn on_a_small_stack<T: Send>(name: &str, function: impl FnOnce() -> T + Send) -> T {
    thread::scope(|scope| {
        let started = thread::Builder::new()
            .name(name.to_owned())
            .stack_size(STACK)
            .spawn_scoped(scope, function);
        let joined = started.expect("a thread with a small stack").join();
        joined.expect("a call that returns")
    })
}

// A word of garbage: any number, or one that could be an index.
fn garbage(rng: &mut Rng) -> u32 {
    let number = rng.number();
    if number >> 63 == 0 {
        number as u32 | 1
    } else {
        1 + (number as u32 & 0xffff)
    }
}

impl Lent {
    fn grow(&mut self, words: usize, room: usize) {
        while self.work.len() < words + MARGIN {
            self.work_before.extend_from_slice(&self.words);
            self.work.extend_from_slice(&self.words);
        }
        while self.output.len() < room + MARGIN {
            self.output_before.extend_from_slice(&self.bytes);
            self.output.extend_from_slice(&self.bytes);
        }
    }

    // Writes the garbage again over what the call may have changed.
    fn refill(&mut self, words: usize, room: usize) {
        for part in self.work[..words + MARGIN].chunks_mut(PERIOD) {
            part.copy_from_slice(&self.words[..part.len()]);
        }
        for part in self.output[..room + MARGIN].chunks_mut(PERIOD) {
            part.copy_from_slice(&self.bytes[..part.len()]);
        }
    }

    /// Calls the library. What is not as the reply says, if anything.
    pub fn differences(&mut self, name: &str, asked: Asked, reply: &Reply) -> Vec<String> {
        let called = self.lend(name, asked);
        self.left(asked, called, reply)
    }

    /// The same where the reply is not known: its refusal and its bytes are taken from the call,
    /// and what it left is held to them.
    pub fn unjudged(&mut self, name: &str, asked: Asked) -> (Reply, Vec<String>) {
        let called = self.lend(name, asked);
        let reply = Reply::given(called, &self.output[..asked.room]);
        let found = self.left(asked, called, &reply);
        (reply, found)
    }

    fn lend(&mut self, name: &str, asked: Asked) -> Called {
        let Asked { words, room, .. } = asked;
        self.grow(words, room);
        call(
            name,
            asked.call,
            asked.sheet,
            &mut self.work[..words],
            &mut self.output[..room],
        )
    }

    // What a call said and left that is not as the reply says; the garbage is written again.
    fn left(&mut self, asked: Asked, called: Called, reply: &Reply) -> Vec<String> {
        let Asked {
            sheet, words, room, ..
        } = asked;
        let mut found = said(called, reply);
        if !self.output_right(room, reply) {
            found.push("the output is not as the reply says".to_owned());
        }
        if !self.work_right(words, sheet) {
            found.push("the work area is not as the sheet says".to_owned());
        }
        let refill = if found.is_empty() {
            changed(sheet, words)
        } else {
            words
        };
        self.refill(refill, room);
        found
    }

    fn output_right(&self, room: usize, reply: &Reply) -> bool {
        let end = room + MARGIN;
        reference::output_right(reply, &self.output_before[..room], &self.output[..room])
            && self.output_before[room..end] == self.output[room..end]
    }

    fn work_right(&self, words: usize, bytes: &[u8]) -> bool {
        let (seen, end) = (words.min(changed(bytes, words) + SEEN), words + MARGIN);
        reference::work_right(bytes, &self.work_before[..seen], &self.work[..seen])
            && self.work_before[words..end] == self.work[words..end]
    }
}

// The words that a right call changes.
fn changed(bytes: &[u8], words: usize) -> usize {
    let needed = sheet::read(bytes).map_or(0, |sheet| sheet::words_needed(bytes, &sheet));
    if needed <= words as u64 {
        needed as usize
    } else {
        0
    }
}

// The two numbers that the call gave against those of the reply.
fn said(called: Called, reply: &Reply) -> Vec<String> {
    let (refusal, written) = match reply {
        Reply::Refused(refusal) => (refusal.number(), 0),
        Reply::Answer(answer) => (0, answer.len()),
    };
    let mut found = Vec::new();
    if called.refusal != refusal {
        found.push(format!("refusal {}, not {refusal}", called.refusal));
    }
    if called.written != written {
        found.push(format!("{} bytes written, not {written}", called.written));
    }
    found
}
