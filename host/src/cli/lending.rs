// The memory that is lent to the library, kept from one sheet to the next, and the calls.
use std::{fs, hint::black_box};

use yukhtsami::{Call, Refusal};

use crate::{page, sheet};

/// The most bytes of output that are lent where the user does not say how many.
pub const MOST_ROOM: usize = 1 << 30;
// The words that are lent first: small sheets need no more.
const FIRST_WORDS: usize = 1 << 21;
// An allocation of so many bytes is not tried without a look at the memory that is free.
const LARGE: usize = 1 << 28;

pub struct Lender {
    asked: Call,
    work: Vec<u32>,
    output: Vec<u8>,
    words: Option<usize>,
    room: Option<usize>,
}

/// A refusal, and what was lent.
pub struct Refused {
    pub refusal: Refusal,
    pub words: usize,
    pub room: usize,
    /// What would be needed, where it is known: of an output that is too short the bytes, of too many
    /// pages their count.
    pub needed: Option<usize>,
}

pub enum Reply<'a> {
    Answer(&'a [u8]),
    Refused(Refused),
}

/// Memory that cannot be had.
pub struct NoMemory {
    pub what: &'static str,
    pub count: u64,
}

// The count of bytes written or a refusal, where there was memory for the call.
type Called = Result<Result<usize, Refusal>, NoMemory>;

// The bytes that the system says are free, where it says so.
fn free_bytes() -> Option<u64> {
    let text = fs::read_to_string("/proc/meminfo").ok()?;
    let kibibytes = |name: &str| -> Option<u64> {
        let line = text.lines().find_map(|line| line.strip_prefix(name))?;
        line.trim().strip_suffix(" kB")?.parse().ok()
    };
    Some(1_024 * (kibibytes("MemAvailable:")? + kibibytes("SwapFree:")?))
}

// Whether so many bytes may be asked for: a system that promises more memory than it has would end
// the program, or another one, in the midst of a call.
fn may_ask(bytes: usize) -> bool {
    bytes < LARGE || free_bytes().is_none_or(|free| bytes as u64 <= free)
}

// At least so many zeros. What was there is given back first.
fn grow<T: Copy + Default>(memory: &mut Vec<T>, count: usize) -> Option<()> {
    if memory.len() >= count {
        return Some(());
    }
    *memory = Vec::new();
    if !may_ask(count.checked_mul(size_of::<T>())?) {
        return None;
    }
    let mut tried = Vec::<T>::new();
    tried.try_reserve_exact(count).ok()?;
    drop(black_box(tried));
    // Zeros that the system gives page by page, where they are used.
    *memory = vec![T::default(); count];
    Some(())
}

impl Lender {
    /// Lends this call so many words and bytes; where none are given, what a sheet and its answer take.
    pub fn new(asked: Call, words: Option<usize>, room: Option<usize>) -> Self {
        let (work, output) = (Vec::new(), Vec::new());
        Self {
            asked,
            work,
            output,
            words,
            room,
        }
    }

    // One call with so many words and bytes.
    fn call(&mut self, call: Call, sheet: &[u8], words: usize, room: usize) -> Called {
        let (what, count) = ("words of work area", words as u64);
        grow(&mut self.work, words).ok_or(NoMemory { what, count })?;
        let (what, count) = ("bytes of output", room as u64);
        grow(&mut self.output, room).ok_or(NoMemory { what, count })?;
        let (work, output) = (&mut self.work[..words], &mut self.output[..room]);
        Ok(yukhtsami::reply(call, sheet, work, output))
    }

    // Calls with more room as long as the answer is longer than the output.
    fn with_room(&mut self, call: Call, sheet: &[u8], words: usize) -> Called {
        let mut room = self.output.len().clamp(sheet::LONGEST, MOST_ROOM);
        loop {
            let called = self.call(call, sheet, words, room)?;
            if called != Err(Refusal::ShortOutput) || room == MOST_ROOM {
                return Ok(called);
            }
            room = room.saturating_mul(4).min(MOST_ROOM);
        }
    }

    fn with_words(&mut self, sheet: &[u8], words: usize) -> Called {
        match self.room {
            Some(room) => self.call(self.asked, sheet, words, room),
            None => self.with_room(self.asked, sheet, words),
        }
    }

    // The length of an answer for which the user lends too little room, where it can be found.
    fn length(&mut self, sheet: &[u8], words: usize, room: usize) -> Option<usize> {
        if room >= MOST_ROOM {
            return None;
        }
        self.with_room(self.asked, sheet, words).ok()?.ok()
    }

    // The pages that an answer would need.
    fn pages(&mut self, sheet: &[u8], words: usize) -> Option<usize> {
        let written = self.with_room(Call::Answer, sheet, words).ok()?.ok()?;
        Some(page::count(&self.output[..written]))
    }

    /// The library's reply. The words at hand are lent first, and where they are too few as many as
    /// the sheet needs, so that only a sheet that is read takes memory.
    pub fn reply(&mut self, sheet: &[u8]) -> Result<Reply<'_>, NoMemory> {
        let mut words = self.words.unwrap_or(self.work.len().max(FIRST_WORDS));
        let mut called = self.with_words(sheet, words)?;
        if called == Err(Refusal::ShortWorkArea) && self.words.is_none() {
            let needed = yukhtsami::words_needed(sheet);
            let (what, count) = ("words of work area", needed);
            words = usize::try_from(needed).map_err(|_| NoMemory { what, count })?;
            called = self.with_words(sheet, words)?;
        }
        let refusal = match called {
            Ok(written) => return Ok(Reply::Answer(&self.output[..written])),
            Err(refusal) => refusal,
        };
        let room = self.room.unwrap_or(MOST_ROOM);
        let needed = match refusal {
            Refusal::ShortOutput => self.length(sheet, words, room),
            Refusal::TooManyPages => self.pages(sheet, words),
            _ => None,
        };
        Ok(Reply::Refused(Refused {
            refusal,
            words,
            room,
            needed,
        }))
    }
}
