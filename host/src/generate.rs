// Generated sheets: every kind, tidy and untidy, good and damaged, and what is lent with them. The
// same seed gives the same sheets.
mod damage;
mod limits;
pub(crate) mod lines;
mod members;
mod pairs;
mod spelling;
mod terms;

pub use limits::of_lines;

use yukhtsami::{Call, MOST_PAGES, PAGE_BYTES, Refusal};

use crate::{
    kinds::{self, KINDS, Kind},
    lent::Asked,
    reference::{self, Admitted, Reply},
    rng::Rng,
    sheet,
};

/// A call on a sheet, the words and the bytes of output lent with it, and the reply.
#[derive(Clone, Debug, PartialEq, Eq)]
pub struct Case {
    pub call: Call,
    pub sheet: Vec<u8>,
    pub words: u64,
    pub room: usize,
    pub reply: Reply,
}

impl Case {
    pub fn asked(&self) -> Asked<'_> {
        Asked::new(self.call, &self.sheet, self.words, self.room)
    }
}

/// How large sheets may be.
#[derive(Clone, Copy, PartialEq, Eq)]
pub enum Size {
    /// A few lines of small terms.
    Small,
    /// Now and then up to the limits.
    Any,
}

/// A sheet, damaged now and then.
pub fn sheet(rng: &mut Rng, size: Size) -> Vec<u8> {
    sheet_for(rng, size, &kinds::all())
}

/// A sheet of one of these kinds, of which there is one, damaged now and then.
pub fn sheet_for(rng: &mut Rng, size: Size, kinds: &[&Kind]) -> Vec<u8> {
    if size == Size::Any && rng.once_in(50) {
        return at_limits(rng, kinds);
    }
    let weight = |kind| {
        if kinds.contains(&kind) {
            kind.weight
        } else {
            0
        }
    };
    let weights: Vec<usize> = KINDS.iter().map(weight).collect();
    let kind = &KINDS[rng.weighted(&weights)];
    let text = format!("kind={}\n{}", kind.name, (kind.generated)(rng));
    if rng.once_in(9) {
        damage::damaged(rng, text)
    } else {
        text.into_bytes()
    }
}

// A sheet at the limits; one of the kinds, unless many tries give none.
fn at_limits(rng: &mut Rng, kinds: &[&Kind]) -> Vec<u8> {
    let mut sheet = limits::sheet(rng);
    for _ in 0..60 {
        if sheet::read(&sheet).map_or(true, |sheet| kinds.contains(&sheet.kind)) {
            break;
        }
        sheet = limits::sheet(rng);
    }
    sheet
}

fn words(rng: &mut Rng, needed: u64) -> u64 {
    match rng.weighted(&[45, 5, 1, 45, 4]) {
        0 => needed,
        1 => needed - 1,
        2 => 0,
        3 => needed + rng.below(1000) as u64,
        _ => needed + (1 << 33),
    }
}

fn room(rng: &mut Rng, length: usize) -> usize {
    match rng.weighted(&[45, 5, 1, 49]) {
        0 => length,
        1 => length - 1,
        2 => 0,
        _ => length + rng.below(1000),
    }
}

// What is lent with a sheet for a call, and the reply.
fn lend_for(
    rng: &mut Rng,
    call: Call,
    sheet: Vec<u8>,
    admitted: Result<Admitted, Refusal>,
) -> Case {
    let (words, room, reply) = match admitted {
        Err(refusal) => {
            let (words, room) = (rng.below(1 << 22) as u64, rng.below(1000));
            (words, room, Reply::Refused(refusal))
        }
        Ok(admitted) => {
            let words = words(rng, admitted.words_needed);
            let given = reference::given(call, admitted.answer);
            let room = room(rng, length(&given));
            let short = words < admitted.words_needed;
            let refused = Reply::Refused(Refusal::ShortWorkArea);
            let settled = || reference::settled(given, room);
            (words, room, if short { refused } else { settled() })
        }
    };
    Case {
        call,
        sheet,
        words,
        room,
        reply,
    }
}

// The bytes around which output is lent.
fn length(given: &Result<Vec<u8>, Refusal>) -> usize {
    match given {
        Ok(text) => text.len(),
        Err(Refusal::TooManyPages) => MOST_PAGES * PAGE_BYTES,
        Err(_) => 100,
    }
}

/// What is lent with a sheet for each call, and the replies.
pub fn lend(rng: &mut Rng, sheet: Vec<u8>) -> [Case; 2] {
    let admitted = reference::admit(&sheet);
    Call::ALL.map(|call| lend_for(rng, call, sheet.clone(), admitted.clone()))
}

/// Both calls on a sheet.
pub fn cases(rng: &mut Rng, size: Size) -> [Case; 2] {
    let sheet = sheet(rng, size);
    lend(rng, sheet)
}
