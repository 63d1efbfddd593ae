// What is told of a sheet without an answer.
use yukhtsami::{MOST_PAGES, Refusal};

use super::{
    arguments::Source,
    lending::{NoMemory, Refused},
    status::{self, Failure},
};
use crate::place::{self, lines, terms};

// What is known of a refusal beyond its name. The host finds it, unproved, after the library has
// refused the sheet: where the two do not fit together nothing is added.
fn detail(sheet: &[u8], size: Option<u64>, refused: &Refused) -> Option<String> {
    let Refused {
        words,
        room,
        needed,
        ..
    } = refused;
    match refused.refusal {
        Refusal::TooLong => place::long(sheet, size),
        Refusal::ForeignByte => place::foreign(sheet).map(|place| place.to_string()),
        Refusal::LineOutOfPlace => lines::out_of_place(sheet).map(|place| place.to_string()),
        Refusal::UnreadableTerm => terms::unreadable(sheet).map(|place| place.to_string()),
        Refusal::ShortWorkArea => {
            let needed = yukhtsami::words_needed(sheet);
            let needs = || format!("{words} words lent, {needed} needed");
            (needed > *words as u64).then(needs)
        }
        Refusal::TooManyPages => needed
            .filter(|needed| *needed > MOST_PAGES)
            .map(|needed| format!("{needed} pages, where {MOST_PAGES} are the most")),
        Refusal::ShortOutput => Some(match needed {
            Some(needed) if needed > room => format!("{room} bytes lent, {needed} needed"),
            _ => format!("{room} bytes lent"),
        }),
        _ => None,
    }
}

/// The refusal of a sheet, by its number, its name, and what is known of it.
pub fn refused(source: &Source, sheet: &[u8], size: Option<u64>, refused: &Refused) -> Failure {
    let (refusal, number) = (refused.refusal, refused.refusal.number());
    let detail = detail(sheet, size, refused).map(|detail| format!(": {detail}"));
    let detail = detail.unwrap_or_default();
    let message = format!("{source}: refusal {number}, {refusal}{detail}");
    let status = u8::try_from(number).unwrap_or(status::SOFTWARE);
    Failure::new(status, message)
}

pub fn no_memory(source: &Source, short: &NoMemory) -> Failure {
    let NoMemory { what, count } = short;
    let message = format!("{source}: no memory for {count} {what}");
    Failure::new(status::SYSTEM, message)
}
