// Whether the reference answers a sheet soon. The bound is on the sheet alone, so that the same
// sheets are always compared.
use crate::{kinds::Form, sheet::Sheet};

/// The bytes up to which sheets with pairs are soon answered: each pair taken copies its terms.
const PAIRS: usize = 6_000;
/// The same for kinds that make schemes: schemes times the bytes squared.
const SCHEMES: u64 = 20_000_000;
const MOST_SCHEMES: u64 = 4_096;

const DOUBLING: [&str; 4] = ["tamXCfst", "tamXCsnd", "tamXCsdec", "tamXCkdec"];
const TRIPLING: &str = "tamXCflip";

// No fewer schemes than the term has, up to the most that are made.
fn schemes(term: &str) -> u64 {
    let count = |name: &str| term.matches(name).count();
    let doubled = DOUBLING.iter().map(|name| count(name)).sum();
    let factors = std::iter::repeat_n(2, doubled).chain(std::iter::repeat_n(3, count(TRIPLING)));
    factors.fold(1, |all: u64, factor| (all * factor).min(MOST_SCHEMES))
}

pub fn soon(bytes: &[u8], sheet: &Sheet) -> bool {
    let length = written(bytes);
    if sheet.kind.schemes {
        let length = length as u64;
        return schemes(sheet.terms[0]) * length * length <= SCHEMES;
    }
    match sheet.kind.form {
        Form::Sides | Form::Term | Form::TermMember | Form::TermMembers => true,
        Form::FuelPairs | Form::PairsMembers => length <= PAIRS,
    }
}

// The bytes that are no blanks: these cost nothing but their reading.
fn written(bytes: &[u8]) -> usize {
    bytes.iter().filter(|byte| **byte != b' ').count()
}
