// Reading of sheets (01, "A sheet comes in"): refusals 1, 2 and 3, the lines of each form, and the
// words that a sheet needs.
use yukhtsami::Refusal;

use crate::kinds::{self, Form, Kind};

pub const LONGEST: usize = 65_536;
pub const MOST_FUEL: usize = 65_536;

pub type Pair<'a> = (&'a str, &'a str);

#[derive(Clone, Debug, PartialEq, Eq)]
pub struct Member<'a> {
    pub text: &'a str,
    pub entries: Vec<Pair<'a>>,
}

/// What the lines of a sheet say; what lines of its kind have not is empty.
#[derive(Clone, Debug, PartialEq, Eq)]
pub struct Sheet<'a> {
    pub kind: &'static Kind,
    pub fuel: usize,
    /// The values of `left` and `right`, or of `term`, where each stands once.
    pub terms: Vec<&'a str>,
    pub pairs: Vec<Pair<'a>>,
    pub members: Vec<Member<'a>>,
}

impl Sheet<'_> {
    pub fn empty(kind: &'static Kind) -> Self {
        Self {
            kind,
            fuel: 0,
            terms: Vec::new(),
            pairs: Vec::new(),
            members: Vec::new(),
        }
    }
}

// The lines that are not read yet, each still with its key.
struct Lines<'a>(&'a str);

impl<'a> Lines<'a> {
    /// The value of the next line, if that has this key.
    fn value(&mut self, key: &str) -> Option<&'a str> {
        let after = self.0.strip_prefix(key)?.strip_prefix('=')?;
        let (value, rest) = after.split_once('\n')?;
        self.0 = rest;
        Some(value)
    }

    fn pairs(&mut self, first: &str, second: &str) -> Option<Vec<Pair<'a>>> {
        let mut pairs = Vec::new();
        while let Some(left) = self.value(first) {
            pairs.push((left, self.value(second)?));
        }
        Some(pairs)
    }

    fn members(&mut self) -> Option<Vec<Member<'a>>> {
        let mut members = Vec::new();
        while let Some(text) = self.value("member") {
            let entries = self.pairs("key", "value")?;
            if repeated(&entries) {
                return None;
            }
            members.push(Member { text, entries });
        }
        Some(members)
    }
}

fn repeated(entries: &[Pair]) -> bool {
    let mut keys: Vec<&str> = entries.iter().map(|entry| entry.0).collect();
    keys.sort_unstable();
    keys.windows(2).any(|two| two[0] == two[1])
}

/// The fuel of a text: a decimal from 0 to 65,536 with no leading zero.
pub fn fuel(text: &str) -> Option<usize> {
    let digits = !text.is_empty() && text.bytes().all(|byte| byte.is_ascii_digit());
    if !digits || text.len() > 5 || text.len() > 1 && text.starts_with('0') {
        return None;
    }
    text.parse().ok().filter(|fuel| *fuel <= MOST_FUEL)
}

fn lines(text: &str) -> Option<Sheet<'_>> {
    let mut lines = Lines(text);
    let kind = kinds::named(lines.value("kind")?.as_bytes())?;
    let mut sheet = Sheet::empty(kind);
    match kind.form {
        Form::Sides => sheet.terms = vec![lines.value("left")?, lines.value("right")?],
        Form::Term => sheet.terms = vec![lines.value("term")?],
        Form::FuelPairs => {
            sheet.fuel = fuel(lines.value("fuel")?)?;
            sheet.pairs = lines.pairs("left", "right")?;
        }
        Form::PairsMembers => {
            sheet.pairs = lines.pairs("left", "right")?;
            sheet.members = lines.members()?;
        }
        Form::TermMember | Form::TermMembers => {
            sheet.terms = vec![lines.value("term")?];
            sheet.members = lines.members()?;
        }
    }
    let right_count = kind.form != Form::TermMember || sheet.members.len() == 1;
    (right_count && lines.0.is_empty()).then_some(sheet)
}

/// The sheet, or refusal 1, 2 or 3.
pub fn read(bytes: &[u8]) -> Result<Sheet<'_>, Refusal> {
    if bytes.len() > LONGEST {
        return Err(Refusal::TooLong);
    }
    if !bytes.iter().all(|byte| matches!(byte, 10 | 32..=126)) {
        return Err(Refusal::ForeignByte);
    }
    let text = std::str::from_utf8(bytes).expect("plain bytes");
    lines(text).ok_or(Refusal::LineOutOfPlace)
}

fn count(byte: u8, of: &[u8]) -> u64 {
    of.iter().filter(|other| **other == byte).count() as u64
}

/// The words of the work area that the sheet needs.
pub fn words_needed(bytes: &[u8], sheet: &Sheet) -> u64 {
    let raise = if sheet.kind.schemes {
        2 * count(b'(', sheet.terms[0].as_bytes())
    } else {
        0
    };
    65_536 * (count(b':', bytes) + raise + 16) + 16 * bytes.len() as u64
}
