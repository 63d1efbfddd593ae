// The lines of a sheet, walked in order up to the first that is out of place.
use std::collections::BTreeMap;

use super::{Place, shown};
use crate::{
    kinds::{self, Form, Kind},
    sheet,
};

/// A line whose value must be a term.
#[derive(Clone, Copy, Debug, PartialEq, Eq)]
pub struct TermLine<'a> {
    pub number: usize,
    /// The column of the value's first byte.
    pub column: usize,
    pub text: &'a [u8],
}

/// What the walk finds in a sheet whose lines are in place.
pub struct Walked<'a> {
    pub kind: &'static Kind,
    pub terms: Vec<TermLine<'a>>,
}

const END: &str = "the end of the sheet";

// The lines that are not walked yet.
struct Walk<'a> {
    rest: &'a [u8],
    number: usize,
    terms: Vec<TermLine<'a>>,
}

// The next line, without its byte 10 if it has one.
fn line(rest: &[u8]) -> &[u8] {
    rest.split(|byte| *byte == 10).next().unwrap_or_default()
}

// A line as a reason tells it.
fn told(line: &[u8]) -> String {
    match line.iter().position(|byte| *byte == b'=') {
        _ if line.is_empty() => "an empty line".to_owned(),
        Some(end) => shown(&line[..end]),
        None => format!("{}, a line without `=`", shown(line)),
    }
}

impl<'a> Walk<'a> {
    fn new(rest: &'a [u8]) -> Self {
        let (number, terms) = (1, Vec::new());
        Self {
            rest,
            number,
            terms,
        }
    }

    // Whether the next line has this key.
    fn has(&self, key: &str) -> bool {
        let after = self.rest.strip_prefix(key.as_bytes());
        after.is_some_and(|after| after.first() == Some(&b'='))
    }

    // The place of the next line, which is not what is expected.
    fn unexpected(&self, expected: &str) -> Place {
        let reason = match self.rest {
            [] if self.number == 1 => "the sheet is empty".to_owned(),
            [] => format!("expected {expected}, found {END}"),
            rest => format!("expected {expected}, found {}", told(line(rest))),
        };
        Place::new(self.number, 1, reason)
    }

    // The value of the next line, which must have this key.
    fn value(&mut self, key: &str) -> Result<TermLine<'a>, Place> {
        if !self.has(key) {
            return Err(self.unexpected(&format!("`{key}`")));
        }
        let (whole, number) = (line(self.rest), self.number);
        if whole.len() == self.rest.len() {
            let reason = "the last line has no byte 10 at its end";
            return Err(Place::new(number, whole.len() + 1, reason));
        }
        self.rest = &self.rest[whole.len() + 1..];
        self.number += 1;
        let column = key.len() + 2;
        let text = &whole[key.len() + 1..];
        Ok(TermLine {
            number,
            column,
            text,
        })
    }

    fn term(&mut self, key: &str) -> Result<(), Place> {
        let value = self.value(key)?;
        self.terms.push(value);
        Ok(())
    }

    fn fuel(&mut self) -> Result<(), Place> {
        let value = self.value("fuel")?;
        let good = std::str::from_utf8(value.text).is_ok_and(|text| sheet::fuel(text).is_some());
        if good {
            return Ok(());
        }
        let most = sheet::MOST_FUEL;
        let reason = format!(
            "{} is no decimal from 0 to {most} without leading zero",
            shown(value.text)
        );
        Err(Place::new(value.number, value.column, reason))
    }

    fn pairs(&mut self) -> Result<(), Place> {
        while self.has("left") {
            self.term("left")?;
            self.term("right")?;
        }
        Ok(())
    }

    fn member(&mut self) -> Result<(), Place> {
        self.value("member")?;
        let mut keys = BTreeMap::new();
        while self.has("key") {
            let key = self.value("key")?;
            self.value("value")?;
            if let Some(first) = keys.insert(key.text, key.number) {
                let reason = format!(
                    "the member has the key {} already, in line {first}",
                    shown(key.text)
                );
                return Err(Place::new(key.number, key.column, reason));
            }
        }
        Ok(())
    }

    // Any number of members, then the end.
    fn members(&mut self, before: &str) -> Result<(), Place> {
        let mut next = before;
        while self.has("member") {
            self.member()?;
            next = "`key`, `member`";
        }
        self.end(&format!("{next} or {END}"))
    }

    fn end(&self, expected: &str) -> Result<(), Place> {
        if self.rest.is_empty() {
            return Ok(());
        }
        Err(self.unexpected(expected))
    }

    // What comes after the line `kind`.
    fn body(&mut self, form: Form) -> Result<(), Place> {
        match form {
            Form::Sides => {
                self.term("left")?;
                self.term("right")?;
                self.end(END)
            }
            Form::Term => {
                self.term("term")?;
                self.end(END)
            }
            Form::FuelPairs => {
                self.fuel()?;
                self.pairs()?;
                self.end(&format!("`left` or {END}"))
            }
            Form::PairsMembers => {
                self.pairs()?;
                self.members("`left`, `member`")
            }
            Form::TermMember => {
                self.term("term")?;
                self.member()?;
                self.end(&format!("`key` or {END}"))
            }
            Form::TermMembers => {
                self.term("term")?;
                self.members("`member`")
            }
        }
    }
}

/// The terms of a sheet without foreign bytes, or the first line that is out of place.
pub fn walk(bytes: &[u8]) -> Result<Walked<'_>, Place> {
    let mut walk = Walk::new(bytes);
    let line = walk.value("kind")?;
    let Some(kind) = kinds::named(line.text) else {
        let reason = format!("{} is no kind of sheet", shown(line.text));
        return Err(Place::new(line.number, line.column, reason));
    };
    walk.body(kind.form)?;
    let terms = walk.terms;
    Ok(Walked { kind, terms })
}

/// The first line that is out of place.
pub fn out_of_place(bytes: &[u8]) -> Option<Place> {
    walk(bytes).err()
}
