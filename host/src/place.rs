// Where a refused sheet is at fault, for people to read. Nothing here is proved, and nothing here
// decides: the refusal is the library's, and a place is only looked for once it is known.
pub mod lines;
pub mod terms;

use std::fmt;

use crate::sheet;

/// A line and, where it makes sense, a column, both from 1, with what is wrong there.
#[derive(Clone, Debug, PartialEq, Eq)]
pub struct Place {
    pub line: usize,
    pub column: Option<usize>,
    pub reason: String,
}

impl Place {
    pub fn new(line: usize, column: usize, reason: impl Into<String>) -> Self {
        Self {
            line,
            column: Some(column),
            reason: reason.into(),
        }
    }
}

impl fmt::Display for Place {
    fn fmt(&self, out: &mut fmt::Formatter) -> fmt::Result {
        write!(out, "line {}", self.line)?;
        if let Some(column) = self.column {
            write!(out, ", column {column}")?;
        }
        write!(out, ": {}", self.reason)
    }
}

/// The most bytes of a sheet that a reason repeats.
const SHOWN: usize = 40;

/// A piece of the sheet as a reason repeats it.
pub fn shown(piece: &[u8]) -> String {
    let text = String::from_utf8_lossy(&piece[..piece.len().min(SHOWN)]).into_owned();
    let more = if piece.len() > SHOWN { ".." } else { "" };
    format!("`{text}{more}`")
}

// What people call a byte that often strays into a text.
fn nickname(byte: u8) -> &'static str {
    match byte {
        0 => " (NUL)",
        9 => " (a tab)",
        13 => " (a carriage return)",
        128.. => " (no ASCII)",
        _ => "",
    }
}

/// The first byte that no sheet has.
pub fn foreign(bytes: &[u8]) -> Option<Place> {
    let offset = bytes
        .iter()
        .position(|byte| !matches!(byte, 10 | 32..=126))?;
    let before = &bytes[..offset];
    let line = 1 + before.iter().filter(|byte| **byte == 10).count();
    let start = before.iter().rposition(|byte| *byte == 10);
    let column = 1 + offset - start.map_or(0, |newline| newline + 1);
    let byte = bytes[offset];
    let reason = format!("byte {byte}{}, at offset {offset}", nickname(byte));
    Some(Place::new(line, column, reason))
}

/// What is said of a sheet that is too long; its size, where it is known.
pub fn long(bytes: &[u8], size: Option<u64>) -> Option<String> {
    if bytes.len() <= sheet::LONGEST {
        return None;
    }
    let most = sheet::LONGEST;
    Some(match size {
        Some(size) if size > most as u64 => format!("{size} bytes, where {most} are the most"),
        _ => format!("over {most} bytes"),
    })
}
