// Reading of sheets: no more bytes than tell that a sheet is too long.
use std::{
    fs::File,
    io::{self, ErrorKind, IsTerminal, Read},
    path::Path,
};

use super::{
    arguments::Source,
    status::{self, Failure},
};
use crate::sheet;

fn read_from(reader: impl Read, sheet: &mut Vec<u8>) -> io::Result<usize> {
    sheet.clear();
    reader.take(sheet::LONGEST as u64 + 1).read_to_end(sheet)
}

// The size of a file that has one.
fn read_file(path: &Path, sheet: &mut Vec<u8>) -> io::Result<Option<u64>> {
    let file = File::open(path)?;
    let read = read_from(&file, sheet)?;
    if read <= sheet::LONGEST {
        return Ok(None);
    }
    let known = file.metadata().ok().filter(|known| known.is_file());
    Ok(known.map(|known| known.len()))
}

fn read_standard(sheet: &mut Vec<u8>) -> io::Result<Option<u64>> {
    let input = io::stdin();
    if input.is_terminal() {
        status::tell("reading a sheet from the terminal, up to the end of input (Ctrl-D)");
    }
    read_from(input.lock(), sheet).map(|_| None)
}

// A file that cannot be had, or one that fails while it is read.
fn status_of(error: &io::Error) -> u8 {
    match error.kind() {
        ErrorKind::NotFound
        | ErrorKind::PermissionDenied
        | ErrorKind::IsADirectory
        | ErrorKind::NotADirectory
        | ErrorKind::InvalidFilename
        | ErrorKind::InvalidInput => status::NO_INPUT,
        _ => status::IO,
    }
}

/// Reads a sheet in place of what was there; where it is too long its size, if that is known.
pub fn read(source: &Source, sheet: &mut Vec<u8>) -> Result<Option<u64>, Failure> {
    let read = match source {
        Source::Standard => read_standard(sheet),
        Source::File(path) => read_file(path, sheet),
    };
    read.map_err(|error| Failure::new(status_of(&error), format!("{source}: {error}")))
}
