// Exit statuses that are no refusals, with the numbers of sysexits.h, and what is told with them.
use std::io::{self, Write};

pub const USAGE: u8 = 64;
pub const NO_INPUT: u8 = 66;
pub const UNAVAILABLE: u8 = 69;
pub const SOFTWARE: u8 = 70;
pub const SYSTEM: u8 = 71;
pub const IO: u8 = 74;

/// Why there is no answer.
#[derive(Debug, PartialEq, Eq)]
pub struct Failure {
    pub status: u8,
    pub message: String,
}

impl Failure {
    pub fn new(status: u8, message: impl Into<String>) -> Self {
        let message = message.into();
        Self { status, message }
    }

    /// Tells the failure; its status.
    pub fn end(self) -> u8 {
        tell(&self.message);
        self.status
    }
}

/// Standard output does not take an answer.
pub fn not_written(error: io::Error) -> Failure {
    Failure::new(IO, format!("standard output: {error}"))
}

/// A line on standard error, if that takes one.
pub fn tell(message: &str) {
    let line = format!("yukhtsami: {message}\n");
    let _ = io::stderr().write_all(line.as_bytes());
}
