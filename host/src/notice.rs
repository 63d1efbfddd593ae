// What is said where the Rust sources, the proved library or a tool were not found.
use std::io::{self, Write};

/// A line on standard error, which the test harness does not hold back.
pub fn tell(line: String) {
    io::stderr()
        .write_all(line.as_bytes())
        .expect("standard error takes a line");
}

/// Tells on standard error that the sources are absent and what that leaves out, if they are.
pub fn absent(left_out: &str) {
    if !oracle::present() {
        tell(format!("{}; {left_out}\n", oracle::notice()));
    }
}

/// The same for the library; whether it is absent.
pub fn library_absent(left_out: &str) -> bool {
    if !yukhtsami::present() {
        tell(format!("{}; {left_out}\n", yukhtsami::notice()));
    }
    !yukhtsami::present()
}
