// The Rust unifier, built unchanged from its own folder, behind a bridge with types of this crate.
// Where the folder is absent the crate still builds, and `present` says so.

#[cfg(sources)]
include!(concat!(env!("OUT_DIR"), "/modules.rs"));

#[cfg(sources)]
mod bridge;
#[cfg(sources)]
pub use bridge::*;
#[cfg(sources)]
pub mod texts;

#[cfg(not(sources))]
mod absent;
#[cfg(not(sources))]
pub use absent::*;

// What the sources import from outside their folder.
pub mod error {
    #[derive(Debug)]
    pub enum Error {
        Rejected(&'static str),
    }

    pub type Result<T> = std::result::Result<T, Error>;
}

pub mod inventory {
    pub const FUNCTIONS: &[(&str, usize)] = &[("pair", 2), ("fst", 1), ("snd", 1)];
}

#[derive(Clone, Debug, PartialEq, Eq)]
pub enum Term {
    Variable(String),
    Apply(String, Vec<Term>),
}

/// A member of a family: the text of its `member` line, then keys and values.
#[derive(Clone, Debug)]
pub struct Member<'a> {
    pub text: &'a str,
    pub entries: Vec<(&'a str, &'a str)>,
}

/// Whether the Rust sources were found when this crate was built.
pub const fn present() -> bool {
    cfg!(sources)
}

/// What to tell the user where they were not.
pub fn notice() -> String {
    format!(
        "oracle sources absent: no Rust files in {} (set YUKHTSAMI_ORACLE to their folder)",
        env!("ORACLE_FOLDER")
    )
}
