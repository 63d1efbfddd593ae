// The words of the command line.
use std::{ffi::OsString, fmt, path::PathBuf};

use yukhtsami::Call;

pub const HELP: &str = include_str!("help.txt");

/// The version, and by which logic the library was proved.
pub fn version() -> String {
    let library = match yukhtsami::logic() {
        _ if !yukhtsami::present() => "absent".to_owned(),
        "" => "present".to_owned(),
        logic => format!("rattle logic {logic}"),
    };
    let version = env!("CARGO_PKG_VERSION");
    format!("yukhtsami {version}\nproved library: {library}\n")
}

/// Where a sheet comes from.
#[derive(Debug, PartialEq, Eq)]
pub enum Source {
    Standard,
    File(PathBuf),
}

impl fmt::Display for Source {
    fn fmt(&self, out: &mut fmt::Formatter) -> fmt::Result {
        match self {
            Source::Standard => out.write_str("standard input"),
            Source::File(path) => write!(out, "{}", path.display()),
        }
    }
}

/// The sheets to answer and by which call, and what is lent where the user says so.
#[derive(Debug, Default, PartialEq, Eq)]
pub struct Job {
    pub call: Call,
    pub sources: Vec<Source>,
    pub words: Option<usize>,
    pub room: Option<usize>,
}

#[derive(Debug, PartialEq, Eq)]
pub enum Asked {
    Help,
    Version,
    Answers(Job),
}

impl Job {
    fn add(&mut self, word: OsString) {
        self.sources.push(if word == "-" {
            Source::Standard
        } else {
            Source::File(word.into())
        });
    }
}

fn fault(text: String) -> String {
    format!("{text}; see yukhtsami --help")
}

fn number(name: &str, value: Option<OsString>) -> Result<Option<usize>, String> {
    let value = value.ok_or_else(|| fault(format!("{name} needs a number")))?;
    let text = value.to_str().unwrap_or_default();
    let decimal = text.bytes().all(|byte| byte.is_ascii_digit());
    let found = text.parse().ok().filter(|_| decimal);
    let bad = || fault(format!("{name} takes a number, not '{}'", value.display()));
    found.ok_or_else(bad).map(Some)
}

// The name of an option and the value that is joined to it by `=`.
fn parted(word: &OsString) -> (String, Option<OsString>) {
    let word = word.to_string_lossy();
    match word.split_once('=') {
        Some((name, value)) => (name.to_owned(), Some(value.into())),
        None => (word.into_owned(), None),
    }
}

/// What the words ask for, or what is wrong with them.
pub fn read(mut words: impl Iterator<Item = OsString>) -> Result<Asked, String> {
    let mut job = Job::default();
    while let Some(word) = words.next() {
        if word == "-" || !word.as_encoded_bytes().starts_with(b"-") {
            job.add(word);
            continue;
        }
        let (name, value) = parted(&word);
        match (name.as_str(), value) {
            ("--", None) => words.by_ref().for_each(|word| job.add(word)),
            ("--help" | "-h", None) => return Ok(Asked::Help),
            ("--version" | "-V", None) => return Ok(Asked::Version),
            ("--page", None) => job.call = Call::Page,
            ("--words", value) => job.words = number(&name, value.or_else(|| words.next()))?,
            ("--room", value) => job.room = number(&name, value.or_else(|| words.next()))?,
            _ => return Err(fault(format!("unknown option '{}'", word.display()))),
        }
    }
    if job.sources.is_empty() {
        job.sources.push(Source::Standard);
    }
    Ok(Asked::Answers(job))
}

#[cfg(test)]
mod tests {
    use super::*;

    fn asked(words: &[&str]) -> Result<Asked, String> {
        read(words.iter().map(OsString::from))
    }

    fn file(name: &str) -> Source {
        Source::File(name.into())
    }

    #[test]
    fn options_may_stand_between_files() {
        let job = Job {
            call: Call::Page,
            sources: vec![file("a"), Source::Standard, file("b")],
            words: Some(5),
            room: Some(7),
        };
        let words = ["a", "--words", "5", "-", "--page", "--room=7", "b"];
        assert_eq!(asked(&words), Ok(Asked::Answers(job)));
    }

    #[test]
    fn after_two_dashes_come_files() {
        let sources = vec![file("--help"), Source::Standard, file("--")];
        let job = Job {
            sources,
            ..Job::default()
        };
        assert_eq!(asked(&["--", "--help", "-", "--"]), Ok(Asked::Answers(job)));
    }

    #[test]
    fn numbers_are_decimals_that_fit() {
        let most = usize::MAX.to_string();
        for good in ["0", "007", &most] {
            assert!(asked(&["--room", good]).is_ok(), "{good}");
        }
        for bad in ["", "-1", "+1", "1e3", " 1", "0x10", &format!("{most}0")] {
            assert!(asked(&["--room", bad]).is_err(), "{bad}");
        }
        assert!(asked(&["--words"]).is_err());
    }

    #[test]
    fn other_options_are_unknown() {
        for bad in ["--help=1", "--page=1", "-x", "--Words", "--=", "--word"] {
            assert!(asked(&[bad, "1"]).is_err(), "{bad}");
        }
    }
}
