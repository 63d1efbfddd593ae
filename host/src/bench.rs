// Times of the linked library beside those of the Rust: on sheets of every kind, and on workloads
// whose size is doubled.
mod clock;
mod growth;
pub(crate) mod members;
mod pages;
mod report;
pub(crate) mod solving;
mod tables;
pub(crate) mod terms;

pub use growth::Workload;
pub use members::slow;
pub use report::written;
use tables::Table;

use std::fs;

use crate::kinds::{KINDS, Kind};

/// A sheet to time.
#[derive(Clone)]
pub struct Sample {
    pub name: &'static str,
    pub sheet: String,
}

// A leaf under so many levels, each a front and a back.
fn nested(front: &str, leaf: &str, back: &str, depth: usize) -> String {
    format!("{}{leaf}{}", front.repeat(depth), back.repeat(depth))
}

fn sum(summands: &[String]) -> String {
    format!("tamtplus({})", summands.join(","))
}

// Numbered texts, from the first number up to the last, that not included.
fn numbered(numbers: std::ops::Range<usize>, one: impl Fn(usize) -> String) -> Vec<String> {
    numbers.map(one).collect()
}

fn reversed(list: &[String]) -> Vec<String> {
    list.iter().rev().cloned().collect()
}

/// A document to put the tables into.
struct Document<'a> {
    file: &'a str,
    text: String,
}

impl<'a> Document<'a> {
    const MARKS: [&'static str; 4] = ["machine", "times", "pages", "growth"];

    // The document as it is, with all of its marks.
    fn read(file: &'a str) -> Result<Self, String> {
        let text = fs::read_to_string(file).map_err(|error| format!("{file}: {error}"))?;
        let parts = Self::MARKS.map(|mark| (mark, ""));
        written(&text, &parts).map_err(|error| format!("{file}: {error}"))?;
        Ok(Self { file, text })
    }

    fn write(&self, parts: &Parts) -> Result<(), String> {
        let parts: Vec<_> = parts.iter().map(|(mark, part)| (*mark, &**part)).collect();
        let text = written(&self.text, &parts)?;
        fs::write(self.file, text).map_err(|error| format!("{}: {error}", self.file))
    }
}

// What is put between marks, by their names.
type Parts = Vec<(&'static str, String)>;

// A table that is told with how many of its lines are above 1.00.
fn summed(table: &Table) -> String {
    let summary = table.summary();
    println!("\n{summary}\n");
    format!("{}\n{summary}\n", table.text)
}

fn of_kinds(kinds: &[&Kind], long: bool, parts: &mut Parts) -> Vec<String> {
    let machine = report::machine();
    println!("{machine}");
    let lines = tables::lines(kinds, long);
    let times = summed(&lines);
    let growths = tables::growths(kinds);
    println!();
    parts.extend([
        ("machine", machine),
        ("times", times),
        ("growth", growths.text),
    ]);
    [lines.wrong, growths.wrong].concat()
}

fn of_pages(parts: &mut Parts) -> Vec<String> {
    let lines = tables::pages();
    let times = summed(&lines);
    let growths = tables::page_growths();
    parts.push(("pages", format!("{times}\n{}", growths.text)));
    [lines.wrong, growths.wrong].concat()
}

/// Prints the tables, and puts them into a document if one is named: those of these kinds, and with all
/// kinds or none those of pages. The sheets whose answer is not that of the Rust.
pub fn run(kinds: &[&Kind], long: bool, file: Option<&str>) -> Result<Vec<String>, String> {
    let document = file.map(Document::read).transpose()?;
    let (mut parts, mut wrong) = (Parts::new(), Vec::new());
    if !kinds.is_empty() {
        wrong.extend(of_kinds(kinds, long, &mut parts));
    }
    if kinds.is_empty() || kinds.len() == KINDS.len() {
        wrong.extend(of_pages(&mut parts));
    }
    if let (Some(document), true) = (document, wrong.is_empty()) {
        document.write(&parts)?;
    }
    Ok(wrong)
}
