// Sheets whose pages are timed beside their answers.
use super::{Sample, Workload, solving, terms};
use crate::{generate, page};

const MOST_LINES: usize = page::BELOW * yukhtsami::MOST_PAGES;

/// By the lines on paper, of 63 characters each.
pub const PAGES: &[Workload] = &[Workload::new(
    "long texts",
    "lines",
    10_000,
    generate::of_lines,
)];

/// Small sheets, many short lines, long texts, and one line more than 9,999 pages have.
pub fn pages() -> Vec<Sample> {
    let lines = |name, lines| Sample {
        name,
        sheet: generate::of_lines(lines),
    };
    let known = [solving::solvings("unify"), terms::reductions()].concat();
    let short = [
        "small: two bindings",
        "1,500 bindings",
        "small: first of a pair",
        "4,095 h",
    ];
    let mut list: Vec<Sample> = known
        .into_iter()
        .filter(|sample| short.contains(&sample.name))
        .collect();
    list.push(lines("an answer of 1 MB", 16_000));
    list.push(lines("an answer of 10 MB", 160_000));
    list.push(lines("9,999 pages", MOST_LINES));
    list.push(lines("10,000 pages: refusal 13, beside 12", MOST_LINES + 1));
    list
}
