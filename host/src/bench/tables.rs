// The tables: the times of each sheet, those of pages, and how times grow where the size is doubled.
use std::{
    fmt::Write as _,
    io::{self, Write as _},
    time::Duration,
};

use super::{
    clock::{self, Found, Laid},
    growth::{Workload, ordered},
    members::slow,
    pages::{PAGES, pages as paged},
};
use crate::kinds::Kind;

/// The time that is spent on each of Rust, port and clearing.
const ENOUGH: Duration = Duration::from_millis(200);
const ENOUGH_FOR_A_SIZE: Duration = Duration::from_millis(100);

const GROWTH: &str =
    "| workload | n | of | n ms | 2n ms | 4n ms | 8n ms | 16n ms | mean factor | last factor |";

/// A table that was printed row by row, and what it shows.
#[derive(Default)]
pub struct Table {
    pub text: String,
    /// The sheets whose answer is not that of the Rust.
    pub wrong: Vec<String>,
    /// The sheets with a ratio, and those with one above 1.00.
    pub rated: usize,
    pub above: usize,
}

impl Table {
    fn headed(head: &str) -> Self {
        let mut table = Self::default();
        let columns = head.split('|').count() - 2;
        table.add(head);
        table.add(&format!("|{}", "---|".repeat(columns)));
        table
    }

    fn add(&mut self, row: &str) {
        println!("{row}");
        io::stdout().flush().expect("standard output takes a row");
        writeln!(self.text, "{row}").expect("a string takes a row");
    }

    fn judge(&mut self, found: &Found, name: &str) {
        if !found.agreed {
            self.wrong.push(format!("{}, {name}", found.kind));
        }
    }

    fn judge_pages(&mut self, laid: &Laid, name: &str) {
        if !laid.agreed {
            self.wrong.push(format!("pages, {name}"));
        }
    }

    // The ratio of a time to another, with a mark where it is above 1.00.
    fn rate(&mut self, time: Duration, of: Duration) -> String {
        let ratio = time.as_secs_f64() / of.as_secs_f64();
        let above = ratio >= 1.005;
        self.rated += 1;
        self.above += usize::from(above);
        format!("{ratio:.2}{}", if above { " above" } else { "" })
    }

    // That of the port to the Rust and a clearing.
    fn ratio(&mut self, found: &Found) -> String {
        let Some(rust) = found.rust else {
            return "-".to_owned();
        };
        self.rate(found.port, rust + found.clearing)
    }

    // A sheet's pages: beside the Rust's answer and a clearing, and beside 1.3 answers and a writing.
    fn page_line(&mut self, laid: &Laid, name: &str) {
        self.judge_pages(laid, name);
        let found = &laid.answered;
        let whole = found.rust.map(|rust| rust + found.clearing);
        let whole = whole.map_or("-".to_owned(), |whole| {
            format!("{:.2}", laid.page.as_secs_f64() / whole.as_secs_f64())
        });
        let bar = self.rate(laid.page, found.port.mul_f64(1.3) + laid.writing);
        let speed = laid.bytes as f64 / laid.page.as_secs_f64() / 1e9;
        let answer = if laid.bytes == 0 {
            0
        } else {
            found.answer.len()
        };
        self.add(&format!(
            "| {name} | {} | {} | {} | {} | {} | {} | {} | {} | {whole} | {bar} | {speed:.2} |",
            grouped(found.bytes),
            grouped(answer),
            grouped(laid.bytes),
            found.rust.map_or("-".to_owned(), milliseconds),
            milliseconds(found.port),
            milliseconds(laid.page),
            milliseconds(found.clearing),
            milliseconds(laid.writing),
        ));
    }

    fn line(&mut self, found: &Found, name: &str) {
        self.judge(found, name);
        let ratio = self.ratio(found);
        let rust = found.rust.map_or("-".to_owned(), milliseconds);
        self.add(&format!(
            "| {} | {name} | {} | {} | {rust} | {} | {} | {ratio} |",
            found.kind,
            grouped(found.bytes),
            grouped(found.words),
            milliseconds(found.port),
            milliseconds(found.clearing),
        ));
    }
}

impl Table {
    /// How many sheets are above 1.00.
    pub fn summary(&self) -> String {
        let Self { rated, above, .. } = self;
        format!("{above} of {rated} lines are above 1.00.")
    }
}

// A number with a comma after each three digits.
fn grouped(number: usize) -> String {
    let digits = number.to_string();
    let mut text = String::new();
    for (index, digit) in digits.chars().enumerate() {
        if index > 0 && (digits.len() - index).is_multiple_of(3) {
            text.push(',');
        }
        text.push(digit);
    }
    text
}

fn milliseconds(time: Duration) -> String {
    let number = time.as_secs_f64() * 1e3;
    if number < 0.1 {
        format!("{number:.4}")
    } else if number < 100.0 {
        format!("{number:.3}")
    } else {
        grouped(number.round() as usize)
    }
}

/// The first table. The Rust is asked about the sheets that take it over 10 seconds only if that is
/// wanted; else their answers are compared with the stored ones.
pub fn lines(kinds: &[&Kind], long: bool) -> Table {
    let mut table = Table::headed(
        "| kind | workload | bytes | words | Rust ms | port ms | clearing ms | ratio |",
    );
    for kind in kinds {
        for sample in (kind.samples)() {
            let found = clock::times(sample.name, &sample.sheet, true, ENOUGH);
            table.line(&found, sample.name);
        }
        let line = format!("kind={}\n", kind.name);
        let of_kind = |(sample, _): &(super::Sample, _)| sample.sheet.starts_with(&line);
        for (sample, answer) in slow().into_iter().filter(of_kind) {
            let mut found = clock::times(sample.name, &sample.sheet, long, ENOUGH);
            found.agreed &= found.answer == answer;
            table.line(&found, sample.name);
        }
    }
    table
}

/// That of pages.
pub fn page_growths() -> Table {
    let mut table = Table::headed(GROWTH);
    for workload in PAGES {
        grow_pages(&mut table, workload);
    }
    table
}

/// The times of pages.
pub fn pages() -> Table {
    let mut table = Table::headed(
        "| workload | bytes | answer bytes | page bytes | Rust ms | answer ms | page ms | clearing ms | writing ms | of Rust | of the bar | GB/s |",
    );
    for sample in paged() {
        let laid = clock::page_times(sample.name, &sample.sheet, ENOUGH);
        table.page_line(&laid, sample.name);
    }
    table
}

// How often the last time is the first, per doubling, and how often it is the one before it.
fn factors(times: &[Duration]) -> (f64, f64) {
    let times: Vec<f64> = times.iter().map(Duration::as_secs_f64).collect();
    let last = times.len() - 1;
    let mean = (times[last] / times[0]).powf(1.0 / last as f64);
    (mean, times[last] / times[last - 1])
}

fn growth_row(table: &mut Table, title: &str, who: &str, times: &[Duration]) {
    let cells: String = times
        .iter()
        .map(|time| format!(" {} |", milliseconds(*time)))
        .collect();
    let (mean, last) = factors(times);
    table.add(&format!(
        "| {title} | {who} |{cells} {mean:.1} | {last:.1} |"
    ));
}

fn title(of: &str, workload: &Workload) -> String {
    let Workload {
        name, least, unit, ..
    } = workload;
    format!("{of}: {name} | {} {unit}", grouped(*least))
}

// The calls for answer and pages, and a writing of the pages' bytes.
fn grow_pages(table: &mut Table, workload: &Workload) {
    let mut found = Vec::new();
    for size in workload.sizes() {
        let laid = clock::page_times(workload.name, &(workload.sheet)(size), ENOUGH_FOR_A_SIZE);
        table.judge_pages(&laid, &format!("{}: {size}", workload.name));
        found.push(laid);
    }
    let of = |time: fn(&Laid) -> Duration| found.iter().map(time).collect::<Vec<_>>();
    let title = title("pages", workload);
    growth_row(table, &title, "pages", &of(|laid| laid.page));
    growth_row(table, "|", "answer", &of(|laid| laid.answered.port));
    growth_row(table, "|", "writing", &of(|laid| laid.writing));
}

fn grow(table: &mut Table, kind: &Kind, workload: &Workload) {
    let found: Vec<Found> = workload
        .sizes()
        .into_iter()
        .map(|size| {
            let sheet = (workload.sheet)(size);
            let found = clock::times(workload.name, &sheet, true, ENOUGH_FOR_A_SIZE);
            table.judge(&found, &format!("{}: {size}", workload.name));
            found
        })
        .collect();
    let title = title(kind.name, workload);
    let of = |time: fn(&Found) -> Duration| found.iter().map(time).collect::<Vec<_>>();
    growth_row(table, &title, "port", &of(|found| found.port));
    growth_row(table, "|", "clearing", &of(|found| found.clearing));
    let rust: Option<Vec<Duration>> = found.iter().map(|found| found.rust).collect();
    if let Some(times) = rust {
        growth_row(table, "|", "Rust", &times);
    }
}

/// The second table: n, 2n, 4n, 8n and 16n, and how much a doubling costs.
pub fn growths(kinds: &[&Kind]) -> Table {
    let mut table = Table::headed(GROWTH);
    for kind in ordered(kinds) {
        for workload in kind.workloads {
            grow(&mut table, kind, workload);
        }
    }
    table
}
