// The times of a sheet: of the Rust, of the port's calls, of a plain clearing and a plain writing, the least
// of many runs. They take turns, so that other work on the machine hits them alike.
use std::{
    hint::black_box,
    time::{Duration, Instant},
};

use yukhtsami::{Call, MOST_PAGES, PAGE_BYTES, Refusal};

use crate::{
    deep, lent, page,
    reference::by_rust::Question,
    sheet::{self, Sheet},
};

/// The time of one turn, if a run is not longer.
const TURN: Duration = Duration::from_millis(5);
const FEWEST_RUNS: usize = 5;
/// After so long no more runs are asked for, however few there were.
const LONGEST: Duration = Duration::from_secs(2);

/// What was found of a sheet and a call.
pub struct Found {
    pub kind: &'static str,
    pub bytes: usize,
    pub words: usize,
    /// None where the Rust was not asked.
    pub rust: Option<Duration>,
    pub port: Duration,
    pub clearing: Duration,
    pub answer: String,
    /// Whether each answer of the port is that of the Rust, if the Rust was asked, and each other's.
    pub agreed: bool,
}

/// What was found of the pages of a sheet.
pub struct Laid {
    /// The answer's call, or its refusal by an output of 0 bytes where there are too many pages.
    pub answered: Found,
    pub page: Duration,
    /// The bytes of the pages; none where they are too many.
    pub bytes: usize,
    /// A plain writing of so many bytes.
    pub writing: Duration,
    /// Whether the pages hold the answer, each time.
    pub agreed: bool,
}

// What takes turns. The Rust's answer; a call with so much room; a clearing of the words; a writing of so
// many bytes.
#[derive(Clone, Copy)]
enum Part {
    Rust,
    Port(Call, usize),
    Clearing,
    Writing(usize),
}

// The runs of one part so far.
#[derive(Default)]
struct Runs {
    count: usize,
    spent: Duration,
    least: Option<Duration>,
    last: String,
    same: bool,
}

impl Runs {
    fn new() -> Self {
        Self {
            same: true,
            ..Self::default()
        }
    }

    fn done(&self, enough: Duration) -> bool {
        self.spent >= LONGEST || self.count >= FEWEST_RUNS && self.spent >= enough
    }

    // Takes a turn, unless the runs are enough; whether it did.
    fn again(&mut self, enough: Duration, turn: impl FnOnce(&mut Self)) -> bool {
        let over = self.done(enough);
        if !over {
            turn(self);
        }
        !over
    }

    // Runs a function until the turn is over. The function tells its time and what it gave.
    fn turn(&mut self, mut run: impl FnMut() -> (Duration, String)) {
        let mut left = TURN;
        loop {
            let (time, told) = run();
            self.same &= self.count == 0 || told == self.last;
            self.count += 1;
            self.spent += time;
            self.least = Some(self.least.map_or(time, |least| least.min(time)));
            self.last = told;
            match left.checked_sub(time) {
                Some(rest) if !rest.is_zero() => left = rest,
                _ => return,
            }
        }
    }
}

fn clocked<T>(function: impl FnOnce() -> T) -> (Duration, T) {
    let start = Instant::now();
    let result = black_box(function());
    (start.elapsed(), result)
}

// One call with no word of the work area zero.
fn call(call: Call, bytes: &[u8], work: &mut [u32], output: &mut [u8]) -> (Duration, String) {
    work.fill(u32::MAX);
    let (time, called) = clocked(|| yukhtsami::call(call, bytes, work, output));
    let answer = match Refusal::of(called.refusal) {
        None => String::from_utf8_lossy(&output[..called.written]).into_owned(),
        Some(refusal) => refusal.to_string(),
    };
    (time, answer)
}

// A plain clearing of the same words.
fn clear(work: &mut [u32]) -> (Duration, String) {
    work.fill(u32::MAX);
    let (time, ()) = clocked(|| black_box(&mut *work).fill(0));
    (time, String::new())
}

// A plain writing of so many bytes.
fn write(output: &mut [u8]) -> (Duration, String) {
    let (time, ()) = clocked(|| black_box(&mut *output).fill(b' '));
    (time, String::new())
}

fn without_spent(answer: &str) -> String {
    let kept = answer.split_inclusive('\n');
    kept.filter(|line| !line.starts_with("spent=")).collect()
}

// A sheet that is timed, with what is lent.
struct Timed<'a> {
    name: &'a str,
    bytes: &'a [u8],
    kind: &'static str,
    question: Option<Question<'a>>,
    work: Vec<u32>,
    output: Vec<u8>,
}

impl<'a> Timed<'a> {
    fn new(
        name: &'a str,
        bytes: &'a [u8],
        read: &'a Sheet<'a>,
        ask_rust: bool,
        room: usize,
    ) -> Self {
        let question = ask_rust && oracle::present();
        Self {
            name,
            bytes,
            kind: read.kind.name,
            question: question.then(|| deep::run(|| (read.kind.by_rust)(read))),
            work: vec![u32::MAX; sheet::words_needed(bytes, read) as usize],
            output: vec![0; room],
        }
    }

    fn turn(&mut self, part: Part, runs: &mut Runs) {
        let (work, output) = (&mut self.work, &mut self.output);
        match part {
            Part::Rust => {
                let Some(question) = &self.question else {
                    return;
                };
                let ask = || question().unwrap_or_else(|| Refusal::UnreadableTerm.to_string());
                deep::run(|| runs.turn(|| clocked(ask)));
            }
            Part::Port(called, room) => lent::on_a_small_stack(self.name, || {
                runs.turn(|| call(called, self.bytes, work, &mut output[..room]));
            }),
            Part::Clearing => lent::on_a_small_stack(self.name, || runs.turn(|| clear(work))),
            Part::Writing(length) => lent::on_a_small_stack(self.name, || {
                runs.turn(|| write(&mut output[..length]));
            }),
        }
    }

    // The runs of each of these parts, on each of which at least so much time is spent.
    fn runs<const N: usize>(&mut self, parts: [Part; N], enough: Duration) -> [Runs; N] {
        let mut all = parts.map(|_| Runs::new());
        loop {
            let mut over = true;
            for (part, runs) in parts.into_iter().zip(&mut all) {
                let absent = matches!(part, Part::Rust) && self.question.is_none();
                over &= absent || !runs.again(enough, |runs| self.turn(part, runs));
            }
            if over {
                return all;
            }
        }
    }

    fn found(&self, rust: &Runs, port: Runs, clearing: &Runs) -> Found {
        let told = self.question.is_none() || rust.last == without_spent(&port.last);
        Found {
            kind: self.kind,
            bytes: self.bytes.len(),
            words: self.work.len(),
            rust: rust.least,
            port: port.least.expect("a run of the port"),
            clearing: clearing.least.expect("a run of the clearing"),
            agreed: rust.same && port.same && told,
            answer: port.last,
        }
    }
}

/// The times of a sheet; of each of the three at least so much time is spent. The Rust is left out
/// if it is not asked for or absent.
pub fn times(name: &str, text: &str, ask_rust: bool, enough: Duration) -> Found {
    let bytes = text.as_bytes();
    let read = sheet::read(bytes).expect("a workload is a sheet");
    let room = 64 * sheet::LONGEST;
    let mut timed = Timed::new(name, bytes, &read, ask_rust, room);
    let parts = [Part::Rust, Part::Port(Call::Answer, room), Part::Clearing];
    let [rust, port, clearing] = timed.runs(parts, enough);
    timed.found(&rust, port, &clearing)
}

/// The times of a sheet's pages beside those of its answer and a plain writing. Where the pages are too
/// many the answer's call has no output, so that both only measure.
pub fn page_times(name: &str, text: &str, enough: Duration) -> Laid {
    let bytes = text.as_bytes();
    let read = sheet::read(bytes).expect("a workload is a sheet");
    let room = MOST_PAGES * PAGE_BYTES;
    let mut timed = Timed::new(name, bytes, &read, true, room);
    let (_, pages) = call(Call::Page, bytes, &mut timed.work, &mut timed.output);
    let many = pages == Refusal::TooManyPages.to_string();
    let length = if many { 0 } else { pages.len() };
    let parts = [
        Part::Rust,
        Part::Port(Call::Answer, if many { 0 } else { room }),
        Part::Port(Call::Page, room),
        Part::Clearing,
        Part::Writing(length),
    ];
    let [rust, answer, page, clearing, writing] = timed.runs(parts, enough);
    let answered = timed.found(&rust, answer, &clearing);
    let held = page::read_back(page.last.as_bytes());
    let right = if many {
        answered.answer == Refusal::ShortOutput.to_string() && page.last == pages
    } else {
        answered.agreed && held.as_ref() == Some(&answered.answer)
    };
    Laid {
        answered,
        page: page.least.expect("a run of the pages"),
        bytes: length,
        writing: writing.least.expect("a run of the writing"),
        agreed: right && page.same,
    }
}
