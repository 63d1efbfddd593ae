// How far a long run is: one line on a terminal, written over in place.
use std::{
    io::Write,
    time::{Duration, Instant},
};

// The time before the line is first shown, and between two of it.
const PAUSE: Duration = Duration::from_millis(200);

pub struct Progress<W> {
    out: W,
    all: usize,
    next: Option<Instant>,
    pause: Duration,
    /// The characters that stand on the line.
    width: usize,
}

impl<W: Write> Progress<W> {
    /// Nothing is ever shown of one file, or where `shown` is false.
    pub fn new(out: W, shown: bool, all: usize) -> Self {
        let next = (shown && all > 1).then(|| Instant::now() + PAUSE);
        let (pause, width) = (PAUSE, 0);
        Self {
            out,
            all,
            next,
            pause,
            width,
        }
    }

    pub fn show(&mut self, done: usize) {
        let now = Instant::now();
        if self.next.is_none_or(|next| now < next) {
            return;
        }
        let line = format!("{done} of {} files", self.all);
        let _ = write!(self.out, "\r{line}");
        let _ = self.out.flush();
        self.width = line.len();
        self.next = Some(now + self.pause);
    }

    /// Takes the line away, so that something else can be written there.
    pub fn clear(&mut self) {
        if self.width > 0 {
            let _ = write!(self.out, "\r{:1$}\r", "", self.width);
            let _ = self.out.flush();
            self.width = 0;
        }
    }
}

#[cfg(test)]
mod tests {
    use super::*;

    fn run(shown: bool, all: usize, pause: Duration) -> String {
        let mut out = Vec::new();
        let mut progress = Progress::new(&mut out, shown, all);
        progress.pause = pause;
        progress.next = progress.next.map(|_| Instant::now());
        for done in 0..all {
            progress.show(done);
        }
        progress.clear();
        progress.clear();
        String::from_utf8(out).unwrap()
    }

    #[test]
    fn the_line_is_written_over_and_taken_away() {
        let said = "\r0 of 3 files\r1 of 3 files\r2 of 3 files\r            \r";
        assert_eq!(run(true, 3, Duration::ZERO), said);
    }

    #[test]
    fn the_line_waits_between_two_of_it() {
        let said = "\r0 of 3 files\r            \r";
        assert_eq!(run(true, 3, Duration::from_secs(60)), said);
    }

    #[test]
    fn nothing_is_shown_of_one_file_or_outside_a_terminal() {
        assert_eq!(run(true, 1, Duration::ZERO), "");
        assert_eq!(run(false, 3, Duration::ZERO), "");
    }
}
