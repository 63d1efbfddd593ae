// The command `yukhtsami`: answers the sheets of files or of standard input, one after the other.
mod arguments;
mod input;
mod lending;
mod message;
mod progress;
mod status;

use std::{
    ffi::OsString,
    io::{self, BufWriter, IsTerminal, Stderr, Stdout, Write},
    thread,
};

use yukhtsami::Call;

use arguments::{Asked, Job, Source};
use lending::{Lender, Reply};
use progress::Progress;
use status::Failure;

// The stack of the thread that calls the library; 2 MiB of it serve every call.
const STACK: usize = 4 << 20;

// Where answers go.
struct Answers {
    out: BufWriter<Stdout>,
    at_once: bool,
    spaced: bool,
}

impl Answers {
    fn new(spaced: bool) -> Self {
        let out = io::stdout();
        let at_once = out.is_terminal();
        Self {
            out: BufWriter::with_capacity(1 << 16, out),
            at_once,
            spaced,
        }
    }

    fn write(&mut self, answer: &[u8]) -> io::Result<()> {
        self.out.write_all(answer)?;
        if self.spaced {
            self.out.write_all(b"\n")?;
        }
        if self.at_once {
            self.out.flush()
        } else {
            Ok(())
        }
    }
}

// What the files of one run share.
struct Batch {
    lender: Lender,
    answers: Answers,
    progress: Progress<Stderr>,
    sheet: Vec<u8>,
    status: u8,
}

impl Batch {
    fn new(job: &Job) -> Self {
        let apart = job.call == Call::Answer && job.sources.len() > 1;
        let answers = Answers::new(apart);
        // Where answers go to the terminal they show how far the run is.
        let shown = io::stderr().is_terminal() && !answers.at_once;
        Self {
            lender: Lender::new(job.call, job.words, job.room),
            answers,
            progress: Progress::new(io::stderr(), shown, job.sources.len()),
            sheet: Vec::new(),
            status: 0,
        }
    }

    // A file that is not answered; answers before it are written before its message.
    fn failed(&mut self, failure: Failure) -> Result<(), Failure> {
        self.answers.out.flush().map_err(status::not_written)?;
        self.progress.clear();
        status::tell(&failure.message);
        if self.status == 0 {
            self.status = failure.status;
        }
        Ok(())
    }

    // Answers one file. An error is one of standard output, which ends the run.
    fn one(&mut self, source: &Source) -> Result<(), Failure> {
        let size = match input::read(source, &mut self.sheet) {
            Ok(size) => size,
            Err(failure) => return self.failed(failure),
        };
        let failure = match self.lender.reply(&self.sheet) {
            Ok(Reply::Answer(answer)) => {
                return self.answers.write(answer).map_err(status::not_written);
            }
            Ok(Reply::Refused(refused)) => message::refused(source, &self.sheet, size, &refused),
            Err(short) => message::no_memory(source, &short),
        };
        self.failed(failure)
    }

    fn all(&mut self, sources: &[Source]) -> Result<(), Failure> {
        for (done, source) in sources.iter().enumerate() {
            self.progress.show(done);
            self.one(source)?;
        }
        self.answers.out.flush().map_err(status::not_written)
    }
}

fn answer(job: &Job) -> u8 {
    let mut batch = Batch::new(job);
    let written = batch.all(&job.sources);
    batch.progress.clear();
    match written {
        Ok(()) => batch.status,
        Err(failure) => failure.end(),
    }
}

// Answers on a thread whose stack does not depend on the caller's limits.
fn on_a_thread(job: &Job) -> u8 {
    thread::scope(|scope| {
        let builder = thread::Builder::new().stack_size(STACK);
        match builder.spawn_scoped(scope, || answer(job)) {
            Ok(thread) => thread.join().unwrap_or(status::SOFTWARE),
            Err(error) => Failure::new(status::SYSTEM, format!("no thread: {error}")).end(),
        }
    })
}

fn print(text: &str) -> u8 {
    let mut out = io::stdout();
    let written = out.write_all(text.as_bytes()).and_then(|()| out.flush());
    written.map_or_else(|error| status::not_written(error).end(), |()| 0)
}

/// Does what the words of a command line ask; the exit status.
pub fn run(words: impl Iterator<Item = OsString>) -> u8 {
    match arguments::read(words) {
        Ok(Asked::Help) => print(arguments::HELP),
        Ok(Asked::Version) => print(&arguments::version()),
        Ok(Asked::Answers(_)) if !yukhtsami::present() => {
            Failure::new(status::UNAVAILABLE, yukhtsami::notice()).end()
        }
        Ok(Asked::Answers(job)) => on_a_thread(&job),
        Err(fault) => Failure::new(status::USAGE, fault).end(),
    }
}
