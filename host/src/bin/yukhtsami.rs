// The command: hands the words of its command line to `cli`.
use std::{env, process::ExitCode};

fn main() -> ExitCode {
    ExitCode::from(host::cli::run(env::args_os().skip(1)))
}
