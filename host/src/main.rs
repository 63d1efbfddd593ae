// The program: hands the words of its command line to `command`.
use std::{env, process::ExitCode};

fn main() -> ExitCode {
    let words: Vec<String> = env::args().skip(1).collect();
    match host::command::run(&words) {
        Ok(code) => code,
        Err(message) => {
            eprintln!("host: {message}");
            ExitCode::from(100)
        }
    }
}
