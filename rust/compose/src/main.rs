//! The command `compose`. `compose --help` says what it does; `command` has a module a family.

mod command;

use command::Failure;
use std::env;
use std::process::ExitCode;

fn main() -> ExitCode {
    let words: Vec<String> = match env::args_os().skip(1).map(|w| w.into_string()).collect() {
        Ok(words) => words,
        Err(word) => {
            eprintln!("compose: {} is not text", word.display());
            return ExitCode::from(1);
        }
    };
    match command::run(&words) {
        Ok(()) => ExitCode::SUCCESS,
        Err(failure) => {
            eprintln!("{failure}");
            match failure {
                Failure::Refused { .. } => ExitCode::from(2),
                Failure::Usage { .. } | Failure::File { .. } => ExitCode::from(1),
            }
        }
    }
}
