//! `differential [--cases N] [--seed S] [NAME..]`: runs the named comparisons, or all, and prints a
//! line for each. Status 1 on any difference, 2 on a word it does not know; 0 also where the
//! published Rust is absent, which it says. With `--long` each has as many cases as a long run takes,
//! and what is printed is the table of docs/PERFORMANCE.md.
//!
//! `differential store FILE [--cases N] [--seed S]`: writes N answers of the published Rust for each
//! operation, and a tenth as many that are 17, as the program `replay` reads them.

use differential::compare::{Comparison, Sides};
use differential::{comparisons, store};
use std::io::{self, IsTerminal};
use std::process::ExitCode;
use std::time::Instant;
use std::{env, fs};

/// What the command line asks for.
struct Request {
    cases: u64,
    seed: u64,
    names: Vec<String>,
    /// Whether it is a long run, with a table.
    long: bool,
    /// The file that answers are stored in.
    file: Option<String>,
}

impl Request {
    fn read(words: impl Iterator<Item = String>) -> Result<Self, String> {
        let mut request = Self {
            cases: 2_000,
            seed: 1,
            names: Vec::new(),
            long: false,
            file: None,
        };
        let mut words = words;
        while let Some(word) = words.next() {
            let place = match word.as_str() {
                "--cases" => &mut request.cases,
                "--seed" => &mut request.seed,
                name if comparisons::ALL.iter().any(|known| known.name == name) => {
                    request.names.push(word);
                    continue;
                }
                "--long" => {
                    request.long = true;
                    continue;
                }
                "store" => {
                    request.file = Some(words.next().ok_or("store takes a file")?);
                    continue;
                }
                _ => return Err(format!("{word} is neither an option nor a comparison")),
            };
            *place = words
                .next()
                .and_then(|number| number.parse().ok())
                .ok_or_else(|| format!("{word} takes a whole number"))?;
        }
        Ok(request)
    }

    fn wants(&self, comparison: &Comparison) -> bool {
        self.names.is_empty() || self.names.iter().any(|name| name == comparison.name)
    }
}

/// How far a comparison is, once a second, where a person looks on.
struct Progress {
    name: &'static str,
    cases: u64,
    last: Option<Instant>,
    told: bool,
}

impl Progress {
    fn new(name: &'static str, cases: u64) -> Self {
        Self {
            name,
            cases,
            last: io::stderr().is_terminal().then(Instant::now),
            told: false,
        }
    }

    fn tell(&mut self, case: u64) {
        if self.last.is_some_and(|last| last.elapsed().as_secs() > 0) {
            eprint!("\r{}: {case} of {}", self.name, self.cases);
            self.last = Some(Instant::now());
            self.told = true;
        }
    }

    /// Clears the line.
    fn end(&self) {
        if self.told {
            eprint!("\r\x1b[K");
        }
    }
}

/// Writes the stored answers, and says how many there are of each operation.
fn keep(sides: &Sides, request: &Request, file: &str) -> ExitCode {
    let operations = store::operations(sides, request.cases as usize, request.seed);
    for operation in &operations {
        let refused = |call: &&store::Call| call.answer.is_err();
        let refused = operation.calls.iter().filter(refused).count();
        let (name, calls) = (&operation.name, operation.calls.len());
        println!("{name}: {calls} answers, {refused} of them refusals");
    }
    match fs::write(file, store::to_bytes(&operations)) {
        Ok(()) => ExitCode::SUCCESS,
        Err(error) => {
            eprintln!("differential: {file} cannot be written: {error}");
            ExitCode::FAILURE
        }
    }
}

fn main() -> ExitCode {
    let request = match Request::read(env::args().skip(1)) {
        Ok(request) => request,
        Err(complaint) => {
            let names: Vec<&str> = comparisons::ALL.iter().map(|known| known.name).collect();
            eprintln!("differential: {complaint}");
            eprintln!(
                "usage: differential [--long] [--cases N] [--seed S] [{}]..",
                names.join("|")
            );
            eprintln!("       differential store FILE [--cases N] [--seed S]");
            return ExitCode::from(2);
        }
    };
    let Some(sides) = Sides::open() else {
        println!(
            "differential: the published Rust is absent (HEIF_SRC names its folder); nothing is compared"
        );
        return ExitCode::SUCCESS;
    };
    if let Some(file) = &request.file {
        return keep(&sides, &request, file);
    }
    let mut alike = true;
    if request.long {
        println!("| comparison | cases | accepted | refused, by number | differences |");
        println!("|---|---:|---:|---|---:|");
    }
    for comparison in comparisons::ALL.iter().filter(|known| request.wants(known)) {
        let cases = if request.long {
            comparison.long()
        } else {
            request.cases
        };
        let mut progress = Progress::new(comparison.name, cases);
        let tell = |case| progress.tell(case);
        let report = comparison.run_telling(&sides, cases, request.seed, tell);
        progress.end();
        if request.long {
            println!("{}", report.row());
        }
        if !request.long || !report.differences.is_empty() {
            println!("{report}");
        }
        alike &= report.differences.is_empty();
    }
    if alike {
        ExitCode::SUCCESS
    } else {
        ExitCode::FAILURE
    }
}
