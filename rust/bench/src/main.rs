//! `bench [--rounds N] [--table] [--beside FILE] [--before LIBRARY] [TEXT..]`: times the composer,
//! the published Rust and a plain copy of as many bytes, on the same pictures, in turns. With texts,
//! only the tables whose title and the rows whose name has one of them. `--table` prints the tables
//! that docs/PERFORMANCE.md keeps; `--beside` puts the ratios of the tables in a file beside them;
//! `--before` times the calls of an earlier library in the same turns.

mod before;
mod case;
mod clock;
mod composing;
mod frames;
mod operations;
mod reading;
mod report;
mod shape;
mod stopwatch;
mod tables;
mod writing;

use case::{Case, Row, Table};
use compose::{HeifFrame, RecordFrame};
use report::{Earlier, Layout, Times};
use std::cell::RefCell;
use std::hint::black_box;
use std::process::ExitCode;
use std::{env, fs};
use stopwatch::{Job, least};

/// The side of the pictures.
const SIDE: u32 = 2_048;

/// What the command line asks for.
struct Request {
    /// None: as many as fit in a second.
    rounds: Option<usize>,
    layout: Layout,
    texts: Vec<String>,
}

impl Request {
    fn read(mut words: impl Iterator<Item = String>) -> Result<Self, String> {
        let mut request = Self {
            rounds: None,
            layout: Layout {
                markdown: false,
                before: false,
                earlier: None,
            },
            texts: Vec::new(),
        };
        while let Some(word) = words.next() {
            match word.as_str() {
                "--rounds" => {
                    let rounds = words.next().and_then(|number| number.parse().ok());
                    let rounds = rounds.filter(|rounds| *rounds > 0);
                    request.rounds = Some(rounds.ok_or("--rounds takes a whole number above 0")?);
                }
                "--table" => request.layout.markdown = true,
                "--beside" => {
                    let file = words.next().ok_or("--beside takes a file")?;
                    let text = fs::read_to_string(&file);
                    let text = text.map_err(|error| format!("{file}: {error}"))?;
                    request.layout.earlier = Some(Earlier::read(&text));
                }
                "--before" => {
                    before::open(&words.next().ok_or("--before takes a library")?)?;
                    request.layout.before = true;
                }
                option if option.starts_with('-') => {
                    return Err(format!("{option} is no option"));
                }
                _ => request.texts.push(word),
            }
        }
        Ok(request)
    }

    fn wants(&self, table: &Table, row: &Row) -> bool {
        let has = |text: &String| row.name.contains(text) || table.title.contains(text);
        self.texts.is_empty() || self.texts.iter().any(has)
    }
}

/// An output that is lent again and again, each time from another place of a page on: where input
/// and output lie to each other can double the time of a plain copy.
struct Output {
    bytes: Vec<u8>,
    first: usize,
}

impl Output {
    const PAGE: usize = 4_096;
    /// From a place to the next: an odd number of lines of the cache, so that each gets its turn.
    const STEP: usize = 29 * 64;

    fn new(room: usize) -> Self {
        Self {
            bytes: vec![0; room + Self::PAGE],
            first: 0,
        }
    }

    fn lend(&mut self) -> &mut [u8] {
        self.first = (self.first + Self::STEP) % Self::PAGE;
        let room = self.bytes.len() - Self::PAGE;
        black_box(&mut self.bytes[self.first..][..room])
    }
}

/// Times a case: the call, into an output that is lent again and again, and the same call of an
/// earlier library; the crate `compose` on frames over records, and on frames of planes; the
/// published Rust; a copy of as many bytes into that same output.
fn time(case: Case, rounds: Option<usize>) -> Times {
    let output = RefCell::new(Output::new(case.room));
    let mut call = || (case.call)(output.borrow_mut().lend());
    let lent = &output;
    let mut before = case
        .before
        .map(|call| move || call(lent.borrow_mut().lend()));
    let planes = frames::ready::<HeifFrame>(case.work.clone());
    let mut planes = || drop(black_box(planes()));
    let records = frames::ready::<RecordFrame>(case.work.clone());
    let mut records = || drop(black_box(records()));
    let theirs = oracle::open().map(|oracle| oracle.ready(case.work));
    let mut theirs = theirs.map(|run| move || run());
    let from = vec![1u8; case.room];
    let mut copy = || output.borrow_mut().lend().copy_from_slice(black_box(&from));
    let jobs: [Option<Job>; 6] = [
        Some(&mut call),
        before.as_mut().map(|call| call as Job),
        Some(&mut records),
        Some(&mut planes),
        theirs.as_mut().map(|run| run as Job),
        (case.room > 0).then_some(&mut copy),
    ];
    let [call, before, records, planes, theirs, copy] = least(jobs, rounds);
    Times {
        call,
        before,
        records,
        planes,
        theirs,
        copy,
        units: case.units,
    }
}

/// Times the rows of a table that are wanted, a line each.
fn print(table: &Table, request: &Request) {
    let mut rows = table.rows.iter().filter(|row| request.wants(table, row));
    let Some(first) = rows.next() else { return };
    println!("{}", request.layout.head(table));
    for row in [first].into_iter().chain(rows) {
        let times = time((row.make)(), request.rounds);
        println!("{}", request.layout.row(&row.name, &times));
    }
    println!();
}

fn main() -> ExitCode {
    let request = match Request::read(env::args().skip(1)) {
        Ok(request) => request,
        Err(complaint) => {
            eprintln!("bench: {complaint}");
            eprintln!(
                "usage: bench [--rounds N] [--table] [--beside FILE] [--before LIBRARY] [TEXT..]"
            );
            return ExitCode::from(2);
        }
    };
    for table in tables::all(SIDE) {
        print(&table, &request);
    }
    ExitCode::SUCCESS
}
