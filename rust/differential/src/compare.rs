//! The frame of a comparison: inputs by seed, a verdict each, counts, and for a difference the
//! smallest input that still shows it.

use crate::ours::{Composer, Linked};
use crate::rng::Rng;
use crate::shrink::smaller;
use model::{Oracle, Refusal};
use std::collections::BTreeMap;
use std::fmt;

/// A named input: byte strings and lists of numbers, in a fixed order.
#[derive(Clone, Debug, Default, PartialEq, Eq)]
pub struct Input {
    pub(crate) bytes: Vec<(&'static str, Vec<u8>)>,
    pub(crate) numbers: Vec<(&'static str, Vec<i64>)>,
}

impl Input {
    pub fn new() -> Self {
        Self::default()
    }

    pub fn with_bytes(mut self, name: &'static str, bytes: Vec<u8>) -> Self {
        self.bytes.push((name, bytes));
        self
    }

    pub fn with_numbers(mut self, name: &'static str, numbers: Vec<i64>) -> Self {
        self.numbers.push((name, numbers));
        self
    }

    pub fn bytes(&self, name: &str) -> &[u8] {
        &find(&self.bytes, name).1
    }

    pub fn numbers(&self, name: &str) -> &[i64] {
        &find(&self.numbers, name).1
    }

    /// Whether there are bytes of this name.
    pub fn has(&self, name: &str) -> bool {
        self.bytes.iter().any(|(part, _)| *part == name)
    }

    /// Whether the list `name` begins with a number other than 0.
    pub fn flag(&self, name: &str) -> bool {
        self.numbers(name)[0] != 0
    }
}

fn find<'a, T>(parts: &'a [(&'static str, T)], name: &str) -> &'a (&'static str, T) {
    parts
        .iter()
        .find(|(part, _)| *part == name)
        .unwrap_or_else(|| panic!("the input has no part {name}"))
}

/// `bytes` as hexadecimal digits.
pub fn hex(bytes: &[u8]) -> String {
    bytes.iter().map(|byte| format!("{byte:02x}")).collect()
}

impl fmt::Display for Input {
    fn fmt(&self, f: &mut fmt::Formatter<'_>) -> fmt::Result {
        let bytes = self
            .bytes
            .iter()
            .map(|(name, part)| format!("{name}={}", hex(part)));
        let numbers = self
            .numbers
            .iter()
            .map(|(name, part)| format!("{name}={part:?}"));
        f.write_str(&bytes.chain(numbers).collect::<Vec<_>>().join(" "))
    }
}

/// What one case showed.
#[derive(Clone, Debug, PartialEq, Eq)]
pub enum Verdict {
    /// All sides accepted it alike.
    Accepted,
    /// All sides refused it with this number and this item.
    Refused(Refusal),
    /// Not worked here: too large, or nothing to compare.
    PassedOver,
    /// The sides differ, and how.
    Different(String),
}

/// The sides of a comparison.
#[derive(Clone, Copy)]
pub struct Sides {
    pub ours: &'static dyn Composer,
    /// The published Rust, where a number that overflows wraps.
    pub plain: &'static dyn Oracle,
    /// The published Rust, where a number that overflows panics.
    pub checked: &'static dyn Oracle,
}

impl Sides {
    /// The linked library and both builds of the published Rust, where its source is present.
    pub fn open() -> Option<Self> {
        Some(Self {
            ours: &Linked,
            plain: oracle::open()?,
            checked: oracle_checked::open()?,
        })
    }

    /// Both builds, each with its name.
    pub fn builds(&self) -> [(&'static str, &'static dyn Oracle); 2] {
        [("plain", self.plain), ("checked", self.checked)]
    }

    /// What `want` makes of each build.
    pub fn wants<T>(&self, want: impl Fn(&dyn Oracle) -> T) -> [T; 2] {
        self.builds().map(|(_, build)| want(build))
    }
}

/// One comparison.
pub struct Comparison {
    pub name: &'static str,
    pub generate: fn(&mut Rng) -> Input,
    pub judge: fn(&Sides, &Input) -> Verdict,
}

/// A difference: the case, the smallest input found and what it shows.
#[derive(Clone, Debug, PartialEq, Eq)]
pub struct Difference {
    pub case: u64,
    pub input: Input,
    pub shows: String,
}

/// What a run of one comparison counted.
#[derive(Clone, Debug, Default, PartialEq, Eq)]
pub struct Report {
    pub name: &'static str,
    pub cases: u64,
    pub accepted: u64,
    /// How many were refused, by number.
    pub refused: BTreeMap<u8, u64>,
    /// How many of them were an item's own refusal.
    pub of_items: u64,
    pub passed_over: u64,
    pub differences: Vec<Difference>,
}

impl fmt::Display for Report {
    fn fmt(&self, f: &mut fmt::Formatter<'_>) -> fmt::Result {
        let (cases, refused) = (self.cases, self.refused.values().sum::<u64>());
        write!(
            f,
            "{}: {cases} cases, {} accepted, ",
            self.name, self.accepted
        )?;
        write!(f, "{refused} refused")?;
        if refused > 0 {
            let counts = self.refused.iter();
            let counts = counts.map(|(number, count)| format!("{number}: {count}"));
            write!(f, " ({})", counts.collect::<Vec<_>>().join(", "))?;
        }
        if self.of_items > 0 {
            write!(f, ", {} of them an item's own", self.of_items)?;
        }
        if self.passed_over > 0 {
            write!(f, ", {} passed over", self.passed_over)?;
        }
        write!(f, ", {} differences", self.differences.len())?;
        for difference in &self.differences {
            let Difference { case, input, shows } = difference;
            write!(f, "\n  case {case}: {shows}\n    {input}")?;
        }
        Ok(())
    }
}

/// A number with a comma before each three digits.
fn grouped(number: u64) -> String {
    let digits = number.to_string();
    let mut text = String::new();
    for (at, digit) in digits.chars().enumerate() {
        if at > 0 && (digits.len() - at).is_multiple_of(3) {
            text.push(',');
        }
        text.push(digit);
    }
    text
}

impl Report {
    /// The report as a row of the table in docs/PERFORMANCE.md.
    pub fn row(&self) -> String {
        let refused = self.refused.iter();
        let refused = refused.map(|(number, count)| format!("{number}: {}", grouped(*count)));
        format!(
            "| {} | {} | {} | {} | {} |",
            self.name,
            grouped(self.cases),
            grouped(self.accepted),
            refused.collect::<Vec<_>>().join(", "),
            self.differences.len()
        )
    }
}

impl Comparison {
    /// How many cases a long run judges: a million, or fewer where a case takes longer.
    pub fn long(&self) -> u64 {
        match self.name {
            "iscl" | "session" | "grid-scene" | "overlay-scene" | "transforms" | "grid-room"
            | "overlay-room" | "point" => 100_000,
            _ => 1_000_000,
        }
    }

    /// The smallest input found that still differs, within a bounded number of trials.
    fn shrink(&self, sides: &Sides, mut input: Input, mut shows: String) -> (Input, String) {
        let mut trials = 20_000;
        'smaller: loop {
            for candidate in smaller(&input) {
                if trials == 0 {
                    return (input, shows);
                }
                trials -= 1;
                if let Verdict::Different(still) = (self.judge)(sides, &candidate) {
                    (input, shows) = (candidate, still);
                    continue 'smaller;
                }
            }
            return (input, shows);
        }
    }

    /// The input of a case.
    fn input(&self, case: u64, seed: u64) -> Input {
        (self.generate)(&mut Rng::for_case(seed, self.name, case))
    }

    /// Whether any of `cases` inputs made from `seed` shows a difference.
    pub fn finds(&self, sides: &Sides, cases: u64, seed: u64) -> bool {
        (0..cases).any(|case| {
            let verdict = (self.judge)(sides, &self.input(case, seed));
            matches!(verdict, Verdict::Different(_))
        })
    }

    /// Judges `cases` inputs made from `seed`. It stops at the tenth difference.
    pub fn run(&self, sides: &Sides, cases: u64, seed: u64) -> Report {
        self.run_telling(sides, cases, seed, |_| {})
    }

    /// The same; `tell` is told how many are judged, before each.
    pub fn run_telling(
        &self,
        sides: &Sides,
        cases: u64,
        seed: u64,
        mut tell: impl FnMut(u64),
    ) -> Report {
        let mut report = Report {
            name: self.name,
            ..Report::default()
        };
        for case in 0..cases {
            tell(case);
            let input = self.input(case, seed);
            report.cases += 1;
            match (self.judge)(sides, &input) {
                Verdict::Accepted => report.accepted += 1,
                Verdict::Refused(Refusal { number, item }) => {
                    *report.refused.entry(number).or_default() += 1;
                    report.of_items += u64::from(item.is_some());
                }
                Verdict::PassedOver => report.passed_over += 1,
                Verdict::Different(shows) => {
                    let (input, shows) = self.shrink(sides, input, shows);
                    report.differences.push(Difference { case, input, shows });
                    if report.differences.len() == 10 {
                        break;
                    }
                }
            }
        }
        report
    }
}
