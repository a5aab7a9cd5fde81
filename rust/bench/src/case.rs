//! What a row of a table times.

use differential::ours::Answer;
use model::Work;

/// A call of the composer, on a lent output.
pub type Call = Box<dyn Fn(&mut [u8])>;

/// One piece of work: the composer's call on a lent output of `room` bytes, and the same as an
/// earlier library, the crate `compose` and the published Rust do it.
pub struct Case {
    pub room: usize,
    /// How many of the table's unit it has.
    pub units: usize,
    pub call: Call,
    /// The same call of an earlier library, where one is open that has it.
    pub before: Option<Call>,
    pub work: Work,
}

/// A name, and how its case is made: only when it is asked for.
pub struct Row {
    pub name: String,
    pub make: Box<dyn Fn() -> Case>,
}

impl Row {
    pub fn new(name: impl Into<String>, make: impl Fn() -> Case + 'static) -> Self {
        Self {
            name: name.into(),
            make: Box::new(make),
        }
    }
}

/// Rows whose times are also told for each of one unit.
pub struct Table {
    pub title: &'static str,
    pub unit: &'static str,
    pub rows: Vec<Row>,
}

/// An answer that must come.
pub fn answered<T>(answer: Option<Answer<T>>) -> T {
    let answer = answer.expect("the composer has the call");
    answer.unwrap_or_else(|refusal| panic!("refused {}", refusal.number))
}
