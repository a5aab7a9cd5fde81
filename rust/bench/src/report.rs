//! The lines that are printed: for a screen, or as the tables of docs/PERFORMANCE.md.

use crate::case::Table;
use crate::stopwatch::span;
use std::collections::HashMap;

/// The times of a row in seconds; none where a side is not there.
pub struct Times {
    pub call: Option<f64>,
    /// The call of an earlier library.
    pub before: Option<f64>,
    /// The crate on frames over records, and on frames of planes.
    pub records: Option<f64>,
    pub planes: Option<f64>,
    pub theirs: Option<f64>,
    pub copy: Option<f64>,
    /// How many of the table's unit the row has.
    pub units: usize,
}

/// The columns of ratios.
const RATIOS: [&str; 4] = [
    "call / Rust",
    "call / memcpy",
    "records / Rust",
    "planes / Rust",
];

/// A number to about three figures.
fn number(number: f64) -> String {
    match number {
        100.0.. => format!("{number:.0}"),
        0.1.. => format!("{number:.2}"),
        _ => format!("{number:.4}"),
    }
}

fn ratio(ours: Option<f64>, theirs: Option<f64>) -> String {
    match (ours, theirs) {
        (Some(ours), Some(theirs)) => number(ours / theirs),
        _ => "–".into(),
    }
}

/// A time as it is told.
fn time(time: Option<f64>) -> String {
    time.map_or("–".into(), span)
}

impl Times {
    fn cells(&self) -> Vec<String> {
        let each = self.call.map(|call| call / self.units as f64 * 1e9);
        vec![
            time(self.call),
            time(self.records),
            time(self.planes),
            time(self.theirs),
            time(self.copy),
            ratio(self.call, self.theirs),
            ratio(self.call, self.copy),
            ratio(self.records, self.theirs),
            ratio(self.planes, self.theirs),
            each.map_or("–".into(), number),
        ]
    }

    /// What an earlier library adds.
    fn cells_before(&self) -> [String; 2] {
        [time(self.before), ratio(self.call, self.before)]
    }
}

/// The cells of a line of a table.
fn cells(line: &str) -> Option<Vec<&str>> {
    let inner = line.strip_prefix("| ")?.strip_suffix(" |")?;
    Some(inner.split(" | ").collect())
}

/// The ratios of an earlier run, by the names of its rows.
#[derive(Default)]
pub struct Earlier(HashMap<String, Vec<String>>);

impl Earlier {
    /// Reads the tables of a text; the last row of a name counts.
    pub fn read(text: &str) -> Self {
        let mut columns = [None; RATIOS.len()];
        let mut rows = HashMap::new();
        for cells in text.lines().filter_map(cells) {
            if cells[0] == "case" {
                columns = RATIOS.map(|name| cells.iter().position(|cell| *cell == name));
                continue;
            }
            let ratio = |at: Option<usize>| at.and_then(|at| cells.get(at).copied());
            let ratios = columns.map(|at| ratio(at).unwrap_or("–").to_owned());
            rows.insert(cells[0].to_owned(), ratios.to_vec());
        }
        Self(rows)
    }

    fn ratios(&self, name: &str) -> Vec<String> {
        let none = || vec!["–".into(); RATIOS.len()];
        self.0.get(name).cloned().unwrap_or_else(none)
    }
}

/// How lines look, whether an earlier library is timed too, and an earlier run whose ratios stand
/// beside.
pub struct Layout {
    pub markdown: bool,
    pub before: bool,
    pub earlier: Option<Earlier>,
}

impl Layout {
    fn line(&self, name: &str, cells: &[String]) -> String {
        if self.markdown {
            return format!("| {name} | {} |", cells.join(" | "));
        }
        let cells: String = cells.iter().map(|cell| format!("{cell:>15}")).collect();
        format!("{name:<80}{cells}")
    }

    /// The lines above a table's rows.
    pub fn head(&self, table: &Table) -> String {
        let times = ["call", "records", "planes", "the Rust", "memcpy"];
        let mut names: Vec<String> = times.map(String::from).into();
        names.extend(RATIOS.map(String::from));
        names.push(format!("ns / {}", table.unit));
        if self.before {
            names.extend(["before", "call / before"].map(String::from));
        }
        if self.earlier.is_some() {
            names.extend(RATIOS.map(|name| format!("{name} before")));
        }
        if self.markdown {
            let rule = "---:|".repeat(names.len());
            let head = self.line("case", &names);
            return format!("## {}\n\n{head}\n|---|{rule}", table.title);
        }
        self.line(table.title, &names)
    }

    pub fn row(&self, name: &str, times: &Times) -> String {
        let mut cells = times.cells();
        if self.before {
            cells.extend(times.cells_before());
        }
        if let Some(earlier) = &self.earlier {
            cells.extend(earlier.ratios(name));
        }
        self.line(name, &cells)
    }
}

#[cfg(test)]
mod tests {
    use super::{Earlier, Layout, Times};
    use crate::case::Table;

    const TIMES: Times = Times {
        call: Some(0.003),
        before: Some(0.006),
        records: Some(0.0015),
        planes: Some(0.002),
        theirs: Some(0.001),
        copy: None,
        units: 1_000,
    };

    fn markdown(before: bool, earlier: Option<Earlier>) -> String {
        let layout = Layout {
            markdown: true,
            before,
            earlier,
        };
        let table = Table {
            title: "Title",
            unit: "sample",
            rows: Vec::new(),
        };
        format!("{}\n{}", layout.head(&table), layout.row("name", &TIMES))
    }

    #[test]
    fn a_table_is_read_back() {
        let first = markdown(false, None);
        let row =
            "| name | 3.00 ms | 1.50 ms | 2.00 ms | 1.00 ms | – | 3.00 | – | 1.50 | 2.00 | 3000 |";
        assert_eq!(first.lines().last(), Some(row));
        let second = markdown(false, Some(Earlier::read(&first)));
        assert!(
            second.ends_with("| 3000 | 3.00 | – | 1.50 | 2.00 |"),
            "{second}"
        );
    }

    #[test]
    fn an_earlier_library_has_columns_of_its_own() {
        let beside = markdown(true, None);
        assert!(beside.contains("| ns / sample | before | call / before |"));
        assert!(beside.ends_with("| 3000 | 6.00 ms | 0.50 |"), "{beside}");
    }

    #[test]
    fn what_the_earlier_run_had_not_has_dashes() {
        let other = markdown(false, None).replace("| name |", "| other |");
        let beside = markdown(false, Some(Earlier::read(&other)));
        assert!(beside.ends_with("| 3000 | – | – | – | – |"), "{beside}");
        // A column that the earlier run had not.
        let earlier = markdown(false, None).replace("records / Rust", "crate / Rust");
        let beside = markdown(false, Some(Earlier::read(&earlier)));
        assert!(
            beside.ends_with("| 3000 | 3.00 | – | – | 2.00 |"),
            "{beside}"
        );
    }
}
