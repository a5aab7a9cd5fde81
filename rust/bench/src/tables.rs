//! What is timed, a line a row.

use crate::case::{Row, Table};
use crate::composing::{Laid, grid, mirrors, overlay, overlay_by_inputs, scene, session, turns};
use crate::operations::{attach, every, operation, scaled};
use crate::reading::{fill, grid_body, overlay_body, record, resolve, scale};
use crate::writing::{written_grid, written_overlay};
use model::{Colour, Operation};

fn operations(side: u32) -> Vec<Row> {
    let mut rows = every(8, side);
    rows.extend(every(10, side));
    rows
}

/// Inputs of 4:4:4 at 8 bits on a canvas.
fn laid(inputs: u32, size: u32, side: u32, alpha: u8) -> Laid {
    Laid {
        inputs,
        size,
        side,
        depth: 8,
        alpha,
    }
}

fn composing(side: u32) -> Vec<Row> {
    let blended = laid(8, side / 2, side / 2, 1);
    vec![
        overlay(blended),
        overlay(Laid {
            depth: 10,
            ..blended
        }),
        overlay(laid(1_000, (side / 64).max(1), side, 0)),
        overlay(laid(4, 32, 64, 0)),
        overlay(laid(4, 32, 64, 1)),
        scene(side),
        session(side),
    ]
}

fn reading(side: u32) -> Vec<Row> {
    let studio = Colour {
        matrix: 9,
        full_range: false,
    };
    vec![
        record(8, side),
        record(10, side),
        grid_body(),
        overlay_body(8),
        overlay_body(65_536),
        resolve(),
        scale(),
        fill("no description", None),
        fill("matrix 9, studio range", Some(studio)),
    ]
}

/// Bodies, of an overlay in the 16-bit form and in the 32-bit form.
fn writing() -> Vec<Row> {
    vec![written_grid(), written_overlay(8), written_overlay(65_536)]
}

/// Pictures whose sides double.
fn sizes(side: u32) -> Vec<Row> {
    let sides = [side / 8, side / 4, side / 2, side, 2 * side];
    let operations = [
        ("imir 1", Operation::Imir(1)),
        ("irot 1", Operation::Irot(1)),
        ("iscl, half", scaled(1, 2)),
        ("depth 8 to 10", Operation::Depth(10)),
    ];
    let mut rows = Vec::new();
    for (name, of) in operations {
        rows.extend(sides.map(|side| operation(name, 8, side, of)));
    }
    for alpha in [0, 1] {
        rows.extend(sides.map(|side| overlay(laid(1, side, side, alpha))));
    }
    rows
}

/// From depth 10 to 8: pictures of few samples and of many, and alpha planes of 10 bits for a picture
/// of 8, of its size and of half of it (document 02, A3).
fn ten_to_eight(side: u32) -> Vec<Row> {
    let sides = [side / 128, side / 32, side / 8, side].map(|side| side.max(4));
    let to_eight = Operation::Depth(8);
    let mut rows: Vec<Row> = sides
        .map(|side| operation("depth 10 to 8", 10, side, to_eight))
        .into();
    rows.extend([side, side / 2].map(|alpha_side| attach(side, alpha_side)));
    rows
}

/// Inputs of two by two pixels, more and more.
fn inputs(side: u32) -> Vec<Row> {
    let counts = [1, 16, 256, 4_096, 32_768, 65_536];
    let row = |alpha| move |count| overlay_by_inputs(laid(count, 2, side, alpha));
    let mut rows: Vec<Row> = counts.map(row(0)).into();
    rows.extend(counts.map(row(1)));
    rows
}

/// A canvas cut into more and more tiles.
fn tiles(side: u32) -> Vec<Row> {
    [1, 4, 16, 64, 256].map(|across| grid(side, across)).into()
}

/// Chains of more and more entries.
fn chains(side: u32) -> Vec<Row> {
    let counts = [1, 4, 16, 64, 256];
    let mut rows: Vec<Row> = counts.map(|count| mirrors(side, count)).into();
    rows.extend(counts.map(|count| turns(side, count)));
    rows
}

/// Every table, for pictures of the given side, a multiple of 16.
pub fn all(side: u32) -> Vec<Table> {
    let table = |title, unit, rows| Table { title, unit, rows };
    vec![
        table("Operations", "sample", operations(side)),
        table("Composing", "sample", composing(side)),
        table("Reading", "answer", reading(side)),
        table("Writing", "input", writing()),
        table("Growth with the picture", "sample", sizes(side)),
        table("Depth 10 to 8", "sample", ten_to_eight(side)),
        table("Growth with the inputs", "input", inputs(side)),
        table("Growth with the tiles", "tile", tiles(side)),
        table("Growth with the chain", "entry", chains(side / 2)),
    ]
}

#[cfg(test)]
mod tests {
    use super::all;
    use crate::frames;
    use compose::{HeifFrame, RecordFrame};

    /// Each row runs on all sides, and the crate's two shapes and the call make the same picture.
    #[test]
    fn rows_run() {
        for row in all(32).into_iter().flat_map(|table| table.rows) {
            println!("{}", row.name);
            let case = (row.make)();
            let mut output = vec![0; case.room];
            (case.call)(&mut output);
            assert!(case.before.is_none(), "no earlier library is open");
            let planes = frames::ready::<HeifFrame>(case.work.clone())();
            let over = frames::ready::<RecordFrame>(case.work.clone())();
            assert_eq!(planes.is_some(), over.is_some(), "{}", row.name);
            let planes = planes.map(|frame| frame.to_record().expect("a record"));
            for record in [planes, over.map(RecordFrame::into_record)] {
                let record = record.unwrap_or_default();
                assert!(output.starts_with(&record), "{}", row.name);
            }
            if let Some(oracle) = oracle::open() {
                oracle.ready(case.work)();
            }
        }
    }
}
