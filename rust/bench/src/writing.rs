//! Descriptor bodies written from their fields (document 02, A4).

use crate::case::{Case, Row, answered};
use differential::ours::{Composer, Linked};
use model::{Grid, Overlay, Work};
use std::hint::black_box;

/// A grid's body.
pub fn written_grid() -> Row {
    Row::new("write a grid's body", || {
        let (tiles, size) = ([16, 16], (8_192, 8_192));
        let grid = Grid {
            rows: 16,
            columns: 16,
            width: 8_192,
            height: 8_192,
        };
        Case {
            room: 8,
            units: 1,
            call: Box::new(move |output| {
                answered(Linked.write_grid(black_box(tiles), size, output));
            }),
            before: None,
            work: Work::WriteGrid(grid),
        }
    })
}

/// An overlay's body, the words of its inputs' offsets being there.
pub fn written_overlay(inputs: u32) -> Row {
    let name = format!("write an overlay's body, {inputs} inputs");
    Row::new(name, move || {
        let (fill, size) = ([65_535; 4], (8_192, 8_192));
        let offsets: Vec<(i32, i32)> = (0..inputs as i32).map(|at| (at, -at)).collect();
        let pair = |(x, y): &(i32, i32)| [x.cast_unsigned(), y.cast_unsigned()];
        let words: Vec<u32> = offsets.iter().flat_map(pair).collect();
        let mut ample = vec![0; 18 + 8 * inputs as usize];
        let room = answered(Linked.write_overlay(fill, size, &words, &mut ample));
        Case {
            room,
            units: inputs as usize,
            call: Box::new(move |output| {
                answered(Linked.write_overlay(fill, size, black_box(&words), output));
            }),
            before: None,
            work: Work::WriteOverlay(Overlay {
                fill,
                width: size.0,
                height: size.1,
                offsets,
            }),
        }
    })
}
