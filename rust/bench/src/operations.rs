//! Operations on one picture.

use crate::before;
use crate::case::{Call, Case, Row, answered};
use differential::generate::{self, Form};
use differential::ours::{Composer, Linked};
use differential::rng::Rng;
use model::{Chroma, Clap, Crop, Frame, Iscl, Operation, Rectangle, Work};

/// A square picture of 4:2:0 without alpha, its rows tight and its samples anything up to top.
pub fn picture(depth: u8, side: u32) -> Frame {
    let form = Form {
        chroma: Chroma::Yuv420,
        depth,
        alpha: 0,
    };
    generate::even(&mut Rng::new(u64::from(depth)), (side, side), form)
}

/// What the picture is, behind a row's name.
pub fn named(name: &str, depth: u8, side: u32) -> String {
    format!("{name}, {side} × {side} 4:2:0, {depth} bits")
}

/// How many samples an output of so many bytes has; the record's numbers are few beside them.
pub fn samples(room: usize, depth: u8) -> usize {
    if depth > 8 { room / 2 } else { room }
}

/// The depth of a picture after an operation.
fn depth_after(depth: u8, operation: &Operation) -> u8 {
    match operation {
        Operation::Depth(depth) => *depth as u8,
        _ => depth,
    }
}

/// An operation as the earlier library does it, where one is open that has it.
fn before(record: &[u8], operation: &Operation) -> Option<Call> {
    let (library, record) = (before::opened()?, record.to_vec());
    match *operation {
        Operation::Depth(depth) => Some(Box::new(move |output| {
            library.rescale_depth(&record, depth, output);
        })),
        _ => None,
    }
}

fn case(frame: &Frame, operation: Operation) -> Case {
    let record = frame.record();
    // Promotion at most doubles it, and twice the sides is four times the picture.
    let mut ample = vec![0; 4 * record.len() + 64];
    let room = answered(Linked.operation(&record, &operation, &mut ample));
    Case {
        room,
        units: samples(room, depth_after(frame.depth, &operation)),
        before: before(&record, &operation),
        call: Box::new(move |output| {
            answered(Linked.operation(&record, &operation, output));
        }),
        work: Work::Operation(frame.clone(), operation),
    }
}

/// An operation on a square picture of 4:2:0.
pub fn operation(name: &str, depth: u8, side: u32, operation: Operation) -> Row {
    Row::new(named(name, depth, side), move || {
        case(&picture(depth, side), operation)
    })
}

fn attach_case(side: u32, alpha_side: u32) -> Case {
    let form = Form {
        chroma: Chroma::Mono,
        depth: 10,
        alpha: 0,
    };
    let master = picture(8, side);
    let alpha = generate::even(&mut Rng::new(10), (alpha_side, alpha_side), form);
    let records = [master.record(), alpha.record()];
    let mut ample = vec![0; 2 * records[0].len() + 64];
    let room = answered(Linked.attach(&records[0], &records[1], &mut ample));
    let before = before::opened().map(|library| -> Call {
        let [master, alpha] = records.clone();
        Box::new(move |output| {
            library.attach_alpha(&master, &alpha, output);
        })
    });
    Case {
        room,
        units: samples(room, 8),
        call: Box::new(move |output| {
            answered(Linked.attach(&records[0], &records[1], output));
        }),
        before,
        work: Work::Attach(master, alpha),
    }
}

/// An alpha plane of 10 bits for a picture of 8, its side given.
pub fn attach(side: u32, alpha_side: u32) -> Row {
    let name = format!("attach, alpha of 10 bits, {alpha_side} × {alpha_side}");
    Row::new(named(&name, 8, side), move || attach_case(side, alpha_side))
}

/// The half of a picture's sides from an edge on, along both.
fn half_from(edge: u32, side: u32) -> Operation {
    let half = Rectangle {
        x: edge,
        y: edge,
        width: side / 2,
        height: side / 2,
    };
    Operation::Crop(Crop::of(half, (side, side)))
}

/// The middle half of a picture's sides.
pub fn middle(side: u32) -> Clap {
    Clap::from_fields([side / 2, 1, side / 2, 1, 0, 1, 0, 1])
}

/// Both sides times n / d.
pub fn scaled(n: u16, d: u16) -> Operation {
    Operation::Iscl(Iscl::from_fields([n, d, n, d]))
}

/// Every operation on a picture.
pub fn every(depth: u8, side: u32) -> Vec<Row> {
    let other = if depth == 8 { 10 } else { 8 };
    let to_other = format!("depth {depth} to {other}");
    let operations = [
        ("crop, even edges", half_from(side / 4, side)),
        ("crop, odd edges", half_from(side / 4 - 1, side)),
        ("clap", Operation::Clap(middle(side))),
        ("irot 1", Operation::Irot(1)),
        ("irot 2", Operation::Irot(2)),
        ("irot 3", Operation::Irot(3)),
        ("imir 0", Operation::Imir(0)),
        ("imir 1", Operation::Imir(1)),
        ("iscl, half", scaled(1, 2)),
        ("iscl, double", scaled(2, 1)),
        ("nearest, half", Operation::Nearest(side / 2, side / 2)),
        (&to_other, Operation::Depth(other)),
    ];
    let row = |(name, of): (&str, Operation)| operation(name, depth, side, of);
    operations.map(row).into()
}
