//! Records, descriptor bodies and numbers.

use crate::case::{Case, Row};
use crate::operations::{named, picture};
use compose::{GridDescriptor, OverlayDescriptor, Result, sys};
use model::{Clap, Colour, Iscl, Work};
use std::cell::RefCell;
use std::hint::black_box;

/// An answer that must come.
fn taken(answer: Result<u64>) {
    answer.expect("an answer");
}

/// One answer without an output.
fn one(call: impl Fn() + 'static, work: Work) -> Case {
    Case {
        room: 0,
        units: 1,
        call: Box::new(move |_| call()),
        before: None,
        work,
    }
}

/// Reading one record; the published Rust's counterpart is `validate`.
pub fn record(depth: u8, side: u32) -> Row {
    Row::new(named("read a record", depth, side), move || {
        let frame = picture(depth, side);
        let record = frame.record();
        let call = move || taken(sys::compose_record(black_box(&record), &mut [0; 17]));
        one(call, Work::Validate(frame))
    })
}

/// One fill colour.
pub fn fill(name: &str, colour: Option<Colour>) -> Row {
    Row::new(format!("fill, {name}, 10 bits"), move || {
        let channels = [50_000, 1_000, 65_535];
        let [red, green, blue] = channels;
        let (given, matrix, full_range) = match colour {
            None => (0, 0, 0),
            Some(colour) => (1, colour.matrix, colour.full_range.into()),
        };
        let call = move || {
            let red = black_box(red);
            taken(sys::compose_fill(
                red,
                green,
                blue,
                10,
                given,
                matrix,
                full_range,
                &mut [0; 3],
            ))
        };
        one(call, Work::Fill(channels, 10, colour))
    })
}

/// A grid's body.
pub fn grid_body() -> Row {
    Row::new("grid descriptor", || {
        let body = GridDescriptor::new(16, 16, 8_192, 8_192).to_bytes();
        let lent = body.clone();
        let call = move || taken(sys::compose_grid_descriptor(black_box(&lent), &mut [0; 4]));
        one(call, Work::GridBody(body))
    })
}

/// An overlay's body and the offsets of its inputs.
pub fn overlay_body(inputs: u32) -> Row {
    let name = format!("overlay descriptor and its offsets, {inputs} inputs");
    Row::new(name, move || {
        let offsets = (0..inputs as i32).map(|at| (at, -at)).collect();
        let body = OverlayDescriptor::new([65_535; 4], 8_192, 8_192, offsets).to_bytes();
        let lent = body.clone();
        let words = RefCell::new(vec![0; 4 * inputs as usize]);
        let call = move || {
            let body = black_box(&lent);
            taken(sys::compose_overlay_descriptor(body, inputs, &mut [0; 6]));
            taken(sys::compose_overlay_offsets(
                body,
                inputs,
                &mut words.borrow_mut(),
            ));
        };
        Case {
            room: 32 * inputs as usize,
            units: inputs as usize,
            call: Box::new(move |_| call()),
            before: None,
            work: Work::OverlayBody(body, inputs as usize),
        }
    })
}

/// An aperture of a size.
pub fn resolve() -> Row {
    Row::new("clap resolve", || {
        let clap = Clap::from_fields([1_921, 1, 1_080, 1, 1, 2, 0, 1]);
        let call = move || {
            let [width_n, width_d, height_n, height_d, x_n, x_d, y_n, y_d] =
                black_box(&clap).fields();
            taken(sys::compose_clap_resolve(
                width_n,
                width_d,
                height_n,
                height_d,
                x_n,
                x_d,
                y_n,
                y_d,
                4_000,
                3_000,
                &mut [0; 8],
            ))
        };
        one(call, Work::Resolve(clap, 4_000, 3_000))
    })
}

/// A scaled size.
pub fn scale() -> Row {
    Row::new("iscl size", || {
        let iscl = Iscl::from_fields([2, 3, 2, 3]);
        let call = move || {
            let [width_num, width_den, height_num, height_den] = black_box(&iscl).fields();
            taken(sys::compose_iscl_size(
                width_num,
                width_den,
                height_num,
                height_den,
                4_000,
                3_000,
                &mut [0; 2],
            ))
        };
        one(call, Work::Scale(iscl, 4_000, 3_000))
    })
}
