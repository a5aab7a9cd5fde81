//! The work of a case as the crate `compose` does it, in oxideav-heif's shape: frames in, a frame
//! out, of planes or over records. The crate `oracle` does the same with the published Rust.

use crate::shape::Shape;
use compose::props::{Colr, PropertyEntry};
use compose::{GridDescriptor, OverlayDescriptor, chain};
use differential::shaped::{clap, grid_descriptor, iscl, overlay_descriptor};
use model::{Colour, Entry, Frame, Work, chain_bytes};
use std::hint::black_box;

/// Work made ready. It answers the picture, where it makes one.
pub type Ready<F> = Box<dyn Fn() -> Option<F>>;

/// A picture that must come.
fn picture<F: Shape>(call: impl Fn() -> compose::Result<F> + 'static) -> Ready<F> {
    Box::new(move || Some(call().expect("a picture")))
}

/// Another answer that must come.
fn figure<F: Shape, T>(call: impl Fn() -> compose::Result<T> + 'static) -> Ready<F> {
    Box::new(move || {
        black_box(call().expect("an answer"));
        None
    })
}

fn all<F: Shape>(frames: &[Frame]) -> Vec<F> {
    frames.iter().map(F::of).collect()
}

fn entries(chain: &[Entry]) -> Vec<PropertyEntry> {
    chain::entries(&chain_bytes(chain)).expect("a chain")
}

/// An nclx description; primaries and transfer play no part in composing.
fn nclx(colour: Option<Colour>) -> Option<Colr> {
    colour.map(|colour| Colr::Nclx {
        primaries: 1,
        transfer: 13,
        matrix: colour.matrix,
        full_range: colour.full_range,
    })
}

/// The crate's functions alone, their inputs made ready.
pub fn ready<F: Shape>(work: Work) -> Ready<F> {
    match work {
        Work::Validate(frame) => {
            let frame = F::of(&frame);
            figure(move || frame.judge())
        }
        Work::Fill(fill, depth, colour) => {
            let colour = nclx(colour);
            figure(move || {
                Ok(compose::fill_to_ycbcr(
                    black_box(fill),
                    depth,
                    colour.as_ref(),
                ))
            })
        }
        Work::GridBody(body) => figure(move || GridDescriptor::parse(black_box(&body))),
        Work::OverlayBody(body, inputs) => {
            figure(move || OverlayDescriptor::parse(black_box(&body), inputs))
        }
        Work::WriteGrid(grid) => {
            let grid = grid_descriptor(&grid);
            figure(move || black_box(&grid).body())
        }
        Work::WriteOverlay(overlay) => {
            let overlay = overlay_descriptor(&overlay);
            figure(move || black_box(&overlay).body())
        }
        Work::Resolve(fields, width, height) => {
            figure(move || black_box(clap(&fields)).resolve(width, height))
        }
        Work::Scale(fields, width, height) => {
            figure(move || black_box(iscl(&fields)).output_size(width, height))
        }
        Work::Operation(frame, of) => {
            let frame = F::of(&frame);
            picture(move || frame.operation(of))
        }
        Work::Attach(master, alpha) => {
            let (master, alpha) = (F::of(&master), F::of(&alpha));
            picture(move || master.attach(&alpha))
        }
        Work::Chain(frame, chain) => {
            let (frame, chain) = (F::of(&frame), entries(&chain));
            picture(move || frame.chain(&chain))
        }
        Work::Grid(grid, tiles) => {
            let (grid, tiles) = (grid_descriptor(&grid), all(&tiles));
            picture(move || F::grid(&grid, &tiles))
        }
        Work::Scene(grid, tiles, chain) => {
            let (grid, tiles) = (grid_descriptor(&grid), all(&tiles));
            let chain = entries(&chain);
            picture(move || F::grid(&grid, &tiles)?.chain(&chain))
        }
        Work::Session(grid, tiles) => {
            let (grid, tiles) = (grid_descriptor(&grid), all(&tiles));
            picture(move || F::session(&grid, &tiles))
        }
        Work::Overlay(overlay, inputs, colour) => {
            let (overlay, colour) = (overlay_descriptor(&overlay), nclx(colour));
            let input = |input: &model::OverlayInput| (F::of(&input.frame), input.premultiplied);
            let inputs: Vec<(F, bool)> = inputs.iter().map(input).collect();
            picture(move || F::overlay(&overlay, &inputs, colour.as_ref()))
        }
    }
}
