//! The published functions behind [`model::Oracle`]: plain types in, plain types out.

use crate::compose;
use crate::derived::{GridDescriptor, OverlayDescriptor};
use crate::error::{HeifError, Result};
use crate::image::{self, HeifFrame, HeifPixelFormat};
use crate::meta::RawProperty;
use crate::props::{self, Colr, Imir, Irot, ItemProperties, PropertyEntry};
use crate::session::Session;
use model::{
    Canvas, Chroma, Clap, Colour, Entry, Frame, Grid, Iscl, Operation, Oracle, Outcome, Overlay,
    OverlayInput, Plane, Property, Rectangle, Work, attempt,
};
use std::hint::black_box;

/// The published Rust.
pub struct Published;

/// The frame as the published Rust holds it. Nothing is validated.
pub fn published(frame: &Frame) -> HeifFrame {
    let format = HeifPixelFormat {
        chroma: image::Chroma::from_idc(frame.chroma as u8).expect("one of the four chromas"),
        bit_depth: frame.depth,
        has_alpha: frame.alpha != 0,
    };
    let planes = frame
        .planes
        .iter()
        .map(|plane| image::Plane::new(plane.stride, plane.data.clone()))
        .collect();
    HeifFrame::new(frame.width, frame.height, format, planes)
}

/// The frame as a record holds it, stride and spare bytes as they are.
fn plain(frame: HeifFrame) -> Frame {
    Frame {
        width: frame.width,
        height: frame.height,
        chroma: Chroma::ALL[usize::from(frame.format.chroma.idc())],
        depth: frame.format.bit_depth,
        alpha: u8::from(frame.format.has_alpha),
        planes: frame
            .planes
            .into_iter()
            .map(|plane| Plane {
                stride: plane.stride,
                data: plane.data,
            })
            .collect(),
    }
}

fn all_published(frames: &[Frame]) -> Vec<HeifFrame> {
    frames.iter().map(published).collect()
}

/// A call that answers a frame.
pub fn picture(call: impl FnOnce() -> Result<HeifFrame>) -> Outcome<Frame> {
    attempt(call).map(plain)
}

/// A call that cannot answer an error.
fn infallible<T>(call: impl FnOnce() -> T) -> Outcome<T> {
    attempt(|| Ok::<T, HeifError>(call()))
}

pub fn descriptor(grid: &Grid) -> GridDescriptor {
    GridDescriptor::new(grid.rows, grid.columns, grid.width, grid.height)
}

fn clap(clap: &Clap) -> props::Clap {
    props::Clap::new(
        clap.width_n,
        clap.width_d,
        clap.height_n,
        clap.height_d,
        clap.horizontal_n,
        clap.horizontal_d,
        clap.vertical_n,
        clap.vertical_d,
    )
}

fn iscl(iscl: &Iscl) -> props::Iscl {
    let [width_n, width_d, height_n, height_d] = iscl.fields();
    props::Iscl::new(width_n, width_d, height_n, height_d)
}

/// An nclx description; primaries and transfer play no part in composing.
fn nclx(colour: Option<Colour>) -> Option<Colr> {
    colour.map(|colour| Colr::Nclx {
        primaries: 1,
        transfer: 13,
        matrix: colour.matrix,
        full_range: colour.full_range,
    })
}

/// A chain as the association list of an item. Kind 0 is a box of a type that is not modelled.
fn entries(chain: &[Entry]) -> Vec<PropertyEntry> {
    chain
        .iter()
        .zip(1..)
        .map(|(entry, index)| {
            let property = match &entry.property {
                Property::Other => props::Property::Unknown(RawProperty {
                    box_type: *b"free",
                    user_type: None,
                    body: Vec::new(),
                }),
                Property::Clap(fields) => props::Property::Clap(clap(fields)),
                Property::Irot(angle) => props::Property::Irot(Irot::new(*angle)),
                Property::Imir(axis) => props::Property::Imir(Imir::new(*axis)),
                Property::Iscl(fields) => props::Property::Iscl(iscl(fields)),
            };
            PropertyEntry::new(index, entry.essential, property)
        })
        .collect()
}

/// An operation on one frame.
fn operate(frame: &HeifFrame, operation: &Operation) -> Result<HeifFrame> {
    match operation {
        Operation::Crop(crop) => {
            let to = crop.rectangle;
            compose::crop(frame, to.x, to.y, to.width, to.height)
        }
        Operation::Clap(fields) => compose::apply_clap(frame, &clap(fields)),
        Operation::Irot(angle) => compose::apply_irot(frame, &Irot::new(*angle)),
        Operation::Imir(axis) => compose::apply_imir(frame, &Imir::new(*axis)),
        Operation::Iscl(fields) => compose::apply_iscl(frame, &iscl(fields)),
        Operation::Nearest(width, height) => compose::resize_nearest(frame, *width, *height),
        Operation::Depth(depth) => compose::rescale_depth(frame, *depth as u8),
    }
}

/// A call that is made, its answer thrown away; it must not fail.
fn made<T>(call: impl Fn() -> Result<T> + 'static) -> Box<dyn Fn()> {
    Box::new(move || drop(black_box(call().expect("the call is answered"))))
}

fn overlay_descriptor(overlay: &Overlay) -> OverlayDescriptor {
    let offsets = overlay.offsets.clone();
    OverlayDescriptor::new(overlay.fill, overlay.width, overlay.height, offsets)
}

/// Overlay inputs that stand on `frames`.
fn lent<'a>(frames: &'a [HeifFrame], inputs: &[OverlayInput]) -> Vec<compose::OverlayInput<'a>> {
    let lent = |(frame, input): (&'a HeifFrame, &OverlayInput)| {
        compose::OverlayInput::new(frame, input.premultiplied)
    };
    frames.iter().zip(inputs).map(lent).collect()
}

fn overlay_frames(inputs: &[OverlayInput]) -> Vec<HeifFrame> {
    inputs.iter().map(|input| published(&input.frame)).collect()
}

impl Oracle for Published {
    fn ready(&self, work: Work) -> Box<dyn Fn()> {
        match work {
            Work::Validate(frame) => {
                let frame = published(&frame);
                made(move || frame.validate())
            }
            Work::Fill(fill, depth, colour) => {
                let colour = nclx(colour);
                made(move || {
                    Ok(compose::fill_to_ycbcr(
                        black_box(fill),
                        depth,
                        colour.as_ref(),
                    ))
                })
            }
            Work::GridBody(body) => made(move || GridDescriptor::parse(black_box(&body))),
            Work::OverlayBody(body, inputs) => {
                made(move || OverlayDescriptor::parse(black_box(&body), inputs))
            }
            Work::WriteGrid(grid) => {
                let grid = descriptor(&grid);
                made(move || Ok(black_box(&grid).to_bytes()))
            }
            Work::WriteOverlay(overlay) => {
                let overlay = overlay_descriptor(&overlay);
                made(move || Ok(black_box(&overlay).to_bytes()))
            }
            Work::Resolve(fields, width, height) => {
                let clap = clap(&fields);
                made(move || black_box(&clap).resolve(width, height))
            }
            Work::Scale(fields, width, height) => {
                let iscl = iscl(&fields);
                made(move || black_box(&iscl).output_size(width, height))
            }
            Work::Operation(frame, operation) => {
                let frame = published(&frame);
                made(move || operate(&frame, &operation))
            }
            Work::Attach(master, alpha) => {
                let (master, alpha) = (published(&master), published(&alpha));
                made(move || compose::attach_alpha(&master, &alpha))
            }
            Work::Chain(frame, chain) => {
                let (frame, chain) = (published(&frame), entries(&chain));
                made(move || compose::apply_transforms(&frame, &chain, false))
            }
            Work::Grid(grid, tiles) => {
                let (grid, tiles) = (descriptor(&grid), all_published(&tiles));
                made(move || compose::composite_grid(&grid, &tiles))
            }
            Work::Scene(grid, tiles, chain) => {
                let (grid, tiles) = (descriptor(&grid), all_published(&tiles));
                let chain = entries(&chain);
                made(move || {
                    let composed = compose::composite_grid(&grid, &tiles)?;
                    compose::apply_transforms(&composed, &chain, false)
                })
            }
            Work::Session(grid, tiles) => {
                let (grid, tiles) = (descriptor(&grid), all_published(&tiles));
                made(move || {
                    let mut canvas = compose::GridCanvas::new(&grid);
                    for (index, tile) in tiles.iter().enumerate().rev() {
                        canvas.place(index, tile)?;
                    }
                    canvas.finish()
                })
            }
            Work::Overlay(overlay, inputs, colour) => {
                let (overlay, colour) = (overlay_descriptor(&overlay), nclx(colour));
                let frames = overlay_frames(&inputs);
                made(move || {
                    let lent = lent(&frames, &inputs);
                    compose::composite_overlay(&overlay, &lent, colour.as_ref())
                })
            }
        }
    }

    fn validate(&self, frame: &Frame) -> Outcome<()> {
        attempt(|| published(frame).validate())
    }

    fn promote_to_444(&self, frame: &Frame) -> Outcome<Frame> {
        picture(|| published(frame).promote_to_444())
    }

    fn tight(&self, frame: &Frame) -> Outcome<Frame> {
        picture(|| Ok(published(frame).tight()))
    }

    fn with_alpha_plane(&self, frame: &Frame, alpha: &Frame) -> Outcome<Frame> {
        picture(|| published(frame).with_alpha_plane(&published(alpha)))
    }

    fn parse_grid(&self, body: &[u8]) -> Outcome<Grid> {
        attempt(|| GridDescriptor::parse(body)).map(|read| Grid {
            rows: read.rows,
            columns: read.columns,
            width: read.output_width,
            height: read.output_height,
        })
    }

    fn parse_overlay(&self, body: &[u8], inputs: usize) -> Outcome<Overlay> {
        attempt(|| OverlayDescriptor::parse(body, inputs)).map(|read| Overlay {
            fill: read.canvas_fill,
            width: read.output_width,
            height: read.output_height,
            offsets: read.offsets,
        })
    }

    fn write_grid(&self, grid: &Grid) -> Outcome<Vec<u8>> {
        infallible(|| descriptor(grid).to_bytes())
    }

    fn write_overlay(&self, overlay: &Overlay) -> Outcome<Vec<u8>> {
        infallible(|| overlay_descriptor(overlay).to_bytes())
    }

    fn resolve_clap(&self, fields: &Clap, width: u32, height: u32) -> Outcome<Rectangle> {
        attempt(|| clap(fields).resolve(width, height)).map(|rectangle| Rectangle {
            x: rectangle.x,
            y: rectangle.y,
            width: rectangle.width,
            height: rectangle.height,
        })
    }

    fn iscl_size(&self, fields: &Iscl, width: u32, height: u32) -> Outcome<(u32, u32)> {
        attempt(|| iscl(fields).output_size(width, height))
    }

    fn chain_size(
        &self,
        chain: &[Entry],
        size: (u32, u32),
        essential_only: bool,
    ) -> Outcome<(u32, u32)> {
        attempt(|| ItemProperties::new(entries(chain)).output_size(size, essential_only))
    }

    fn crop(&self, frame: &Frame, to: &Rectangle) -> Outcome<Frame> {
        picture(|| compose::crop(&published(frame), to.x, to.y, to.width, to.height))
    }

    fn apply_clap(&self, frame: &Frame, fields: &Clap) -> Outcome<Frame> {
        picture(|| compose::apply_clap(&published(frame), &clap(fields)))
    }

    fn apply_irot(&self, frame: &Frame, angle: u8) -> Outcome<Frame> {
        picture(|| compose::apply_irot(&published(frame), &Irot::new(angle)))
    }

    fn apply_imir(&self, frame: &Frame, axis: u8) -> Outcome<Frame> {
        picture(|| compose::apply_imir(&published(frame), &Imir::new(axis)))
    }

    fn apply_iscl(&self, frame: &Frame, fields: &Iscl) -> Outcome<Frame> {
        picture(|| compose::apply_iscl(&published(frame), &iscl(fields)))
    }

    fn resize_area(&self, frame: &Frame, width: u32, height: u32) -> Outcome<Frame> {
        picture(|| compose::resize_area(&published(frame), width, height))
    }

    fn resize_nearest(&self, frame: &Frame, width: u32, height: u32) -> Outcome<Frame> {
        picture(|| compose::resize_nearest(&published(frame), width, height))
    }

    fn rescale_depth(&self, frame: &Frame, depth: u8) -> Outcome<Frame> {
        picture(|| compose::rescale_depth(&published(frame), depth))
    }

    fn attach_alpha(&self, master: &Frame, alpha: &Frame) -> Outcome<Frame> {
        picture(|| compose::attach_alpha(&published(master), &published(alpha)))
    }

    fn apply_transforms(
        &self,
        frame: &Frame,
        chain: &[Entry],
        essential_only: bool,
    ) -> Outcome<Frame> {
        picture(|| compose::apply_transforms(&published(frame), &entries(chain), essential_only))
    }

    fn composite_grid(&self, grid: &Grid, tiles: &[Frame]) -> Outcome<Frame> {
        picture(|| compose::composite_grid(&descriptor(grid), &all_published(tiles)))
    }

    fn canvas(&self, grid: &Grid) -> Box<dyn Canvas> {
        Box::new(Session::start(grid))
    }

    fn composite_overlay(
        &self,
        overlay: &Overlay,
        inputs: &[OverlayInput],
        colour: Option<Colour>,
    ) -> Outcome<Frame> {
        picture(|| {
            let frames = overlay_frames(inputs);
            let lent = lent(&frames, inputs);
            let colour = nclx(colour);
            compose::composite_overlay(&overlay_descriptor(overlay), &lent, colour.as_ref())
        })
    }

    fn fill_to_ycbcr(
        &self,
        fill: [u16; 3],
        depth: u8,
        colour: Option<Colour>,
    ) -> Outcome<[u16; 3]> {
        infallible(|| compose::fill_to_ycbcr(fill, depth, nclx(colour).as_ref()))
    }
}
