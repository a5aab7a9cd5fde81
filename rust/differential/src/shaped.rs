//! Pictures in oxideav-heif's shape, as the crate `compose` has it: frames of the model in that
//! shape, legal or not, and what document 01 wants of the calls on them.

use crate::expected::{
    Stop, Want, alpha_above_top, attach, compose_grid, hold_inputs, hold_tiles, settle,
};
use crate::ours;
use compose::{
    Chroma, GridDescriptor, HeifFrame, HeifPixelFormat, OverlayDescriptor, Plane, props,
};
use model::{
    Clap, Colour, Crop, Entry, Frame, Grid, Iscl, Oracle, Outcome, Overlay, OverlayInput, Refusal,
    parse_record, refusal,
};

/// The same frame in the crate's own shape. Nothing is judged.
pub fn heif(frame: &Frame) -> HeifFrame {
    let chroma = Chroma::from_idc(frame.chroma as u8).expect("one of the four chromas");
    let format = HeifPixelFormat::new(chroma, 8, frame.alpha == 1).expect("a depth");
    let planes = frame
        .planes
        .iter()
        .map(|plane| Plane::new(plane.stride, plane.data.clone()))
        .collect();
    let format = format.with_bit_depth(frame.depth);
    HeifFrame::new(frame.width, frame.height, format, planes)
}

pub fn grid_descriptor(grid: &Grid) -> GridDescriptor {
    GridDescriptor::new(grid.rows, grid.columns, grid.width, grid.height)
}

pub fn overlay_descriptor(overlay: &Overlay) -> OverlayDescriptor {
    let offsets = overlay.offsets.clone();
    OverlayDescriptor::new(overlay.fill, overlay.width, overlay.height, offsets)
}

pub fn crop(crop: &Crop) -> props::Crop {
    let [x, y, width, height, left, top, right, bottom] = crop.fields();
    props::Crop {
        rect: props::CropRect {
            x,
            y,
            width,
            height,
        },
        margins: props::Margins {
            left,
            top,
            right,
            bottom,
        },
    }
}

pub fn clap(clap: &Clap) -> props::Clap {
    props::Clap::new(
        clap.width_n,
        clap.width_d,
        clap.height_n,
        clap.height_d,
        clap.horizontal_n,
        clap.horizontal_d,
        clap.vertical_n,
        clap.vertical_d,
    )
}

pub fn iscl(iscl: &Iscl) -> props::Iscl {
    let [width_num, width_den, height_num, height_den] = iscl.fields();
    props::Iscl::new(width_num, width_den, height_num, height_den)
}

/// An answer of the crate, its refusal with its item.
pub fn said<T>(answer: compose::Result<T>) -> Want<T> {
    answer.map_err(|refusal| Stop::Refused(ours::refusal(refusal)))
}

/// Holds an answer of the crate to what is wanted, a refusal to its number and its item.
pub fn hold_to(ours: compose::Result<HeifFrame>, want: Want<Frame>, what: &str) {
    assert_eq!(said(ours), want.map(|frame| heif(&frame)), "{what}");
}

/// Holds an answer of the crate to one of the published Rust, a refusal to one of no item.
pub fn hold(ours: compose::Result<HeifFrame>, theirs: Outcome<Frame>, what: &str) {
    hold_to(ours, settle(theirs), what);
}

/// The pixel limit L of document 01.
const MAX_PIXELS: u64 = 1 << 30;

fn refused<T>(refusal: Refusal) -> Want<T> {
    Err(Stop::Refused(refusal))
}

/// A frame whose record is judged.
pub fn judged(frame: &Frame) -> Want<Frame> {
    Ok(parse_record(&frame.record())?)
}

/// A descriptor's canvas: 3 a side 0, 4 above L.
fn canvas(width: u32, height: u32) -> Want<()> {
    if width == 0 || height == 0 {
        return refused(refusal::ZERO_SIDE);
    }
    if u64::from(width) * u64::from(height) > MAX_PIXELS {
        return refused(refusal::LIMIT);
    }
    Ok(())
}

/// A grid that may be out of range: 19, then the canvas's.
pub fn grid(grid: &Grid) -> Want<()> {
    hold_tiles([grid.rows, grid.columns].map(u32::from))?;
    canvas(grid.width, grid.height)
}

/// Frames whose records are judged in turn, each with its own refusal.
fn each_judged<'a>(frames: impl Iterator<Item = &'a Frame>) -> Want<Vec<Frame>> {
    let own = |(index, frame)| judged(frame).map_err(|stop| stop.of_record(index));
    frames.enumerate().map(own).collect()
}

/// `composite_grid`: the body's, 11, the records' in turn, then 12, and tile by tile 13 and 14.
pub fn composite_grid(oracle: &dyn Oracle, desc: &Grid, tiles: &[Frame]) -> Want<Frame> {
    grid(desc)?;
    if tiles.len() != desc.cells() {
        return refused(refusal::COUNT);
    }
    compose_grid(oracle, desc, &each_judged(tiles.iter())?)
}

/// `composite_overlay`: the body's, 4 above 65,536 inputs, 15, 11, the records' in turn, 14 and 16 of
/// the lowest input.
pub fn composite_overlay(
    oracle: &dyn Oracle,
    desc: &Overlay,
    inputs: &[OverlayInput],
    colour: Option<Colour>,
) -> Want<Frame> {
    canvas(desc.width, desc.height)?;
    if inputs.len() > 65_536 {
        return refused(refusal::LIMIT);
    }
    if inputs.is_empty() {
        return refused(refusal::MISSING);
    }
    if inputs.len() != desc.offsets.len() {
        return refused(refusal::COUNT);
    }
    each_judged(inputs.iter().map(|input| &input.frame))?;
    let depth = inputs[0].frame.depth;
    hold_inputs(inputs, refusal::FORM, |frame| frame.depth == depth)?;
    hold_inputs(inputs, refusal::ALPHA, |frame| !alpha_above_top(frame))?;
    settle(oracle.composite_overlay(desc, inputs, colour))
}

/// `apply_transforms` on a frame whose record is judged: the entries in turn. The one that is refused
/// is the last of the shortest beginning of the chain that is.
pub fn apply_transforms(
    oracle: &dyn Oracle,
    frame: &Frame,
    chain: &[Entry],
    essential_only: bool,
) -> Want<Frame> {
    let apply = |chain| settle(oracle.apply_transforms(frame, chain, essential_only));
    apply(chain).map_err(|stop| {
        let refused = (0..chain.len()).find(|last| apply(&chain[..=*last]).is_err());
        stop.of_entry(refused.expect("the whole chain is refused"))
    })
}

/// `promote_to_444`: the record.
pub fn promote_to_444(oracle: &dyn Oracle, frame: &Frame) -> Want<Frame> {
    settle(oracle.promote_to_444(&judged(frame)?))
}

/// `with_alpha_plane`: both records, then 13 another size, 14 another depth.
pub fn with_alpha_plane(oracle: &dyn Oracle, frame: &Frame, alpha: &Frame) -> Want<Frame> {
    settle(oracle.with_alpha_plane(&judged(frame)?, &judged(alpha)?))
}

/// `attach_alpha`: the master's record, then the alpha's.
pub fn attach_alpha(oracle: &dyn Oracle, master: &Frame, alpha: &Frame) -> Want<Frame> {
    let record = attach(oracle, &master.record(), &alpha.record())?;
    Ok(parse_record(&record)?)
}
