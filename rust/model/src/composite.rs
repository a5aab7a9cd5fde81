//! Composing (document 01, the paragraphs Grid, Overlay and Fill), worked out place by place.

use crate::fill::fill_samples;
use crate::operation::{promotes, tabulate};
use crate::oracle::{Colour, Grid, Overlay, OverlayInput};
use crate::record::{Chroma, Frame};
use crate::refusal::{self, Refusal};

impl Frame {
    /// The middle of the sample range, 2^(depth − 1).
    pub fn middle(&self) -> u16 {
        1 << (self.depth - 1)
    }

    /// What a picture with chroma and alpha reads of this one at a place: the covering sample of
    /// luma (0), Cb (1), Cr (2) or alpha (3); the middle for the chroma that mono has not, top for
    /// the alpha that is not there.
    pub fn covering(&self, part: usize, x: u32, y: u32) -> u16 {
        let plane = match part {
            3 if self.alpha == 0 => return self.top(),
            3 => self.chroma.colour_planes(),
            1 | 2 if self.chroma == Chroma::Mono => return self.middle(),
            part => part,
        };
        let (across, down) = self.plane_halved(plane);
        let (x, y) = (x >> u32::from(across), y >> u32::from(down));
        self.sample(plane, x as usize, y as usize)
    }

    /// The part that a plane holds: luma 0, Cb 1, Cr 2, alpha 3.
    pub fn part(&self, plane: usize) -> usize {
        if plane == self.chroma.colour_planes() {
            3
        } else {
            plane
        }
    }
}

/// The tight frame of a form, each sample worked out from its part and the first place that it
/// covers.
fn by_place(form: Frame, sample: impl Fn(usize, u32, u32) -> u16) -> Frame {
    tabulate(form, |form, plane, x, y| {
        let (across, down) = form.plane_halved(plane);
        sample(
            form.part(plane),
            x << u32::from(across),
            y << u32::from(down),
        )
    })
}

/// The chroma of a canvas.
fn canvas_chroma(first: &Frame, promoted: bool) -> Chroma {
    if promoted {
        Chroma::Yuv444
    } else {
        first.chroma
    }
}

/// 12, then tile by tile its 13 and 14.
pub(crate) fn tiles_fit(grid: &Grid, tiles: &[Frame]) -> Result<(), Refusal> {
    let first = &tiles[0];
    let covered = |side: u32, cells: u16| u64::from(side) * u64::from(cells);
    if covered(first.width, grid.columns) < u64::from(grid.width)
        || covered(first.height, grid.rows) < u64::from(grid.height)
    {
        return Err(refusal::COVER);
    }
    for (index, tile) in tiles.iter().enumerate() {
        if (tile.width, tile.height) != (first.width, first.height) {
            return Err(refusal::TILE_SIZE.of_record(index));
        }
        if (tile.chroma, tile.depth) != (first.chroma, first.depth) {
            return Err(refusal::FORM.of_record(index));
        }
    }
    Ok(())
}

/// The form of a grid's canvas: 12, then tile by tile 13 and 14.
pub(crate) fn grid_form(grid: &Grid, tiles: &[Frame]) -> Result<Frame, Refusal> {
    tiles_fit(grid, tiles)?;
    let first = &tiles[0];
    let promoted = promotes(
        first,
        &[first.width, grid.width],
        &[first.height, grid.height],
    );
    let alpha = u8::from(tiles.iter().any(|tile| tile.alpha != 0));
    let chroma = canvas_chroma(first, promoted);
    let size = (grid.width, grid.height);
    Ok(Frame::empty(size, chroma, first.depth, alpha))
}

/// The tiles of a grid, each in its cell.
pub fn composite_grid(grid: &Grid, tiles: &[Frame]) -> Result<Frame, Refusal> {
    let form = grid_form(grid, tiles)?;
    Ok(by_place(form, |part, x, y| {
        let (input, x, y) = tile_at(grid, &tiles[0], x, y);
        tiles[input].covering(part, x, y)
    }))
}

/// The tile that covers a place of a grid's canvas, and the spot there.
pub(crate) fn tile_at(grid: &Grid, first: &Frame, x: u32, y: u32) -> (usize, u32, u32) {
    let (column, row) = (x / first.width, y / first.height);
    let input = row as usize * usize::from(grid.columns) + column as usize;
    (input, x % first.width, y % first.height)
}

/// The spot of an input that lies over a place of the canvas, if it covers it.
pub(crate) fn spot_at(frame: &Frame, offset: (i32, i32), x: u32, y: u32) -> Option<(u32, u32)> {
    let along = |at: u32, offset: i32, side: u32| {
        let spot = i64::from(at) - i64::from(offset);
        u32::try_from(spot).ok().filter(|spot| *spot < side)
    };
    Some((
        along(x, offset.0, frame.width)?,
        along(y, offset.1, frame.height)?,
    ))
}

/// The fill of an overlay's canvas: three samples and the alpha, in the order of the parts.
pub(crate) fn canvas_fill(
    overlay: &Overlay,
    first: &Frame,
    colour: Option<Colour>,
) -> Result<[u16; 4], Refusal> {
    let [red, green, blue, alpha] = overlay.fill;
    let [luma, cb, cr] = fill_samples([red, green, blue], u32::from(first.depth), colour)?;
    let alpha = (u64::from(alpha) * u64::from(first.top()) + 32_767) / 65_535;
    Ok([luma, cb, cr, alpha as u16])
}

/// Whether any alpha sample of `frame` lies above top.
fn alpha_above_top(frame: &Frame) -> bool {
    let samples = || frame.samples(frame.chroma.colour_planes());
    frame.alpha != 0 && samples().iter().any(|sample| *sample > frame.top())
}

/// The refusal of the lowest input that is `wrong`, where one is.
pub(crate) fn none_is<'a>(
    frames: impl IntoIterator<Item = &'a Frame>,
    refusal: Refusal,
    wrong: impl Fn(&Frame) -> bool,
) -> Result<(), Refusal> {
    match frames.into_iter().position(wrong) {
        Some(index) => Err(refusal.of_record(index)),
        None => Ok(()),
    }
}

/// 14 over all inputs.
pub(crate) fn one_depth<'a>(
    frames: impl Clone + IntoIterator<Item = &'a Frame>,
) -> Result<(), Refusal> {
    let first = frames.clone().into_iter().next().map(|frame| frame.depth);
    none_is(frames, refusal::FORM, |frame| Some(frame.depth) != first)
}

/// The form of an overlay's canvas, whatever its colour description: 14, then 16.
pub(crate) fn overlay_form(overlay: &Overlay, inputs: &[OverlayInput]) -> Result<Frame, Refusal> {
    let frames = || inputs.iter().map(|input| &input.frame);
    one_depth(frames())?;
    none_is(frames(), refusal::ALPHA, alpha_above_top)?;
    let first = &inputs[0].frame;
    let [.., fill_alpha] = canvas_fill(overlay, first, None)?;
    let along = |offsets: Vec<i32>, sides: Vec<u32>, canvas: u32| -> Vec<u32> {
        let offsets = offsets.into_iter().map(i32::unsigned_abs);
        offsets.chain(sides).chain([canvas]).collect()
    };
    let (across, down): (Vec<i32>, Vec<i32>) = overlay.offsets.iter().copied().unzip();
    let across = along(across, frames().map(|f| f.width).collect(), overlay.width);
    let down = along(down, frames().map(|f| f.height).collect(), overlay.height);
    let promoted = first.chroma != Chroma::Mono && frames().any(|frame| frame.alpha != 0)
        || frames().any(|frame| frame.chroma != first.chroma)
        || promotes(first, &across, &down);
    Ok(Frame::empty(
        (overlay.width, overlay.height),
        canvas_chroma(first, promoted),
        first.depth,
        u8::from(fill_alpha < first.top()),
    ))
}

/// The inputs of an overlay, the last on top.
pub fn composite_overlay(
    overlay: &Overlay,
    inputs: &[OverlayInput],
    colour: Option<Colour>,
) -> Result<Frame, Refusal> {
    let form = overlay_form(overlay, inputs)?;
    let fill = canvas_fill(overlay, &inputs[0].frame, colour)?;
    let top = u64::from(form.top());
    Ok(by_place(form, |part, x, y| {
        // The colour is multiplied by the opacity, and by top once more.
        let mut colour = u64::from(fill[part]) * u64::from(fill[3]);
        let mut opacity = u64::from(fill[3]);
        for (input, offset) in inputs.iter().zip(&overlay.offsets) {
            let Some((x, y)) = spot_at(&input.frame, *offset, x, y) else {
                continue;
            };
            let sample = u64::from(input.frame.covering(part, x, y));
            let alpha = u64::from(input.frame.covering(3, x, y));
            let behind = |sum: u64| (sum * (top - alpha) + top / 2) / top;
            let weight = if input.premultiplied { top } else { alpha };
            colour = (sample * weight + behind(colour)).min(top * top);
            opacity = (alpha + behind(opacity)).min(top);
        }
        match part {
            3 => opacity as u16,
            _ if opacity == 0 => fill[part],
            _ => ((colour + opacity / 2) / opacity).min(top) as u16,
        }
    }))
}
