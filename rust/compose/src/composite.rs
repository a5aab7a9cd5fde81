//! Tiles joined to one picture, and inputs laid over a canvas, with oxideav-heif's names.
//!
//! ```
//! use compose::image::{Chroma, HeifFrame, HeifPixelFormat};
//! use compose::{GridDescriptor, composite_grid};
//!
//! let format = HeifPixelFormat::new(Chroma::Mono, 8, false)?;
//! let tiles = [HeifFrame::filled(2, 2, format, 1)?, HeifFrame::filled(2, 2, format, 5)?];
//! // One row of two tiles; the canvas cuts the second one.
//! let slope = composite_grid(&GridDescriptor::new(1, 2, 3, 2), &tiles)?;
//! assert_eq!((slope.sample(0, 1, 0), slope.sample(0, 2, 1)), (1, 5));
//! # Ok::<(), compose::Refusal>(())
//! ```

use crate::derived::{GridDescriptor, OverlayDescriptor};
use crate::image::HeifFrame;
use crate::lend::written;
use crate::plan::{self, Asked};
use crate::props::Colr;
use crate::record::{LONGEST_NUMBER, push_number};
use crate::sys::Fresh;
use crate::{About, Refusal, Result, stock};

/// One input of an overlay.
#[derive(Clone, Debug)]
#[non_exhaustive]
pub struct OverlayInput<'a> {
    /// The picture.
    pub frame: &'a HeifFrame,
    /// Whether its samples are multiplied by its alpha already.
    pub premultiplied: bool,
}

impl<'a> OverlayInput<'a> {
    /// An input of its two fields.
    pub fn new(frame: &'a HeifFrame, premultiplied: bool) -> Self {
        Self {
            frame,
            premultiplied,
        }
    }
}

/// A picture that has a record.
pub(crate) trait Recorded {
    /// Refusals: document 01's *Record*.
    fn judge(&self) -> Result<()>;

    /// How long the record is, where it is judged.
    fn record_size(&self) -> usize;

    /// Appends the record, where it is judged.
    fn push_record(&self, bytes: &mut Vec<u8>);
}

/// The tray of `frames`, each copied once. Refusals: each frame's in turn.
fn tray_of<'a, F: Recorded + 'a>(frames: impl Iterator<Item = &'a F> + Clone) -> Result<Vec<u8>> {
    let (mut size, mut count) = (LONGEST_NUMBER, 0u32);
    for frame in frames.clone() {
        let own = |refusal: Refusal| refusal.of_item(About::Record, count.into());
        frame.judge().map_err(own)?;
        size += frame.record_size();
        count = count.checked_add(1).ok_or(Refusal::MALFORMED)?;
    }
    let mut tray = stock::take(size);
    push_number(&mut tray, count);
    frames.for_each(|frame| frame.push_record(&mut tray));
    Ok(tray)
}

/// The record of a grid's tiles.
pub(crate) fn grid_of(desc: &GridDescriptor, tiles: &[impl Recorded]) -> Result<Vec<u8>> {
    let body = desc.body()?;
    if tiles.len() != desc.tile_count() {
        return Err(Refusal::COUNT);
    }
    let tray = tray_of(tiles.iter())?;
    let made = grid(&body, &tray);
    stock::give(tray);
    made
}

/// The record of an overlay's inputs, each with whether it is premultiplied.
pub(crate) fn overlay_of<'a, F: Recorded + 'a>(
    desc: &OverlayDescriptor,
    inputs: impl ExactSizeIterator<Item = (&'a F, bool)> + Clone,
    colr: Option<&Colr>,
) -> Result<Vec<u8>> {
    let body = desc.body_for(inputs.len())?;
    let list: Vec<u8> = inputs.clone().map(|(_, alpha)| alpha.into()).collect();
    let tray = tray_of(inputs.map(|(frame, _)| frame))?;
    let made = overlay(&body, &tray, &list, colr);
    stock::give(tray);
    made
}

/// The record that a grid's body and a tray of tiles come to. Refusals: 5 a tray count that cannot
/// be read; the body's; 11; the records'; 12; tile by tile 13 and 14.
pub fn grid(body: &[u8], tray: &[u8]) -> Result<Vec<u8>> {
    let asked = plan::grid(body, tray).map(Asked::from);
    written(asked, |room| Fresh::compose_grid(body, tray, room))
}

/// The record that an overlay's body, a tray of inputs and one premultiplied byte an input come to.
/// Refusals: 5 a tray count that cannot be read; the body's; 15; 11; the records'; 14; 16.
pub fn overlay(
    body: &[u8],
    tray: &[u8],
    premultiplied: &[u8],
    colr: Option<&Colr>,
) -> Result<Vec<u8>> {
    let (colour, matrix, full_range) = Colr::words(colr);
    let asked = plan::overlay(body, tray).map(Asked::from);
    written(asked, |room| {
        Fresh::compose_overlay(body, tray, premultiplied, colour, matrix, full_range, room)
    })
}

/// The tiles of a grid, each in its cell. Refusals: the descriptor's; 11 another number of tiles; the
/// frames'; 12, 13, 14.
pub fn composite_grid(desc: &GridDescriptor, tiles: &[HeifFrame]) -> Result<HeifFrame> {
    HeifFrame::of_made(grid_of(desc, tiles)?)
}

/// The inputs of an overlay, the last on top; `colr` is for the fill. Refusals: the descriptor's; 15 no
/// inputs; 11 another number of them; the frames'; 14; 16.
pub fn composite_overlay(
    desc: &OverlayDescriptor,
    inputs: &[OverlayInput<'_>],
    colr: Option<&Colr>,
) -> Result<HeifFrame> {
    let inputs = inputs
        .iter()
        .map(|input| (input.frame, input.premultiplied));
    HeifFrame::of_made(overlay_of(desc, inputs, colr)?)
}

#[cfg(test)]
mod tests {
    use super::overlay;
    use crate::record::push_number;
    use crate::{OverlayDescriptor, Refusal};

    /// As many inputs as there may be, each one pixel, laid over a canvas of 256 × 256; and one more.
    #[test]
    fn an_overlay_of_65536_inputs() {
        let offsets = (0..65_536).map(|at| (at % 256, at / 256)).collect();
        let mut body = OverlayDescriptor::new([0, 0, 0, 65_535], 256, 256, offsets).to_bytes();
        let tray = |inputs: u32| {
            let mut tray = Vec::new();
            push_number(&mut tray, inputs);
            for at in 0..inputs {
                tray.extend([1, 1, 0, 8, 0, 1, 1, (at % 251) as u8]);
            }
            tray
        };
        let made = overlay(&body, &tray(65_536), &[0; 65_536], None).expect("a record");
        let samples = &made[made.len() - 65_536..];
        assert!((0..65_536).all(|at| samples[at] == (at % 251) as u8));
        // No body of more is written, but a file may hold one.
        body.extend([0; 4]);
        let refusal = overlay(&body, &tray(65_537), &[0; 65_537], None).unwrap_err();
        assert_eq!(refusal, Refusal::LIMIT);
    }
}
