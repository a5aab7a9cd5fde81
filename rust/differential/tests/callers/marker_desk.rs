// The marker desk: flags laid over a slope, one that shines through, one half off the canvas, on
// canvases of several fills; written against oxideav-heif's names.

use heif::compose::{OverlayInput, attach_alpha, composite_overlay, fill_to_ycbcr};
use heif::derived::OverlayDescriptor;
use heif::error::{Error, Result};
use heif::image::{Chroma, HeifFrame, HeifPixelFormat};
use heif::props::Colr;

/// A picture of one colour, in samples of a description.
fn painted(size: (u32, u32), rgb: [u16; 3], colr: &Colr) -> Result<HeifFrame> {
    let format = HeifPixelFormat::new(Chroma::Yuv420, 8, false)?;
    let mut frame = HeifFrame::zeroed(size.0, size.1, format)?;
    for (plane, sample) in fill_to_ycbcr(rgb, 8, Some(colr)).into_iter().enumerate() {
        let (width, height) = frame.plane_dims(plane);
        for y in 0..height {
            for x in 0..width {
                frame.set_sample(plane, x, y, sample);
            }
        }
    }
    Ok(frame)
}

/// A flag whose edge shines through.
fn pennant(rgb: [u16; 3], colr: &Colr) -> Result<HeifFrame> {
    let mut shape = HeifFrame::zeroed(10, 6, HeifPixelFormat::new(Chroma::Mono, 8, false)?)?;
    for y in 0..6 {
        for x in 0..10 {
            let edge = 2 * (3 - (y as i32 - 3).abs());
            let inside = (edge - x as i32).clamp(0, 3);
            shape.set_sample(0, x, y, (inside * 85) as u16);
        }
    }
    attach_alpha(&painted((10, 6), rgb, colr)?, &shape)
}

/// The slope with its flags: on its own, on a canvas that is larger, and on one that is clear.
pub fn run() -> Result<Vec<HeifFrame>> {
    let colr = Colr::Nclx {
        primaries: 1,
        transfer: 13,
        matrix: 1,
        full_range: false,
    };
    let slope = painted((48, 32), [60_000, 62_000, 65_535], &colr)?;
    let flags = [
        painted((4, 8), [65_535, 0, 0], &colr)?,
        painted((5, 3), [0, 30_000, 65_535], &colr)?,
        pennant([65_535, 50_000, 0], &colr)?,
    ];
    let mut shown = Vec::new();
    for (fill, size, flags) in [
        ([0, 0, 0, 65_535], (48, 32), &flags[..1]),
        ([9_000, 20_000, 9_000, 65_535], (52, 40), &flags[..2]),
        ([65_535, 65_535, 65_535, 20_000], (47, 31), &flags[..]),
    ] {
        let places = [(0, 0), (20, 10), (-2, 6), (43, 27)];
        let inputs: Vec<OverlayInput<'_>> = std::iter::once(&slope)
            .chain(flags)
            .map(|frame| OverlayInput::new(frame, false))
            .collect();
        let places = places[..inputs.len()].to_vec();
        let places = OverlayDescriptor::new(fill, size.0, size.1, places);
        // What is saved is read back.
        let places = OverlayDescriptor::parse(&places.to_bytes(), inputs.len())?;
        shown.push(composite_overlay(&places, &inputs, Some(&colr))?);
    }
    // The pennant alone, its colour taken for multiplied already, on nothing.
    let alone = OverlayDescriptor::new([0; 4], 10, 6, vec![(0, 0)]);
    let input = [OverlayInput::new(&flags[2], true)];
    shown.push(composite_overlay(&alone, &input, None)?);
    Ok(shown)
}

/// What the desk turns away: no inputs, an input without a place, another depth.
pub fn turned_away() -> Vec<Option<Error>> {
    let of = |depth| {
        let format = HeifPixelFormat::new(Chroma::Mono, depth, false).expect("a depth");
        HeifFrame::filled(4, 4, format, 9).expect("a frame")
    };
    let (eight, ten) = (of(8), of(10));
    let place = |count| OverlayDescriptor::new([0; 4], 4, 4, vec![(0, 0); count]);
    let lay = |count, frames: &[&HeifFrame]| {
        let inputs: Vec<OverlayInput<'_>> = frames
            .iter()
            .map(|frame| OverlayInput::new(frame, false))
            .collect();
        composite_overlay(&place(count), &inputs, None).err()
    };
    vec![
        lay(0, &[]),
        lay(1, &[&eight, &eight]),
        lay(2, &[&eight, &ten]),
        lay(2, &[&eight, &eight]),
    ]
}
