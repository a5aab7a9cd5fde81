//! Fill colours (document 01, the paragraph Fill; ITU-T H.273).

use crate::props::Colr;
use crate::{Result, sys};

/// The samples of a fill (red, green, blue, 16 bits each) in a picture that `colr` describes;
/// without an nclx description matrix 6 at full range. Refusal 6: a depth outside 8 to 16.
///
/// ```
/// use compose::{Refusal, fill};
///
/// assert_eq!(fill::samples([65_535, 0, 0], 8, None), Ok([76, 85, 255]));
/// assert_eq!(fill::samples([65_535, 0, 0], 264, None), Err(Refusal::DEPTH));
/// ```
#[inline]
pub fn samples(fill: [u16; 3], depth: u32, colr: Option<&Colr>) -> Result<[u16; 3]> {
    let [red, green, blue] = fill;
    let (colour, matrix, full_range) = Colr::words(colr);
    let mut samples = [0; 3];
    sys::compose_fill(
        red,
        green,
        blue,
        depth,
        colour,
        matrix,
        full_range,
        &mut samples,
    )?;
    Ok(samples)
}

/// As [`samples`], in oxideav-heif's shape.
///
/// # Panics
///
/// At a depth outside 8 to 16, which no [`HeifPixelFormat`](crate::image::HeifPixelFormat) that
/// was built by its `new` has.
///
/// ```
/// use compose::{fill_to_ycbcr, props::Colr};
///
/// let studio = Colr::Nclx { primaries: 1, transfer: 13, matrix: 6, full_range: false };
/// assert_eq!(fill_to_ycbcr([65_535; 3], 8, None), [255, 128, 128]);
/// assert_eq!(fill_to_ycbcr([65_535; 3], 8, Some(&studio)), [235, 128, 128]);
/// ```
#[inline]
pub fn fill_to_ycbcr(fill: [u16; 3], depth: u8, colr: Option<&Colr>) -> [u16; 3] {
    samples(fill, u32::from(depth), colr)
        .unwrap_or_else(|refusal| panic!("a fill at depth {depth}: {refusal}"))
}
