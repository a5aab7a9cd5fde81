//! Descriptors of derived images, with the names and shapes of oxideav-heif's module `derived`.
//!
//! ```
//! use compose::derived::{GridDescriptor, OverlayDescriptor};
//!
//! // One row of two tiles, 4 × 2.
//! let grid = GridDescriptor::parse(&[0, 0, 0, 1, 0, 4, 0, 2])?;
//! assert_eq!(grid, GridDescriptor::new(1, 2, 4, 2));
//!
//! // A white canvas of 4 × 2, and an input whose corner lies one column left of it.
//! let overlay = OverlayDescriptor::new([65_535; 4], 4, 2, vec![(-1, 0)]);
//! assert_eq!(OverlayDescriptor::parse(&overlay.to_bytes(), 1)?, overlay);
//!
//! let refusal = OverlayDescriptor::parse(&overlay.to_bytes(), 2).unwrap_err();
//! assert_eq!((refusal.number(), refusal.name()), (1, "short"));
//!
//! // Fields that no body has.
//! let refusal = GridDescriptor::new(257, 1, 4, 2).body().unwrap_err();
//! assert_eq!((refusal.number(), refusal.name()), (19, "tiling"));
//! # Ok::<(), compose::Refusal>(())
//! ```

use crate::lend::narrow;
use crate::sys::{self, Fresh};
use crate::{Refusal, Result};

/// The most inputs of one overlay.
pub const MAX_DERIVATION_INPUTS: usize = 1 << 16;

/// The most pixels of a canvas.
pub const MAX_CANVAS_PIXELS: u64 = 1 << 30;

/// An offset of its two parts, of which one is 0 and neither is above 2^31, as the call's contract has
/// it.
fn signed(ahead: u64, behind: u64) -> i32 {
    ahead.wrapping_sub(behind) as i32
}

/// An input's offsets of their four words.
fn pair([right, left, below, above]: &[u64; 4]) -> (i32, i32) {
    (signed(*right, *left), signed(*below, *above))
}

/// The offsets of a body that was taken for so many inputs. The words of a few are lent from the stack.
fn offsets(body: &[u8], count: u32) -> Result<Vec<(i32, i32)>> {
    let length = 4 * count as usize;
    let (mut few, mut many) = ([0; 64], Vec::new());
    let words = match few.get_mut(..length) {
        Some(words) => words,
        None => {
            many.resize(length, 0);
            &mut many[..]
        }
    };
    sys::compose_overlay_offsets(body, count, words)?;
    let (inputs, _) = words.as_chunks();
    Ok(inputs.iter().map(pair).collect())
}

/// A number of inputs; more than a call can count are too many as well.
fn inputs(count: usize) -> u32 {
    u32::try_from(count).unwrap_or(u32::MAX)
}

/// The body of a grid (document 02, A4), with sizes of 16 bits where both fit, else of 32. Refusals: 19
/// rows or columns outside 1 to 256; 3 a side 0; 4 above 2^30 pixels.
pub fn grid_body(rows: u32, columns: u32, width: u32, height: u32) -> Result<Vec<u8>> {
    // As long as one of 32-bit sizes is.
    let room = 12;
    Fresh::compose_write_grid(rows, columns, width, height, room)
}

/// A grid's descriptor (ISO/IEC 23008-12, 6.6.2.3.2).
#[derive(Clone, Copy, Debug, PartialEq, Eq)]
#[non_exhaustive]
pub struct GridDescriptor {
    /// Rows of tiles, 1 to 256.
    pub rows: u16,
    /// Columns of tiles, 1 to 256.
    pub columns: u16,
    /// The canvas's width.
    pub output_width: u32,
    /// The canvas's height.
    pub output_height: u32,
}

impl GridDescriptor {
    /// A descriptor of its four fields.
    pub fn new(rows: u16, columns: u16, output_width: u32, output_height: u32) -> Self {
        Self {
            rows,
            columns,
            output_width,
            output_height,
        }
    }

    /// The descriptor of a body. Refusals: 1 empty, 2 a version other than 0, 1 short, 3 a side 0,
    /// 4 above 2^30 pixels.
    pub fn parse(body: &[u8]) -> Result<Self> {
        let mut words = [0; 4];
        sys::compose_grid_descriptor(body, &mut words)?;
        let [rows, columns, width, height] = words;
        Ok(Self {
            rows: narrow(rows),
            columns: narrow(columns),
            output_width: narrow(width),
            output_height: narrow(height),
        })
    }

    /// How many tiles it takes.
    pub fn tile_count(&self) -> usize {
        usize::from(self.rows) * usize::from(self.columns)
    }

    /// The body, as [`grid_body`] writes it. Refusals: 19, 3, 4.
    pub fn body(&self) -> Result<Vec<u8>> {
        let [rows, columns] = [self.rows, self.columns].map(u32::from);
        grid_body(rows, columns, self.output_width, self.output_height)
    }

    /// As [`body`](Self::body), in oxideav-heif's shape.
    ///
    /// # Panics
    ///
    /// Where [`body`](Self::body) refuses.
    pub fn to_bytes(&self) -> Vec<u8> {
        self.body()
            .unwrap_or_else(|refusal| panic!("a grid's body: {refusal}"))
    }
}

/// An overlay's descriptor (ISO/IEC 23008-12, 6.6.2.2.2).
#[derive(Clone, Debug, PartialEq, Eq)]
#[non_exhaustive]
pub struct OverlayDescriptor {
    /// The canvas's red, green, blue and alpha, of 16 bits each.
    pub canvas_fill: [u16; 4],
    /// The canvas's width.
    pub output_width: u32,
    /// The canvas's height.
    pub output_height: u32,
    /// How far right of and below the canvas's corner each input's lies.
    pub offsets: Vec<(i32, i32)>,
}

impl OverlayDescriptor {
    /// A descriptor of its four fields.
    pub fn new(
        canvas_fill: [u16; 4],
        output_width: u32,
        output_height: u32,
        offsets: Vec<(i32, i32)>,
    ) -> Self {
        Self {
            canvas_fill,
            output_width,
            output_height,
            offsets,
        }
    }

    /// The descriptor of a body that places so many inputs. Refusals: 1 empty, 2 a version other
    /// than 0, 1 short, 3 a side 0, 4 above 2^30 pixels, 4 above 65,536 inputs, 1 offsets short.
    pub fn parse(body: &[u8], reference_count: usize) -> Result<Self> {
        let count = inputs(reference_count);
        let mut words = [0; 6];
        sys::compose_overlay_descriptor(body, count, &mut words)?;
        let [fill @ .., width, height] = words;
        Ok(Self {
            canvas_fill: fill.map(narrow),
            output_width: narrow(width),
            output_height: narrow(height),
            offsets: offsets(body, count)?,
        })
    }

    /// The body (document 02, A4), with sizes and offsets of 16 bits where all fit, else of 32. Refusals:
    /// 3 a side 0; 4 above 2^30 pixels; 4 above 65,536 inputs; 15 no inputs.
    pub fn body(&self) -> Result<Vec<u8>> {
        self.body_for(self.offsets.len())
    }

    /// The body for so many inputs. Refusals: as [`body`](Self::body); then 11 another number of
    /// offsets.
    pub(crate) fn body_for(&self, count: usize) -> Result<Vec<u8>> {
        // One above the most stands for all above it.
        let inputs = count.min(MAX_DERIVATION_INPUTS + 1);
        let mut words = Vec::with_capacity(2 * inputs);
        for (x, y) in self.offsets.iter().take(inputs) {
            words.extend([x.cast_unsigned(), y.cast_unsigned()]);
        }
        // Inputs without an offset count here, too: that they have none is judged last.
        words.resize(2 * inputs, 0);
        // As long as one of 32-bit sizes and offsets is.
        let room = 18 + 8 * inputs;
        let [red, green, blue, alpha] = self.canvas_fill;
        let body = Fresh::compose_write_overlay(
            red,
            green,
            blue,
            alpha,
            self.output_width,
            self.output_height,
            &words,
            room,
        )?;
        match count == self.offsets.len() {
            true => Ok(body),
            false => Err(Refusal::COUNT),
        }
    }

    /// As [`body`](Self::body), in oxideav-heif's shape.
    ///
    /// # Panics
    ///
    /// Where [`body`](Self::body) refuses.
    pub fn to_bytes(&self) -> Vec<u8> {
        self.body()
            .unwrap_or_else(|refusal| panic!("an overlay's body: {refusal}"))
    }
}
