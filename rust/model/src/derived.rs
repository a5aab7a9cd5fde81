//! Descriptor bodies (document 01, "What is handed in"; ISO/IEC 23008-12, 6.6.2), big-endian, read, and
//! written from their fields (document 02, A4).

use crate::oracle::{Grid, Overlay};
use crate::record::hold_size;
use crate::refusal::{self, Refusal};
use crate::room::put;
use crate::steps::Size;

/// The most inputs that an overlay may have.
const MAX_INPUTS: usize = 65_536;

/// Fields from the front of a body. One that is not whole is refusal 1.
struct Fields<'a>(&'a [u8]);

impl Fields<'_> {
    /// The next `bytes` bytes as an unsigned number.
    fn number(&mut self, bytes: usize) -> Result<u32, Refusal> {
        let (field, rest) = self.0.split_at_checked(bytes).ok_or(refusal::SHORT)?;
        self.0 = rest;
        let number = field
            .iter()
            .fold(0, |sum: u64, byte| sum * 256 + u64::from(*byte));
        Ok(number as u32)
    }

    /// The next `bytes` bytes as a signed number.
    fn signed(&mut self, bytes: usize) -> Result<i32, Refusal> {
        let number = i64::from(self.number(bytes)?);
        let range = 1i64 << (8 * bytes);
        let signed = if number < range / 2 {
            number
        } else {
            number - range
        };
        Ok(signed as i32)
    }

    /// Version and flags: how many bytes a size or an offset has.
    fn start(&mut self) -> Result<usize, Refusal> {
        if self.number(1)? != 0 {
            return Err(refusal::VERSION);
        }
        let flags = self.number(1)?;
        Ok(if flags % 2 == 1 { 4 } else { 2 })
    }

    /// The canvas's sides.
    fn canvas(&mut self, bytes: usize) -> Result<(u32, u32), Refusal> {
        let (width, height) = (self.number(bytes)?, self.number(bytes)?);
        hold_size((width, height))?;
        Ok((width, height))
    }
}

/// Appends the lowest bytes of a number, the highest of them first; of a negative one its two's
/// complement.
fn push(body: &mut Vec<u8>, bytes: usize, number: impl Into<i64>) {
    let number = number.into().to_be_bytes();
    body.extend_from_slice(&number[number.len() - bytes..]);
}

/// The start of a body in one of its two forms, and how many bytes a size or an offset has there.
fn started(wide: bool) -> (Vec<u8>, usize) {
    (vec![0, u8::from(wide)], if wide { 4 } else { 2 })
}

/// A grid's body, of 32-bit sizes where it is `wide`, else of 16-bit ones, to which they are cut.
pub fn grid_bytes(grid: &Grid, wide: bool) -> Vec<u8> {
    let (mut body, bytes) = started(wide);
    for tiles in [grid.rows, grid.columns] {
        push(&mut body, 1, i64::from(tiles) - 1);
    }
    for side in [grid.width, grid.height] {
        push(&mut body, bytes, side);
    }
    body
}

/// An overlay's body, its sizes and offsets as [`grid_bytes`] has them.
pub fn overlay_bytes(overlay: &Overlay, wide: bool) -> Vec<u8> {
    let (mut body, bytes) = started(wide);
    for channel in overlay.fill {
        push(&mut body, 2, channel);
    }
    for side in [overlay.width, overlay.height] {
        push(&mut body, bytes, side);
    }
    for (across, down) in &overlay.offsets {
        push(&mut body, bytes, *across);
        push(&mut body, bytes, *down);
    }
    body
}

/// What a grid's body says; bytes after the last field are ignored.
pub fn parse_grid(body: &[u8]) -> Result<Grid, Refusal> {
    let mut fields = Fields(body);
    let bytes = fields.start()?;
    let (rows, columns) = (fields.number(1)? + 1, fields.number(1)? + 1);
    let (width, height) = fields.canvas(bytes)?;
    Ok(Grid {
        rows: rows as u16,
        columns: columns as u16,
        width,
        height,
    })
}

/// What the body of an overlay of so many inputs says; bytes after the last field are ignored.
pub fn parse_overlay(body: &[u8], inputs: usize) -> Result<Overlay, Refusal> {
    let mut fields = Fields(body);
    let bytes = fields.start()?;
    let mut fill = [0; 4];
    for channel in &mut fill {
        *channel = fields.number(2)? as u16;
    }
    let (width, height) = fields.canvas(bytes)?;
    if inputs > MAX_INPUTS {
        return Err(refusal::LIMIT);
    }
    let mut offsets = Vec::new();
    for _ in 0..inputs {
        offsets.push((fields.signed(bytes)?, fields.signed(bytes)?));
    }
    Ok(Overlay {
        fill,
        width,
        height,
        offsets,
    })
}

/// Whether a body is of the 32-bit form: a size is above 65,535, or an offset lies outside −32,768 to
/// 32,767.
fn is_wide((width, height): Size, offsets: &[(i32, i32)]) -> bool {
    let long = |offset: i32| !(-32_768..=32_767).contains(&offset);
    let far = |(across, down): &(i32, i32)| long(*across) || long(*down);
    width > 65_535 || height > 65_535 || offsets.iter().any(far)
}

/// A number of rows or columns of tiles: 19 outside 1 to 256.
fn tiles(count: u32) -> Result<u16, Refusal> {
    match count {
        1..=256 => Ok(count as u16),
        _ => Err(refusal::TILING),
    }
}

/// The body of a grid of so many rows and columns: 19, 3, 4.
pub fn grid_body([rows, columns]: [u32; 2], size: Size) -> Result<Vec<u8>, Refusal> {
    let grid = Grid {
        rows: tiles(rows)?,
        columns: tiles(columns)?,
        width: size.0,
        height: size.1,
    };
    hold_size(size)?;
    Ok(grid_bytes(&grid, is_wide(size, &[])))
}

/// The body of an overlay: 3, 4, 4 above 65,536 inputs, 15 without inputs.
pub fn overlay_body(overlay: &Overlay) -> Result<Vec<u8>, Refusal> {
    let size = (overlay.width, overlay.height);
    hold_size(size)?;
    match overlay.offsets.len() {
        0 => Err(refusal::MISSING),
        1..=MAX_INPUTS => Ok(overlay_bytes(overlay, is_wide(size, &overlay.offsets))),
        _ => Err(refusal::LIMIT),
    }
}

/// The offsets that words stand for: of each input in turn two, the unsigned patterns of signed
/// numbers. A last word without a partner is not looked at.
pub fn offsets_of(words: &[u32]) -> Vec<(i32, i32)> {
    let (inputs, _) = words.as_chunks();
    let signed = |[across, down]: &[u32; 2]| (across.cast_signed(), down.cast_signed());
    inputs.iter().map(signed).collect()
}

/// Writes the body of a grid to a lent buffer and answers its length: as [`grid_body`], then 17.
pub fn write_grid(tiles: [u32; 2], size: Size, out: &mut [u8]) -> Result<usize, Refusal> {
    put(&grid_body(tiles, size)?, out)
}

/// Writes the body of an overlay to a lent buffer and answers its length: as [`overlay_body`], then 17.
pub fn write_overlay(overlay: &Overlay, out: &mut [u8]) -> Result<usize, Refusal> {
    put(&overlay_body(overlay)?, out)
}
