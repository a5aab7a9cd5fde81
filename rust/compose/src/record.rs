//! Frame records (document 01, "What is handed in").

use crate::image::Chroma;
use crate::lend::narrow;
use crate::outline::Outline;
use crate::{Result, sys};
use std::io::{self, Read, Seek};

/// Where a plane's bytes stand in its record. A plane that the picture has not has no bytes.
#[derive(Clone, Copy, Debug, PartialEq, Eq, Hash)]
pub struct PlaneInfo {
    pub start: usize,
    pub len: usize,
    pub stride: usize,
}

impl PlaneInfo {
    /// The plane's part of `record`, the one that was inspected. It panics on a shorter one.
    pub fn of<'a>(&self, record: &'a [u8]) -> &'a [u8] {
        &record[self.start..][..self.len]
    }
}

/// What a record says.
#[derive(Clone, Copy, Debug, PartialEq, Eq, Hash)]
pub struct RecordInfo {
    pub width: u32,
    pub height: u32,
    pub chroma: Chroma,
    pub depth: u8,
    /// The alpha number: 1 where the picture has an alpha plane, else 0.
    pub alpha: u8,
    /// Luma, Cb, Cr and alpha.
    pub planes: [PlaneInfo; 4],
}

impl RecordInfo {
    fn from_words([width, height, chroma, depth, alpha, planes @ ..]: [u64; 17]) -> Self {
        let chroma = Chroma::from_idc(narrow(chroma))
            .unwrap_or_else(|| panic!("the library answered the chroma {chroma}"));
        let plane = |[start, len, stride]: [u64; 3]| PlaneInfo {
            start: narrow(start),
            len: narrow(len),
            stride: narrow(stride),
        };
        let (planes, _) = planes.as_chunks();
        Self {
            width: narrow(width),
            height: narrow(height),
            chroma,
            depth: narrow(depth),
            alpha: narrow(alpha),
            planes: std::array::from_fn(|part| plane(planes[part])),
        }
    }
}

impl RecordInfo {
    /// The planes that the picture has.
    pub fn present(&self) -> impl Iterator<Item = PlaneInfo> {
        // Each has a row of a byte at least.
        self.planes.into_iter().filter(|plane| plane.len > 0)
    }
}

/// The most bytes that a house number has.
pub(crate) const LONGEST_NUMBER: usize = 5;

/// Appends a house number: groups of seven bits, the lowest first, the top bit set on all but the
/// last.
pub(crate) fn push_number(bytes: &mut Vec<u8>, number: u32) {
    let mut rest = number;
    while rest > 127 {
        bytes.push(rest as u8 | 128);
        rest >>= 7;
    }
    bytes.push(rest as u8);
}

/// The bytes of a house number.
pub(crate) fn number_size(number: u32) -> usize {
    let bits = 32 - number.leading_zeros();
    bits.div_ceil(7).max(1) as usize
}

/// Takes a house number off the front; none where there is none whole.
pub(crate) fn read_number(bytes: &mut &[u8]) -> Option<u32> {
    let mut number = 0;
    for group in 0..LONGEST_NUMBER as u32 {
        let byte;
        (byte, *bytes) = bytes.split_first()?;
        number |= u32::from(byte & 127).checked_shl(7 * group)?;
        if *byte < 128 {
            return Some(number);
        }
    }
    None
}

/// What `record` says. Refusals: document 01's *Record*.
pub fn inspect(record: &[u8]) -> Result<RecordInfo> {
    let mut words = [0; 17];
    sys::compose_record(record, &mut words)?;
    Ok(RecordInfo::from_words(words))
}

/// The record that `file` holds, with 0 for its samples, which are not read. [`inspect`] says of it
/// what it says of the whole.
///
/// ```
/// use compose::record::{inspect, outline};
///
/// let record = [2, 1, 0, 8, 0, 2, 2, 10, 20];
/// let numbers = outline(&mut std::io::Cursor::new(record))?;
/// assert_eq!(inspect(&numbers), inspect(&record));
/// # Ok::<(), std::io::Error>(())
/// ```
pub fn outline(file: &mut (impl Read + Seek)) -> io::Result<Vec<u8>> {
    let mut outline = Outline::of(file)?;
    outline.record()?;
    Ok(outline.into_bytes())
}
