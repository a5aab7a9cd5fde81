//! Trays of records (document 01, "What is handed in").
//!
//! ```
//! let one = [1, 1, 0, 8, 0, 1, 1, 7];
//! let tray = compose::tray::join(&[one, one])?;
//! assert_eq!(compose::tray::count(&tray)?, 2);
//! assert_eq!(compose::tray::records(&tray)?, [one, one]);
//! # Ok::<(), compose::Refusal>(())
//! ```

use crate::form::Form;
use crate::image::{Chroma, HeifPixelFormat};
use crate::outline::Outline;
use crate::record::{push_number, read_number};
use crate::{About, Refusal, Result, sys};
use std::io::{self, Read, Seek};

/// How many records `tray` has. Refusals: 5 a count that is unreadable, then *Record*'s of each in
/// turn, 5 bytes left over.
///
/// ```
/// let tray = [2, 1, 1, 0, 8, 0, 1, 1, 7, 1, 1, 0, 9, 0, 1, 1, 7];
/// let refusal = compose::tray::count(&tray).unwrap_err();
/// assert_eq!((refusal.number(), refusal.index()), (5, Some(1)));
/// ```
pub fn count(tray: &[u8]) -> Result<u32> {
    let count = sys::compose_tray(tray)?;
    Ok(u32::try_from(count).expect("a tray's count is a house number"))
}

/// The count that `tray` begins with, if one can be read; its records are not looked at.
///
/// ```
/// assert_eq!(compose::tray::announced(&[0x82, 1]), Some(130));
/// assert_eq!(compose::tray::announced(&[0x82]), None);
/// ```
pub fn announced(tray: &[u8]) -> Option<u32> {
    read_number(&mut &*tray)
}

/// The records of `tray`, each as its bytes. Refusals: as [`count`].
pub fn records(tray: &[u8]) -> Result<Vec<&[u8]>> {
    let count = count(tray)?;
    let mut rest = tray;
    read_number(&mut rest);
    let record = |_| first_record(&mut rest).expect("a record that the call took");
    Ok((0..count).map(record).collect())
}

/// The tray that `file` holds, with 0 for its samples, which are not read. [`count`], [`records`] and
/// [`inspect`](crate::record::inspect) say of it what they say of the whole.
pub fn outline(file: &mut (impl Read + Seek)) -> io::Result<Vec<u8>> {
    let mut outline = Outline::of(file)?;
    let count = outline.number()?.unwrap_or(0);
    for _ in 0..count {
        if outline.record()?.is_none() {
            break;
        }
    }
    Ok(outline.into_bytes())
}

/// The record at the front, taken off. It is not judged here: the tray was.
fn first_record<'a>(rest: &mut &'a [u8]) -> Option<&'a [u8]> {
    let whole = *rest;
    first_header(rest)?;
    Some(&whole[..whole.len() - rest.len()])
}

/// The numbers in front of the first record's planes; the record is taken off.
fn first_header(rest: &mut &[u8]) -> Option<[u32; 5]> {
    let mut header = [0; 5];
    for number in &mut header {
        *number = read_number(rest)?;
    }
    let [_, _, chroma, _, alpha] = header;
    let colour_planes = if chroma == 0 { 1 } else { 3 };
    // More planes than these no record has.
    for _ in 0..colour_planes + alpha.min(1) {
        read_number(rest)?;
        let length = read_number(rest)?;
        *rest = rest.get(length as usize..)?;
    }
    Some(header)
}

/// The forms of the records that `tray` says it has, none of one that is no record's; none at all
/// where it has no count. Their planes are not judged.
pub(crate) fn forms(tray: &[u8]) -> Option<impl Iterator<Item = Option<Form>>> {
    let mut rest = tray;
    let count = read_number(&mut rest)?;
    Some((0..count).map(move |_| {
        let [width, height, chroma, depth, alpha] = first_header(&mut rest)?;
        let chroma = Chroma::from_idc(u8::try_from(chroma).ok()?)?;
        let format = HeifPixelFormat::new(chroma, u8::try_from(depth).ok()?, alpha == 1);
        Form::new(width, height, format.ok()?)
    }))
}

/// The tray of `records`. Refusals: *Record*'s of each in turn.
///
/// ```
/// let (one, cut) = (&[1, 1, 0, 8, 0, 1, 1, 7], &[1, 1, 0, 8, 0, 1, 1]);
/// let refusal = compose::tray::join(&[&one[..], cut]).unwrap_err();
/// assert_eq!((refusal.number(), refusal.index()), (5, Some(1)));
/// ```
pub fn join(records: &[impl AsRef<[u8]>]) -> Result<Vec<u8>> {
    let mut tray = Vec::new();
    let count = u32::try_from(records.len()).map_err(|_| Refusal::MALFORMED)?;
    push_number(&mut tray, count);
    for record in records {
        tray.extend_from_slice(record.as_ref());
    }
    // Bytes that are left over by one record could be taken for the next.
    for (index, record) in (0..).zip(records) {
        let own = |refusal: Refusal| refusal.of_item(About::Record, index);
        crate::record::inspect(record.as_ref()).map_err(own)?;
    }
    Ok(tray)
}
