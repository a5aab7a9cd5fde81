//! Room (document 01, "The scene call" and *Scene*, 17): the length of a tight record, and the longest
//! of the records that a scene or a chain makes, worked out from forms without drawing; and 17 for what
//! is written to one lent buffer.

use crate::chain::{Entry, Property, parse_chain};
use crate::composite::{grid_form, overlay_form};
use crate::number::number_bytes;
use crate::operation::promotes;
use crate::record::{Chroma, Frame, parse_record};
use crate::refusal::{self, Refusal};
use crate::scene::{SceneParts, read_grid, read_overlay};

/// Writes bytes at the start of a lent buffer, whose bytes past them stay, and answers how many they
/// are: 17 where it is shorter.
pub(crate) fn put(bytes: &[u8], out: &mut [u8]) -> Result<usize, Refusal> {
    let start = out.get_mut(..bytes.len()).ok_or(refusal::ROOM)?;
    start.copy_from_slice(bytes);
    Ok(bytes.len())
}

impl Frame {
    /// The length of the tight record of this form: the numbers of its header, then of each plane
    /// its stride, its data length and its rows.
    fn tight_length(&self) -> u64 {
        let number = |number: u64| {
            let number = u32::try_from(number).expect("a record's number is below 2^32");
            number_bytes(number).len() as u64
        };
        let header = self.header().map(|field| number(field.into()));
        let plane = |plane: usize| {
            let (_, rows) = self.plane_size(plane);
            let row = self.row_bytes(plane) as u64;
            let data = row * u64::from(rows);
            number(row) + number(data) + data
        };
        header.iter().sum::<u64>() + (0..self.plane_count()).map(plane).sum::<u64>()
    }
}

/// The length of the tight record of a form, given as a header's five numbers: 5, 6, 3, 4.
pub fn record_size(header: [u32; 5]) -> Result<u64, Refusal> {
    Ok(Frame::of_header(header)?.tight_length())
}

/// The form after a property that is applied, or its refusal.
fn form_after(form: &Frame, property: Property) -> Result<Frame, Refusal> {
    let size = (form.width, form.height);
    let (size, promoted) = match property {
        Property::Clap(clap) => {
            let stays = clap.resolve(form.width, form.height)?.rectangle;
            let odd = promotes(form, &[stays.x, stays.width], &[stays.y, stays.height]);
            ((stays.width, stays.height), odd)
        }
        Property::Irot(angle) => match angle % 4 {
            0 => (size, false),
            2 => (size, promotes(form, &[form.width], &[form.height])),
            _ => {
                let always = form.chroma == Chroma::Yuv422;
                let odd = promotes(form, &[form.width], &[form.height]);
                ((form.height, form.width), always || odd)
            }
        },
        Property::Iscl(iscl) => (iscl.output_size(form.width, form.height)?, false),
        Property::Other | Property::Imir(_) => (size, false),
    };
    let chroma = if promoted {
        Chroma::Yuv444
    } else {
        form.chroma
    };
    Ok(Frame::empty(size, chroma, form.depth, form.alpha))
}

/// The longest of the first form's record and those after each applied entry.
fn longest(first: Frame, chain: &[Entry], essential_only: bool) -> Result<u64, Refusal> {
    let mut form = first;
    let mut longest = form.tight_length();
    let applied = |(_, entry): &(usize, &Entry)| entry.applied(essential_only).is_some();
    for (index, entry) in chain.iter().enumerate().filter(applied) {
        let after = form_after(&form, entry.property);
        form = after.map_err(|refusal| refusal.of_entry(index))?;
        longest = longest.max(form.tight_length());
    }
    Ok(longest)
}

/// The room that the grid scene needs: its refusals but 17.
pub fn grid_room(parts: &SceneParts) -> Result<u64, Refusal> {
    let (chain, grid, tiles) = read_grid(parts)?;
    longest(grid_form(&grid, &tiles)?, &chain, parts.essential_only)
}

/// The room that the overlay scene needs, whatever its colour.
pub fn overlay_room(parts: &SceneParts, premultiplied: &[u8]) -> Result<u64, Refusal> {
    let (chain, overlay, inputs) = read_overlay(parts, premultiplied)?;
    longest(
        overlay_form(&overlay, &inputs)?,
        &chain,
        parts.essential_only,
    )
}

/// The room that a chain on one record needs.
pub fn transforms_room(record: &[u8], chain: &[u8], essential_only: bool) -> Result<u64, Refusal> {
    let form = parse_record(record)?;
    let chain = parse_chain(chain)?;
    longest(form, &chain, essential_only)
}
