//! Crops, turns, mirrors and scalings of frames, with oxideav-heif's names.
//!
//! ```
//! use compose::image::{Chroma, HeifFrame, HeifPixelFormat};
//! use compose::props::{Imir, Irot};
//! use compose::{apply_imir, apply_irot, crop};
//!
//! let format = HeifPixelFormat::new(Chroma::Yuv420, 8, false)?;
//! let mut frame = HeifFrame::filled(4, 2, format, 128)?;
//! frame.set_sample(0, 3, 0, 200);
//!
//! // A quarter turn anticlockwise: the right side comes to the top.
//! let turned = apply_irot(&frame, &Irot::new(1))?;
//! assert_eq!((turned.width, turned.height), (2, 4));
//! assert_eq!(turned.sample(0, 0, 0), 200);
//!
//! let mirrored = apply_imir(&turned, &Imir::new(1))?;
//! assert_eq!(mirrored.sample(0, 1, 0), 200);
//!
//! // An odd edge on a halved axis promotes to 4:4:4.
//! assert_eq!(crop(&frame, 2, 0, 2, 2)?.format.chroma, Chroma::Yuv420);
//! assert_eq!(crop(&frame, 1, 0, 2, 2)?.format.chroma, Chroma::Yuv444);
//! # Ok::<(), compose::Refusal>(())
//! ```

use crate::bands::Bands;
use crate::composite::Recorded;
use crate::image::{Chroma, HeifFrame};
use crate::props::{Clap, Crop, CropRect, Imir, Irot, Iscl, Property, PropertyEntry};
use crate::{About, Refusal, Result, chain, operation, stock};
use std::borrow::Cow;

/// Whether an odd column or an odd row asks for a chroma sample that a picture of this chroma has
/// not, so that it is promoted to 4:4:4 first.
///
/// ```
/// use compose::compose::needs_444;
/// use compose::image::Chroma;
///
/// assert!(needs_444(Chroma::Yuv422, true, false));
/// assert!(!needs_444(Chroma::Yuv422, false, true));
/// ```
pub fn needs_444(chroma: Chroma, x_odd: bool, y_odd: bool) -> bool {
    let (across, down) = chroma.shift();
    (across == 1 && x_odd) || (down == 1 && y_odd)
}

/// An operation on a record, on a frame.
fn on_frame(f: &HeifFrame, operation: impl Fn(&[u8]) -> Result<Vec<u8>>) -> Result<HeifFrame> {
    f.validate()?;
    let mut record = stock::take(f.record_size());
    f.push_record(&mut record);
    let made = operation(&record);
    // What is not kept is freed before planes are made.
    stock::give(record);
    HeifFrame::of_made(made?)
}

/// The `w` × `h` part of `f` from (`x`, `y`) on. Refusals: the frame's; 9 a rectangle outside.
pub fn crop(f: &HeifFrame, x: u32, y: u32, w: u32, h: u32) -> Result<HeifFrame> {
    crop_with_margins(f, &Crop::of(CropRect::new(x, y, w, h), f.width, f.height))
}

/// The part of `f` that a crop leaves. Refusals: the frame's; 9 where it does not fit ([`Crop::fits`]).
///
/// ```
/// use compose::image::{Chroma, HeifFrame, HeifPixelFormat};
/// use compose::props::{Crop, CropRect};
/// use compose::{crop, crop_with_margins};
///
/// let frame = HeifFrame::zeroed(6, 4, HeifPixelFormat::new(Chroma::Yuv420, 8, false)?)?;
/// let mut part = Crop::of(CropRect { x: 2, y: 0, width: 3, height: 4 }, 6, 4);
/// assert_eq!(crop_with_margins(&frame, &part)?, crop(&frame, 2, 0, 3, 4)?);
/// part.margins.right = 2;
/// assert_eq!(crop_with_margins(&frame, &part).unwrap_err().number(), 9);
/// # Ok::<(), compose::Refusal>(())
/// ```
pub fn crop_with_margins(f: &HeifFrame, to: &Crop) -> Result<HeifFrame> {
    f.validate()?;
    match (Bands::crop(f, to), f.form().cropped(to)) {
        (Some(bands), _) => bands.made(),
        (None, Some(_)) => promoted_part(f, to),
        // The call has the refusal.
        (None, None) => on_frame(f, |record| operation::crop_with_margins(record, to)),
    }
}

/// A crop that promotes: what shares a chroma sample with the part is read, too, and no more.
fn promoted_part(f: &HeifFrame, to: &Crop) -> Result<HeifFrame> {
    let (across, down) = f.format.chroma.shift();
    let Crop { rect, margins } = to;
    let span = |before: u32, behind: u32, side: u32, shift: u32| {
        let start = before >> shift << shift;
        let end = (side - behind).next_multiple_of(1 << shift).min(side);
        (start, end - start)
    };
    let (left, width) = span(margins.left, margins.right, f.width, across);
    let (top, height) = span(margins.top, margins.bottom, f.height, down);
    let mut record = Vec::new();
    f.push_part(CropRect::new(left, top, width, height), &mut record);
    let made = operation::crop(
        &record,
        rect.x - left,
        rect.y - top,
        rect.width,
        rect.height,
    );
    stock::give(record);
    HeifFrame::of_made(made?)
}

/// Applies a clap property. Refusals: the frame's; 7, 8, 9, the width axis first.
///
/// ```
/// use compose::image::{Chroma, HeifFrame, HeifPixelFormat};
/// use compose::props::Clap;
/// use compose::apply_clap;
///
/// let frame = HeifFrame::zeroed(64, 1, HeifPixelFormat::new(Chroma::Mono, 8, false)?)?;
/// assert_eq!(apply_clap(&frame, &Clap::integer(62, 1, 0, 0))?.width, 62);
/// // 63 of 64 has no whole edge.
/// let refusal = apply_clap(&frame, &Clap::integer(63, 1, 0, 0)).unwrap_err();
/// assert_eq!((refusal.number(), refusal.name()), (8, "fraction"));
/// # Ok::<(), compose::Refusal>(())
/// ```
pub fn apply_clap(f: &HeifFrame, clap: &Clap) -> Result<HeifFrame> {
    f.validate()?;
    crop_with_margins(f, &clap.resolve(f.width, f.height)?)
}

/// Applies an irot property: angle mod 4 quarter turns anticlockwise. Refusals: the frame's.
pub fn apply_irot(f: &HeifFrame, irot: &Irot) -> Result<HeifFrame> {
    on_frame(f, |record| operation::irot(record, irot.angle))
}

/// Applies an imir property: axis mod 2, 0 exchanges top and bottom, 1 left and right. Refusals:
/// the frame's.
pub fn apply_imir(f: &HeifFrame, imir: &Imir) -> Result<HeifFrame> {
    f.validate()?;
    Bands::imir(f, imir.axis).made()
}

/// Applies an iscl property: each side times its fraction, rounded up. Refusals: the frame's; 7,
/// 10, 4.
pub fn apply_iscl(f: &HeifFrame, iscl: &Iscl) -> Result<HeifFrame> {
    on_frame(f, |record| operation::iscl(record, iscl))
}

/// What a side is multiplied by to become another, in the terms of an iscl.
fn ratio(new: u32, old: u32) -> Result<(u16, u16)> {
    let (mut a, mut b) = (new, old);
    while b != 0 {
        (a, b) = (b, a % b);
    }
    let term = |side: u32| u16::try_from(side / a).map_err(|_| Refusal::LIMIT);
    Ok((term(new)?, term(old)?))
}

/// `f` at another size, each sample the mean over its share of the picture, as an iscl has it.
/// Refusals: the frame's; 3 a side of 0; 4 above 2^30 pixels, a side before or after above 2^26,
/// and, as it is done by an iscl, a ratio of new and old side that no two numbers up to 65,535
/// have.
///
/// ```
/// use compose::image::{Chroma, HeifFrame, HeifPixelFormat, Plane};
/// use compose::resize_area;
///
/// let format = HeifPixelFormat::new(Chroma::Mono, 8, false)?;
/// let row = HeifFrame::new(3, 1, format, vec![Plane::new(3, vec![0, 30, 60])]);
/// assert_eq!(resize_area(&row, 2, 1)?.planes, [Plane::new(2, vec![10, 50])]);
/// assert_eq!(resize_area(&row, 0, 1).unwrap_err().number(), 3);
/// # Ok::<(), compose::Refusal>(())
/// ```
pub fn resize_area(f: &HeifFrame, w: u32, h: u32) -> Result<HeifFrame> {
    f.validate()?;
    apply_iscl(f, &area((f.width, f.height), w, h)?)
}

/// The iscl that makes a size of another. Refusals: 3 a side of 0; 4 a ratio that no iscl has.
pub(crate) fn area((width, height): (u32, u32), w: u32, h: u32) -> Result<Iscl> {
    if w == 0 || h == 0 {
        return Err(Refusal::EMPTY);
    }
    let (across, down) = (ratio(w, width)?, ratio(h, height)?);
    Ok(Iscl::new(across.0, across.1, down.0, down.1))
}

/// `f` at another size, by nearest samples. Refusals: the frame's; 3, 4.
pub fn resize_nearest(f: &HeifFrame, w: u32, h: u32) -> Result<HeifFrame> {
    on_frame(f, |record| operation::resize_nearest(record, w, h))
}

/// `f` at another depth, each sample in proportion to the top. Refusals: the frame's; 6.
pub fn rescale_depth(f: &HeifFrame, depth: u8) -> Result<HeifFrame> {
    f.validate()?;
    match Bands::rescale_depth(f, depth) {
        Some(bands) => bands.made(),
        None => on_frame(f, |record| operation::rescale_depth(record, depth.into())),
    }
}

/// `master` with the luma of `alpha` as its alpha plane, at the master's size and depth. Refusals:
/// the master's, then the alpha frame's.
pub fn attach_alpha(master: &HeifFrame, alpha: &HeifFrame) -> Result<HeifFrame> {
    let made = operation::attach_alpha(&master.to_record()?, &alpha.to_record()?)?;
    HeifFrame::from_record(&made)
}

/// The record after one property that moves it.
fn after(record: &[u8], property: &Property) -> Result<Vec<u8>> {
    match property {
        Property::Other => Ok(record.to_vec()),
        Property::Clap(clap) => operation::clap(record, clap),
        Property::Irot(irot) => operation::irot(record, irot.angle),
        Property::Imir(imir) => operation::imir(record, imir.axis),
        Property::Iscl(iscl) => operation::iscl(record, iscl),
    }
}

/// The properties of a chain, one for each of its entries: one that is not applied stands as
/// [`Property::Other`]. None where none is applied. Refusal 4: above 256 entries, applied or not.
pub(crate) fn applied<'a>(
    chain: impl IntoIterator<Item = &'a PropertyEntry>,
    essential_only: bool,
) -> Result<Option<Vec<Property>>> {
    let entries: Vec<PropertyEntry> = chain.into_iter().copied().collect();
    chain::join(&entries)?;
    let property = |entry: &PropertyEntry| match entry.essential || !essential_only {
        true => entry.property,
        false => Property::Other,
    };
    let properties: Vec<Property> = entries.iter().map(property).collect();
    let some = properties.iter().any(Property::is_transformative);
    Ok(some.then_some(properties))
}

/// The properties that are applied, each with its entry's index.
fn moving(properties: &[Property]) -> Vec<(u64, Property)> {
    let entries = (0..).zip(properties.iter().copied());
    entries
        .filter(|(_, property)| property.is_transformative())
        .collect()
}

/// What an entry's operation made, or the entry's own refusal. A ceiling of the caller's is judged
/// for the whole chain, and is no entry's.
fn by_entry<T>(made: Result<T>, index: u64) -> Result<T> {
    made.map_err(|refusal| match refusal.excess() {
        Some(_) => refusal,
        None => refusal.of_item(About::Entry, index),
    })
}

/// Whether a property writes a record of its own, whatever the picture: a turn by none and an
/// unchanged size hand theirs back.
fn redraws(property: &Property) -> bool {
    match property {
        Property::Clap(_) | Property::Imir(_) => true,
        Property::Irot(irot) => irot.angle % 4 != 0,
        Property::Iscl(_) | Property::Other => false,
    }
}

/// The record after a chain of which a property is applied.
pub(crate) fn all_after(record: &[u8], properties: &[Property]) -> Result<Vec<u8>> {
    let moving = moving(properties);
    if moving.len() > 1 && properties.iter().any(redraws) {
        let entry = |property: &Property| PropertyEntry::new(0, true, *property);
        let entries: Vec<PropertyEntry> = properties.iter().map(entry).collect();
        return operation::transforms(record, &chain::join(&entries)?, false);
    }
    let mut made = Cow::from(record);
    for (index, property) in moving {
        made = by_entry(after(&made, &property), index)?.into();
    }
    Ok(made.into_owned())
}

/// The properties of `chain` in turn, under `essential_only` the essential ones alone; without one
/// that is applied the frame as it is. Refusals: 4 above 256 entries; the frame's, where one is
/// applied; each entry's own, in turn.
///
/// ```
/// use compose::image::{Chroma, HeifFrame, HeifPixelFormat};
/// use compose::props::{Clap, Irot, Property, PropertyEntry};
/// use compose::apply_transforms;
///
/// let frame = HeifFrame::zeroed(64, 48, HeifPixelFormat::new(Chroma::Yuv420, 8, false)?)?;
/// let chain = [
///     PropertyEntry::new(1, true, Property::Irot(Irot::new(1))),
///     PropertyEntry::new(2, false, Property::Clap(Clap::integer(40, 60, 0, 0))),
/// ];
/// let shown = apply_transforms(&frame, &chain, false)?;
/// assert_eq!((shown.width, shown.height), (40, 60));
/// let turned = apply_transforms(&frame, &chain, true)?;
/// assert_eq!((turned.width, turned.height), (48, 64));
/// # Ok::<(), compose::Refusal>(())
/// ```
pub fn apply_transforms<'a>(
    f: &HeifFrame,
    chain: impl IntoIterator<Item = &'a PropertyEntry>,
    essential_only: bool,
) -> Result<HeifFrame> {
    match applied(chain, essential_only)? {
        Some(properties) => changed(f, properties),
        None => Ok(f.clone()),
    }
}

/// The frame after a chain of which a property is applied. A clap that comes first goes by bands, and so
/// does a mirror by itself.
fn changed(f: &HeifFrame, mut properties: Vec<Property>) -> Result<HeifFrame> {
    f.validate()?;
    match moving(&properties)[..] {
        [(index, Property::Clap(clap))] => by_entry(apply_clap(f, &clap), index),
        [(index, Property::Imir(imir))] => by_entry(apply_imir(f, &imir), index),
        [(index, Property::Clap(clap)), ..] => {
            let part = by_entry(apply_clap(f, &clap), index)?;
            properties[index as usize] = Property::Other;
            on_frame(&part, |record| all_after(record, &properties))
        }
        _ => on_frame(f, |record| all_after(record, &properties)),
    }
}

/// [`apply_transforms`] on a frame that is handed over: it comes back without a copy where no
/// property is applied.
pub fn apply_transforms_owned<'a>(
    f: HeifFrame,
    chain: impl IntoIterator<Item = &'a PropertyEntry>,
    essential_only: bool,
) -> Result<HeifFrame> {
    match applied(chain, essential_only)? {
        Some(properties) => changed(&f, properties),
        None => Ok(f),
    }
}
