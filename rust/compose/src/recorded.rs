//! Frames over records, with oxideav-heif's operations: what a call takes is the frame's own bytes,
//! and what it writes is the next frame, so that nothing is copied between. A program that has its
//! pictures in frames of planes changes its `use` lines to this module, and [`HeifFrame`] to
//! [`RecordFrame`].
//!
//! ```
//! use compose::props::Irot;
//! use compose::recorded::{RecordFrame, apply_irot, crop};
//!
//! // 2 × 1, mono, depth 8, no alpha; one plane of stride 2 and 2 bytes: 10, 20.
//! let frame = RecordFrame::from_record(vec![2, 1, 0, 8, 0, 2, 2, 10, 20])?;
//! assert_eq!((frame.width(), frame.plane(0), frame.sample(0, 1, 0)), (2, &[10, 20][..], 20));
//!
//! let turned = apply_irot(&frame, &Irot::new(1))?;
//! assert_eq!(turned.as_record(), [1, 2, 0, 8, 0, 1, 2, 20, 10]);
//! let part = crop(&turned, 0, 1, 1, 1)?;
//! assert_eq!(part.to_frame().planes[0].data, [10]);
//! assert_eq!(crop(&part, 0, 0, 2, 1).unwrap_err().number(), 9);
//! # Ok::<(), compose::Refusal>(())
//! ```
//!
//! A tray or a file that is in memory is not copied either:
//!
//! ```
//! use compose::recorded::{RecordFrame, composite_grid};
//! use compose::{GridDescriptor, tray};
//!
//! let bytes = [2, 1, 1, 0, 8, 0, 1, 1, 7, 1, 1, 0, 8, 0, 1, 1, 9];
//! let tiles = tray::records(&bytes)?.into_iter().map(RecordFrame::from_record);
//! let tiles = tiles.collect::<Result<Vec<_>, _>>()?;
//! let joined = composite_grid(&GridDescriptor::new(1, 2, 2, 1), &tiles)?;
//! assert_eq!(joined.plane(0), [7, 9]);
//! # Ok::<(), compose::Refusal>(())
//! ```
//!
//! A [`GridCanvas`](crate::GridCanvas) takes such frames by `place_record`, and hands one out by
//! `finish_record`.

use crate::composite::{self, Recorded};
use crate::derived::{GridDescriptor, OverlayDescriptor};
use crate::form::{Form, push_numbers};
use crate::image::{HeifFrame, HeifPixelFormat, read_sample, sample_place};
use crate::props::{Clap, Colr, Crop, Imir, Irot, Iscl, PropertyEntry};
use crate::record::{PlaneInfo, RecordInfo, inspect};
use crate::transform::{all_after, applied, area};
use crate::{Refusal, Result, limits, operation};
use std::borrow::Cow;

/// A planar picture over its record, the caller's bytes or its own: its planes are parts of them.
#[derive(Clone, Debug, PartialEq, Eq)]
pub struct RecordFrame<'a> {
    record: Cow<'a, [u8]>,
    info: RecordInfo,
}

impl<'a> RecordFrame<'a> {
    /// A frame over a record, which is not copied. Refusals: document 01's *Record*.
    pub fn from_record(record: impl Into<Cow<'a, [u8]>>) -> Result<Self> {
        let record = record.into();
        let info = inspect(&record)?;
        Ok(Self { record, info })
    }

    /// The same over a copy, where the bytes are the caller's.
    pub fn into_owned(self) -> RecordFrame<'static> {
        RecordFrame {
            record: self.record.into_owned().into(),
            info: self.info,
        }
    }

    /// The record.
    pub fn as_record(&self) -> &[u8] {
        &self.record
    }

    /// The record; a copy, where the bytes are the caller's.
    pub fn into_record(self) -> Vec<u8> {
        self.record.into_owned()
    }

    /// What the record says.
    pub fn info(&self) -> &RecordInfo {
        &self.info
    }

    /// The width in pixels.
    pub fn width(&self) -> u32 {
        self.info.width
    }

    /// The height in pixels.
    pub fn height(&self) -> u32 {
        self.info.height
    }

    /// The sample layout.
    pub fn format(&self) -> HeifPixelFormat {
        self.info.format()
    }

    /// The size of a plane.
    pub fn plane_dims(&self, plane: usize) -> (u32, u32) {
        self.format()
            .plane_dims(plane, self.info.width, self.info.height)
    }

    /// Where a plane's bytes are. It panics where there is none.
    fn part(&self, plane: usize) -> PlaneInfo {
        let part = self.info.present().nth(plane);
        part.unwrap_or_else(|| panic!("the picture has no plane {plane}"))
    }

    /// Bytes from a row of a plane to the next. It panics where there is none.
    pub fn stride(&self, plane: usize) -> usize {
        self.part(plane).stride
    }

    /// A plane's bytes. It panics where there is none.
    pub fn plane(&self, plane: usize) -> &[u8] {
        self.part(plane).of(&self.record)
    }

    /// The same, to be changed; first they are copied, where they are the caller's.
    pub fn plane_mut(&mut self, plane: usize) -> &mut [u8] {
        let PlaneInfo { start, len, .. } = self.part(plane);
        &mut self.record.to_mut()[start..][..len]
    }

    /// The sample at a column and a row of a plane. It panics where there is none.
    pub fn sample(&self, plane: usize, x: u32, y: u32) -> u16 {
        let place = sample_place(self.format(), self.stride(plane), x, y);
        read_sample(&self.plane(plane)[place])
    }

    /// Changes the sample at a column and a row of a plane. It panics where there is none.
    pub fn set_sample(&mut self, plane: usize, x: u32, y: u32, value: u16) {
        let place = sample_place(self.format(), self.stride(plane), x, y);
        let bytes = &value.to_le_bytes()[..place.len()];
        self.plane_mut(plane)[place].copy_from_slice(bytes);
    }

    /// A row of a plane, without what lies between rows. It panics where there is none.
    pub fn row(&self, plane: usize, y: u32) -> &[u8] {
        let format = self.format();
        let start = sample_place(format, self.stride(plane), 0, y).start;
        let bytes = self.plane_dims(plane).0 as usize * format.bytes_per_sample();
        &self.plane(plane)[start..][..bytes]
    }

    /// The frame of planes.
    pub fn to_frame(&self) -> HeifFrame {
        HeifFrame::of_parts(&self.record, &self.info)
    }
}

impl RecordFrame<'static> {
    /// A frame over the record of one of planes. Refusals: document 01's *Record*.
    pub fn from_frame(frame: &HeifFrame) -> Result<Self> {
        Self::from_record(frame.to_record()?)
    }

    /// A frame with 0 in every sample, to be drawn on. Refusals: 6; 3 a side 0; 4 above 2^30 pixels or
    /// a ceiling of the caller's.
    pub fn zeroed(width: u32, height: u32, format: HeifPixelFormat) -> Result<Self> {
        HeifPixelFormat::new(format.chroma, format.bit_depth, format.has_alpha)?;
        if width == 0 || height == 0 {
            return Err(Refusal::EMPTY);
        }
        let form = Form::new(width, height, format).ok_or(Refusal::LIMIT)?;
        limits::judge(form.into())?;
        let mut record = Vec::with_capacity(form.record_size());
        form.push_head(&mut record);
        for plane in 0..format.plane_count() {
            let [stride, length] = form.plane(plane);
            push_numbers(&mut record, [stride, length]);
            record.resize(record.len() + length as usize, 0);
        }
        Self::from_record(record)
    }
}

impl Recorded for RecordFrame<'_> {
    fn judge(&self) -> Result<()> {
        Ok(())
    }

    fn record_size(&self) -> usize {
        self.record.len()
    }

    fn push_record(&self, bytes: &mut Vec<u8>) {
        bytes.extend_from_slice(&self.record);
    }
}

/// A frame that a call made.
type Made = Result<RecordFrame<'static>>;

/// The `w` × `h` part of `f` from (`x`, `y`) on. Refusal 9: a rectangle outside.
pub fn crop(f: &RecordFrame, x: u32, y: u32, w: u32, h: u32) -> Made {
    RecordFrame::from_record(operation::crop(&f.record, x, y, w, h)?)
}

/// The part of `f` that a crop leaves. Refusal 9: it does not fit ([`Crop::fits`]).
pub fn crop_with_margins(f: &RecordFrame, to: &Crop) -> Made {
    RecordFrame::from_record(operation::crop_with_margins(&f.record, to)?)
}

/// Applies a clap property. Refusals: 7, 8, 9, the width axis first.
pub fn apply_clap(f: &RecordFrame, clap: &Clap) -> Made {
    RecordFrame::from_record(operation::clap(&f.record, clap)?)
}

/// Applies an irot property: angle mod 4 quarter turns anticlockwise.
pub fn apply_irot(f: &RecordFrame, irot: &Irot) -> Made {
    RecordFrame::from_record(operation::irot(&f.record, irot.angle)?)
}

/// Applies an imir property: axis mod 2, 0 exchanges top and bottom, 1 left and right.
pub fn apply_imir(f: &RecordFrame, imir: &Imir) -> Made {
    RecordFrame::from_record(operation::imir(&f.record, imir.axis)?)
}

/// Applies an iscl property: each side times its fraction, rounded up. Refusals: 7, 10, 4.
pub fn apply_iscl(f: &RecordFrame, iscl: &Iscl) -> Made {
    RecordFrame::from_record(operation::iscl(&f.record, iscl)?)
}

/// `f` at another size, as [`compose::resize_area`](crate::resize_area) has it. Refusals: 3, 4.
pub fn resize_area(f: &RecordFrame, w: u32, h: u32) -> Made {
    apply_iscl(f, &area((f.width(), f.height()), w, h)?)
}

/// `f` at another size, by nearest samples. Refusals: 3, 4.
pub fn resize_nearest(f: &RecordFrame, w: u32, h: u32) -> Made {
    RecordFrame::from_record(operation::resize_nearest(&f.record, w, h)?)
}

/// `f` at another depth, each sample in proportion to the top. Refusal: 6.
pub fn rescale_depth(f: &RecordFrame, depth: u8) -> Made {
    RecordFrame::from_record(operation::rescale_depth(&f.record, depth.into())?)
}

/// `master` with the luma of `alpha` as its alpha plane, at the master's size and depth.
pub fn attach_alpha(master: &RecordFrame, alpha: &RecordFrame) -> Made {
    RecordFrame::from_record(operation::attach_alpha(&master.record, &alpha.record)?)
}

/// The properties of `chain` in turn, under `essential_only` the essential ones alone; without one
/// that is applied the frame as it is. Refusals: 4 above 256 entries; each entry's own, in turn.
pub fn apply_transforms<'a>(
    f: &RecordFrame,
    chain: impl IntoIterator<Item = &'a PropertyEntry>,
    essential_only: bool,
) -> Made {
    match applied(chain, essential_only)? {
        None => Ok(f.clone().into_owned()),
        Some(properties) => RecordFrame::from_record(all_after(&f.record, &properties)?),
    }
}

/// [`apply_transforms`] on a frame that is handed over: it comes back without a copy where no
/// property is applied.
pub fn apply_transforms_owned<'a, 'f>(
    f: RecordFrame<'f>,
    chain: impl IntoIterator<Item = &'a PropertyEntry>,
    essential_only: bool,
) -> Result<RecordFrame<'f>> {
    match applied(chain, essential_only)? {
        None => Ok(f),
        Some(properties) => RecordFrame::from_record(all_after(&f.record, &properties)?),
    }
}

/// The tiles of a grid, each in its cell. Refusals: the descriptor's; 11 another number of tiles; 12,
/// 13, 14. Where the tiles are a tray already, [`composite::grid`] takes it.
pub fn composite_grid(desc: &GridDescriptor, tiles: &[RecordFrame]) -> Made {
    RecordFrame::from_record(composite::grid_of(desc, tiles)?)
}

/// One input of an overlay.
#[derive(Clone, Debug)]
pub struct OverlayInput<'a> {
    /// The picture.
    pub frame: &'a RecordFrame<'a>,
    /// Whether its samples are multiplied by its alpha already.
    pub premultiplied: bool,
}

impl<'a> OverlayInput<'a> {
    /// An input of its two fields.
    pub fn new(frame: &'a RecordFrame<'a>, premultiplied: bool) -> Self {
        Self {
            frame,
            premultiplied,
        }
    }
}

/// The inputs of an overlay, the last on top; `colr` is for the fill. Refusals: the descriptor's; 15 no
/// inputs; 11 another number of them; 14; 16.
pub fn composite_overlay(
    desc: &OverlayDescriptor,
    inputs: &[OverlayInput<'_>],
    colr: Option<&Colr>,
) -> Made {
    let inputs = inputs
        .iter()
        .map(|input| (input.frame, input.premultiplied));
    RecordFrame::from_record(composite::overlay_of(desc, inputs, colr)?)
}
