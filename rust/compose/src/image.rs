//! Planar pictures, with the names and shapes of oxideav-heif's module `image`.
//!
//! A [`HeifFrame`] is what a caller builds and reads; the composer's calls take and give records
//! (document 01, "What is handed in"), which [`HeifFrame::to_record`] and
//! [`HeifFrame::from_record`] write and read.

use crate::composite::Recorded;
use crate::form::{Form, plane_size, push_numbers};
use crate::props::CropRect;
use crate::record::{self, RecordInfo};
use crate::{Refusal, Result, limits, stock};
use std::ops::Range;

/// Upper bound on the pixels of a frame.
pub const MAX_FRAME_PIXELS: u64 = 1 << 30;

/// Chroma sampling, in the order of its record number.
#[derive(Clone, Copy, Debug, PartialEq, Eq, Hash)]
pub enum Chroma {
    /// 4:0:0, luma alone.
    Mono,
    /// 4:2:0, chroma halved across and down.
    Yuv420,
    /// 4:2:2, chroma halved across.
    Yuv422,
    /// 4:4:4, chroma at full size.
    Yuv444,
}

impl Chroma {
    /// The chroma of a record number, which is `chroma_format_idc`.
    pub fn from_idc(idc: u8) -> Option<Self> {
        match idc {
            0 => Some(Self::Mono),
            1 => Some(Self::Yuv420),
            2 => Some(Self::Yuv422),
            3 => Some(Self::Yuv444),
            _ => None,
        }
    }

    /// The record number.
    pub fn idc(&self) -> u8 {
        *self as u8
    }

    /// How far the chroma planes are shifted against luma, across and down: 1 where halved.
    pub fn shift(&self) -> (u32, u32) {
        match self {
            Self::Mono | Self::Yuv444 => (0, 0),
            Self::Yuv422 => (1, 0),
            Self::Yuv420 => (1, 1),
        }
    }

    /// Colour planes: 1 or 3.
    pub fn colour_planes(&self) -> usize {
        if *self == Self::Mono { 1 } else { 3 }
    }

    /// The size of a chroma plane: a halved side is rounded up.
    pub fn chroma_dims(&self, width: u32, height: u32) -> (u32, u32) {
        let (across, down) = self.shift();
        (width.div_ceil(1 << across), height.div_ceil(1 << down))
    }
}

/// The sample layout of a [`HeifFrame`].
#[derive(Clone, Copy, Debug, PartialEq, Eq, Hash)]
#[non_exhaustive]
pub struct HeifPixelFormat {
    /// Chroma sampling.
    pub chroma: Chroma,
    /// Bits a sample, 8 to 16.
    pub bit_depth: u8,
    /// Whether an alpha plane of full size follows the colour planes.
    pub has_alpha: bool,
}

impl HeifPixelFormat {
    /// A layout. Refusal 6: a depth outside 8 to 16.
    pub fn new(chroma: Chroma, bit_depth: u8, has_alpha: bool) -> Result<Self> {
        if !(8..=16).contains(&bit_depth) {
            return Err(Refusal::DEPTH);
        }
        Ok(Self {
            chroma,
            bit_depth,
            has_alpha,
        })
    }

    /// The same layout with another chroma.
    #[must_use]
    pub fn with_chroma(mut self, chroma: Chroma) -> Self {
        self.chroma = chroma;
        self
    }

    /// The same layout with another depth.
    #[must_use]
    pub fn with_bit_depth(mut self, bit_depth: u8) -> Self {
        self.bit_depth = bit_depth;
        self
    }

    /// The same layout with an alpha plane, or without one.
    #[must_use]
    pub fn with_has_alpha(mut self, has_alpha: bool) -> Self {
        self.has_alpha = has_alpha;
        self
    }

    /// The same layout with an alpha plane.
    pub fn with_alpha(&self) -> Self {
        self.with_has_alpha(true)
    }

    /// The same layout without an alpha plane.
    pub fn without_alpha(&self) -> Self {
        self.with_has_alpha(false)
    }

    /// One byte a sample at depth 8, else two.
    pub fn bytes_per_sample(&self) -> usize {
        if self.bit_depth > 8 { 2 } else { 1 }
    }

    /// Top: the largest sample, 2^depth − 1.
    pub fn max_value(&self) -> u16 {
        ((1u32 << self.bit_depth) - 1) as u16
    }

    /// Planes: the colour planes, and alpha.
    pub fn plane_count(&self) -> usize {
        self.chroma.colour_planes() + usize::from(self.has_alpha)
    }

    /// Where the alpha plane is, if there is one.
    pub fn alpha_plane(&self) -> Option<usize> {
        self.has_alpha.then_some(self.chroma.colour_planes())
    }

    /// How far a plane is shifted against luma.
    fn shift(&self, plane: usize) -> (u32, u32) {
        match plane == 0 || Some(plane) == self.alpha_plane() {
            true => (0, 0),
            false => self.chroma.shift(),
        }
    }

    /// The size of a plane of a picture.
    pub fn plane_dims(&self, plane: usize, width: u32, height: u32) -> (u32, u32) {
        let (across, down) = self.shift(plane);
        (width.div_ceil(1 << across), height.div_ceil(1 << down))
    }
}

/// One plane: rows from top to bottom, `stride` bytes from one to the next.
#[derive(Clone, Debug, PartialEq, Eq)]
pub struct Plane {
    /// Bytes from a row to the next.
    pub stride: usize,
    /// The rows; bytes between and after them may be anything.
    pub data: Vec<u8>,
}

impl Plane {
    /// A plane of its two fields.
    pub fn new(stride: usize, data: Vec<u8>) -> Self {
        Self { stride, data }
    }

    /// Stride and length as a record has them; a valid frame's are such.
    fn numbers(&self) -> [u32; 2] {
        [self.stride, self.data.len()].map(|number| number as u32)
    }
}

/// The name of [`Plane`] before oxideav-heif 0.0.9.
#[deprecated(note = "renamed to `Plane`")]
pub type HeifPlane = Plane;

/// Where a sample's bytes are in a plane of a layout and a stride.
pub(crate) fn sample_place(format: HeifPixelFormat, stride: usize, x: u32, y: u32) -> Range<usize> {
    let bytes = format.bytes_per_sample();
    let start = y as usize * stride + x as usize * bytes;
    start..start + bytes
}

/// A sample of one byte or two.
pub(crate) fn read_sample(bytes: &[u8]) -> u16 {
    match *bytes {
        [low, high] => u16::from_le_bytes([low, high]),
        _ => u16::from(bytes[0]),
    }
}

/// A planar picture: luma, Cb, Cr (mono has luma alone), then alpha.
#[derive(Clone, Debug, PartialEq, Eq)]
pub struct HeifFrame {
    /// Width in pixels.
    pub width: u32,
    /// Height in pixels.
    pub height: u32,
    /// The sample layout.
    pub format: HeifPixelFormat,
    /// The planes, `format.plane_count()` of them.
    pub planes: Vec<Plane>,
}

impl HeifFrame {
    /// A frame of its four fields. Nothing is judged until a call takes it.
    pub fn new(width: u32, height: u32, format: HeifPixelFormat, planes: Vec<Plane>) -> Self {
        Self {
            width,
            height,
            format,
            planes,
        }
    }

    /// The same frame with another width.
    #[must_use]
    pub fn with_width(mut self, width: u32) -> Self {
        self.width = width;
        self
    }

    /// The same frame with another height.
    #[must_use]
    pub fn with_height(mut self, height: u32) -> Self {
        self.height = height;
        self
    }

    /// The same frame with another layout.
    #[must_use]
    pub fn with_format(mut self, format: HeifPixelFormat) -> Self {
        self.format = format;
        self
    }

    /// The same frame with other planes.
    #[must_use]
    pub fn with_planes(mut self, planes: Vec<Plane>) -> Self {
        self.planes = planes;
        self
    }

    /// A frame with `value` in every sample. Refusals: 3 a side 0, 4 above 2^30 pixels or a ceiling of
    /// the caller's.
    pub fn filled(width: u32, height: u32, format: HeifPixelFormat, value: u16) -> Result<Self> {
        if width == 0 || height == 0 {
            return Err(Refusal::EMPTY);
        }
        let form = Form::new(width, height, format).ok_or(Refusal::LIMIT)?;
        limits::judge(form.into())?;
        let sample = &value.to_le_bytes()[..format.bytes_per_sample()];
        let plane = |plane| {
            let (columns, rows) = format.plane_dims(plane, width, height);
            let stride = columns as usize * sample.len();
            Plane::new(stride, sample.repeat(columns as usize * rows as usize))
        };
        let planes = (0..format.plane_count()).map(plane).collect();
        Ok(Self::new(width, height, format, planes))
    }

    /// A frame with 0 in every sample. Refusals: as [`HeifFrame::filled`].
    pub fn zeroed(width: u32, height: u32, format: HeifPixelFormat) -> Result<Self> {
        Self::filled(width, height, format, 0)
    }

    pub(crate) fn form(&self) -> Form {
        Form {
            width: self.width,
            height: self.height,
            format: self.format,
        }
    }

    /// Whether the planes are what size and layout ask for. Refusals: document 01's *Record*, as a
    /// call has them of the frame's record.
    pub fn validate(&self) -> Result<()> {
        let HeifPixelFormat {
            chroma,
            bit_depth,
            has_alpha,
        } = self.format;
        HeifPixelFormat::new(chroma, bit_depth, has_alpha)?;
        if self.width == 0 || self.height == 0 {
            return Err(Refusal::EMPTY);
        }
        Form::new(self.width, self.height, self.format).ok_or(Refusal::LIMIT)?;
        let count = self.format.plane_count();
        match self.planes.len() == count && (0..count).all(|plane| self.is_whole(plane)) {
            true => Ok(()),
            false => Err(Refusal::MALFORMED),
        }
    }

    /// Whether a plane's stride is no shorter than a row, and its data have all rows; both lengths
    /// are numbers of a record.
    fn is_whole(&self, plane: usize) -> bool {
        let [row, _] = self.form().plane(plane).map(u64::from);
        let (_, rows) = self.plane_dims(plane);
        let Plane { stride, data } = &self.planes[plane];
        let numbers = [*stride, data.len()].map(u32::try_from);
        let [Ok(stride), Ok(length)] = numbers.map(|number| number.map(u64::from)) else {
            return false;
        };
        stride >= row && length >= stride * u64::from(rows - 1) + row
    }

    /// The size of a plane.
    pub fn plane_dims(&self, plane: usize) -> (u32, u32) {
        self.format.plane_dims(plane, self.width, self.height)
    }

    /// Where a sample's bytes are in its plane.
    fn place(&self, plane: usize, x: u32, y: u32) -> Range<usize> {
        sample_place(self.format, self.planes[plane].stride, x, y)
    }

    /// The sample at a column and a row of a plane. It panics where there is none.
    pub fn sample(&self, plane: usize, x: u32, y: u32) -> u16 {
        read_sample(&self.planes[plane].data[self.place(plane, x, y)])
    }

    /// Changes the sample at a column and a row of a plane. It panics where there is none.
    pub fn set_sample(&mut self, plane: usize, x: u32, y: u32, value: u16) {
        let place = self.place(plane, x, y);
        let bytes = &value.to_le_bytes()[..place.len()];
        self.planes[plane].data[place].copy_from_slice(bytes);
    }

    /// A row of a plane, without what lies between rows. It panics where there is none.
    pub fn row(&self, plane: usize, y: u32) -> &[u8] {
        let bytes = self.plane_dims(plane).0 as usize * self.format.bytes_per_sample();
        &self.planes[plane].data[self.place(plane, 0, y).start..][..bytes]
    }

    /// A copy whose rows follow each other without a gap.
    pub fn tight(&self) -> Self {
        let plane = |plane| {
            let (columns, rows) = self.plane_dims(plane);
            let data = (0..rows)
                .flat_map(|y| self.row(plane, y))
                .copied()
                .collect();
            Plane::new(columns as usize * self.format.bytes_per_sample(), data)
        };
        let planes = (0..self.planes.len()).map(plane).collect();
        Self::new(self.width, self.height, self.format, planes)
    }

    /// The colour planes alone.
    pub fn without_alpha(&self) -> Self {
        let colour = self.planes[..self.format.chroma.colour_planes()].to_vec();
        Self::new(self.width, self.height, self.format.without_alpha(), colour)
    }

    /// The alpha plane as a picture of its own, if there is one.
    pub fn alpha_as_frame(&self) -> Option<Self> {
        let alpha = self.planes[self.format.alpha_plane()?].clone();
        let format = self.format.without_alpha().with_chroma(Chroma::Mono);
        Some(Self::new(self.width, self.height, format, vec![alpha]))
    }

    /// The frame in 4:4:4, each pixel with the chroma sample that covered it; mono gets the middle,
    /// 2^(depth − 1). The alpha plane stays as it stands. Refusals: document 01's *Record*.
    ///
    /// ```
    /// use compose::image::{Chroma, HeifFrame, HeifPixelFormat, Plane};
    ///
    /// let planes = [vec![1, 2, 3], vec![10, 20], vec![30, 40]];
    /// let planes = planes.map(|row| Plane::new(row.len(), row)).to_vec();
    /// let format = HeifPixelFormat::new(Chroma::Yuv422, 8, false)?;
    /// let promoted = HeifFrame::new(3, 1, format, planes).promote_to_444()?;
    /// assert_eq!(promoted.planes[1].data, [10, 10, 20]);
    /// # Ok::<(), compose::Refusal>(())
    /// ```
    pub fn promote_to_444(&self) -> Result<Self> {
        self.validate()?;
        let format = self.format.with_chroma(Chroma::Yuv444);
        let middle = 1 << (format.bit_depth - 1);
        let mut promoted = Self::filled(self.width, self.height, format, middle)?;
        for plane in 0..self.format.chroma.colour_planes() {
            let (across, down) = self.format.shift(plane);
            for y in 0..self.height {
                for x in 0..self.width {
                    let sample = self.sample(plane, x >> across, y >> down);
                    promoted.set_sample(plane, x, y, sample);
                }
            }
        }
        if let (Some(from), Some(to)) = (self.format.alpha_plane(), format.alpha_plane()) {
            promoted.planes[to] = self.planes[from].clone();
        }
        Ok(promoted)
    }

    /// The frame with the first plane of `alpha`, which has its size and depth, as its alpha plane.
    /// Refusals: the frame's, then alpha's; 13 another size; 14 another depth.
    pub fn with_alpha_plane(&self, alpha: &HeifFrame) -> Result<Self> {
        self.validate()?;
        alpha.validate()?;
        if (alpha.width, alpha.height) != (self.width, self.height) {
            return Err(Refusal::TILE);
        }
        if alpha.format.bit_depth != self.format.bit_depth {
            return Err(Refusal::LAYOUT);
        }
        let mut with = self.without_alpha();
        with.format = with.format.with_alpha();
        with.planes.push(alpha.planes[0].clone());
        Ok(with)
    }

    /// The frame as a record, strides and spare bytes as they are. Refusals: document 01's
    /// *Record*, so that what comes is one.
    pub fn to_record(&self) -> Result<Vec<u8>> {
        self.validate()?;
        let mut record = Vec::new();
        self.push_record(&mut record);
        Ok(record)
    }

    /// Appends the tight record of a part of a valid frame. Where a side is halved, no chroma sample
    /// lies across an edge of the part.
    pub(crate) fn push_part(&self, part: CropRect, record: &mut Vec<u8>) {
        let form = Form {
            width: part.width,
            height: part.height,
            format: self.format,
        };
        record.reserve(form.record_size());
        form.push_head(record);
        for plane in 0..self.planes.len() {
            let [row, length] = form.plane(plane);
            push_numbers(record, [row, length]);
            let (across, down) = self.format.shift(plane);
            let start = self.place(plane, part.x >> across, part.y >> down).start;
            let Plane { stride, data } = &self.planes[plane];
            let (row, length) = (row as usize, length as usize);
            if row == *stride {
                record.extend_from_slice(&data[start..][..length]);
                continue;
            }
            for row_on in data[start..].chunks(*stride).take(length / row) {
                record.extend_from_slice(&row_on[..row]);
            }
        }
    }

    /// The frame that a record holds. Refusals: document 01's *Record*.
    pub fn from_record(record: &[u8]) -> Result<Self> {
        Ok(Self::of_parts(record, &record::inspect(record)?))
    }

    /// The same of a record that a call made, and that no one else needs.
    pub(crate) fn of_made(record: Vec<u8>) -> Result<Self> {
        let frame = Self::from_record(&record);
        stock::give(record);
        frame
    }

    /// The same of a record that is judged.
    pub(crate) fn of_parts(record: &[u8], info: &RecordInfo) -> Self {
        let planes = info.present().map(|plane| {
            let data = plane.of(record).to_vec();
            Plane::new(plane.stride, data)
        });
        Self::new(info.width, info.height, info.format(), planes.collect())
    }
}

impl Recorded for HeifFrame {
    fn judge(&self) -> Result<()> {
        self.validate()
    }

    fn record_size(&self) -> usize {
        let planes = self.planes.iter().map(|plane| plane_size(plane.numbers()));
        self.form().head_size() + planes.sum::<usize>()
    }

    fn push_record(&self, bytes: &mut Vec<u8>) {
        bytes.reserve_exact(self.record_size());
        self.form().push_head(bytes);
        for plane in &self.planes {
            push_numbers(bytes, plane.numbers());
            bytes.extend_from_slice(&plane.data);
        }
    }
}

impl RecordInfo {
    /// The sample layout.
    pub fn format(&self) -> HeifPixelFormat {
        HeifPixelFormat {
            chroma: self.chroma,
            bit_depth: self.depth,
            has_alpha: self.alpha != 0,
        }
    }
}
