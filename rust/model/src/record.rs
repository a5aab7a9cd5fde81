//! Frame records and trays (document 01, "What is handed in" and "Refusals in order", *Record*).

use crate::number::{Reader, number_bytes, push_number};
use crate::refusal::{self, Refusal};
use crate::steps::Size;

/// The pixel limit L of document 01.
pub(crate) const MAX_PIXELS: u64 = 1 << 30;

/// Holds the size of a picture or a canvas to its range: 3 a side 0, 4 above L.
pub(crate) fn hold_size((width, height): Size) -> Result<(), Refusal> {
    if width == 0 || height == 0 {
        return Err(refusal::ZERO_SIDE);
    }
    if u64::from(width) * u64::from(height) > MAX_PIXELS {
        return Err(refusal::LIMIT);
    }
    Ok(())
}

/// Chroma sampling, in the order of its record number.
#[derive(Clone, Copy, Debug, PartialEq, Eq)]
pub enum Chroma {
    Mono,
    Yuv420,
    Yuv422,
    Yuv444,
}

impl Chroma {
    /// All four, by record number.
    pub const ALL: [Chroma; 4] = [Self::Mono, Self::Yuv420, Self::Yuv422, Self::Yuv444];

    /// Whether the chroma planes are halved across and down.
    pub fn halved(self) -> (bool, bool) {
        match self {
            Self::Mono | Self::Yuv444 => (false, false),
            Self::Yuv422 => (true, false),
            Self::Yuv420 => (true, true),
        }
    }

    /// Colour planes: luma alone, or luma, Cb and Cr.
    pub fn colour_planes(self) -> usize {
        if self == Self::Mono { 1 } else { 3 }
    }
}

/// One plane of a record: its stride and all its data, spare bytes included.
#[derive(Clone, Debug, PartialEq, Eq)]
pub struct Plane {
    pub stride: usize,
    pub data: Vec<u8>,
}

/// Where a plane's data stands in its record.
#[derive(Clone, Copy, Debug, PartialEq, Eq)]
pub struct Place {
    pub start: usize,
    pub length: usize,
    pub stride: usize,
}

/// What a record says, its samples left out.
#[derive(Clone, Debug, PartialEq, Eq)]
pub struct Layout {
    /// Width, height, chroma, depth and alpha as the record has them.
    pub header: [u32; 5],
    /// Luma, Cb, Cr and alpha. One that the picture has not has no data, and starts where it would.
    pub places: [Place; 4],
}

/// A frame as a record holds it. Nothing ties the planes to the header: a frame that no record can
/// hold can be built, so that the published Rust can be asked about it.
#[derive(Clone, Debug, PartialEq, Eq)]
pub struct Frame {
    pub width: u32,
    pub height: u32,
    pub chroma: Chroma,
    pub depth: u8,
    /// The record's alpha number, 0 or 1.
    pub alpha: u8,
    pub planes: Vec<Plane>,
}

impl Frame {
    /// The number of planes that the header asks for.
    pub fn plane_count(&self) -> usize {
        self.chroma.colour_planes() + usize::from(self.alpha)
    }

    /// The top sample value, 2^depth − 1, for depths up to 16.
    pub fn top(&self) -> u16 {
        ((1u32 << self.depth) - 1) as u16
    }

    /// One byte a sample at depth 8, else two.
    pub fn sample_bytes(&self) -> usize {
        if self.depth > 8 { 2 } else { 1 }
    }

    /// Whether plane `plane` is halved across and down.
    pub fn plane_halved(&self, plane: usize) -> (bool, bool) {
        match plane {
            1 | 2 if self.chroma != Chroma::Mono => self.chroma.halved(),
            _ => (false, false),
        }
    }

    /// Width and height of plane `plane`: a chroma side is half the picture's, rounded up, where
    /// it is halved.
    pub fn plane_size(&self, plane: usize) -> (u32, u32) {
        let (across, down) = self.plane_halved(plane);
        let side = |full: u32, halved| if halved { full.div_ceil(2) } else { full };
        (side(self.width, across), side(self.height, down))
    }

    /// Bytes of one row of plane `plane`.
    pub fn row_bytes(&self, plane: usize) -> usize {
        self.plane_size(plane).0 as usize * self.sample_bytes()
    }

    /// The least data that plane `plane` can have at `stride`: stride × (rows − 1) + a row.
    pub fn data_needed(&self, plane: usize, stride: usize) -> usize {
        stride * (self.plane_size(plane).1 as usize - 1) + self.row_bytes(plane)
    }

    /// Column `x` of row `y` of plane `plane`.
    pub fn sample(&self, plane: usize, x: usize, y: usize) -> u16 {
        let Plane { stride, data } = &self.planes[plane];
        let at = y * stride + x * self.sample_bytes();
        match self.sample_bytes() {
            1 => u16::from(data[at]),
            _ => u16::from_le_bytes([data[at], data[at + 1]]),
        }
    }

    /// Every sample of plane `plane`, row by row, without padding.
    pub fn samples(&self, plane: usize) -> Vec<u16> {
        self.samples_within(plane, self.plane_size(plane))
    }

    /// The samples of the top left of plane `plane`, row by row.
    pub fn samples_within(&self, plane: usize, (width, height): (u32, u32)) -> Vec<u16> {
        (0..height as usize)
            .flat_map(|y| (0..width as usize).map(move |x| (x, y)))
            .map(|(x, y)| self.sample(plane, x, y))
            .collect()
    }

    /// A frame of the given form without its planes.
    pub fn empty((width, height): (u32, u32), chroma: Chroma, depth: u8, alpha: u8) -> Self {
        Self {
            width,
            height,
            chroma,
            depth,
            alpha,
            planes: Vec::new(),
        }
    }

    /// A frame whose planes hold `planes`, one list of samples each, as a tight record has them.
    pub fn tight(
        size: (u32, u32),
        chroma: Chroma,
        depth: u8,
        alpha: u8,
        planes: &[&[u16]],
    ) -> Self {
        let mut frame = Self::empty(size, chroma, depth, alpha);
        for (plane, samples) in planes.iter().enumerate() {
            let data = samples
                .iter()
                .flat_map(|sample| sample.to_le_bytes().into_iter().take(frame.sample_bytes()))
                .collect();
            let stride = frame.row_bytes(plane);
            frame.planes.push(Plane { stride, data });
        }
        frame
    }

    /// A tight mono frame of depth 8.
    pub fn mono(width: u32, height: u32, samples: &[u16]) -> Self {
        Self::tight((width, height), Chroma::Mono, 8, 0, &[samples])
    }

    /// The record's bytes, with stride and data as they are.
    pub fn record(&self) -> Vec<u8> {
        let mut out = Vec::new();
        self.push_record(&mut out);
        out
    }

    /// The five header numbers.
    pub fn header(&self) -> [u32; 5] {
        let format = [self.chroma as u8, self.depth, self.alpha].map(u32::from);
        [self.width, self.height, format[0], format[1], format[2]]
    }

    /// Header and places of the record.
    pub fn layout(&self) -> Layout {
        let length = |number: u32| number_bytes(number).len();
        let mut next: usize = self.header().map(length).iter().sum();
        let colour_planes = self.chroma.colour_planes();
        let places = std::array::from_fn(|part| {
            let plane = match part {
                3 => self.planes.get(colour_planes),
                _ => self.planes[..colour_planes].get(part),
            };
            let mut place = Place {
                start: next,
                length: 0,
                stride: 0,
            };
            if let Some(Plane { stride, data }) = plane {
                place.start += length(*stride as u32) + length(data.len() as u32);
                (place.length, place.stride) = (data.len(), *stride);
                next = place.start + place.length;
            }
            place
        });
        let header = self.header();
        Layout { header, places }
    }

    fn push_record(&self, out: &mut Vec<u8>) {
        for number in self.header() {
            push_number(out, number);
        }
        for plane in &self.planes {
            for length in [plane.stride, plane.data.len()] {
                push_number(
                    out,
                    u32::try_from(length).expect("a record's number is below 2^32"),
                );
            }
            out.extend_from_slice(&plane.data);
        }
    }

    /// The frame of a header's five numbers, without its planes, judged in document 01's order:
    /// 5 chroma or alpha, 6 depth, 3 a side 0, 4 above L.
    pub fn of_header([width, height, chroma, depth, alpha]: [u32; 5]) -> Result<Self, Refusal> {
        let chroma = *Chroma::ALL.get(chroma as usize).ok_or(refusal::MALFORMED)?;
        if alpha > 1 {
            return Err(refusal::MALFORMED);
        }
        if !(8..=16).contains(&depth) {
            return Err(refusal::DEPTH);
        }
        hold_size((width, height))?;
        Ok(Self::empty(
            (width, height),
            chroma,
            depth as u8,
            alpha as u8,
        ))
    }

    /// A frame from the front of `reader`; the planes are held to the header only if `tested`. The
    /// numbers of the header are all read before any is judged.
    fn read(reader: &mut Reader, tested: bool) -> Result<Self, Refusal> {
        let mut header = [0u32; 5];
        for number in &mut header {
            *number = reader.number()?;
        }
        let mut frame = Self::of_header(header)?;
        for plane in 0..frame.plane_count() {
            let stride = reader.number()? as usize;
            let length = reader.number()? as usize;
            let data = reader.take(length)?.to_vec();
            if tested
                && (stride < frame.row_bytes(plane) || length < frame.data_needed(plane, stride))
            {
                return Err(refusal::MALFORMED);
            }
            frame.planes.push(Plane { stride, data });
        }
        Ok(frame)
    }
}

fn whole(bytes: &[u8], tested: bool) -> Result<Frame, Refusal> {
    let mut reader = Reader::new(bytes);
    let frame = Frame::read(&mut reader, tested)?;
    reader.end()?;
    Ok(frame)
}

/// The frame of a record, or its refusal, which is of no item.
pub fn parse_record(bytes: &[u8]) -> Result<Frame, Refusal> {
    whole(bytes, true)
}

/// As [`parse_record`], but strides and data lengths are not held to the header: the frame is what
/// the published Rust's `HeifFrame::validate` can then be asked about.
pub fn parse_untested(bytes: &[u8]) -> Result<Frame, Refusal> {
    whole(bytes, false)
}

/// A tray's count, or 5 where it is unreadable.
pub fn tray_count(bytes: &[u8]) -> Result<u32, Refusal> {
    Reader::new(bytes).number()
}

/// The frames of a tray as far as they are read; then whether the tray ends there, or why the
/// reading stopped.
fn read_tray(bytes: &[u8], tested: bool) -> (Vec<Frame>, Result<(), Refusal>) {
    let mut reader = Reader::new(bytes);
    let mut frames = Vec::new();
    let mut read = || {
        for index in 0..reader.number()? as usize {
            let frame = Frame::read(&mut reader, tested);
            frames.push(frame.map_err(|refusal| refusal.of_record(index))?);
        }
        reader.end()
    };
    let end = read();
    (frames, end)
}

/// The frames of a tray: a count, that many records judged in turn, each with refusals of its own,
/// nothing after.
pub fn parse_tray(bytes: &[u8]) -> Result<Vec<Frame>, Refusal> {
    let (frames, end) = read_tray(bytes, true);
    end.map(|()| frames)
}

/// The frames of a tray as far as they are read, as [`parse_untested`] reads each; then whether the
/// tray ends there, or why the reading stopped.
pub fn untested_tray(bytes: &[u8]) -> (Vec<Frame>, Result<(), Refusal>) {
    read_tray(bytes, false)
}

/// The tray of `frames`.
pub fn tray_bytes(frames: &[Frame]) -> Vec<u8> {
    let mut out = Vec::new();
    push_number(&mut out, frames.len() as u32);
    for frame in frames {
        frame.push_record(&mut out);
    }
    out
}
