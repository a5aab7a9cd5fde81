//! The form of a picture and what operations make of it, so that the room that a call is lent is
//! known before anything is allocated. A form that is none stands for a refusal: the call has it.

use crate::derived::{GridDescriptor, OverlayDescriptor};
use crate::image::{Chroma, HeifPixelFormat, MAX_FRAME_PIXELS};
use crate::lend::narrow;
use crate::props::{Crop, Property};
use crate::record::{RecordInfo, number_size, push_number};
use crate::sys;
use crate::transform::needs_444;

/// What the first five numbers of a record say.
#[derive(Clone, Copy, Debug, PartialEq, Eq)]
pub(crate) struct Form {
    pub width: u32,
    pub height: u32,
    pub format: HeifPixelFormat,
}

impl Form {
    /// None: a side 0, or above 2^30 pixels.
    pub fn new(width: u32, height: u32, format: HeifPixelFormat) -> Option<Self> {
        let form = Self {
            width,
            height,
            format,
        };
        (1..=MAX_FRAME_PIXELS)
            .contains(&form.pixels())
            .then_some(form)
    }

    pub fn pixels(&self) -> u64 {
        u64::from(self.width) * u64::from(self.height)
    }

    /// The stride of a plane without a gap, and its bytes.
    pub fn plane(&self, plane: usize) -> [u32; 2] {
        let (columns, rows) = self.format.plane_dims(plane, self.width, self.height);
        // 2^30 samples of two bytes at most.
        let stride = columns * self.format.bytes_per_sample() as u32;
        [stride, stride * rows]
    }

    /// The bytes of the numbers in front of a record's planes: chroma, depth and alpha have one each.
    pub fn head_size(&self) -> usize {
        number_size(self.width) + number_size(self.height) + 3
    }

    /// Appends these numbers.
    pub fn push_head(&self, record: &mut Vec<u8>) {
        let format = [self.format.chroma.idc(), self.format.bit_depth].map(u32::from);
        push_numbers(record, [self.width, self.height]);
        push_numbers(record, format);
        push_numbers(record, [u32::from(self.format.has_alpha)]);
    }

    /// The length of the tight record of a picture of this form; 0 where there is none.
    pub fn record_size(&self) -> usize {
        let HeifPixelFormat {
            chroma,
            bit_depth,
            has_alpha,
        } = self.format;
        let (chroma, depth, alpha) = (chroma.idc().into(), bit_depth.into(), has_alpha.into());
        sys::compose_record_size(self.width, self.height, chroma, depth, alpha).map_or(0, narrow)
    }

    fn with_format(self, format: HeifPixelFormat) -> Self {
        Self { format, ..self }
    }

    /// Promoted to 4:4:4 where an odd column or an odd row asks for it.
    fn promoted(self, x_odd: bool, y_odd: bool) -> Self {
        match needs_444(self.format.chroma, x_odd, y_odd) {
            true => self.with_format(self.format.with_chroma(Chroma::Yuv444)),
            false => self,
        }
    }

    pub fn sized(self, width: u32, height: u32) -> Option<Self> {
        Self::new(width, height, self.format)
    }

    pub fn at_depth(self, depth: u32) -> Option<Self> {
        let HeifPixelFormat {
            chroma, has_alpha, ..
        } = self.format;
        let format = HeifPixelFormat::new(chroma, u8::try_from(depth).ok()?, has_alpha);
        Some(self.with_format(format.ok()?))
    }

    /// The part that a crop leaves, promoted where an edge or a side is odd.
    pub fn cropped(self, crop: &Crop) -> Option<Self> {
        if !crop.fits(self.width, self.height) {
            return None;
        }
        let to = crop.rect;
        let part = self.sized(to.width, to.height)?;
        Some(part.promoted(odd(to.x) || odd(to.width), odd(to.y) || odd(to.height)))
    }

    /// After `angle` mod 4 quarter turns: odd halved sides are promoted, and 4:2:2 that lies on its
    /// side.
    pub fn turned(self, angle: u8) -> Self {
        let quarter = angle % 2 == 1;
        let tipped = quarter && self.format.chroma == Chroma::Yuv422;
        match (angle % 4, quarter) {
            (0, _) => self,
            (_, false) => self.promoted(odd(self.width), odd(self.height)),
            (_, true) => Self {
                width: self.height,
                height: self.width,
                ..self.promoted(tipped || odd(self.width), tipped || odd(self.height))
            },
        }
    }

    /// After one property of a chain.
    pub fn after(self, property: &Property) -> Option<Self> {
        match property {
            Property::Clap(clap) => self.cropped(&clap.resolve(self.width, self.height).ok()?),
            Property::Irot(irot) => Some(self.turned(irot.angle)),
            Property::Iscl(iscl) => {
                let (width, height) = iscl.output_size(self.width, self.height).ok()?;
                self.sized(width, height)
            }
            Property::Other | Property::Imir(_) => Some(self),
        }
    }

    /// The canvas of a grid whose tiles have this form: promoted where a side of either is odd.
    pub fn on_grid(self, grid: &GridDescriptor) -> Option<Self> {
        let canvas = self.sized(grid.output_width, grid.output_height)?;
        let x_odd = odd(self.width) || odd(canvas.width);
        let y_odd = odd(self.height) || odd(canvas.height);
        Some(canvas.promoted(x_odd, y_odd))
    }

    /// The canvas of an overlay of inputs that have these forms. It has alpha where the fill is not
    /// opaque, and is 4:4:4 where the first is not mono and one has alpha, where chromas differ, or
    /// where an offset or a side is odd.
    pub fn of_overlay(overlay: &OverlayDescriptor, inputs: &[Self]) -> Option<Self> {
        let first = inputs.first()?.format;
        let top = u64::from(first.max_value());
        let [.., alpha] = overlay.canvas_fill;
        let opacity = (u64::from(alpha) * top + 32_767) / 65_535;
        let format = first.with_has_alpha(opacity < top);
        let canvas = Self::new(overlay.output_width, overlay.output_height, format)?;
        let alpha = first.chroma != Chroma::Mono && inputs.iter().any(|one| one.format.has_alpha);
        if alpha || inputs.iter().any(|one| one.format.chroma != first.chroma) {
            return Some(canvas.with_format(format.with_chroma(Chroma::Yuv444)));
        }
        let (mut x_odd, mut y_odd) = (odd(canvas.width), odd(canvas.height));
        for (input, (x, y)) in inputs.iter().zip(&overlay.offsets) {
            x_odd |= odd(input.width) || x % 2 != 0;
            y_odd |= odd(input.height) || y % 2 != 0;
        }
        Some(canvas.promoted(x_odd, y_odd))
    }
}

fn odd(side: u32) -> bool {
    side % 2 == 1
}

/// Appends numbers, one after the other.
pub(crate) fn push_numbers<const N: usize>(bytes: &mut Vec<u8>, numbers: [u32; N]) {
    for number in numbers {
        push_number(bytes, number);
    }
}

/// The bytes of a plane in a record: stride, length and data.
pub(crate) fn plane_size([stride, length]: [u32; 2]) -> usize {
    number_size(stride) + number_size(length) + length as usize
}

impl RecordInfo {
    pub(crate) fn form(&self) -> Form {
        Form {
            width: self.width,
            height: self.height,
            format: self.format(),
        }
    }
}
