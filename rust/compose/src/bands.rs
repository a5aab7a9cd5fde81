//! Operations on a frame of planes whose rows stay together, done band by band: the record of a band
//! stays in the processor's cache, and no record of the whole frame is made.

use crate::form::Form;
use crate::image::{HeifFrame, Plane};
use crate::props::{Crop, CropRect};
use crate::record::{RecordInfo, inspect};
use crate::{Result, limits, operation};

/// About how many bytes of a frame a band has.
const BYTES: usize = 96 << 10;

/// What is done to the record of a band.
type Call = Box<dyn Fn(&[u8]) -> Result<Vec<u8>>>;

/// An operation on the rows of a valid frame.
pub(crate) struct Bands<'a> {
    frame: &'a HeifFrame,
    /// The part of it that is read. No chroma sample lies across an edge.
    part: CropRect,
    /// What is made.
    form: Form,
    /// Whether the last band comes first.
    reversed: bool,
    call: Call,
}

impl<'a> Bands<'a> {
    /// A crop, where it promotes nothing: then no row and no column shares a chroma sample with one
    /// outside.
    pub fn crop(frame: &'a HeifFrame, to: &Crop) -> Option<Self> {
        let form = frame.form().cropped(to)?;
        let crop = |band: &[u8]| {
            let RecordInfo { width, height, .. } = inspect(band)?;
            operation::crop(band, 0, 0, width, height)
        };
        (form.format == frame.format).then(|| Self {
            part: to.rect,
            ..Self::whole(frame, form, crop)
        })
    }

    /// A mirror: where top and bottom are exchanged, they are in each band, and the bands are.
    pub fn imir(frame: &'a HeifFrame, axis: u8) -> Self {
        let imir = move |band: &[u8]| operation::imir(band, axis);
        Self {
            reversed: axis.is_multiple_of(2),
            ..Self::whole(frame, frame.form(), imir)
        }
    }

    /// Another depth than the frame's own.
    pub fn rescale_depth(frame: &'a HeifFrame, depth: u8) -> Option<Self> {
        let form = frame.form().at_depth(depth.into())?;
        let rescale = move |band: &[u8]| operation::rescale_depth(band, depth.into());
        (form != frame.form()).then(|| Self::whole(frame, form, rescale))
    }

    fn whole(
        frame: &'a HeifFrame,
        form: Form,
        call: impl Fn(&[u8]) -> Result<Vec<u8>> + 'static,
    ) -> Self {
        Self {
            frame,
            part: CropRect::new(0, 0, frame.width, frame.height),
            form,
            reversed: false,
            call: Box::new(call),
        }
    }

    /// What the call makes of each band, put together. Refusal 4: above a ceiling of the caller's.
    pub fn made(&self) -> Result<HeifFrame> {
        self.made_by(BYTES)
    }

    fn made_by(&self, bytes: usize) -> Result<HeifFrame> {
        limits::judge(self.form.into())?;
        let Form {
            width,
            height,
            format,
        } = self.form;
        let plane = |plane| {
            let [stride, length] = self.form.plane(plane).map(|number| number as usize);
            Plane::new(stride, Vec::with_capacity(length))
        };
        let mut planes: Vec<Plane> = (0..format.plane_count()).map(plane).collect();
        let mut band = Vec::new();
        for part in self.parts(bytes) {
            band.clear();
            self.frame.push_part(part, &mut band);
            let made = (self.call)(&band)?;
            for (plane, rows) in planes.iter_mut().zip(inspect(&made)?.present()) {
                plane.data.extend_from_slice(rows.of(&made));
            }
        }
        Ok(HeifFrame::new(width, height, format, planes))
    }

    /// The bands in the order in which they are made: an even number of rows each, but for the lowest.
    fn parts(&self, bytes: usize) -> Vec<CropRect> {
        let CropRect { width, height, .. } = self.part;
        let all = Form {
            width,
            height,
            format: self.frame.format,
        };
        let bands = all.record_size().div_ceil(bytes).max(1);
        let rows = (height as usize).div_ceil(bands).next_multiple_of(2) as u32;
        let part = |from: u32| CropRect {
            y: self.part.y + from,
            height: rows.min(height - from),
            ..self.part
        };
        let mut parts: Vec<CropRect> = (0..height).step_by(rows as usize).map(part).collect();
        if self.reversed {
            parts.reverse();
        }
        parts
    }
}

#[cfg(test)]
mod tests {
    use super::Bands;
    use crate::image::{Chroma, HeifFrame, HeifPixelFormat, Plane};
    use crate::props::{Crop, CropRect};
    use crate::{Result, operation};

    /// Frames of every chroma, of one byte and of two a sample, without alpha and with it, whose rows
    /// lie apart; every sample is another.
    fn frames() -> Vec<HeifFrame> {
        let mut frames = Vec::new();
        for chroma in (0..4).filter_map(Chroma::from_idc) {
            for (depth, alpha) in [(8, false), (8, true), (10, false), (16, true)] {
                let format = HeifPixelFormat::new(chroma, depth, alpha).expect("a depth");
                for (width, height) in [(1, 1), (2, 9), (5, 6), (6, 8), (7, 11)] {
                    let mut next = 0u8;
                    let plane = |plane| {
                        let (columns, rows) = format.plane_dims(plane, width, height);
                        let stride = columns as usize * format.bytes_per_sample() + plane;
                        let data = (0..stride * rows as usize).map(|_| {
                            next = next.wrapping_add(37);
                            next
                        });
                        Plane::new(stride, data.collect())
                    };
                    let planes = (0..format.plane_count()).map(plane).collect();
                    frames.push(HeifFrame::new(width, height, format, planes));
                }
            }
        }
        frames
    }

    /// By bands of two rows, and by one of all, it is what the call makes of the whole.
    fn hold(bands: &Bands, call: impl Fn(&[u8]) -> Result<Vec<u8>>) {
        let record = bands.frame.to_record().expect("a record");
        let want = call(&record).and_then(|made| HeifFrame::from_record(&made));
        for bytes in [1, usize::MAX] {
            assert_eq!(bands.made_by(bytes), want, "{:?}", bands.form);
        }
    }

    #[test]
    fn bands_are_the_whole() {
        let mut parts = 0;
        for frame in frames() {
            for axis in [0, 1] {
                let mirrored = Bands::imir(&frame, axis);
                hold(&mirrored, |record| operation::imir(record, axis));
            }
            let deeper = Bands::rescale_depth(&frame, 12).expect("another depth");
            hold(&deeper, |record| operation::rescale_depth(record, 12));
            for (x, y) in (0..frame.height).flat_map(|y| (0..frame.width).map(move |x| (x, y))) {
                for (width, height) in [(1, 1), (2, 4), (4, 5), (frame.width - x, frame.height - y)]
                {
                    let rect = CropRect::new(x, y, width, height);
                    let to = Crop::of(rect, frame.width, frame.height);
                    if let Some(part) = Bands::crop(&frame, &to) {
                        parts += 1;
                        hold(&part, |record| operation::crop(record, x, y, width, height));
                    }
                }
            }
        }
        assert!(parts > 1_000, "{parts}");
    }
}
