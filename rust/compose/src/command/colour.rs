//! From a picture's samples to red, green and blue, for screens and for files of other programs: the
//! composer itself has no such step.

use super::Failure;
use super::options::{MATRIX, STUDIO};
use super::words::Words;
use compose::HeifFrame;
use compose::props::Colr;

/// What the samples stand for.
#[derive(Clone, Copy)]
pub struct Description {
    matrix: u16,
    studio: bool,
}

impl Description {
    /// What holds where nothing is said: matrix 6 at full range.
    pub const DEFAULT: Self = Self {
        matrix: 6,
        studio: false,
    };

    /// Planes of green, blue and red, as they are.
    pub const GBR: Self = Self {
        matrix: 0,
        studio: false,
    };

    /// Whether the planes are green, blue and red.
    pub fn is_gbr(self) -> bool {
        self.matrix == 0
    }

    pub fn full_range(self) -> bool {
        !self.studio
    }

    /// The same in studio range or not.
    pub fn in_studio(self, studio: bool) -> Self {
        Self { studio, ..self }
    }

    /// The options `--matrix N` and `--studio`.
    pub fn take(words: &Words) -> Result<Self, Failure> {
        Ok(Self::given(words)?.unwrap_or(Self::DEFAULT))
    }

    /// The same options; none where neither is given.
    pub fn given(words: &Words) -> Result<Option<Self>, Failure> {
        let matrix = words.number_option(MATRIX.name)?;
        let studio = words.flag(STUDIO.name);
        let given = matrix.is_some() || studio;
        let matrix = matrix.unwrap_or(Self::DEFAULT.matrix);
        Ok(given.then_some(Self { matrix, studio }))
    }

    pub fn colr(self) -> Colr {
        Colr::Nclx {
            primaries: 1,
            transfer: 13,
            matrix: self.matrix,
            full_range: !self.studio,
        }
    }

    /// The weights of red and blue (ITU-T H.273).
    fn weights(self) -> (f64, f64) {
        match self.matrix {
            1 => (0.2126, 0.0722),
            4 => (0.30, 0.11),
            7 => (0.212, 0.087),
            9 | 10 => (0.2627, 0.0593),
            _ => (0.299, 0.114),
        }
    }

    /// Red, green and blue from 0 to 1 of luma from 0 to 1 and chroma from −½ to ½.
    fn rgb(self, luma: f64, cb: f64, cr: f64) -> [f64; 3] {
        let (of_red, of_blue) = self.weights();
        let red = luma + 2.0 * (1.0 - of_red) * cr;
        let blue = luma + 2.0 * (1.0 - of_blue) * cb;
        let green = (luma - of_red * red - of_blue * blue) / (1.0 - of_red - of_blue);
        [red, green, blue]
    }
}

/// Red, green and blue of a pixel.
pub type Pixel = [u8; 3];

/// Red, green and blue at a place, where they lie between the ends from 0 to 1.
pub fn rgb(frame: &HeifFrame, description: Description, x: u32, y: u32) -> [f64; 3] {
    let format = frame.format;
    let top = f64::from(format.max_value());
    let step = f64::from(1u32 << (format.bit_depth - 8));
    let (across, down) = format.chroma.shift();
    let sample = |plane: usize| match plane {
        1 | 2 => f64::from(frame.sample(plane, x >> across, y >> down)),
        _ => f64::from(frame.sample(plane, x, y)),
    };
    let luma = |sample: f64| match description.studio {
        true => (sample / step - 16.0) / 219.0,
        false => sample / top,
    };
    let chroma = |sample: f64| match description.studio {
        true => (sample / step - 128.0) / 224.0,
        false => (sample - 128.0 * step) / top,
    };
    match format.chroma.colour_planes() {
        1 => [luma(sample(0)); 3],
        _ if description.is_gbr() => [2, 0, 1].map(|plane| sample(plane) / top),
        _ => description.rgb(luma(sample(0)), chroma(sample(1)), chroma(sample(2))),
    }
}

/// The pixel at a place, for a screen. What shines through is a board of two greys.
pub fn pixel(frame: &HeifFrame, description: Description, x: u32, y: u32) -> Pixel {
    let format = frame.format;
    let top = f64::from(format.max_value());
    let alpha = format.alpha_plane().map_or(1.0, |alpha| {
        (f64::from(frame.sample(alpha, x, y)) / top).min(1.0)
    });
    let behind = if (x / 8 + y / 8).is_multiple_of(2) {
        0.4
    } else {
        0.6
    };
    rgb(frame, description, x, y).map(|part| {
        let part = part.clamp(0.0, 1.0) * alpha + behind * (1.0 - alpha);
        (part * 255.0).round() as u8
    })
}

#[cfg(test)]
mod tests {
    use super::{Description, pixel};
    use compose::image::{Chroma, HeifFrame, HeifPixelFormat};
    use compose::{Result, fill};

    /// One pixel of a colour, as the fill call has it.
    fn painted(channels: [u16; 3], depth: u8, description: Description) -> Result<HeifFrame> {
        let samples = fill::samples(channels, u32::from(depth), Some(&description.colr()))?;
        let format = HeifPixelFormat::new(Chroma::Yuv444, depth, false)?;
        let mut frame = HeifFrame::zeroed(1, 1, format)?;
        for (plane, sample) in samples.into_iter().enumerate() {
            frame.set_sample(plane, 0, 0, sample);
        }
        Ok(frame)
    }

    #[test]
    fn colours_come_back() -> Result<()> {
        let levels = [0u8, 40, 128, 200, 255];
        for matrix in [0, 1, 4, 6, 7, 9] {
            for studio in [false, true] {
                let description = Description {
                    matrix,
                    // Matrix 0 has no studio range.
                    studio: studio && matrix != 0,
                };
                for red in levels {
                    for green in levels {
                        for blue in levels {
                            let rgb = [red, green, blue];
                            let channels = rgb.map(|level| u16::from(level) * 257);
                            let frame = painted(channels, 12, description)?;
                            assert_eq!(pixel(&frame, description, 0, 0), rgb);
                        }
                    }
                }
            }
        }
        Ok(())
    }

    #[test]
    fn clear_pixels_show_the_board() -> Result<()> {
        let format = HeifPixelFormat::new(Chroma::Mono, 8, true)?;
        let frame = HeifFrame::zeroed(9, 1, format)?;
        let at = |x| pixel(&frame, Description::DEFAULT, x, 0);
        assert_eq!((at(0), at(8)), ([102; 3], [153; 3]));
        Ok(())
    }
}
