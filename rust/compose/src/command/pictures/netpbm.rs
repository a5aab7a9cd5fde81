//! PGM, PPM and PAM, each in its binary form: a head of text, then the samples of one pixel after the
//! other, two bytes a sample above 255, high byte first.

use super::Format;
use crate::command::colour::{self, Description};
use compose::fill;
use compose::image::{Chroma, HeifFrame, HeifPixelFormat, Plane};

/// A picture of one of these files.
#[derive(Clone, Debug, PartialEq, Eq)]
pub struct Raster {
    width: u32,
    height: u32,
    /// 1 grey, 2 grey and alpha, 3 red, green and blue, 4 these and alpha.
    channels: usize,
    /// What stands for 1.
    most: u16,
    /// Pixel by pixel.
    samples: Vec<u16>,
}

/// Goes to the line's end.
fn skip_line(rest: &mut &[u8]) {
    let end = rest.iter().position(|byte| *byte == b'\n');
    *rest = &rest[end.unwrap_or(rest.len())..];
}

/// The next word of a head, taken off: what is between blanks, and not behind a # up to the line's end.
fn word<'a>(rest: &mut &'a [u8]) -> Result<&'a str, String> {
    loop {
        let blanks = rest.iter().take_while(|byte| byte.is_ascii_whitespace());
        *rest = &rest[blanks.count()..];
        if rest.first() != Some(&b'#') {
            break;
        }
        skip_line(rest);
    }
    let end = rest.iter().position(|byte| byte.is_ascii_whitespace());
    let (word, after) = rest.split_at(end.ok_or("is cut short")?);
    *rest = after;
    std::str::from_utf8(word).map_err(|_| "has a head that is no text".into())
}

fn number<T: std::str::FromStr>(rest: &mut &[u8]) -> Result<T, String> {
    let word = word(rest)?;
    let number = word.parse();
    number.map_err(|_| format!("has {word} in its head where a number belongs"))
}

/// The head of a PGM or a PPM, after its first two letters, taken off with the blank that ends it.
fn short_head(rest: &mut &[u8], channels: usize) -> Result<Raster, String> {
    let (width, height, most) = (number(rest)?, number(rest)?, number(rest)?);
    *rest = &rest[1..];
    Ok(Raster {
        width,
        height,
        channels,
        most,
        samples: Vec::new(),
    })
}

/// The head of a PAM, taken off with the line that ends it.
fn long_head(rest: &mut &[u8]) -> Result<Raster, String> {
    let mut raster = Raster {
        width: 0,
        height: 0,
        channels: 0,
        most: 0,
        samples: Vec::new(),
    };
    loop {
        match word(rest)? {
            "WIDTH" => raster.width = number(rest)?,
            "HEIGHT" => raster.height = number(rest)?,
            "DEPTH" => raster.channels = number(rest)?,
            "MAXVAL" => raster.most = number(rest)?,
            // What the channels are is told by their number.
            "TUPLTYPE" => skip_line(rest),
            "ENDHDR" => break,
            other => return Err(format!("has {other} in its head, which is not read here")),
        }
    }
    *rest = &rest[1..];
    Ok(raster)
}

/// One picture, taken off.
fn raster(rest: &mut &[u8]) -> Result<Raster, String> {
    let format = Format::of_bytes(rest);
    *rest = rest.get(2..).ok_or("is cut short")?;
    let mut raster = match format {
        Format::Pgm => short_head(rest, 1)?,
        Format::Ppm => short_head(rest, 3)?,
        Format::Pam => long_head(rest)?,
        _ => return Err("has something behind its picture".into()),
    };
    if raster.most == 0 || !(1..=4).contains(&raster.channels) {
        return Err("has no samples of 1 to 4 channels and 1 to 16 bits".into());
    }
    let bytes = if raster.most > 255 { 2 } else { 1 };
    let length = (raster.width as usize)
        .saturating_mul(raster.height as usize)
        .saturating_mul(raster.channels * bytes);
    let (data, after) = rest.split_at_checked(length).ok_or("is cut short")?;
    *rest = after;
    raster.samples = match bytes {
        1 => data.iter().copied().map(u16::from).collect(),
        _ => {
            let pairs = data.as_chunks().0;
            pairs.iter().copied().map(u16::from_be_bytes).collect()
        }
    };
    match raster.samples.iter().any(|sample| *sample > raster.most) {
        true => Err(format!("has samples above {}, its maximum", raster.most)),
        false => Ok(raster),
    }
}

/// The pictures of a file, or what is wrong with it.
pub fn parse(bytes: &[u8]) -> Result<Vec<Raster>, String> {
    let mut rest = bytes;
    let mut rasters = Vec::new();
    while !rest.is_empty() {
        rasters.push(raster(&mut rest)?);
    }
    Ok(rasters)
}

impl Raster {
    pub fn has_colours(&self) -> bool {
        self.channels > 2
    }

    fn has_alpha(&self) -> bool {
        self.channels.is_multiple_of(2)
    }

    /// The least depth that has room for its samples.
    fn depth(&self) -> u8 {
        let depths = 8..=16;
        let roomy = depths.clone().find(|depth| self.most <= top(*depth));
        roomy.unwrap_or(*depths.end())
    }

    /// The picture: grey as luma; colours as G, B, R, or as a description with another matrix has
    /// them.
    pub fn frame(&self, description: Option<Description>) -> HeifFrame {
        let chroma = match self.has_colours() {
            true => Chroma::Yuv444,
            false => Chroma::Mono,
        };
        let format = HeifPixelFormat::new(chroma, self.depth(), self.has_alpha());
        let format = format.expect("a depth from 8 to 16");
        let converted = description.filter(|one| self.has_colours() && !one.is_gbr());
        let mut planes = vec![Vec::new(); format.plane_count()];
        for pixel in self.samples.chunks(self.channels) {
            let scaled = |index: usize| scale(pixel[index], self.most, top(self.depth()));
            let colours = match (self.has_colours(), converted) {
                (false, _) => vec![scaled(0)],
                (true, None) => [1, 2, 0].map(scaled).to_vec(),
                (true, Some(description)) => {
                    let rgb = [0, 1, 2].map(|index| scale(pixel[index], self.most, u16::MAX));
                    let samples =
                        fill::samples(rgb, u32::from(self.depth()), Some(&description.colr()));
                    samples.expect("a depth from 8 to 16").to_vec()
                }
            };
            let alpha = self.has_alpha().then(|| scaled(self.channels - 1));
            for (plane, sample) in planes.iter_mut().zip(colours.into_iter().chain(alpha)) {
                plane.extend_from_slice(&sample.to_le_bytes()[..format.bytes_per_sample()]);
            }
        }
        let stride = self.width as usize * format.bytes_per_sample();
        let planes = planes.into_iter().map(|data| Plane::new(stride, data));
        HeifFrame::new(self.width, self.height, format, planes.collect())
    }
}

fn top(depth: u8) -> u16 {
    (((1u32) << depth) - 1) as u16
}

/// A sample of which `most` stands for 1, where `to` does.
fn scale(sample: u16, most: u16, to: u16) -> u16 {
    let (sample, most, to) = (u32::from(sample), u32::from(most), u32::from(to));
    // At most 65,535² + 32,767.
    ((sample * to + most / 2) / most) as u16
}

/// The samples of a row, pixel by pixel; its chroma samples at each place that they cover.
fn samples(frame: &HeifFrame, description: Description, channels: usize, y: u32) -> Vec<u16> {
    let format = frame.format;
    let top = format.max_value();
    let mut samples = Vec::with_capacity(frame.width as usize * channels);
    for x in 0..frame.width {
        if format.chroma == Chroma::Mono {
            let grey = if channels > 2 { 3 } else { 1 };
            samples.extend([frame.sample(0, x, y)].repeat(grey));
        } else {
            let rgb = colour::rgb(frame, description, x, y);
            let level = |part: f64| (part.clamp(0.0, 1.0) * f64::from(top)).round() as u16;
            samples.extend(rgb.map(level));
        }
        samples.extend(format.alpha_plane().map(|alpha| frame.sample(alpha, x, y)));
    }
    samples
}

/// Whether any sample of the picture lies above its top: a record may have such samples.
fn above_top(frame: &HeifFrame) -> bool {
    let top = frame.format.max_value();
    (0..frame.planes.len()).any(|plane| {
        let (columns, rows) = frame.plane_dims(plane);
        let mut places = (0..rows).flat_map(|y| (0..columns).map(move |x| (x, y)));
        places.any(|(x, y)| frame.sample(plane, x, y) > top)
    })
}

/// A file of one picture, or why there is none.
pub fn write(
    frame: &HeifFrame,
    format: Format,
    description: Description,
) -> Result<Vec<u8>, String> {
    let (width, height) = (frame.width, frame.height);
    let colours = frame.format.chroma != Chroma::Mono;
    let alpha = frame.format.has_alpha;
    let most = frame.format.max_value();
    if above_top(frame) {
        return Err(format!(
            "cannot hold samples above {most}, the picture's top"
        ));
    }
    let (head, channels) = match (format, colours, alpha) {
        (Format::Pgm, true, _) => return Err("cannot be PGM, which has no colours".into()),
        (Format::Pgm | Format::Ppm, _, true) => {
            return Err("cannot be PGM or PPM, which have no alpha; PAM has it".into());
        }
        (Format::Pgm, ..) => (format!("P5\n{width} {height}\n{most}\n"), 1),
        (Format::Ppm, ..) => (format!("P6\n{width} {height}\n{most}\n"), 3),
        _ => {
            let (of, grey) = if colours {
                ("RGB", 3)
            } else {
                ("GRAYSCALE", 1)
            };
            let (with, channels) = if alpha {
                ("_ALPHA", grey + 1)
            } else {
                ("", grey)
            };
            let head = format!(
                "P7\nWIDTH {width}\nHEIGHT {height}\nDEPTH {channels}\nMAXVAL {most}\n\
                 TUPLTYPE {of}{with}\nENDHDR\n"
            );
            (head, channels)
        }
    };
    let mut bytes = head.into_bytes();
    let row = width as usize * channels * frame.format.bytes_per_sample();
    bytes.reserve_exact(row * height as usize);
    for y in 0..height {
        let samples = samples(frame, description, channels, y);
        match most {
            255 => bytes.extend(samples.iter().map(|sample| *sample as u8)),
            _ => bytes.extend(samples.iter().flat_map(|sample| sample.to_be_bytes())),
        }
    }
    Ok(bytes)
}

#[cfg(test)]
mod tests {
    use super::{Format, parse, scale, write};
    use crate::command::colour::Description;
    use compose::image::{Chroma, HeifFrame, HeifPixelFormat, Plane};

    fn read(bytes: &[u8]) -> HeifFrame {
        let rasters = parse(bytes).expect("a file");
        assert_eq!(rasters.len(), 1);
        rasters[0].frame(None)
    }

    #[test]
    fn files_of_other_programs() {
        let grey = read(b"P5 # made by hand\n2\t1 # size\n255\n\x07\x09");
        assert_eq!((grey.width, grey.height), (2, 1));
        assert_eq!(grey.planes, [Plane::new(2, vec![7, 9])]);
        // Red, green and blue are the last, the first and the second plane.
        let colours = read(b"P6\n1 1\n255\n\x01\x02\x03");
        assert_eq!(colours.format.chroma, Chroma::Yuv444);
        let planes = [2, 3, 1].map(|sample| Plane::new(1, vec![sample]));
        assert_eq!(colours.planes, planes);
        // Above 255 a sample has two bytes, the high one first.
        let deep = read(b"P5 1 1 1023\n\x03\xfe");
        assert_eq!((deep.format.bit_depth, deep.sample(0, 0, 0)), (10, 1022));
        let shining =
            b"P7\nWIDTH 1\n# a line\nHEIGHT 1\nDEPTH 4\nMAXVAL 255\nTUPLTYPE RGB_ALPHA or so\n\
                        ENDHDR\n\x01\x02\x03\x04";
        let shining = read(shining);
        assert!(shining.format.has_alpha);
        assert_eq!(shining.sample(3, 0, 0), 4);
        // Other maxima are brought to the top of the least depth that has room.
        let coarse = read(b"P5 2 1 15\n\x0f\x07");
        assert_eq!((coarse.sample(0, 0, 0), coarse.sample(0, 1, 0)), (255, 119));
        assert_eq!(
            parse(b"P5 1 1 255\n\x01P5 1 1 255\n\x02").map(|all| all.len()),
            Ok(2)
        );
    }

    #[test]
    fn files_that_are_wrong() {
        for (bytes, complaint) in [
            (&b"P5 2 1 255\n\x01"[..], "is cut short"),
            (b"P5 2 1", "is cut short"),
            (b"P5 2 x 255\n", "has x in its head where a number belongs"),
            (
                b"P5 1 1 65536\n\x01",
                "has 65536 in its head where a number belongs",
            ),
            (b"P5 1 1 100\n\x65", "has samples above 100, its maximum"),
            (
                b"P5 1 1 255\n\x01\x02\x03",
                "has something behind its picture",
            ),
            (
                b"P7\nWIDTH 1\nHEIGHT 1\nDEPTH 5\nMAXVAL 255\nENDHDR\n",
                "has no samples of 1 to 4 ",
            ),
            (b"P7\nWIDTH 1\nCOLOUR 1\n", "has COLOUR in its head"),
        ] {
            let said = parse(bytes).expect_err("a complaint");
            assert!(said.starts_with(complaint), "{said}");
        }
    }

    /// What is written is read as it was, at every depth, with alpha and without.
    #[test]
    fn what_is_written_is_read() {
        for (chroma, alpha, format) in [
            (Chroma::Mono, false, Format::Pgm),
            (Chroma::Mono, false, Format::Pam),
            (Chroma::Mono, true, Format::Pam),
            (Chroma::Yuv444, false, Format::Ppm),
            (Chroma::Yuv444, false, Format::Pam),
            (Chroma::Yuv444, true, Format::Pam),
        ] {
            for depth in 8..=16 {
                let layout = HeifPixelFormat::new(chroma, depth, alpha).expect("a depth");
                let mut frame = HeifFrame::filled(3, 2, layout, 0).expect("a frame");
                for plane in 0..layout.plane_count() {
                    for (x, y) in [(0, 0), (1, 0), (2, 1)] {
                        let sample = (plane as u32 * 9_999 + x * 31 + y * 77) % (1 << depth);
                        frame.set_sample(plane, x, y, sample as u16);
                    }
                    frame.set_sample(plane, 2, 0, layout.max_value());
                }
                let bytes = write(&frame, format, Description::GBR).expect("a file");
                assert_eq!(read(&bytes), frame);
            }
        }
    }

    #[test]
    fn scaling_keeps_both_ends() {
        for most in [1, 15, 100, 255, 1_000, 65_535] {
            assert_eq!(
                (scale(0, most, 65_535), scale(most, most, 65_535)),
                (0, 65_535)
            );
        }
    }
}
