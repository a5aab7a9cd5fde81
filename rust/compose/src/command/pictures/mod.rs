//! Pictures as files: records, and the formats of other programs, both ways.
//!
//! A record does not say what its samples stand for. Files of Y, Cb, Cr (Y4M) are its planes as they
//! are. Files of red, green and blue (PPM, PAM) are G, B, R planes, as matrix 0 has them, which is
//! exact both ways; by `--matrix` they are converted. Where both sorts meet in one command, it must
//! be given.

mod netpbm;
mod y4m;

use super::Failure;
use super::colour::Description;
use super::files::{self, Output, about_info, read};
use super::options::{FORCE, FORMAT, MATRIX};
use super::words::Words;
use compose::image::{Chroma, HeifFrame, HeifPixelFormat};
use compose::{Limits, record};
use std::path::Path;

/// A format of picture files.
#[derive(Clone, Copy, Debug, PartialEq, Eq)]
pub enum Format {
    Record,
    Y4m,
    Pgm,
    Ppm,
    Pam,
}

/// How a format is called.
struct Called {
    format: Format,
    /// What `--format` takes.
    name: &'static str,
    ending: &'static str,
    /// In messages.
    title: &'static str,
}

const fn called(
    format: Format,
    name: &'static str,
    ending: &'static str,
    title: &'static str,
) -> Called {
    Called {
        format,
        name,
        ending,
        title,
    }
}

const FORMATS: [Called; 5] = [
    called(Format::Record, "record", "rec", "a record"),
    called(Format::Y4m, "y4m", "y4m", "Y4M"),
    called(Format::Pgm, "pgm", "pgm", "PGM"),
    called(Format::Ppm, "ppm", "ppm", "PPM"),
    called(Format::Pam, "pam", "pam", "PAM"),
];

/// Endings of formats that are not written here: a record under such a name would mislead.
const OTHERS: [&str; 14] = [
    "avif", "bmp", "gif", "heic", "heif", "hif", "jpeg", "jpg", "jxl", "png", "pnm", "tif", "tiff",
    "webp",
];

/// What files that are not read here begin with, from a place on, and what they are.
const UNREAD: [(usize, &[u8], &str); 8] = [
    (4, b"ftyp", "HEIF or AVIF; heif-convert makes Y4M of it"),
    (0, b"\x89PNG", "PNG"),
    (0, b"\xff\xd8\xff", "JPEG"),
    (0, b"GIF8", "GIF"),
    (0, b"P1", "plain PBM"),
    (0, b"P2", "plain PGM"),
    (0, b"P3", "plain PPM"),
    (0, b"P4", "PBM"),
];

/// What a file may be that is no record, by its first bytes.
fn unread(bytes: &[u8]) -> Option<&'static str> {
    let begins = |(at, magic, _): &&(usize, &[u8], _)| {
        let rest = bytes.get(*at..);
        rest.is_some_and(|rest| rest.starts_with(magic))
    };
    UNREAD.iter().find(begins).map(|(.., what)| *what)
}

impl Format {
    /// The format that a file's first bytes tell. No record begins as the others do: its third
    /// number would be a chroma above 3.
    pub fn of_bytes(bytes: &[u8]) -> Self {
        match bytes {
            [b'P', b'5', ..] => Self::Pgm,
            [b'P', b'6', ..] => Self::Ppm,
            [b'P', b'7', ..] => Self::Pam,
            _ if bytes.starts_with(y4m::MAGIC) => Self::Y4m,
            _ => Self::Record,
        }
    }

    fn called(self) -> &'static Called {
        let called = FORMATS.iter().find(|called| called.format == self);
        called.expect("every format is called something")
    }

    /// The most bytes that a pixel of a layout takes in a file.
    fn bytes_a_pixel(self, layout: HeifPixelFormat) -> u64 {
        let channels = match self {
            Self::Pgm => 1,
            Self::Ppm => 3,
            Self::Record | Self::Y4m | Self::Pam => layout.plane_count(),
        };
        (channels * layout.bytes_per_sample()) as u64
    }

    /// What `--format` names, if it is given.
    fn given(words: &Words) -> Result<Option<Self>, Failure> {
        let Some(name) = words.option(FORMAT.name) else {
            return Ok(None);
        };
        match FORMATS.iter().find(|called| called.name == name) {
            Some(called) => Ok(Some(called.format)),
            None => {
                let names = FORMATS.map(|called| called.name).join(", ");
                let complaint = format!("{} is one of {names}, not {name}", FORMAT.name);
                Err(words.wrong(complaint))
            }
        }
    }

    /// The format to write: what `--format` names, or the file's ending; else a record.
    fn to_write(words: &Words, file: &str) -> Result<Self, Failure> {
        if let Some(format) = Self::given(words)? {
            return Ok(format);
        }
        let ending = Path::new(file).extension().unwrap_or_default();
        let ending = ending.to_string_lossy().to_lowercase();
        if OTHERS.contains(&ending.as_str()) {
            return Err(words.wrong(format!(
                "{file} would not be what its ending says; y4m, pgm, ppm and pam are written here"
            )));
        }
        let called = FORMATS.iter().find(|called| called.ending == ending);
        Ok(called.map_or(Self::Record, |called| called.format))
    }
}

/// What the samples of a file stand for, as far as its format says.
#[derive(Clone, Copy, Debug, PartialEq, Eq)]
enum Samples {
    Ycbcr,
    Rgb,
}

/// A picture file to be written.
pub struct Target {
    pub out: Output,
    format: Format,
}

impl Target {
    pub fn take(words: &Words) -> Result<Self, Failure> {
        let out = words.output()?;
        let format = Format::to_write(words, out.file())?;
        Ok(Self { out, format })
    }

    /// A file of a folder, which is made where it is missing.
    pub fn in_folder(
        words: &Words,
        folder: &str,
        name: &str,
        usual: Format,
    ) -> Result<Self, Failure> {
        let format = Format::given(words)?.unwrap_or(usual);
        files::make_folder(folder)?;
        let file = format!("{folder}/{name}.{}", format.called().ending);
        let out = Output::new(&file, words.flag(FORCE.name), &[])?;
        Ok(Self { out, format })
    }
}

/// The pictures that one command reads and writes.
pub struct Pictures {
    /// `--matrix` and `--studio`.
    given: Option<Description>,
    /// The files that were read of which it is known what their samples stand for.
    known: Vec<(String, Samples)>,
    /// The range that a Y4M file says.
    full_range: Option<bool>,
}

impl Pictures {
    pub fn take(words: &Words) -> Result<Self, Failure> {
        Ok(Self {
            given: Description::given(words)?,
            known: Vec::new(),
            full_range: None,
        })
    }

    /// Pictures of which it is known what their samples stand for.
    pub fn of(description: Description) -> Self {
        Self {
            given: Some(description),
            known: Vec::new(),
            full_range: None,
        }
    }

    /// The same with an overlay's fill, whose samples are Y, Cb, Cr.
    pub fn with_fill(mut self) -> Self {
        self.known
            .push(("the canvas's fill".into(), Samples::Ycbcr));
        self
    }

    /// The one picture of a file, as a record that is judged.
    pub fn read(&mut self, words: &Words, file: &str) -> Result<Vec<u8>, Failure> {
        let mut records = self.read_all(words, file)?;
        match records.len() {
            0 => Err(wrong(file, "has no picture")),
            1 => Ok(records.remove(0)),
            count => {
                let complaint = format!("has {count} pictures; compose pack takes them all");
                Err(wrong(file, &complaint))
            }
        }
    }

    /// The pictures of a file, one after the other, as records that are judged.
    pub fn read_all(&mut self, words: &Words, file: &str) -> Result<Vec<Vec<u8>>, Failure> {
        let bytes = read(file)?;
        let refused = |refusal| words.refused_in(file, refusal);
        if Format::of_bytes(&bytes) == Format::Record {
            return match (record::inspect(&bytes), unread(&bytes)) {
                (Ok(_), _) => Ok(vec![bytes]),
                (Err(_), Some(what)) => {
                    Err(wrong(file, &format!("is not read here: it is {what}")))
                }
                (Err(refusal), None) => Err(refused(refusal)),
            };
        }
        let frames = self.frames(file, &bytes)?;
        if let (None, Some(rgb), Some(ycbcr)) = (
            self.given,
            self.known(Samples::Rgb),
            self.known(Samples::Ycbcr),
        ) {
            return Err(words.wrong(format!(
                "{} is missing: it says how R, G, B of {rgb} and Y, Cb, Cr of {ycbcr} go together",
                MATRIX.usage()
            )));
        }
        let records = frames.iter().map(HeifFrame::to_record);
        records.collect::<Result<_, _>>().map_err(refused)
    }

    /// The pictures of a file of another format.
    fn frames(&mut self, file: &str, bytes: &[u8]) -> Result<Vec<HeifFrame>, Failure> {
        let complain = |complaint: String| wrong(file, &complaint);
        if Format::of_bytes(bytes) == Format::Y4m {
            let stream = y4m::parse(bytes).map_err(complain)?;
            if stream.has_colours() {
                self.known.push((file.into(), Samples::Ycbcr));
            }
            self.full_range = self.full_range.or(stream.full_range);
            return Ok(stream.frames);
        }
        let rasters = netpbm::parse(bytes).map_err(complain)?;
        if rasters.iter().any(netpbm::Raster::has_colours) {
            self.known.push((file.into(), Samples::Rgb));
        }
        Ok(rasters
            .iter()
            .map(|raster| raster.frame(self.given))
            .collect())
    }

    /// The first file that was read with such samples.
    fn known(&self, samples: Samples) -> Option<&str> {
        let known = self.known.iter().find(|(_, one)| *one == samples);
        known.map(|(file, _)| file.as_str())
    }

    /// What the samples of what was read stand for, as far as an eye needs to know.
    pub fn description(&self) -> Description {
        self.given.unwrap_or_else(|| {
            match (self.known(Samples::Rgb), self.known(Samples::Ycbcr)) {
                (Some(_), _) => Description::GBR,
                // Y4M keeps clear of both ends where it says nothing else.
                (_, Some(_)) => Description::DEFAULT.in_studio(self.full_range != Some(true)),
                _ => Description::DEFAULT.in_studio(self.full_range == Some(false)),
            }
        })
    }

    /// What the samples that are written to a file of R, G, B stand for.
    fn to_rgb(
        &self,
        words: &Words,
        format: Format,
        chroma: Chroma,
    ) -> Result<Description, Failure> {
        if let Some(given) = self.given {
            return Ok(given);
        }
        let of = match (self.known(Samples::Ycbcr), chroma) {
            (_, Chroma::Mono) => return Ok(Description::GBR),
            (Some(file), _) => file,
            (None, Chroma::Yuv444) => return Ok(Description::GBR),
            (None, _) => "a picture of halved chroma",
        };
        Err(words.wrong(format!(
            "{} is missing: it says how Y, Cb, Cr of {of} become R, G, B of {}",
            MATRIX.usage(),
            format.called().title
        )))
    }

    /// Y4M takes planes of Y, Cb, Cr alone, unless it is said what they are.
    fn to_ycbcr(&self, words: &Words) -> Result<Option<bool>, Failure> {
        match (self.given, self.known(Samples::Rgb)) {
            (Some(given), _) => Ok(Some(given.full_range())),
            (None, None) => Ok(self.full_range),
            (None, Some(file)) => Err(words.wrong(format!(
                "{} is missing: it says how R, G, B of {file} become Y, Cb, Cr of Y4M",
                MATRIX.usage()
            ))),
        }
    }

    /// Writes a record that was made, in the format of the target.
    pub fn write(&self, words: &Words, target: &Target, made: &[u8]) -> Result<(), Failure> {
        self.write_saying(words, target, made, "")
    }

    /// The same, with more in the line about it.
    pub fn write_saying(
        &self,
        words: &Words,
        target: &Target,
        made: &[u8],
        more: &str,
    ) -> Result<(), Failure> {
        let refused = |refusal| words.refused(refusal);
        let info = record::inspect(made).map_err(refused)?;
        let about = about_info(&info) + more;
        if target.format == Format::Record {
            return target.out.write(made, &about);
        }
        // The record, its planes and the file are there at once.
        let pixels = u64::from(info.width) * u64::from(info.height);
        let file = pixels * target.format.bytes_a_pixel(info.format());
        let limits = Limits::current();
        limits
            .judge(pixels, 2 * made.len() as u64 + file)
            .map_err(refused)?;
        let frame = HeifFrame::from_record(made).map_err(refused)?;
        let chroma = frame.format.chroma;
        let bytes = match target.format {
            Format::Y4m => y4m::write(&frame, self.to_ycbcr(words)?),
            format => {
                let description = self.to_rgb(words, format, chroma)?;
                netpbm::write(&frame, format, description)
            }
        };
        let bytes = bytes.map_err(|complaint| wrong(target.out.file(), &complaint))?;
        target.out.write(&bytes, &about)
    }
}

/// What is wrong with a file.
fn wrong(file: &str, complaint: &str) -> Failure {
    files::wrong(format!("{file} {complaint}"))
}
