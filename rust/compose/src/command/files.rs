//! Reading and writing files, and standard input and output, which are called -.

use super::{Failure, progress};
use compose::image::{Chroma, HeifFrame, HeifPixelFormat};
use compose::record::RecordInfo;
use std::fs::{self, File, Metadata};
use std::io::{self, ErrorKind, Read, Write};
use std::os::unix::fs::MetadataExt;
use std::path::{Path, PathBuf};
use std::process;

/// What is wrong with a file.
pub fn wrong(complaint: String) -> Failure {
    Failure::File { complaint }
}

fn failed(what: &str, file: &str, error: &io::Error) -> Failure {
    wrong(format!("{file} cannot be {what}: {error}"))
}

/// A folder, made where it is missing.
pub fn make_folder(folder: &str) -> Result<(), Failure> {
    fs::create_dir_all(folder).map_err(|error| failed("made", folder, &error))
}

/// The bytes of a file.
pub fn read(file: &str) -> Result<Vec<u8>, Failure> {
    progress::now(&format!("reading {file}"));
    let bytes = if file == "-" {
        let mut bytes = Vec::new();
        io::stdin().lock().read_to_end(&mut bytes).map(|_| bytes)
    } else {
        fs::read(file)
    };
    progress::now("working");
    bytes.map_err(|error| failed("read", file, &error))
}

/// What `outline` reads of a file, for calls that look at no sample; all of what is no file, as a pipe.
pub fn numbers(
    file: &str,
    outline: impl FnOnce(&mut File) -> io::Result<Vec<u8>>,
) -> Result<Vec<u8>, Failure> {
    if file == "-" || !fs::metadata(file).is_ok_and(|data| data.is_file()) {
        return read(file);
    }
    let bytes = File::open(file).and_then(|mut file| outline(&mut file));
    bytes.map_err(|error| failed("read", file, &error))
}

/// A file to be written.
pub struct Output {
    file: String,
    /// What is there already, and may be replaced.
    there: Option<Metadata>,
}

impl Output {
    /// `handed_in` are the files that are read, none of which is written to, and a file that is there
    /// is written to by `force` alone.
    pub fn new(file: &str, force: bool, handed_in: &[String]) -> Result<Self, Failure> {
        let refused = |why: &str| Err(wrong(format!("{file} {why}")));
        let there = match file {
            "-" => None,
            _ => fs::metadata(file).ok(),
        };
        if let Some(there) = &there {
            let same = |data: Metadata| (data.dev(), data.ino()) == (there.dev(), there.ino());
            let is_there = |file: &String| file != "-" && fs::metadata(file).is_ok_and(same);
            if handed_in.iter().any(is_there) {
                return refused("is handed in, and is not written to");
            }
            if there.is_dir() {
                return refused("is a folder");
            }
            if there.is_file() && !force {
                return refused("is there already; --force replaces it");
            }
        }
        let file = file.to_string();
        Ok(Self { file, there })
    }

    pub fn file(&self) -> &str {
        &self.file
    }

    /// Writes it; a line about it follows, unless it is standard output.
    pub fn write(&self, bytes: &[u8], about: &str) -> Result<(), Failure> {
        progress::now(&format!("writing {}", self.file));
        if self.file == "-" {
            return to_output(bytes);
        }
        self.put(bytes)
            .map_err(|error| failed("written", &self.file, &error))?;
        let length = counted(bytes.len(), "byte");
        self.say_of_it(&format!("{}: {about}, {length}\n", self.file))
    }

    /// Says more of what was written, unless that went to standard output.
    pub fn say_of_it(&self, text: &str) -> Result<(), Failure> {
        match self.file.as_str() {
            "-" => Ok(()),
            _ => say(text),
        }
    }

    /// A file is written beside its place and then renamed, so that it is there whole or not at all.
    /// What is no file, as a pipe, is written to as it stands.
    fn put(&self, bytes: &[u8]) -> io::Result<()> {
        if self.there.as_ref().is_some_and(|there| !there.is_file()) {
            return fs::write(&self.file, bytes);
        }
        let place = PathBuf::from(&self.file);
        // A link stays one: the file behind it is replaced.
        let place = place.canonicalize().unwrap_or(place);
        let beside = beside(&place);
        let put = self.put_beside(&beside, bytes);
        let put = put.and_then(|()| fs::rename(&beside, &place));
        if put.is_err() {
            let _ = fs::remove_file(&beside);
        }
        put
    }

    fn put_beside(&self, beside: &Path, bytes: &[u8]) -> io::Result<()> {
        let mut file = File::create_new(beside)?;
        file.write_all(bytes)?;
        match &self.there {
            Some(there) => file.set_permissions(there.permissions()),
            None => Ok(()),
        }
    }
}

/// The name under which a file is written before it has its own.
fn beside(place: &Path) -> PathBuf {
    let name = place.file_name().unwrap_or_default().to_string_lossy();
    place.with_file_name(format!(".{name}.{}", process::id()))
}

/// Writes text to standard output.
pub fn say(text: &str) -> Result<(), Failure> {
    to_output(text.as_bytes())
}

fn to_output(bytes: &[u8]) -> Result<(), Failure> {
    progress::clear();
    let mut output = io::stdout().lock();
    match output.write_all(bytes).and_then(|()| output.flush()) {
        // Whoever reads has seen enough.
        Err(error) if error.kind() == ErrorKind::BrokenPipe => Ok(()),
        Err(error) => Err(failed("written", "standard output", &error)),
        Ok(()) => Ok(()),
    }
}

/// A chroma's usual name.
pub fn chroma_name(chroma: Chroma) -> &'static str {
    match chroma {
        Chroma::Mono => "mono",
        Chroma::Yuv420 => "4:2:0",
        Chroma::Yuv422 => "4:2:2",
        Chroma::Yuv444 => "4:4:4",
    }
}

/// A number of things: 0 records, 1 record, 2 records.
pub fn counted(count: usize, thing: &str) -> String {
    let things = match (count, thing.strip_suffix('y')) {
        (1, _) => thing.to_string(),
        (_, Some(stem)) => format!("{stem}ies"),
        (_, None) => format!("{thing}s"),
    };
    format!("{count} {things}")
}

/// A picture in a few words.
pub fn about(frame: &HeifFrame) -> String {
    about_form(frame.width, frame.height, frame.format)
}

/// The same of what a record says.
pub fn about_info(info: &RecordInfo) -> String {
    about_form(info.width, info.height, info.format())
}

fn about_form(width: u32, height: u32, format: HeifPixelFormat) -> String {
    let alpha = if format.has_alpha { ", alpha" } else { "" };
    let (chroma, depth) = (chroma_name(format.chroma), format.bit_depth);
    format!("{width} × {height}, {chroma}, depth {depth}{alpha}")
}
