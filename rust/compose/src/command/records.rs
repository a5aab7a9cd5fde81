//! What records and trays hold, and making them.

use super::colour::Description;
use super::files::{about_info, counted, numbers, say};
use super::options::{FORCE, FORMAT, OUT, RGB_MATRIX, STUDIO};
use super::pictures::{Format, Pictures, Target};
use super::words::Words;
use super::{Command, Failure, demo};
use compose::{record, tray};

pub const RECORD: Command = Command {
    name: "record",
    takes: "PICTURE",
    options: &[],
    about: "what a picture holds as a record",
    more: "\
Prints size, chroma, depth and alpha, then a line a plane: its columns and rows, the bytes from a row
to the next (stride), where its bytes start in the record, and how many they are. The samples of a file
are not read.
",
    run: run_record,
};

pub const TRAY: Command = Command {
    name: "tray",
    takes: "TRAY",
    options: &[],
    about: "what a tray of records holds",
    more: "Prints how many records there are, then a line a record.\n",
    run: run_tray,
};

pub const PACK: Command = Command {
    name: "pack",
    takes: "[PICTURE..]",
    options: &[OUT, FORCE, RGB_MATRIX, STUDIO],
    about: "a tray of pictures",
    more: "\
Writes the pictures, in this order, to a tray; of none, too. Of a file that holds several, it takes all.
  compose pack one.rec two.y4m -o tiles.tray
",
    run: run_pack,
};

pub const EXAMPLE: Command = Command {
    name: "example",
    takes: "",
    options: &[OUT, FORCE, FORMAT],
    about: "a small picture to begin with",
    more: "\
Writes a picture of 48 × 32 pixels, 4:2:0, depth 8: a slope with a flag on it. Its samples stand for Y, Cb
and Cr of matrix 6 at full range.
",
    run: run_example,
};

fn run_record(words: &mut Words) -> Result<(), Failure> {
    let file = words.file("PICTURE")?;
    words.end()?;
    let mut bytes = numbers(&file, record::outline)?;
    if Format::of_bytes(&bytes) != Format::Record {
        bytes = Pictures::take(words)?.read(words, &file)?;
    }
    let info = record::inspect(&bytes).map_err(|refusal| words.refused_in(&file, refusal))?;
    let format = info.format();
    let mut text = format!("{}\n", about_info(&info));
    text += "plane  columns     rows   stride    start    bytes\n";
    let names = ["luma", "Cb", "Cr", "alpha"].into_iter().zip(info.planes);
    let present = names.filter(|(_, plane)| plane.len > 0);
    for ((name, plane), index) in present.zip(0..) {
        let (columns, rows) = format.plane_dims(index, info.width, info.height);
        let record::PlaneInfo { start, len, stride } = plane;
        text += &format!("{name:<6}{columns:>8} {rows:>8} {stride:>8} {start:>8} {len:>8}\n");
    }
    say(&text)
}

fn run_tray(words: &mut Words) -> Result<(), Failure> {
    let file = words.file("TRAY")?;
    words.end()?;
    let bytes = numbers(&file, tray::outline)?;
    let refused = |refusal| words.refused_in(&file, refusal);
    let records = tray::records(&bytes).map_err(refused)?;
    let mut text = format!("{}\n", counted(records.len(), "record"));
    for (index, bytes) in records.iter().enumerate() {
        let info = record::inspect(bytes).map_err(refused)?;
        let length = counted(bytes.len(), "byte");
        text += &format!("{index:>5}  {}, {length}\n", about_info(&info));
    }
    say(&text)
}

fn run_pack(words: &mut Words) -> Result<(), Failure> {
    let files = words.other_files();
    let out = words.output()?;
    let mut records = Vec::new();
    let mut pictures = Pictures::take(words)?;
    for file in &files {
        records.extend(pictures.read_all(words, file)?);
    }
    let tray = tray::join(&records).map_err(|refusal| words.refused(refusal))?;
    out.write(&tray, &counted(records.len(), "record"))
}

fn run_example(words: &mut Words) -> Result<(), Failure> {
    let target = Target::take(words)?;
    let record = demo::slope().and_then(|slope| slope.to_record());
    let record = record.map_err(|refusal| words.refused(refusal))?;
    Pictures::of(Description::DEFAULT).write(words, &target, &record)
}
