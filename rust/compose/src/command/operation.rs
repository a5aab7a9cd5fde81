//! Operations on one picture.

use super::options::PICTURE;
use super::pictures::{Pictures, Target};
use super::properties::taken;
use super::words::Words;
use super::{Command, Failure};
use compose::operation::{
    attach_alpha, clap, crop_with_margins, imir, irot, iscl, rescale_depth, resize_nearest,
};
use compose::props::{Crop, CropRect, Iscl};
use compose::record::inspect;
use compose::{Limits, Result as Answer};

pub const CONVERT: Command = Command {
    name: "convert",
    takes: "PICTURE",
    options: PICTURE,
    about: "the same in another format",
    more: "\
Writes a picture as a record, or as other programs read it: Y4M (its planes as they are), PGM (grey), PPM
(red, green, blue) or PAM (either, with alpha), at the depth that it has. Nothing is lost: what a format
cannot hold is not written.
  compose convert tile.y4m -o tile.rec
  compose convert slope.rec --matrix 6 -o slope.ppm
",
    run: run_convert,
};

pub const CROP: Command = Command {
    name: "crop",
    takes: "PICTURE X Y WIDTH HEIGHT",
    options: PICTURE,
    about: "the part in a rectangle",
    more: "\
X and Y count from 0, from the left and the top. Where the chroma is halved and an edge or a size is
odd, the picture is promoted to 4:4:4. It says how much is taken on each side.
",
    run: run_crop,
};

pub const CLAP: Command = Command {
    name: "clap",
    takes: "PICTURE WN WD HN HD XN XD YN YD",
    options: PICTURE,
    about: "the part in a clean aperture",
    more: "\
The aperture is WN/WD wide and HN/HD high; its centre lies XN/XD to the right of the picture's and
YN/YD below it (XN and YN may be negative). Size and edges must come out whole. It says how much is
taken on each side.
  compose clap slope.rec 24 1 16 1 0 1 -2 1 -o part.rec
",
    run: run_clap,
};

pub const IROT: Command = Command {
    name: "irot",
    takes: "PICTURE ANGLE",
    options: PICTURE,
    about: "turned anticlockwise",
    more: "ANGLE is the number of quarter turns, 0 to 255; 4 of them are none.\n",
    run: run_irot,
};

pub const IMIR: Command = Command {
    name: "imir",
    takes: "PICTURE AXIS",
    options: PICTURE,
    about: "mirrored",
    more: "AXIS 0 exchanges top and bottom, 1 left and right.\n",
    run: run_imir,
};

pub const ISCL: Command = Command {
    name: "iscl",
    takes: "PICTURE WN WD HN HD",
    options: PICTURE,
    about: "scaled by two fractions",
    more: "\
The width becomes WN/WD of what it is, the height HN/HD, both rounded up; samples are means of what
they cover. The four numbers go from 1 to 65535.
  compose iscl slope.rec 1 2 1 2 -o small.rec
",
    run: run_iscl,
};

pub const NEAREST: Command = Command {
    name: "nearest",
    takes: "PICTURE WIDTH HEIGHT",
    options: PICTURE,
    about: "at another size, by nearest samples",
    more: "  compose nearest slope.rec 96 64 -o large.rec\n",
    run: run_nearest,
};

pub const DEPTH: Command = Command {
    name: "depth",
    takes: "PICTURE DEPTH",
    options: PICTURE,
    about: "at another depth",
    more: "DEPTH goes from 8 to 16; each sample keeps its part of the largest one.\n",
    run: run_depth,
};

pub const ATTACH: Command = Command {
    name: "attach",
    takes: "PICTURE ALPHA",
    options: PICTURE,
    about: "with another picture as its alpha",
    more: "\
The luma of the picture ALPHA becomes the alpha plane, brought to the size and the depth of PICTURE. An
alpha plane that PICTURE had is dropped.
  compose attach slope.rec shade.pgm -o shaded.pam --matrix 6
",
    run: run_attach,
};

/// One operation, from a picture to the output.
fn apply(
    words: &Words,
    file: &str,
    operation: impl Fn(&[u8]) -> Answer<Vec<u8>>,
) -> Result<(), Failure> {
    apply_saying(words, file, |record| {
        Ok((operation(record)?, String::new()))
    })
}

/// The same, with more to say of it.
fn apply_saying(
    words: &Words,
    file: &str,
    operation: impl Fn(&[u8]) -> Answer<(Vec<u8>, String)>,
) -> Result<(), Failure> {
    let mut pictures = Pictures::take(words)?;
    let target = Target::take(words)?;
    let record = pictures.read(words, file)?;
    let (made, more) = operation(&record).map_err(|refusal| words.refused(refusal))?;
    pictures.write_saying(words, &target, &made, &more)
}

/// The same of a crop, which is worked out from the picture's size, with what it takes.
fn cut(
    words: &Words,
    file: &str,
    resolve: impl Fn(u32, u32) -> Answer<Crop>,
    cropped: impl Fn(&[u8], &Crop) -> Answer<Vec<u8>>,
) -> Result<(), Failure> {
    apply_saying(words, file, |record| {
        let info = inspect(record)?;
        let crop = resolve(info.width, info.height)?;
        let taken = taken(&crop, (info.width, info.height));
        Ok((cropped(record, &crop)?, format!(", {taken}")))
    })
}

fn run_convert(words: &mut Words) -> Result<(), Failure> {
    let file = words.file("PICTURE")?;
    apply(words, &file, |record| {
        let info = inspect(record)?;
        let pixels = u64::from(info.width) * u64::from(info.height);
        Limits::current().judge(pixels, record.len() as u64)?;
        Ok(record.to_vec())
    })
}

fn run_crop(words: &mut Words) -> Result<(), Failure> {
    let file = words.file("PICTURE")?;
    let [x, y, width, height] = words.numbers(["X", "Y", "WIDTH", "HEIGHT"])?;
    let rect = CropRect {
        x,
        y,
        width,
        height,
    };
    let crop = |width, height| Ok(Crop::of(rect, width, height));
    cut(words, &file, crop, crop_with_margins)
}

fn run_clap(words: &mut Words) -> Result<(), Failure> {
    let file = words.file("PICTURE")?;
    let aperture = words.clap()?;
    let crop = |width, height| aperture.resolve(width, height);
    cut(words, &file, crop, |record, _| clap(record, &aperture))
}

fn run_irot(words: &mut Words) -> Result<(), Failure> {
    let file = words.file("PICTURE")?;
    let angle = words.number("ANGLE")?;
    apply(words, &file, |record| irot(record, angle))
}

fn run_imir(words: &mut Words) -> Result<(), Failure> {
    let file = words.file("PICTURE")?;
    let axis = words.number("AXIS")?;
    apply(words, &file, |record| imir(record, axis))
}

fn run_iscl(words: &mut Words) -> Result<(), Failure> {
    let file = words.file("PICTURE")?;
    let [width_num, width_den, height_num, height_den] = words.numbers(["WN", "WD", "HN", "HD"])?;
    let scale = Iscl::new(width_num, width_den, height_num, height_den);
    apply(words, &file, |record| iscl(record, &scale))
}

fn run_nearest(words: &mut Words) -> Result<(), Failure> {
    let file = words.file("PICTURE")?;
    let [width, height] = words.numbers(["WIDTH", "HEIGHT"])?;
    apply(words, &file, |record| resize_nearest(record, width, height))
}

fn run_depth(words: &mut Words) -> Result<(), Failure> {
    let file = words.file("PICTURE")?;
    let depth = words.number("DEPTH")?;
    apply(words, &file, |record| rescale_depth(record, depth))
}

fn run_attach(words: &mut Words) -> Result<(), Failure> {
    let [file, alpha] = words.files(["PICTURE", "ALPHA"])?;
    let mut pictures = Pictures::take(words)?;
    let target = Target::take(words)?;
    let master = pictures.read(words, &file)?;
    let alpha = pictures.read(words, &alpha)?;
    let made = attach_alpha(&master, &alpha).map_err(|refusal| words.refused(refusal))?;
    pictures.write(words, &target, &made)
}
