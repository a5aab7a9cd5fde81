//! Pictures of other programs, read and written.

use crate::folder::Folder;
use compose::image::{Chroma, HeifFrame, HeifPixelFormat};
use compose::{Refusal, fill, operation, tray};
use std::fs;

/// A picture of 5 × 3 whose samples all differ, or nearly.
fn picture(chroma: Chroma, depth: u8, alpha: bool) -> HeifFrame {
    let format = HeifPixelFormat::new(chroma, depth, alpha).expect("a depth");
    let mut frame = HeifFrame::zeroed(5, 3, format).expect("a frame");
    for plane in 0..format.plane_count() {
        let (columns, rows) = frame.plane_dims(plane);
        for (x, y) in (0..rows).flat_map(|y| (0..columns).map(move |x| (x, y))) {
            let sample = (x * 4_001 + y * 17_001 + plane as u32 * 30_011 + 7) % (1 << depth);
            frame.set_sample(plane, x, y, sample as u16);
        }
        frame.set_sample(plane, 0, 0, format.max_value());
    }
    frame
}

const CHROMAS: [Chroma; 4] = [Chroma::Mono, Chroma::Yuv420, Chroma::Yuv422, Chroma::Yuv444];

/// A picture is the same after a file of another format.
fn there_and_back(folder: &Folder, frame: &HeifFrame, ending: &str) {
    let record = frame.to_record().expect("a record");
    folder.put("a.rec", &record);
    folder.done(&format!("convert a.rec -o b.{ending} --force"));
    folder.done(&format!("convert b.{ending} -o c.rec --force"));
    assert_eq!(folder.get("c.rec"), record, "{ending}: {:?}", frame.format);
    // By --format, and through pipes.
    let piped = folder.run_with(&format!("convert - -o - --format {ending}"), &record);
    assert_eq!(piped.stdout, folder.get(&format!("b.{ending}")));
    let piped = folder.run_with("convert - -o -", &piped.stdout);
    assert_eq!(piped.stdout, record);
}

#[test]
fn y4m_there_and_back() {
    let folder = Folder::new("y4m");
    for chroma in CHROMAS {
        for depth in 8..=16 {
            there_and_back(&folder, &picture(chroma, depth, false), "y4m");
        }
    }
    there_and_back(&folder, &picture(Chroma::Yuv444, 8, true), "y4m");
}

#[test]
fn pgm_ppm_and_pam_there_and_back() {
    let folder = Folder::new("netpbm");
    for depth in 8..=16 {
        there_and_back(&folder, &picture(Chroma::Mono, depth, false), "pgm");
        there_and_back(&folder, &picture(Chroma::Yuv444, depth, false), "ppm");
        for chroma in [Chroma::Mono, Chroma::Yuv444] {
            for alpha in [false, true] {
                there_and_back(&folder, &picture(chroma, depth, alpha), "pam");
            }
        }
    }
}

/// What other programs expect, byte by byte.
#[test]
fn files_are_what_other_programs_read() {
    let folder = Folder::new("files");
    folder.put(
        "a.rec",
        &[
            2, 1, 3, 8, 1, 2, 2, 1, 2, 2, 2, 3, 4, 2, 2, 5, 6, 2, 2, 7, 8,
        ],
    );
    folder.done("convert a.rec -o a.pam");
    let pam = b"P7\nWIDTH 2\nHEIGHT 1\nDEPTH 4\nMAXVAL 255\nTUPLTYPE RGB_ALPHA\nENDHDR\n\
                \x05\x01\x03\x07\x06\x02\x04\x08";
    assert_eq!(folder.get("a.pam"), pam);
    folder.done("convert a.rec -o a.y4m");
    let y4m = b"YUV4MPEG2 W2 H1 F25:1 Ip A1:1 C444alpha\nFRAME\n\x01\x02\x03\x04\x05\x06\x07\x08";
    assert_eq!(folder.get("a.y4m"), y4m);
    folder.put("b.rec", &[1, 1, 0, 10, 0, 2, 2, 0xfe, 3]);
    folder.done("convert b.rec -o b.pgm");
    assert_eq!(folder.get("b.pgm"), b"P5\n1 1\n1023\n\x03\xfe");
    folder.done("convert b.rec -o b.ppm");
    assert_eq!(
        folder.get("b.ppm"),
        b"P6\n1 1\n1023\n\x03\xfe\x03\xfe\x03\xfe"
    );
    folder.done("convert b.rec -o b.Y4M --studio");
    let y4m = b"YUV4MPEG2 W1 H1 F25:1 Ip A1:1 Cmono10 XCOLORRANGE=LIMITED\nFRAME\n\xfe\x03";
    assert_eq!(folder.get("b.Y4M"), y4m);
}

/// What a format cannot hold is not written, and what a screen shows of it neither.
#[test]
fn nothing_is_lost_in_a_file() {
    let folder = Folder::new("lost");
    let put = |file: &str, frame: &HeifFrame| folder.put(file, &frame.to_record().expect("one"));
    put("shining.rec", &picture(Chroma::Yuv444, 8, true));
    put("grey.rec", &picture(Chroma::Mono, 10, true));
    put("halved.rec", &picture(Chroma::Yuv420, 8, true));
    put("colours.rec", &picture(Chroma::Yuv444, 12, false));
    folder.put("above.rec", &[1, 1, 0, 9, 0, 2, 2, 0, 2]);
    for (words, complaint) in [
        (
            "shining.rec -o new.ppm",
            "new.ppm cannot be PGM or PPM, which have no alpha",
        ),
        (
            "grey.rec -o new.pgm",
            "new.pgm cannot be PGM or PPM, which have no alpha",
        ),
        (
            "colours.rec -o new.pgm",
            "new.pgm cannot be PGM, which has no colours",
        ),
        (
            "halved.rec -o new.y4m",
            "new.y4m cannot be Y4M, which has alpha at 4:4:4 and depth 8 ",
        ),
        ("grey.rec -o new.y4m", "new.y4m cannot be Y4M"),
        (
            "above.rec -o new.pgm",
            "new.pgm cannot hold samples above 511",
        ),
        (
            "colours.rec -o new.png",
            "convert: new.png would not be what its ending says",
        ),
        (
            "colours.rec -o new --format png",
            "convert: --format is one of record, y4m, pgm, ppm, pam",
        ),
    ] {
        folder.fails(
            &format!("convert {words}"),
            1,
            &format!("compose: {complaint}"),
        );
    }
    for file in ["new.ppm", "new.pgm", "new.y4m", "new.png", "new"] {
        assert!(!folder.has(file), "{file}");
    }
    // In Y4M samples have two bytes above depth 8, whatever they are.
    folder.done("convert above.rec -o above.y4m");
    folder.done("convert above.y4m -o back.rec");
    assert_eq!(folder.get("back.rec"), folder.get("above.rec"));
}

#[test]
fn files_that_are_wrong() {
    let folder = Folder::new("wrong");
    for (file, bytes, complaint) in [
        (
            "cut.y4m",
            &b"YUV4MPEG2 W2 H1 Cmono\nFRAME\n\x01"[..],
            "cut.y4m is cut short",
        ),
        (
            "odd.y4m",
            b"YUV4MPEG2 W2 H1 C411\n",
            "odd.y4m has chroma 411, which is not read here",
        ),
        (
            "none.y4m",
            b"YUV4MPEG2 W2 H1 Cmono\n",
            "none.y4m has no picture",
        ),
        (
            "two.y4m",
            b"YUV4MPEG2 W1 H1 Cmono\nFRAME\n\x01FRAME\n\x02",
            "two.y4m has 2 pictures; compose pack takes them all",
        ),
        ("cut.pgm", b"P5 2 1 255\n\x01", "cut.pgm is cut short"),
        (
            "plain.pgm",
            b"P2 1 1 255\n7\n",
            "plain.pgm is not read here: it is plain PGM",
        ),
        (
            "a.png",
            b"\x89PNG\r\n\x1a\n",
            "a.png is not read here: it is PNG",
        ),
        (
            "a.heic",
            b"\0\0\0\x18ftypheic",
            "a.heic is not read here: it is HEIF or AVIF; heif-convert makes Y4M of it",
        ),
    ] {
        folder.put(file, bytes);
        let complaint = format!("compose: {complaint}");
        folder.fails(&format!("irot {file} 1 -o new.rec"), 1, &complaint);
    }
    folder.put("large.y4m", b"YUV4MPEG2 W0 H1 Cmono\nFRAME\n");
    folder.refuses("irot large.y4m 1 -o new.rec", "large.y4m: ", Refusal::EMPTY);
    assert_eq!(
        folder.done("pack two.y4m two.y4m -o two.tray"),
        "two.tray: 4 records, 33 bytes\n"
    );
}

/// Red, green and blue as the fill call has them, at the depth of the file; and back, to within what
/// a step of the samples is worth.
#[test]
fn colours_go_by_the_matrix() {
    let folder = Folder::new("matrix");
    let mut ppm = b"P6\n6 1\n1023\n".to_vec();
    let pixels = [
        [1023, 0, 0],
        [0, 1023, 0],
        [0, 0, 1023],
        [1023; 3],
        [300, 600, 900],
        [0; 3],
    ];
    ppm.extend(
        pixels
            .concat()
            .into_iter()
            .flat_map(|level: u16| level.to_be_bytes()),
    );
    folder.put("a.ppm", &ppm);
    folder.done("convert a.ppm -o exact.rec");
    folder.done("convert exact.rec -o exact.ppm");
    assert_eq!(folder.get("exact.ppm"), ppm);
    for options in [
        "--matrix 6",
        "--matrix 1 --studio",
        "--matrix 9",
        "--matrix 0",
    ] {
        folder.done(&format!("convert a.ppm {options} -o a.rec --force"));
        let frame = HeifFrame::from_record(&folder.get("a.rec")).expect("a record");
        assert_eq!(
            (frame.format.chroma, frame.format.bit_depth),
            (Chroma::Yuv444, 10)
        );
        for (x, pixel) in (0..).zip(pixels) {
            let channels = pixel.map(|level| (u32::from(level) * 65_535 / 1_023) as u16);
            let description = options.split(' ').nth(1).expect("a number");
            let colr = compose::props::Colr::Nclx {
                primaries: 1,
                transfer: 13,
                matrix: description.parse().expect("a number"),
                full_range: !options.contains("studio"),
            };
            let samples = fill::samples(channels, 10, Some(&colr)).expect("samples");
            let read = [0, 1, 2].map(|plane| frame.sample(plane, x, 0));
            let apart = read
                .iter()
                .zip(samples)
                .map(|(one, other)| one.abs_diff(other));
            assert!(apart.max() <= Some(1), "{options}: {read:?} {samples:?}");
        }
        folder.done(&format!("convert a.rec {options} -o b.ppm --force"));
        let back = folder.get("b.ppm");
        let levels = back[ppm.len() - 36..]
            .as_chunks()
            .0
            .iter()
            .copied()
            .map(u16::from_be_bytes);
        let apart = levels
            .zip(pixels.concat())
            .map(|(one, other)| one.abs_diff(other));
        assert!(apart.max() <= Some(3), "{options}");
    }
}

/// Where files of R, G, B and of Y, Cb, Cr meet, it must be said how they go together.
#[test]
fn a_matrix_is_asked_for_where_it_matters() {
    let folder = Folder::new("asked");
    folder.put("rgb.ppm", b"P6 1 1 255\n\x01\x02\x03");
    folder.put("grey.pgm", b"P5 1 1 255\n\x09");
    folder.put(
        "yuv.y4m",
        b"YUV4MPEG2 W1 H1 C444 XCOLORRANGE=FULL\nFRAME\n\x01\x02\x03",
    );
    folder.put(
        "half.rec",
        &[2, 2, 1, 8, 0, 2, 4, 1, 2, 3, 4, 1, 1, 128, 1, 1, 128],
    );
    folder.done("body overlay 2 2 0 0 0 65535 0 0 -o one.body");
    folder.done("pack rgb.ppm -o one.tray");
    let missing = "--matrix N is missing: it says how ";
    for (words, how) in [
        (
            "convert yuv.y4m -o new.ppm",
            "convert: {}Y, Cb, Cr of yuv.y4m become R, G, B of PPM",
        ),
        (
            "irot yuv.y4m 1 -o new.pam",
            "irot: {}Y, Cb, Cr of yuv.y4m become R, G, B of PAM",
        ),
        (
            "convert rgb.ppm -o new.y4m",
            "convert: {}R, G, B of rgb.ppm become Y, Cb, Cr of Y4M",
        ),
        (
            "convert half.rec -o new.ppm",
            "convert: {}Y, Cb, Cr of a picture of halved chroma become ",
        ),
        (
            "pack yuv.y4m rgb.ppm -o new.tray",
            "pack: {}R, G, B of rgb.ppm and Y, Cb, Cr of yuv.y4m go ",
        ),
        (
            "overlay one.body one.tray -o new.ppm",
            "overlay: {}Y, Cb, Cr of the canvas's fill become ",
        ),
    ] {
        let complaint = format!("compose: {}", how.replace("{}", missing));
        folder.fails(&format!("{words} --force"), 1, &complaint);
        folder.done(&format!("{words} --matrix 0 --force"));
    }
    // Grey has no colours, and goes with both; the range of a stream is kept.
    folder.done("attach yuv.y4m grey.pgm -o with.y4m");
    let with = b"YUV4MPEG2 W1 H1 F25:1 Ip A1:1 C444alpha XCOLORRANGE=FULL\nFRAME\n\x01\x02\x03\x09";
    assert_eq!(folder.get("with.y4m"), with);
    folder.done("attach rgb.ppm grey.pgm -o with.pam");
    folder.put("grey.y4m", b"YUV4MPEG2 W1 H1 Cmono\nFRAME\n\x09");
    folder.done("attach rgb.ppm grey.y4m -o same.pam");
    assert_eq!(folder.get("same.pam"), folder.get("with.pam"));
    // On a screen R, G, B is what it is, and Y4M keeps clear of both ends.
    folder.put("white.ppm", b"P6 1 1 255\n\xff\xff\xff");
    folder.put("white.y4m", b"YUV4MPEG2 W1 H1 C444\nFRAME\n\xeb\x80\x80");
    for white in ["white.ppm", "white.y4m"] {
        let shown = folder.done(&format!("view {white} --colour --columns 1"));
        assert!(shown.contains("\x1b[38;2;255;255;255m"), "{white}: {shown}");
    }
}

/// Every operation reads and writes them.
#[test]
fn operations_take_other_formats() {
    let folder = Folder::new("taken");
    let frame = picture(Chroma::Yuv420, 10, false);
    let record = frame.to_record().expect("a record");
    folder.put("a.rec", &record);
    folder.done("convert a.rec -o a.y4m");
    folder.done("irot a.y4m 1 -o b.y4m");
    folder.done("convert b.y4m -o b.rec");
    assert_eq!(Ok(folder.get("b.rec")), operation::irot(&record, 1));
    assert_eq!(folder.done("record a.y4m"), folder.done("record a.rec"));
    assert_eq!(
        folder.done("view a.y4m --matrix 6"),
        folder.done("view a.rec")
    );
    folder.done("pack a.rec a.y4m -o two.tray");
    let two = folder.get("two.tray");
    assert_eq!(tray::records(&two), Ok(vec![&record[..], &record[..]]));
    folder.done("body grid 1 2 10 3 -o row.body");
    folder.done("grid row.body two.tray -o row.y4m");
    folder.done("entries -o none.chain");
    folder.done("scene grid row.body two.tray none.chain -o same.y4m");
    assert_eq!(folder.get("row.y4m"), folder.get("same.y4m"));
}

/// The lines of README's path that are commands of this program.
fn steps_of_the_path() -> Vec<String> {
    let readme = concat!(env!("CARGO_MANIFEST_DIR"), "/../../README.md");
    let readme = fs::read_to_string(readme).expect("the first page");
    let (_, part) = readme
        .split_once("\n## From photographs to a marked, turned picture\n")
        .expect("the part");
    let (part, _) = part.split_once("\n## ").expect("an end");
    let lines = part
        .lines()
        .filter_map(|line| line.strip_prefix("    compose "));
    let steps = lines.map(|line| line.split("  #").next().unwrap_or(line).trim_end());
    steps.map(String::from).collect()
}

/// One tile of a photograph of 96 × 64, as ffmpeg hands it out: a slope that darkens to the right.
fn tile(column: u32, row: u32) -> Vec<u8> {
    let head = "YUV4MPEG2 W48 H32 F25:1 Ip A1:1 C420jpeg XCOLORRANGE=FULL\nFRAME\n";
    let mut y4m = head.as_bytes().to_vec();
    for (y, x) in (0..32).flat_map(|y| (0..48).map(move |x| (y, x))) {
        y4m.push((240 - (48 * column + x) - (32 * row + y) / 2) as u8);
    }
    y4m.extend([128; 2 * 24 * 16]);
    y4m
}

/// A flag of 12 × 8 as an editor saves it: red, then an edge that shines through, then clear.
fn flag() -> Vec<u8> {
    let head = "P7\nWIDTH 12\nHEIGHT 8\nDEPTH 4\nMAXVAL 255\nTUPLTYPE RGB_ALPHA\nENDHDR\n";
    let mut pam = head.as_bytes().to_vec();
    for x in (0..8).flat_map(|_| 0..12) {
        pam.extend([220, 30, 40, [255, 128, 0][usize::min(x / 5, 2)]]);
    }
    pam
}

/// README's path, from tiles to a picture that an image viewer opens: each of its lines, on files
/// that are made here.
#[test]
fn the_path_from_photographs() {
    let folder = Folder::new("path");
    for (index, (row, column)) in [(0, 0), (0, 1), (1, 0), (1, 1)].into_iter().enumerate() {
        folder.put(&format!("tile{index}.y4m"), &tile(column, row));
    }
    folder.put("flag.pam", &flag());
    let steps = steps_of_the_path();
    assert!(steps.len() > 8, "{steps:?}");
    for step in &steps {
        folder.done(step);
    }
    // 64 × 96, turned a quarter anticlockwise: the photograph's (x, y) is at (y, 95 − x).
    let shown = folder.get("shown.ppm");
    assert!(shown.starts_with(b"P6\n64 96\n255\n"));
    let pixel = |x: usize, y: usize| {
        let at = shown.len() - 3 * (64 * (96 - (95 - x)) - y);
        [shown[at], shown[at + 1], shown[at + 2]].map(u16::from)
    };
    let slope = |x: usize, y: usize| [(240 - x - y / 2) as u16; 3];
    for (x, y) in [(0, 0), (95, 10), (60, 40)] {
        assert_eq!(pixel(x, y), slope(x, y));
    }
    // The flag stands at (40, 20): red, then half of it and half of the slope, then the slope.
    let red = [220, 30, 40];
    let half = [0, 1, 2].map(|part| (red[part] + slope(46, 22)[part]) / 2);
    for (x, meant) in [(42, red), (46, half), (50, slope(50, 22))] {
        let seen = pixel(x, 22);
        let apart = seen
            .iter()
            .zip(meant)
            .map(|(one, other)| one.abs_diff(other));
        assert!(apart.max() <= Some(2), "{x}: {seen:?} {meant:?}");
    }
    // What goes back is as large, at 4:4:4 for the flag's edge.
    let back = folder.get("shown.y4m");
    assert!(back.starts_with(b"YUV4MPEG2 W64 H96 F25:1 Ip A1:1 C444 XCOLORRANGE=FULL\n"));
}
