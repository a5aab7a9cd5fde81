//! Y4M (YUV4MPEG2): a line of parameters, then for each picture a line and its planes as they are, two
//! bytes a sample above depth 8, low byte first.

use compose::image::{Chroma, HeifFrame, HeifPixelFormat, Plane};

/// How every stream begins.
pub const MAGIC: &[u8] = b"YUV4MPEG2";

/// The pictures of a stream, and its range where it says one.
pub struct Stream {
    pub frames: Vec<HeifFrame>,
    pub full_range: Option<bool>,
}

impl Stream {
    pub fn has_colours(&self) -> bool {
        let mut chromas = self.frames.iter().map(|frame| frame.format.chroma);
        chromas.any(|chroma| chroma != Chroma::Mono)
    }
}

/// The chromas by the beginning of their name.
const CHROMAS: [(&str, Chroma); 4] = [
    ("mono", Chroma::Mono),
    ("420", Chroma::Yuv420),
    ("422", Chroma::Yuv422),
    ("444", Chroma::Yuv444),
];

/// What a chroma's name stands for, as 420jpeg, 422p10, mono12 or 444alpha.
fn format(name: &str) -> Option<HeifPixelFormat> {
    let found = CHROMAS.iter().find(|(start, _)| name.starts_with(start));
    let (start, chroma) = *found?;
    let rest = &name[start.len()..];
    let (depth, alpha) = match (chroma, rest) {
        (_, "") => (8, false),
        (Chroma::Yuv420, "jpeg" | "mpeg2" | "paldv") => (8, false),
        (Chroma::Yuv444, "alpha") => (8, true),
        (Chroma::Mono, depth) => (depth.parse().ok()?, false),
        (_, rest) => (rest.strip_prefix('p')?.parse().ok()?, false),
    };
    HeifPixelFormat::new(chroma, depth, alpha).ok()
}

/// The name of a format; none where Y4M has none for it.
fn name(format: HeifPixelFormat) -> Option<String> {
    let depth = format.bit_depth;
    match (format.chroma, depth, format.has_alpha) {
        (Chroma::Yuv444, 8, true) => return Some("444alpha".into()),
        (_, _, true) => return None,
        (Chroma::Yuv420, 8, _) => return Some("420jpeg".into()),
        _ => {}
    }
    let (start, _) = CHROMAS.iter().find(|(_, one)| *one == format.chroma)?;
    Some(match (format.chroma, depth) {
        (_, 8) => start.to_string(),
        (Chroma::Mono, _) => format!("{start}{depth}"),
        _ => format!("{start}p{depth}"),
    })
}

/// The first line, taken off.
fn line<'a>(rest: &mut &'a [u8]) -> Result<&'a str, String> {
    let end = rest.iter().position(|byte| *byte == b'\n');
    let (line, after) = rest.split_at(end.ok_or("is cut short")?);
    *rest = &after[1..];
    std::str::from_utf8(line).map_err(|_| "has a line that is no text".into())
}

/// The parameters of the first line.
struct Head {
    width: u32,
    height: u32,
    format: HeifPixelFormat,
    full_range: Option<bool>,
}

fn head(line: &str) -> Result<Head, String> {
    let (mut width, mut height, mut chroma, mut full_range) = (None, None, "420", None);
    for word in line.split(' ').skip(1).filter(|word| !word.is_empty()) {
        let (tag, value) = word.split_at(word.chars().next().map_or(0, char::len_utf8));
        match tag {
            "W" => width = value.parse().ok(),
            "H" => height = value.parse().ok(),
            "C" => chroma = value,
            "X" if value == "COLORRANGE=FULL" => full_range = Some(true),
            "X" if value == "COLORRANGE=LIMITED" => full_range = Some(false),
            _ => {}
        }
    }
    let (Some(width), Some(height)) = (width, height) else {
        return Err("has no width or no height".into());
    };
    let format = format(chroma).ok_or(format!("has chroma {chroma}, which is not read here"))?;
    Ok(Head {
        width,
        height,
        format,
        full_range,
    })
}

/// The planes of one picture, taken off.
fn frame(head: &Head, rest: &mut &[u8]) -> Result<HeifFrame, String> {
    let Head {
        width,
        height,
        format,
        ..
    } = *head;
    let mut planes = Vec::new();
    for plane in 0..format.plane_count() {
        let (columns, rows) = format.plane_dims(plane, width, height);
        let stride = columns as usize * format.bytes_per_sample();
        let (data, after) = rest
            .split_at_checked(stride.saturating_mul(rows as usize))
            .ok_or("is cut short")?;
        *rest = after;
        planes.push(Plane::new(stride, data.to_vec()));
    }
    Ok(HeifFrame::new(width, height, format, planes))
}

/// The pictures of a stream, or what is wrong with it.
pub fn parse(bytes: &[u8]) -> Result<Stream, String> {
    let mut rest = bytes;
    let head = head(line(&mut rest)?)?;
    let mut frames = Vec::new();
    while !rest.is_empty() {
        if !line(&mut rest)?.starts_with("FRAME") {
            return Err("has a picture without its line".into());
        }
        frames.push(frame(&head, &mut rest)?);
    }
    Ok(Stream {
        frames,
        full_range: head.full_range,
    })
}

/// A stream of one picture, or why there is none.
pub fn write(frame: &HeifFrame, full_range: Option<bool>) -> Result<Vec<u8>, String> {
    let Some(name) = name(frame.format) else {
        return Err("cannot be Y4M, which has alpha at 4:4:4 and depth 8 alone; PAM has it".into());
    };
    let (width, height) = (frame.width, frame.height);
    let range = match full_range {
        Some(true) => " XCOLORRANGE=FULL",
        Some(false) => " XCOLORRANGE=LIMITED",
        None => "",
    };
    let head = format!("YUV4MPEG2 W{width} H{height} F25:1 Ip A1:1 C{name}{range}\nFRAME\n");
    let mut bytes = head.into_bytes();
    for plane in 0..frame.planes.len() {
        let (_, rows) = frame.plane_dims(plane);
        for y in 0..rows {
            bytes.extend_from_slice(frame.row(plane, y));
        }
    }
    Ok(bytes)
}

#[cfg(test)]
mod tests {
    use super::{format, name, parse, write};
    use compose::image::{Chroma, HeifFrame, HeifPixelFormat};

    #[test]
    fn names_stand_for_formats() {
        for (called, chroma, depth, alpha) in [
            ("mono", Chroma::Mono, 8, false),
            ("mono9", Chroma::Mono, 9, false),
            ("mono16", Chroma::Mono, 16, false),
            ("420jpeg", Chroma::Yuv420, 8, false),
            ("420p10", Chroma::Yuv420, 10, false),
            ("422", Chroma::Yuv422, 8, false),
            ("422p12", Chroma::Yuv422, 12, false),
            ("444", Chroma::Yuv444, 8, false),
            ("444p16", Chroma::Yuv444, 16, false),
            ("444alpha", Chroma::Yuv444, 8, true),
        ] {
            let meant = HeifPixelFormat::new(chroma, depth, alpha).expect("a depth");
            assert_eq!(format(called), Some(meant));
            assert_eq!(name(meant).as_deref(), Some(called));
        }
        for other in ["420mpeg2", "420paldv", "420"] {
            assert_eq!(format(other), format("420jpeg"));
        }
        for none in ["411", "420p", "420p17", "444p7", "422jpeg", "monop10", ""] {
            assert_eq!(format(none), None, "{none}");
        }
        let shining = HeifPixelFormat::new(Chroma::Yuv420, 8, true).expect("a depth");
        assert_eq!(name(shining), None);
    }

    #[test]
    fn streams_of_other_programs() {
        // Two pictures of 3 × 1, with parameters that say nothing here.
        let bytes =
            b"YUV4MPEG2 W3 H1 F30000:1001 Ip A0:0 C420jpeg XYSCSS=420JPEG XCOLORRANGE=FULL\n\
                      FRAME\n\x01\x02\x03\x04\x05\x06\x07FRAME Ixyz\n\x11\x12\x13\x14\x15\x16\x17";
        let stream = parse(bytes).expect("a stream");
        assert_eq!(stream.full_range, Some(true));
        assert_eq!(stream.frames.len(), 2);
        assert_eq!(stream.frames[0].planes[0].data, [1, 2, 3]);
        assert_eq!(stream.frames[1].planes[2].data, [0x16, 0x17]);
        for end in 0..bytes.len() - 1 {
            let cut = parse(&bytes[..end]).map(|stream| stream.frames.len());
            assert_ne!(cut, Ok(2), "{end}");
        }
    }

    #[test]
    fn what_is_written_is_read() {
        for chroma in [Chroma::Mono, Chroma::Yuv420, Chroma::Yuv422, Chroma::Yuv444] {
            for depth in 8..=16 {
                let format = HeifPixelFormat::new(chroma, depth, false).expect("a depth");
                let mut frame = HeifFrame::filled(5, 3, format, 200).expect("a frame");
                frame.set_sample(0, 4, 2, format.max_value());
                for range in [None, Some(true), Some(false)] {
                    let stream = parse(&write(&frame, range).expect("a stream")).expect("a stream");
                    assert_eq!((stream.full_range, &stream.frames[0]), (range, &frame));
                }
            }
        }
    }
}
