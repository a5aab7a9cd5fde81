//! A small demonstration: a debris field joined from tiles, flags laid over it, turned and cropped.

use super::colour::Description;
use super::files::{about, counted, say};
use super::options::{FORCE, FORMAT, OUT, Opt};
use super::pictures::{Format, Pictures, Target};
use super::view::Screen;
use super::words::Words;
use super::{Command, Failure};
use compose::image::{Chroma, HeifFrame, HeifPixelFormat};
use compose::props::{Clap, CropRect, Irot, Property, PropertyEntry};
use compose::{
    GridDescriptor, OverlayDescriptor, OverlayInput, Result as Answer, Scene, Shows,
    apply_transforms, attach_alpha, chain, composite_grid, composite_overlay, fill_to_ycbcr, point,
    tray,
};

pub const DEMO: Command = Command {
    name: "demo",
    takes: "",
    options: &[
        Opt {
            value: "FOLDER",
            about: "writes the pictures to this folder, too, which is made where it is missing",
            ..OUT
        },
        Opt {
            about: "replaces what is there already",
            ..FORCE
        },
        Opt {
            about: "how they are written: record, y4m, pgm, ppm or pam; else ppm",
            ..FORMAT
        },
    ],
    about: "a debris field with flags, step by step",
    more: "\
Shows a debris field that is joined from four tiles, the same with three flags laid over it, a searched
strip blended over that, and what is left when the one with the flags is turned and cropped; then asks,
of that, where each flag came from.
  compose demo -o pictures
",
    run,
};

fn run(words: &mut Words) -> Result<(), Failure> {
    words.end()?;
    let targets = targets(words)?;
    let refused = |refusal| words.refused(refusal);
    let desk = Desk::new().map_err(refused)?;
    let pictures = desk.pictures().map_err(refused)?;
    for (title, frame) in &pictures {
        let shown = Screen::usual().show(frame, Description::DEFAULT);
        say(&format!("{title}: {}\n{shown}\n", about(frame)))?;
    }
    say(&desk.origins().map_err(refused)?)?;
    for ((_, frame), target) in pictures.iter().zip(&targets) {
        let record = frame.to_record().map_err(refused)?;
        Pictures::of(Description::DEFAULT).write(words, target, &record)?;
    }
    say("compose --help says what else there is.\n")
}

/// The files of the pictures, where a folder is named; none is written unless all can be.
fn targets(words: &Words) -> Result<Vec<Target>, Failure> {
    let Some(folder) = words.option(OUT.name) else {
        return Ok(Vec::new());
    };
    let names = ["field", "marked", "searched", "shown"];
    let targets = names.map(|name| Target::in_folder(words, folder, name, Format::Ppm));
    targets.into_iter().collect()
}

/// Rows and columns of tiles, and the sides of each.
const TILES: (u32, u32) = (2, 2);
const TILE: (u32, u32) = (24, 16);
/// The sides of the field.
const FIELD: (u32, u32) = (TILES.1 * TILE.0, TILES.0 * TILE.1);

/// The flags: name, colour, and how far right of and below the field's corner each stands.
const FLAGS: [(&str, [u16; 3], (i32, i32)); 3] = [
    ("red", [220, 30, 40], (30, 12)),
    ("yellow", [250, 210, 0], (14, 18)),
    ("blue", [20, 60, 200], (42, 26)),
];

/// What the demonstration lays on the table.
struct Desk {
    tiles: Vec<HeifFrame>,
    flags: Vec<HeifFrame>,
    chain: [PropertyEntry; 2],
}

impl Desk {
    fn new() -> Answer<Self> {
        let corners = (0..TILES.0).flat_map(|row| {
            let corner = move |column| (column * TILE.0, row * TILE.1);
            (0..TILES.1).map(corner)
        });
        let tile = |(left, above)| drawn(TILE, |x, y| debris(left + x, above + y));
        let flag = |(_, rgb, _): &(_, [u16; 3], _)| drawn((8, 6), |x, y| cloth(*rgb, x, y));
        let part = CropRect {
            x: 4,
            y: 2,
            width: 24,
            height: 36,
        };
        // The field lies on its side when it is cropped.
        let clap = Clap::for_rect(FIELD.1, FIELD.0, part);
        Ok(Self {
            tiles: corners.map(tile).collect::<Answer<_>>()?,
            flags: FLAGS.iter().map(flag).collect::<Answer<_>>()?,
            chain: [
                PropertyEntry::new(1, true, Property::Irot(Irot::new(1))),
                PropertyEntry::new(2, true, Property::Clap(clap)),
            ],
        })
    }

    /// How the tiles join to the field.
    fn grid() -> GridDescriptor {
        GridDescriptor::new(TILES.0 as u16, TILES.1 as u16, FIELD.0, FIELD.1)
    }

    /// Where the field and the flags lie on the canvas.
    fn places() -> OverlayDescriptor {
        let flags = FLAGS.iter().map(|(_, _, place)| *place);
        let places = [(0, 0)].into_iter().chain(flags).collect();
        OverlayDescriptor::new([0, 0, 0, 65_535], FIELD.0, FIELD.1, places)
    }

    /// The pictures that are shown, each with its title.
    fn pictures(&self) -> Answer<[(&'static str, HeifFrame); 4]> {
        let field = composite_grid(&Self::grid(), &self.tiles)?;
        let inputs: Vec<OverlayInput> = std::iter::once(&field)
            .chain(&self.flags)
            .map(|frame| OverlayInput::new(frame, false))
            .collect();
        let marked = composite_overlay(&Self::places(), &inputs, None)?;
        let searched = searched(&marked)?;
        let shown = apply_transforms(&marked, &self.chain, false)?;
        Ok([
            ("A debris field, joined from four tiles", field),
            ("Three flags laid over it", marked),
            (
                "A searched strip blended over it, clearer to the right",
                searched,
            ),
            (
                "The flags, turned a quarter anticlockwise, and cropped",
                shown,
            ),
        ])
    }
}

impl Desk {
    /// What the point call says of the last picture: for each flag, and for the field's tiles, a
    /// place that shows it.
    fn origins(&self) -> Answer<String> {
        let field = composite_grid(&Self::grid(), &self.tiles)?;
        let records = |frames: &[HeifFrame]| -> Answer<Vec<Vec<u8>>> {
            frames.iter().map(HeifFrame::to_record).collect()
        };
        let mut laid = records(&self.flags)?;
        laid.insert(0, field.to_record()?);
        let (tiles, laid) = (tray::join(&records(&self.tiles)?)?, tray::join(&laid)?);
        let (grid, places) = (Self::grid().to_bytes(), Self::places().to_bytes());
        let (chain, list) = (chain::join(&self.chain)?, [0; 1 + FLAGS.len()]);
        let marked = Scene::overlay(&places, &laid, &chain, &list, None);
        let joined = Scene::grid(&grid, &tiles, &[0]);

        let whole = point(&marked, 0, 0)?;
        let part = whole.rectangle;
        let (width, height) = match whole.turns % 2 {
            0 => (part.width, part.height),
            _ => (part.height, part.width),
        };
        let mut text = format!(
            "The last picture is {} × {} from ({}, {}) of the one with the flags, {}.\n",
            part.width,
            part.height,
            part.x,
            part.y,
            counted(usize::from(whole.turns), "quarter turn")
        );
        let mut seen = [0; 1 + FLAGS.len()];
        let mut lines = vec![String::new(); 1 + FLAGS.len()];
        for (column, row) in (0..height).flat_map(|y| (0..width).map(move |x| (x, y))) {
            let Shows::Input { index, x, y } = point(&marked, column, row)?.shows else {
                continue;
            };
            let which = index as usize;
            seen[which] += 1;
            if seen[which] > 1 {
                continue;
            }
            lines[which] = match FLAGS.get(which.wrapping_sub(1)) {
                Some((name, ..)) => {
                    format!("({column}, {row}) shows the {name} flag at ({x}, {y})")
                }
                None => {
                    let Shows::Input { index, x, y } = point(&joined, x, y)?.shows else {
                        continue;
                    };
                    format!("({column}, {row}) shows the field, tile {index} at ({x}, {y})")
                }
            };
        }
        for (line, places) in lines.iter().zip(seen) {
            text += &format!("  {line}: the first of {}\n", counted(places, "place"));
        }
        Ok(text + "\n")
    }
}

/// A strip of green over the field, from opaque on its left to clear on its right.
fn searched(marked: &HeifFrame) -> Answer<HeifFrame> {
    let size = (FIELD.0, 10);
    let green = drawn(size, |_, _| paint([40, 160, 70], 255))?;
    let mut opacity = HeifFrame::zeroed(size.0, size.1, green.format.with_chroma(Chroma::Mono))?;
    for (x, y) in (0..size.1).flat_map(|y| (0..size.0).map(move |x| (x, y))) {
        opacity.set_sample(0, x, y, (255 * (size.0 - x) / size.0) as u16);
    }
    let strip = attach_alpha(&green, &opacity)?;
    let places = vec![(0, 0), (0, FIELD.1 as i32 - 16)];
    let places = OverlayDescriptor::new([0, 0, 0, 65_535], FIELD.0, FIELD.1, places);
    let inputs = [marked, &strip].map(|frame| OverlayInput::new(frame, false));
    composite_overlay(&places, &inputs, None)
}

/// A colour of 8 bits a channel, at a light from 0 to 255, in samples.
fn paint(rgb: [u16; 3], light: u32) -> [u16; 3] {
    let channel = |level: u16| (u32::from(level) * 257 * light / 255) as u16;
    fill_to_ycbcr(rgb.map(channel), 8, None)
}

/// Sky, debris or snow.
fn debris(x: u32, y: u32) -> [u16; 3] {
    const SNOW: [u16; 3] = [235, 243, 255];
    let ridge = 4 + x / 6;
    if y < ridge {
        return paint([120, 170, 230], 255 - 4 * y);
    }
    // Debris: scattered by a fixed rule, thicker further down.
    let scattered = (x.wrapping_mul(73_856_093) ^ y.wrapping_mul(19_349_663)) >> 9;
    if x < 2 * y && scattered % 40 < y / 4 {
        return paint([130, 125, 135], 255);
    }
    paint(SNOW, 255 - 2 * (y - ridge))
}

/// A flag on its pole, and else the debris behind it.
fn flagged(x: u32, y: u32) -> [u16; 3] {
    if (32..40).contains(&x) && (12..17).contains(&y) && x - 32 <= 2 * (17 - y) {
        return paint([220, 30, 40], 255);
    }
    if (30..32).contains(&x) && (12..24).contains(&y) {
        return paint([60, 40, 30], 255);
    }
    debris(x, y)
}

/// A flag of 8 × 6: a pole on its left, cloth with a darker hem.
fn cloth(rgb: [u16; 3], x: u32, y: u32) -> [u16; 3] {
    match (x, y) {
        (0 | 1, _) => paint([60, 40, 30], 255),
        (_, 4 | 5) => paint(rgb, 150),
        _ => paint(rgb, 255),
    }
}

/// A picture of 4:2:0, depth 8, of the colours at its places.
fn drawn(size: (u32, u32), colour: impl Fn(u32, u32) -> [u16; 3]) -> Answer<HeifFrame> {
    let format = HeifPixelFormat::new(Chroma::Yuv420, 8, false)?;
    let mut frame = HeifFrame::zeroed(size.0, size.1, format)?;
    for plane in 0..3 {
        let (columns, rows) = frame.plane_dims(plane);
        let (across, down) = if plane == 0 { (0, 0) } else { (1, 1) };
        for y in 0..rows {
            for x in 0..columns {
                let sample = colour(x << across, y << down)[plane];
                frame.set_sample(plane, x, y, sample);
            }
        }
    }
    Ok(frame)
}

/// A slope with a flag on it: 48 × 32 pixels, 4:2:0, depth 8.
pub fn slope() -> Answer<HeifFrame> {
    drawn((48, 32), flagged)
}
