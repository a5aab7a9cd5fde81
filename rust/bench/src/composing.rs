//! Grids, overlays, scenes and sessions.

use crate::case::{Case, Row, answered};
use crate::operations::{middle, picture, samples};
use compose::canvas::STATE_WORDS;
use differential::expected;
use differential::generate::{self, Form};
use differential::ours::{Composer, Linked};
use differential::rng::Rng;
use model::{
    Chroma, Entry, Frame, Grid, Overlay, OverlayInput, Property, SceneParts, Work, chain_bytes,
    grid_bytes, overlay_bytes, tray_bytes,
};
use std::cell::RefCell;

/// A square canvas of square tiles of 4:2:0 at 8 bits.
struct Tiled {
    grid: Grid,
    tiles: Vec<Frame>,
    body: Vec<u8>,
    tray: Vec<u8>,
    /// The bytes of the composed record.
    room: usize,
}

/// The side of a tile, where so many stand across a canvas.
fn tile_side(side: u32, across: u32) -> u32 {
    (side / across).max(1)
}

impl Tiled {
    fn new(side: u32, across: u32) -> Self {
        let tile = picture(8, tile_side(side, across));
        let tiles = vec![tile; (across * across) as usize];
        let grid = Grid {
            rows: across as u16,
            columns: across as u16,
            width: side,
            height: side,
        };
        let body = grid_bytes(&grid, true);
        let tray = tray_bytes(&tiles);
        // Odd tiles are promoted.
        let mut ample = vec![0; 3 * (side * side) as usize + 64];
        let room = answered(Linked.grid(&body, &tray, &mut ample));
        Self {
            grid,
            tiles,
            body,
            tray,
            room,
        }
    }
}

/// What the tiles are, in a row's name.
fn of_tiles(side: u32, across: u32) -> String {
    let tile = tile_side(side, across);
    format!("{across} × {across} tiles of {tile} × {tile} 4:2:0, 8 bits")
}

fn grid_case(side: u32, across: u32) -> Case {
    let Tiled {
        grid,
        tiles,
        body,
        tray,
        room,
    } = Tiled::new(side, across);
    Case {
        room,
        units: tiles.len(),
        call: Box::new(move |output| {
            answered(Linked.grid(&body, &tray, output));
        }),
        before: None,
        work: Work::Grid(grid, tiles),
    }
}

/// So many tiles across and down a canvas, joined; the unit is a tile.
pub fn grid(side: u32, across: u32) -> Row {
    let name = format!("grid, {}", of_tiles(side, across));
    Row::new(name, move || grid_case(side, across))
}

/// Four by four tiles joined, then a chain that leaves no record longer; the unit is an entry.
fn scene_case(side: u32, entries: Vec<Entry>) -> Case {
    let Tiled {
        grid,
        tiles,
        body,
        tray,
        room,
    } = Tiled::new(side, 4);
    let chain = chain_bytes(&entries);
    let spare = RefCell::new(vec![0; room]);
    Case {
        room,
        units: entries.len(),
        call: Box::new(move |output| {
            let parts = SceneParts {
                body: &body,
                tray: &tray,
                chain: &chain,
                essential_only: false,
            };
            answered(Linked.grid_scene(&parts, output, &mut spare.borrow_mut()));
        }),
        before: None,
        work: Work::Scene(grid, tiles, entries),
    }
}

fn every_applied(properties: impl IntoIterator<Item = Property>) -> Vec<Entry> {
    let entry = |property| Entry::new(true, property);
    properties.into_iter().map(entry).collect()
}

/// Four by four tiles joined, cropped to half, turned and mirrored.
pub fn scene(side: u32) -> Row {
    let name = format!(
        "scene of a grid, clap, irot 2, imir 0, {}",
        of_tiles(side, 4)
    );
    Row::new(name, move || {
        let clap = Property::Clap(middle(side));
        let entries = every_applied([clap, Property::Irot(2), Property::Imir(0)]);
        let case = scene_case(side, entries);
        Case {
            units: samples(case.room, 8),
            ..case
        }
    })
}

/// So many mirrors in turn about both axes, of a grid of four by four tiles.
pub fn mirrors(side: u32, count: usize) -> Row {
    let name = format!("chain of mirrors ({count}), {side} × {side} 4:2:0, 8 bits");
    Row::new(name, move || {
        let axes = [Property::Imir(0), Property::Imir(1)];
        scene_case(side, every_applied(axes.into_iter().cycle().take(count)))
    })
}

/// So many quarter turns of a grid of four by four tiles.
pub fn turns(side: u32, count: usize) -> Row {
    let name = format!("chain of turns ({count}), {side} × {side} 4:2:0, 8 bits");
    Row::new(name, move || {
        scene_case(side, every_applied(vec![Property::Irot(1); count]))
    })
}

fn session_case(side: u32) -> Case {
    let Tiled {
        grid, tiles, body, ..
    } = Tiled::new(side, 4);
    let records: Vec<Vec<u8>> = tiles.iter().map(Frame::record).collect();
    // Luma, chroma and the reserved alpha plane, and the record's numbers.
    let room = (side * side) as usize * 5 / 2 + 65;
    Case {
        room,
        units: samples(room, 8),
        call: Box::new(move |buffer| {
            let mut state = [0; STATE_WORDS];
            answered(Linked.canvas_start(&body, &mut state));
            for (index, record) in records.iter().enumerate().rev() {
                let place = expected::Call::Place(index as u32, record);
                answered(Linked.canvas_call(&place, &mut state, buffer));
            }
            answered(Linked.canvas_call(&expected::Call::Finish, &mut state, buffer));
        }),
        before: None,
        work: Work::Session(grid, tiles),
    }
}

/// A session over four by four tiles: the cells placed from the last to the first.
pub fn session(side: u32) -> Row {
    let name = format!("session, {}", of_tiles(side, 4));
    Row::new(name, move || session_case(side))
}

/// Square inputs of 4:4:4, spread over a square canvas.
#[derive(Clone, Copy)]
pub struct Laid {
    pub inputs: u32,
    pub size: u32,
    pub side: u32,
    pub depth: u8,
    pub alpha: u8,
}

impl Laid {
    fn name(&self) -> String {
        let Self {
            inputs,
            size,
            side,
            depth,
            ..
        } = self;
        let with = ["without", "with"][usize::from(self.alpha)];
        format!(
            "overlay, {inputs} of {size} × {size} {with} alpha on {side} × {side} 4:4:4, {depth} bits"
        )
    }

    /// Where an input goes: some of them across the left and the upper edge, and not all in one
    /// line.
    fn offset(&self, at: u32) -> (i32, i32) {
        let lap = at / self.side;
        let place =
            |step: u32| ((at * step + lap * 61) % self.side) as i32 - (self.size / 4) as i32;
        (place(389), place(127))
    }

    fn inputs(&self) -> Vec<OverlayInput> {
        let form = Form {
            chroma: Chroma::Yuv444,
            depth: self.depth,
            alpha: self.alpha,
        };
        let mut rng = Rng::new(u64::from(self.inputs));
        let input = |_| OverlayInput {
            frame: generate::even(&mut rng, (self.size, self.size), form),
            premultiplied: false,
        };
        (0..self.inputs).map(input).collect()
    }

    fn case(&self) -> Case {
        let inputs = self.inputs();
        let overlay = Overlay {
            fill: [0, 0, 0, 65_535],
            width: self.side,
            height: self.side,
            offsets: (0..self.inputs).map(|at| self.offset(at)).collect(),
        };
        let body = overlay_bytes(&overlay, true);
        let frames: Vec<Frame> = inputs.iter().map(|input| input.frame.clone()).collect();
        let (tray, list) = (tray_bytes(&frames), vec![0; inputs.len()]);
        let mut ample = vec![0; 6 * (self.side * self.side) as usize + 64];
        let room = answered(Linked.overlay(&body, &tray, &list, None, &mut ample));
        Case {
            room,
            units: samples(room, self.depth),
            call: Box::new(move |output| {
                answered(Linked.overlay(&body, &tray, &list, None, output));
            }),
            before: None,
            work: Work::Overlay(overlay, inputs, None),
        }
    }
}

/// Inputs laid over a canvas.
pub fn overlay(laid: Laid) -> Row {
    Row::new(laid.name(), move || laid.case())
}

/// The same; the unit is an input.
pub fn overlay_by_inputs(laid: Laid) -> Row {
    Row::new(laid.name(), move || Case {
        units: laid.inputs as usize,
        ..laid.case()
    })
}
