//! The point calls (document 01, "Point call").

use crate::chain::Entry;
use crate::composite::{canvas_fill, none_is, one_depth, spot_at, tile_at, tiles_fit};
use crate::operation::Operation;
use crate::oracle::{Grid, Overlay, Rectangle};
use crate::record::Frame;
use crate::refusal::{self, Refusal};
use crate::scene::{Marks, SceneParts, applied, read_grid, read_overlay};
use crate::steps::Size;

/// The chain's rectangle in the composed picture and its turn.
#[derive(Clone, Copy, Debug, PartialEq, Eq)]
pub struct Sight {
    pub rectangle: Rectangle,
    /// Left and right exchanged, before the turns.
    pub exchanged: bool,
    /// Quarter turns anticlockwise, 0 to 3.
    pub turns: u8,
}

/// What a final place names.
#[derive(Clone, Copy, Debug, PartialEq, Eq, Hash)]
pub enum Named {
    Fill,
    /// An input, and a column and a row of it.
    Spot(u32, u32, u32),
}

/// What a point call answers.
#[derive(Clone, Copy, Debug, PartialEq, Eq)]
pub struct Point {
    pub named: Named,
    pub sight: Sight,
}

impl Point {
    /// As the calls put it: 1 an input or 0 the fill; input, column and row, 0 for the fill; the
    /// rectangle's x, y, width and height; 1 exchanged or 0; the turns.
    pub fn words(&self) -> [u32; 10] {
        let [some, input, x, y] = match self.named {
            Named::Fill => [0; 4],
            Named::Spot(input, x, y) => [1, input, x, y],
        };
        let Sight {
            rectangle: stays,
            exchanged,
            turns,
        } = self.sight;
        let (exchanged, turns) = (u32::from(exchanged), u32::from(turns));
        [
            some,
            input,
            x,
            y,
            stays.x,
            stays.y,
            stays.width,
            stays.height,
            exchanged,
            turns,
        ]
    }
}

/// What one applied entry does to places: a picture of `size` comes out of it, and `from` says where
/// a place of that lay before.
#[derive(Clone, Copy, Debug)]
enum Step {
    Cut(Rectangle),
    /// Quarter turns of a picture of that size.
    Turn(u8, Size),
    /// A mirror of a picture of that size: left and right, or else top and bottom.
    Mirror(bool, Size),
}

impl Step {
    /// Where a place lay before the entry.
    fn from(self, (x, y): Size) -> Size {
        match self {
            Self::Cut(stays) => (stays.x + x, stays.y + y),
            Self::Turn(0, _) => (x, y),
            // The right column comes to the top.
            Self::Turn(1, (width, _)) => (width - 1 - y, x),
            Self::Turn(2, (width, height)) => (width - 1 - x, height - 1 - y),
            Self::Turn(_, (_, height)) => (y, height - 1 - x),
            Self::Mirror(true, (width, _)) => (width - 1 - x, y),
            Self::Mirror(false, (_, height)) => (x, height - 1 - y),
        }
    }

    fn size(self) -> Size {
        match self {
            Self::Cut(stays) => (stays.width, stays.height),
            Self::Turn(quarters, (width, height)) if quarters % 2 == 1 => (height, width),
            Self::Turn(_, size) | Self::Mirror(_, size) => size,
        }
    }
}

/// What lies on the canvas.
#[derive(Clone, Debug)]
enum Canvas {
    Grid(Grid),
    /// An overlay and the samples of its fill, alpha last.
    Overlay(Overlay, [u16; 4]),
}

/// A point call up to its place.
#[derive(Clone, Debug)]
pub struct Sighted {
    canvas: Canvas,
    frames: Vec<Frame>,
    steps: Vec<Step>,
    size: Size,
    sight: Sight,
}

impl Sighted {
    /// The chain on a canvas of a size: the entries' refusals, and 18 for an iscl.
    fn new(
        canvas: Canvas,
        frames: Vec<Frame>,
        size: Size,
        chain: &[Entry],
        essential_only: bool,
    ) -> Result<Self, Refusal> {
        let mut last = size;
        let (mut exchanged, mut turns) = (false, 0);
        let mut steps = Vec::new();
        for (index, operation) in applied(chain, essential_only) {
            let step = match operation {
                Operation::Clap(clap) => {
                    let crop = clap.resolve(last.0, last.1);
                    let crop = crop.map_err(|refusal| refusal.of_entry(index))?;
                    Step::Cut(crop.rectangle)
                }
                Operation::Irot(angle) => {
                    turns = (turns + angle % 4) % 4;
                    Step::Turn(angle % 4, last)
                }
                Operation::Imir(axis) => {
                    // A mirror after a turn is the turn the other way after a mirror; top and
                    // bottom exchanged are left and right exchanged, then a half turn.
                    exchanged = !exchanged;
                    turns = (4 + 2 * (1 - axis % 2) - turns) % 4;
                    Step::Mirror(axis % 2 == 1, last)
                }
                _ => return Err(refusal::POINT.of_entry(index)),
            };
            last = step.size();
            steps.push(step);
        }
        let from = |place| steps.iter().rev().fold(place, |at, step| step.from(at));
        let ((x, y), (u, v)) = (from((0, 0)), from((last.0 - 1, last.1 - 1)));
        let rectangle = Rectangle {
            x: x.min(u),
            y: y.min(v),
            width: x.abs_diff(u) + 1,
            height: y.abs_diff(v) + 1,
        };
        Ok(Self {
            canvas,
            frames,
            steps,
            size: last,
            sight: Sight {
                rectangle,
                exchanged,
                turns,
            },
        })
    }

    /// As the grid scene, without 17.
    pub fn grid(parts: &SceneParts) -> Result<Self, Refusal> {
        let (chain, grid, tiles) = read_grid(parts)?;
        tiles_fit(&grid, &tiles)?;
        let size = (grid.width, grid.height);
        let canvas = Canvas::Grid(grid);
        Self::new(canvas, tiles, size, &chain, parts.essential_only)
    }

    /// As the overlay scene, without 16 and 17; 18 for an input with alpha, after 14.
    pub fn overlay(parts: &SceneParts, marks: &Marks) -> Result<Self, Refusal> {
        let (chain, overlay, inputs) = read_overlay(parts, marks.premultiplied)?;
        let frames: Vec<Frame> = inputs.into_iter().map(|input| input.frame).collect();
        one_depth(&frames)?;
        none_is(&frames, refusal::POINT, |frame| frame.alpha != 0)?;
        let size = (overlay.width, overlay.height);
        let fill = canvas_fill(&overlay, &frames[0], marks.colour)?;
        let canvas = Canvas::Overlay(overlay, fill);
        Self::new(canvas, frames, size, &chain, parts.essential_only)
    }

    /// The final picture's size.
    pub fn size(&self) -> Size {
        self.size
    }

    /// The rectangle and the turn.
    pub fn sight(&self) -> Sight {
        self.sight
    }

    /// The answer at a place of the final picture; 18 outside.
    pub fn at(&self, column: u32, row: u32) -> Result<Point, Refusal> {
        if column >= self.size.0 || row >= self.size.1 {
            return Err(refusal::POINT);
        }
        let steps = self.steps.iter().rev();
        let (x, y) = steps.fold((column, row), |at, step| step.from(at));
        let named = match &self.canvas {
            Canvas::Grid(grid) => {
                let (input, x, y) = tile_at(grid, &self.frames[0], x, y);
                Named::Spot(input as u32, x, y)
            }
            Canvas::Overlay(overlay, _) => {
                let inputs = self.frames.iter().zip(&overlay.offsets).enumerate();
                let mut covering = inputs.filter_map(|(input, (frame, offset))| {
                    let (x, y) = spot_at(frame, *offset, x, y)?;
                    Some(Named::Spot(input as u32, x, y))
                });
                covering.next_back().unwrap_or(Named::Fill)
            }
        };
        let sight = self.sight;
        Ok(Point { named, sight })
    }

    /// What the final picture holds where this is named, in luma (0), Cb (1), Cr (2) or alpha (3):
    /// grid samples as they are, overlay samples capped at top.
    pub fn reads(&self, named: Named, part: usize) -> u16 {
        match (named, &self.canvas) {
            (Named::Spot(input, x, y), canvas) => {
                let frame = &self.frames[input as usize];
                let sample = frame.covering(part, x, y);
                match canvas {
                    Canvas::Grid(_) => sample,
                    Canvas::Overlay(..) => sample.min(frame.top()),
                }
            }
            (Named::Fill, Canvas::Overlay(_, fill)) => fill[part],
            (Named::Fill, Canvas::Grid(_)) => unreachable!("tiles cover a grid's canvas"),
        }
    }
}
