//! The calls of the published Rust, on plain types. Each call goes on to the function of that name
//! and tells how it ended; none validates its input first, as the published Rust does not either.

use crate::chain::{Clap, Entry, Iscl};
use crate::operation::Operation;
use crate::outcome::Outcome;
use crate::record::{Chroma, Frame};

/// A grid descriptor.
#[derive(Clone, Copy, Debug, PartialEq, Eq)]
pub struct Grid {
    pub rows: u16,
    pub columns: u16,
    pub width: u32,
    pub height: u32,
}

impl Grid {
    /// A grid of one row.
    pub fn row(columns: u16, width: u32, height: u32) -> Self {
        Self {
            rows: 1,
            columns,
            width,
            height,
        }
    }

    /// The number of cells.
    pub fn cells(&self) -> usize {
        usize::from(self.rows) * usize::from(self.columns)
    }
}

/// An overlay descriptor: fill (red, green, blue, alpha), canvas size, one offset an input.
#[derive(Clone, Debug, PartialEq, Eq)]
pub struct Overlay {
    pub fill: [u16; 4],
    pub width: u32,
    pub height: u32,
    pub offsets: Vec<(i32, i32)>,
}

/// A resolved crop rectangle.
#[derive(Clone, Copy, Debug, PartialEq, Eq)]
pub struct Rectangle {
    pub x: u32,
    pub y: u32,
    pub width: u32,
    pub height: u32,
}

/// A colour description: an nclx matrix number and the full-range flag.
#[derive(Clone, Copy, Debug, PartialEq, Eq)]
pub struct Colour {
    pub matrix: u16,
    pub full_range: bool,
}

/// One input of an overlay.
#[derive(Clone, Debug, PartialEq, Eq)]
pub struct OverlayInput {
    pub frame: Frame,
    pub premultiplied: bool,
}

/// What the first tile fixed in a canvas session.
#[derive(Clone, Copy, Debug, PartialEq, Eq)]
pub struct TileForm {
    pub width: u32,
    pub height: u32,
    pub chroma: Chroma,
    pub depth: u8,
    pub alpha: u8,
    pub promoted: bool,
}

/// All that a canvas session holds between two calls.
#[derive(Clone, Debug, PartialEq, Eq)]
pub struct CanvasState {
    pub tile: Option<TileForm>,
    pub canvas: Option<Frame>,
    pub placed: Vec<bool>,
}

/// A canvas session (`GridCanvas`).
pub trait Canvas {
    fn place(&mut self, index: usize, tile: &Frame) -> Outcome<()>;
    fn place_blank(&mut self, index: usize) -> Outcome<()>;
    fn finish(self: Box<Self>) -> Outcome<Frame>;
    /// What the session holds now.
    fn state(&self) -> CanvasState;
}

/// A call and what it is handed, to be made again and again.
#[derive(Clone, Debug)]
pub enum Work {
    Validate(Frame),
    Fill([u16; 3], u8, Option<Colour>),
    GridBody(Vec<u8>),
    /// A body, and how many inputs it has.
    OverlayBody(Vec<u8>, usize),
    /// `GridDescriptor::to_bytes`.
    WriteGrid(Grid),
    /// `OverlayDescriptor::to_bytes`.
    WriteOverlay(Overlay),
    /// `Clap::resolve` on a size.
    Resolve(Clap, u32, u32),
    /// `Iscl::output_size` on a size.
    Scale(Iscl, u32, u32),
    Operation(Frame, Operation),
    Attach(Frame, Frame),
    /// `apply_transforms`, every entry.
    Chain(Frame, Vec<Entry>),
    Grid(Grid, Vec<Frame>),
    /// `composite_grid`, then `apply_transforms`, every entry.
    Scene(Grid, Vec<Frame>, Vec<Entry>),
    /// `GridCanvas`, its cells placed from the last to the first.
    Session(Grid, Vec<Frame>),
    Overlay(Overlay, Vec<OverlayInput>, Option<Colour>),
}

/// The published Rust's functions.
pub trait Oracle: Sync {
    /// The published function alone, its inputs made ready. It panics where the call fails.
    fn ready(&self, work: Work) -> Box<dyn Fn()>;

    // image.rs
    fn validate(&self, frame: &Frame) -> Outcome<()>;
    fn promote_to_444(&self, frame: &Frame) -> Outcome<Frame>;
    fn tight(&self, frame: &Frame) -> Outcome<Frame>;
    fn with_alpha_plane(&self, frame: &Frame, alpha: &Frame) -> Outcome<Frame>;

    // derived.rs
    fn parse_grid(&self, body: &[u8]) -> Outcome<Grid>;
    fn parse_overlay(&self, body: &[u8], inputs: usize) -> Outcome<Overlay>;
    /// `GridDescriptor::to_bytes`.
    fn write_grid(&self, grid: &Grid) -> Outcome<Vec<u8>>;
    /// `OverlayDescriptor::to_bytes`.
    fn write_overlay(&self, overlay: &Overlay) -> Outcome<Vec<u8>>;

    // props.rs
    fn resolve_clap(&self, clap: &Clap, width: u32, height: u32) -> Outcome<Rectangle>;
    fn iscl_size(&self, iscl: &Iscl, width: u32, height: u32) -> Outcome<(u32, u32)>;
    /// `ItemProperties::output_size`.
    fn chain_size(
        &self,
        chain: &[Entry],
        size: (u32, u32),
        essential_only: bool,
    ) -> Outcome<(u32, u32)>;

    // compose.rs
    fn crop(&self, frame: &Frame, rectangle: &Rectangle) -> Outcome<Frame>;
    fn apply_clap(&self, frame: &Frame, clap: &Clap) -> Outcome<Frame>;
    fn apply_irot(&self, frame: &Frame, angle: u8) -> Outcome<Frame>;
    fn apply_imir(&self, frame: &Frame, axis: u8) -> Outcome<Frame>;
    fn apply_iscl(&self, frame: &Frame, iscl: &Iscl) -> Outcome<Frame>;
    fn resize_area(&self, frame: &Frame, width: u32, height: u32) -> Outcome<Frame>;
    fn resize_nearest(&self, frame: &Frame, width: u32, height: u32) -> Outcome<Frame>;
    fn rescale_depth(&self, frame: &Frame, depth: u8) -> Outcome<Frame>;
    fn attach_alpha(&self, master: &Frame, alpha: &Frame) -> Outcome<Frame>;
    fn apply_transforms(
        &self,
        frame: &Frame,
        chain: &[Entry],
        essential_only: bool,
    ) -> Outcome<Frame>;
    fn composite_grid(&self, grid: &Grid, tiles: &[Frame]) -> Outcome<Frame>;
    /// `GridCanvas::new`.
    fn canvas(&self, grid: &Grid) -> Box<dyn Canvas>;
    fn composite_overlay(
        &self,
        overlay: &Overlay,
        inputs: &[OverlayInput],
        colour: Option<Colour>,
    ) -> Outcome<Frame>;
    fn fill_to_ycbcr(&self, fill: [u16; 3], depth: u8, colour: Option<Colour>)
    -> Outcome<[u16; 3]>;
}
