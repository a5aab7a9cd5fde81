//! Document 01, with what document 02 changes, as plain Rust: house numbers, frame records, trays,
//! chains and descriptor bodies, with the refusals of each, and bodies written; the operations on one
//! record, fill colours, grids and overlays, scenes and points, chains on one record, room, the text of
//! the steps program, and the sentences of refusals.
//! All of it is written from the paper and shares nothing with the composer or with the published
//! Rust, so that both can be held against it.
//!
//! It also names the calls of the published Rust on these plain types ([`Oracle`]). The crates
//! `oracle` and `oracle-checked` are two builds of one source; both answer in the types of this
//! crate, so a comparison can use either.

mod chain;
mod composite;
mod derived;
mod fill;
mod number;
mod operation;
mod oracle;
mod outcome;
mod point;
mod record;
pub mod refusal;
mod room;
mod scene;
mod sentence;
mod steps;

pub use chain::{Clap, Entry, Iscl, MAX_ENTRIES, Property, chain_bytes, parse_chain};
pub use composite::{composite_grid, composite_overlay};
pub use derived::{
    grid_body, grid_bytes, offsets_of, overlay_body, overlay_bytes, parse_grid, parse_overlay,
    write_grid, write_overlay,
};
pub use fill::fill_samples;
pub use number::{Reader, number_bytes, push_number};
pub use operation::{Crop, Margins, Operation};
pub use oracle::{
    Canvas, CanvasState, Colour, Grid, Oracle, Overlay, OverlayInput, Rectangle, TileForm, Work,
};
pub use outcome::{Outcome, attempt};
pub use point::{Named, Point, Sight, Sighted};
pub use record::{
    Chroma, Frame, Layout, Place, Plane, parse_record, parse_tray, parse_untested, tray_bytes,
    tray_count, untested_tray,
};
pub use refusal::{Item, Refusal};
pub use room::{grid_room, overlay_room, record_size, transforms_room};
pub use scene::{Marks, Scene, SceneParts, grid_scene, overlay_scene, transforms};
pub use sentence::{read_sentence, sentence, write_sentence};
pub use steps::{Size, parse_steps, steps_text};
