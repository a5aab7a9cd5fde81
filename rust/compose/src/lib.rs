//! The composer of document 01: one planar picture from tiles and marks, as safe calls.
//!
//! The code behind the calls is proved; `crates/capi` has the contract of each. A call takes any
//! bytes and any frame: what it does not take it refuses, with a number ([`Refusal`]), and then nothing
//! is written.
//!
//! # In place of oxideav-heif
//!
//! Functions and types have oxideav-heif's names and shapes; a program changes its `use` lines: the
//! crate's name in them, as its modules [`mod@compose`], [`derived`], [`image`], [`props`] and
//! [`error`] are where they were. What they have in common use stands at the top here, too. What a
//! frame does by itself, such as [`HeifFrame::promote_to_444`], is plain Rust and no call.
//!
//! ```
//! use compose::image::{Chroma, HeifFrame, HeifPixelFormat, Plane};
//! use compose::props::Irot;
//! use compose::apply_irot;
//!
//! let format = HeifPixelFormat::new(Chroma::Mono, 8, false)?;
//! let frame = HeifFrame::new(2, 1, format, vec![Plane::new(2, vec![10, 20])]);
//! let turned = apply_irot(&frame, &Irot::new(1))?;
//! assert_eq!(turned.planes, [Plane::new(1, vec![20, 10])]);
//! # Ok::<(), compose::Refusal>(())
//! ```
//!
//! The slope importer joins the tiles of a photograph, and brings it to 8 bits:
//!
//! ```
//! use compose::compose::{composite_grid, rescale_depth};
//! use compose::derived::GridDescriptor;
//! use compose::image::{Chroma, HeifFrame, HeifPixelFormat};
//!
//! let ten = HeifPixelFormat::new(Chroma::Yuv420, 10, false)?;
//! let tiles = [100, 400].map(|sample| HeifFrame::filled(32, 32, ten, sample));
//! let tiles = tiles.into_iter().collect::<Result<Vec<_>, _>>()?;
//! let body = [0, 0, 0, 1, 0, 60, 0, 32];
//! let slope = composite_grid(&GridDescriptor::parse(&body)?, &tiles)?;
//! let slope = rescale_depth(&slope, 8)?;
//! assert_eq!((slope.width, slope.height), (60, 32));
//! assert_eq!((slope.sample(0, 31, 0), slope.sample(0, 32, 0)), (25, 100));
//! # Ok::<(), compose::Refusal>(())
//! ```
//!
//! The marker desk lays flags over it:
//!
//! ```
//! use compose::compose::{OverlayInput, composite_overlay};
//! use compose::derived::OverlayDescriptor;
//! use compose::image::{Chroma, HeifFrame, HeifPixelFormat};
//!
//! let format = HeifPixelFormat::new(Chroma::Yuv420, 8, false)?;
//! let slope = HeifFrame::filled(60, 32, format, 128)?;
//! let flag = HeifFrame::filled(4, 4, format, 200)?;
//! let places = OverlayDescriptor::new([0, 0, 0, 65_535], 60, 32, vec![(0, 0), (20, 10)]);
//! let inputs = [&slope, &flag].map(|frame| OverlayInput::new(frame, false));
//! let marked = composite_overlay(&places, &inputs, None)?;
//! assert_eq!((marked.sample(0, 19, 10), marked.sample(0, 20, 10)), (128, 200));
//! # Ok::<(), compose::Refusal>(())
//! ```
//!
//! The projector shows it as its chain of properties says:
//!
//! ```
//! use compose::compose::apply_transforms;
//! use compose::image::{Chroma, HeifFrame, HeifPixelFormat};
//! use compose::props::{Imir, Irot, Iscl, Property, PropertyEntry};
//!
//! let marked = HeifFrame::zeroed(60, 32, HeifPixelFormat::new(Chroma::Yuv420, 8, false)?)?;
//! let chain = [
//!     PropertyEntry::new(1, true, Property::Irot(Irot::new(3))),
//!     PropertyEntry::new(2, true, Property::Imir(Imir::new(1))),
//!     PropertyEntry::new(3, false, Property::Iscl(Iscl::new(1, 2, 1, 2))),
//! ];
//! let shown = apply_transforms(&marked, &chain, false)?;
//! assert_eq!((shown.width, shown.height), (16, 30));
//! # Ok::<(), compose::Refusal>(())
//! ```
//!
//! # Why a call refused
//!
//! Where one of several frames or properties is refused, the refusal says which, as the caller's list
//! counts. It has a sentence in German and in English, from which all of it can be read back.
//!
//! ```
//! use compose::image::{Chroma, HeifFrame, HeifPixelFormat};
//! use compose::props::{Clap, Irot, Property, PropertyEntry};
//! use compose::{About, Language, Refusal, apply_transforms};
//!
//! let frame = HeifFrame::zeroed(64, 48, HeifPixelFormat::new(Chroma::Yuv420, 8, false)?)?;
//! let chain = [
//!     PropertyEntry::new(1, false, Property::Other),
//!     PropertyEntry::new(2, true, Property::Irot(Irot::new(1))),
//!     PropertyEntry::new(3, true, Property::Clap(Clap::integer(64, 48, 0, 0))),
//! ];
//! let refusal = apply_transforms(&frame, &chain, true).unwrap_err();
//! assert_eq!((refusal.number(), refusal.name()), (9, "outside"));
//! assert_eq!((refusal.about(), refusal.index()), (Some(About::Entry), Some(2)));
//!
//! let said = refusal.german();
//! assert!(said.starts_with("9: Der Ausschnitt ist leer") && said.ends_with(" (Eintrag 2)."));
//! assert_eq!(Refusal::from_sentence(&said), Some((refusal, Language::German)));
//! assert!(refusal.to_string().ends_with(" (entry 2)."));
//! # Ok::<(), compose::Refusal>(())
//! ```
//!
//! # Ceilings
//!
//! A few bytes can ask for a picture of 2^30 pixels. [`Limits`] sets what a call may make; what asks
//! for more is refused before anything is allocated.
//!
//! # What stays out
//!
//! A program that uses one of these changes more than its `use` lines. So does one that uses
//! [`Clap::resolve`](props::Clap::resolve): it answers the rectangle with the margins about it, a
//! [`Crop`](props::Crop), whose `rect` is oxideav-heif's answer. Where a call is there and answers
//! otherwise, docs/DIFFERENCES.md says so.
//!
//! - Of `error`, what an error holds: a [`Refusal`] has a number in place of variants, and its sentence
//!   in place of a text. `HeifError::invalid`, `HeifError::unsupported`, `HeifError::exhausted`, `HeifError::limit`,
//!   `HeifError::io`, `HeifError::layered_hevc`, `HeifError::layered_hevc_info`,
//!   `HeifError::external_tile_unresolved`, `HeifError::external_tile_info`.
//! - Of `compose`, colour format enhancement: `CfenPlan`, `CfenRegion`, `CfenRegionPlan`,
//!   `plan_colour_format_enhancement`, `plan_colour_format_enhancement_regions`,
//!   `composite_colour_format_enhancement`, `pack_colour_format_channels`.
//! - Of `image`, the bridge to a framework: `core_bridge`.
//! - Of `derived`, items of a file: `ImageKind`, `ImageNode`, `TiledItem`, `ColourFormatEnhancement`,
//!   `CfenInput`, `build_graph`, `build_primary_graph`, `is_derived_type`, `DIMG`,
//!   `MAX_DERIVATION_DEPTH`, `MAX_GRAPH_ITEMS`.
//! - Of `props`, properties that move no picture, which [`Property::Other`](props::Property::Other)
//!   stands for, and reading and writing them: `A1lx`, `A1op`, `Altt`, `Amve`, `AuxC`, `AuxKind`,
//!   `Cclv`, `Cexg`, `Clli`, `Dadj`, `Ispe`, `Lsel`, `Mdcv`, `Ndwt`, `Pasp`, `Pixi`, `PixiChannel`,
//!   `PixiExtended`, `Reve`, `Rloc`, `Rref`, `Stag`, `StereoAggressor`, `TilC`, `TimeInfo`, `Udes`,
//!   `ItemProperties`, `Property::box_type`, `Property::is_decoder_config`, `Property::parse`,
//!   `is_transformative_type`, `write`, `MAX_TILC_DIMENSIONS`, `AUX_URN_ALPHA`, `AUX_URN_DEPTH`,
//!   `AUX_URN_ALPHA_HEVC`, `AUX_URN_DEPTH_HEVC`.
//!
//! # On records
//!
//! The calls work on records. [`recorded`] has oxideav-heif's operations on frames over records, which
//! copy nothing beside; a frame of planes is copied into a record and out of one by each call. What is
//! needed for that alone, at most three buffers of up to 16 MiB, a thread keeps for its next call.
//!
//! A program can work on the bytes, too: [`record`] says what one holds, [`operation`]
//! makes another of it, [`tray`] counts several, [`chain`] reads what is to be done to one, and
//! [`steps`] says what sizes that gives; [`mod@scene`] composes several and does it, in one call, and
//! says which of them a place of the result shows.
//!
//! ```
//! let bytes = [2, 1, 0, 8, 0, 2, 2, 10, 20];
//! let info = compose::record::inspect(&bytes)?;
//! assert_eq!((info.width, info.height), (2, 1));
//! assert_eq!(info.planes[0].of(&bytes), [10, 20]);
//!
//! let refusal = compose::record::inspect(&bytes[..8]).unwrap_err();
//! assert_eq!((refusal.number(), refusal.name()), (5, "malformed"));
//! # Ok::<(), compose::Refusal>(())
//! ```

mod bands;
#[cfg(test)]
mod calls;
pub mod canvas;
pub mod chain;
pub mod composite;
#[cfg(test)]
mod declared;
pub mod derived;
pub mod error;
pub mod fill;
mod form;
#[cfg(test)]
mod header;
pub mod image;
mod lend;
pub mod limits;
pub mod operation;
mod outline;
mod plan;
pub mod props;
pub mod record;
pub mod recorded;
mod refusal;
pub mod scene;
pub mod steps;
mod stock;
pub mod sys;
pub mod transform;
pub mod tray;

pub use canvas::GridCanvas;
pub use composite::{OverlayInput, composite_grid, composite_overlay};
pub use derived::{GridDescriptor, OverlayDescriptor};
pub use fill::fill_to_ycbcr;
pub use image::{Chroma, HeifFrame, HeifPixelFormat, Plane};
pub use limits::Limits;
pub use recorded::RecordFrame;
pub use refusal::{About, Language, Refusal};
pub use scene::{Point, Scene, Shows, point, scene};
pub use transform::{
    apply_clap, apply_imir, apply_irot, apply_iscl, apply_transforms, apply_transforms_owned,
    attach_alpha, crop, crop_with_margins, rescale_depth, resize_area, resize_nearest,
};

/// The functions of oxideav-heif's module `compose` where they were, so that in a `use` line the
/// crate's name alone changes; and [`crop_with_margins`] beside its [`crop`].
pub mod compose {
    pub use crate::canvas::GridCanvas;
    pub use crate::composite::{OverlayInput, composite_grid, composite_overlay};
    pub use crate::fill::fill_to_ycbcr;
    pub use crate::transform::{
        apply_clap, apply_imir, apply_irot, apply_iscl, apply_transforms, apply_transforms_owned,
        attach_alpha, crop, crop_with_margins, needs_444, rescale_depth, resize_area,
        resize_nearest,
    };
}

/// What a call answers, or why it refused.
pub type Result<T> = std::result::Result<T, Refusal>;
