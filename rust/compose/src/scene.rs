//! Whole scenes (document 01, "The scene call" and "Point call"): a grid or an overlay composed, a
//! chain of properties applied; and what a place of the final picture shows.
//!
//! ```
//! use compose::props::{Irot, Property, PropertyEntry};
//! use compose::scene::{Scene, Shows};
//! use compose::{GridDescriptor, chain, point, scene, tray};
//!
//! // Two tiles side by side, 1 2 / 3 4 and 5 6 / 7 8, turned a quarter anticlockwise.
//! let body = GridDescriptor::new(1, 2, 4, 2).to_bytes();
//! let tray = tray::join(&[
//!     [2, 2, 0, 8, 0, 2, 4, 1, 2, 3, 4],
//!     [2, 2, 0, 8, 0, 2, 4, 5, 6, 7, 8],
//! ])?;
//! let turn = PropertyEntry::new(1, true, Property::Irot(Irot::new(1)));
//! let chain = chain::join(&[turn])?;
//! let turned = Scene::grid(&body, &tray, &chain);
//! assert_eq!(scene(&turned)?, [2, 4, 0, 8, 0, 2, 8, 6, 8, 5, 7, 2, 4, 1, 3]);
//!
//! // Its top left place shows the second tile, top right.
//! let answer = point(&turned, 0, 0)?;
//! assert_eq!(answer.shows, Shows::Input { index: 1, x: 1, y: 0 });
//! assert_eq!((answer.exchanged, answer.turns), (false, 1));
//!
//! let refusal = point(&turned, 2, 0).unwrap_err();
//! assert_eq!((refusal.number(), refusal.name()), (18, "point"));
//! # Ok::<(), compose::Refusal>(())
//! ```
//!
//! The marker desk asks which flag a place shows:
//!
//! ```
//! use compose::scene::{Scene, Shows};
//! use compose::{OverlayDescriptor, point, tray};
//!
//! let places = OverlayDescriptor::new([0, 0, 0, 65_535], 8, 4, vec![(0, 0), (5, 1)]);
//! let flag = |sample| [2, 2, 0, 8, 0, 2, 4, sample, sample, sample, sample];
//! let tray = tray::join(&[flag(10), flag(20)])?;
//! let body = places.to_bytes();
//! let desk = Scene::overlay(&body, &tray, &[0], &[0, 0], None);
//! assert_eq!(point(&desk, 6, 2)?.shows, Shows::Input { index: 1, x: 1, y: 1 });
//! assert_eq!(point(&desk, 4, 0)?.shows, Shows::Fill);
//! # Ok::<(), compose::Refusal>(())
//! ```

use crate::lend::composed;
use crate::props::{Colr, CropRect};
use crate::sys::Fresh;
use crate::{Result, plan, sys};

/// What a scene is made of, as bytes.
#[derive(Clone, Copy, Debug)]
#[non_exhaustive]
pub struct Scene<'a> {
    /// The descriptor body.
    pub body: &'a [u8],
    /// The tiles or inputs.
    pub tray: &'a [u8],
    /// The properties.
    pub chain: &'a [u8],
    /// Whether the essential properties alone are applied.
    pub essential_only: bool,
    /// What an overlay has beside; none is a grid.
    pub marks: Option<Marks<'a>>,
}

/// What an overlay has beside its pictures.
#[derive(Clone, Copy, Debug)]
pub struct Marks<'a> {
    /// A byte an input: 0 where its colour is not multiplied by its alpha.
    pub premultiplied: &'a [u8],
    /// What the fill's samples stand for.
    pub colr: Option<&'a Colr>,
}

impl<'a> Scene<'a> {
    /// A grid, every property applied.
    pub fn grid(body: &'a [u8], tray: &'a [u8], chain: &'a [u8]) -> Self {
        Self {
            body,
            tray,
            chain,
            essential_only: false,
            marks: None,
        }
    }

    /// An overlay, every property applied.
    pub fn overlay(
        body: &'a [u8],
        tray: &'a [u8],
        chain: &'a [u8],
        premultiplied: &'a [u8],
        colr: Option<&'a Colr>,
    ) -> Self {
        Self {
            marks: Some(Marks {
                premultiplied,
                colr,
            }),
            ..Self::grid(body, tray, chain)
        }
    }

    /// The same, the essential properties alone or all of them.
    #[must_use]
    pub fn with_essential_only(mut self, essential_only: bool) -> Self {
        self.essential_only = essential_only;
        self
    }
}

/// The final picture's record. Refusals: 5 a tray count that cannot be read; the chain's form; the
/// body's; the counts, tiles or inputs; each applied property's in turn.
pub fn scene(scene: &Scene) -> Result<Vec<u8>> {
    let Scene {
        body, tray, chain, ..
    } = *scene;
    let essential_only = u8::from(scene.essential_only);
    composed(plan::scene(scene), |room| match &scene.marks {
        None => Fresh::compose_grid_scene(body, tray, chain, essential_only, room),
        Some(marks) => {
            let (colour, matrix, full_range) = Colr::words(marks.colr);
            Fresh::compose_overlay_scene(
                body,
                tray,
                chain,
                essential_only,
                marks.premultiplied,
                colour,
                matrix,
                full_range,
                room,
            )
        }
    })
}

/// What a place shows.
#[derive(Clone, Copy, Debug, PartialEq, Eq, Hash)]
pub enum Shows {
    /// The canvas's fill.
    Fill,
    /// A tile or an input, counted from 0, and a column and a row of it.
    Input {
        /// Which.
        index: u32,
        /// The column.
        x: u32,
        /// The row.
        y: u32,
    },
}

/// What the point call answers.
#[derive(Clone, Copy, Debug, PartialEq, Eq)]
pub struct Point {
    /// What the place shows.
    pub shows: Shows,
    /// What the chain leaves of the composed picture.
    pub rectangle: CropRect,
    /// Whether left and right of it are exchanged, before it is turned.
    pub exchanged: bool,
    /// Quarter turns anticlockwise, 0 to 3.
    pub turns: u8,
}

/// What a column and a row of the final picture show. Refusals: as [`scene`] without 16; 18 an
/// overlay input with alpha; 18 an applied iscl; 18 a place outside.
pub fn point(scene: &Scene, column: u32, row: u32) -> Result<Point> {
    let Scene {
        body, tray, chain, ..
    } = *scene;
    let essential_only = u8::from(scene.essential_only);
    let mut words = [0; 10];
    match &scene.marks {
        None => sys::compose_grid_point(body, tray, chain, essential_only, column, row, &mut words),
        Some(marks) => {
            let (colour, matrix, full_range) = Colr::words(marks.colr);
            sys::compose_overlay_point(
                body,
                tray,
                chain,
                essential_only,
                marks.premultiplied,
                colour,
                matrix,
                full_range,
                column,
                row,
                &mut words,
            )
        }
    }?;
    let [
        some,
        index,
        spot_x,
        spot_y,
        x,
        y,
        width,
        height,
        exchanged,
        turns,
    ] = words;
    Ok(Point {
        shows: match some {
            0 => Shows::Fill,
            _ => Shows::Input {
                index,
                x: spot_x,
                y: spot_y,
            },
        },
        rectangle: CropRect {
            x,
            y,
            width,
            height,
        },
        exchanged: exchanged != 0,
        turns: turns as u8,
    })
}
