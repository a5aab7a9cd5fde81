//! The canvas session, and what it holds between two calls. `GridCanvas` keeps its fields to
//! itself but prints all of them, so the state is read from what it prints.

use crate::calls::{descriptor, picture, published};
use crate::compose::GridCanvas;
use model::{Canvas, CanvasState, Chroma, Frame, Grid, Outcome, Plane, TileForm, attempt};
use std::str::FromStr;

/// A running session.
pub struct Session(GridCanvas);

impl Session {
    pub fn start(grid: &Grid) -> Self {
        Self(GridCanvas::new(&descriptor(grid)))
    }
}

impl Canvas for Session {
    fn place(&mut self, index: usize, tile: &Frame) -> Outcome<()> {
        attempt(|| self.0.place(index, &published(tile)))
    }

    fn place_blank(&mut self, index: usize) -> Outcome<()> {
        attempt(|| self.0.place_blank(index))
    }

    fn finish(self: Box<Self>) -> Outcome<Frame> {
        picture(|| self.0.finish())
    }

    fn state(&self) -> CanvasState {
        let text = format!("{:?}", self.0);
        let mut print = Print(&text);
        print.after("tile: ");
        let tile = print.option(Print::tile);
        print.after("canvas: ");
        let canvas = print.option(Print::frame);
        print.after("placed: [");
        let placed = print.items();
        CanvasState {
            tile,
            canvas,
            placed,
        }
    }
}

/// A derived `Debug` print, read from the front. A print of another shape ends the run.
struct Print<'a>(&'a str);

impl<'a> Print<'a> {
    /// Passes over everything up to and including `mark`.
    fn after(&mut self, mark: &str) {
        let (_, rest) = self.0.split_once(mark).unwrap_or_else(|| {
            panic!("the canvas prints no {mark:?} where one is due");
        });
        self.0 = rest;
    }

    /// A word of letters, digits and underscores.
    fn word<T: FromStr>(&mut self) -> T {
        let end = self
            .0
            .find(|c: char| !c.is_ascii_alphanumeric() && c != '_')
            .unwrap_or(self.0.len());
        let (word, rest) = self.0.split_at(end);
        self.0 = rest;
        word.parse()
            .unwrap_or_else(|_| panic!("the canvas prints {word:?} where a value is due"))
    }

    /// The field `name`.
    fn field<T: FromStr>(&mut self, name: &str) -> T {
        self.after(name);
        self.after(": ");
        self.word()
    }

    fn option<T>(&mut self, some: impl FnOnce(&mut Self) -> T) -> Option<T> {
        (!self.0.starts_with("None")).then(|| some(self))
    }

    /// The words of a list, from behind its opening bracket to behind its closing one.
    fn items<T: FromStr>(&mut self) -> Vec<T> {
        let mut items = Vec::new();
        while !self.0.starts_with(']') {
            items.push(self.word());
            self.0 = self.0.trim_start_matches([',', ' ']);
        }
        self.after("]");
        items
    }

    /// Chroma, depth and alpha of a pixel format.
    fn format(&mut self) -> (Chroma, u8, u8) {
        let name: String = self.field("chroma");
        let chroma = Chroma::ALL
            .into_iter()
            .find(|chroma| format!("{chroma:?}") == name)
            .unwrap_or_else(|| panic!("the canvas prints chroma {name:?}"));
        (
            chroma,
            self.field("bit_depth"),
            u8::from(self.field::<bool>("has_alpha")),
        )
    }

    fn tile(&mut self) -> TileForm {
        self.after("Some((");
        let width = self.word();
        self.after(", ");
        let height = self.word();
        let (chroma, depth, alpha) = self.format();
        self.after("}, ");
        TileForm {
            width,
            height,
            chroma,
            depth,
            alpha,
            promoted: self.word(),
        }
    }

    fn frame(&mut self) -> Frame {
        let width = self.field("width");
        let height = self.field("height");
        let (chroma, depth, alpha) = self.format();
        let mut frame = Frame::empty((width, height), chroma, depth, alpha);
        self.after("planes: [");
        while !self.0.starts_with(']') {
            let stride = self.field("stride");
            self.after("data: [");
            frame.planes.push(Plane {
                stride,
                data: self.items(),
            });
            self.after("}");
            self.0 = self.0.trim_start_matches([',', ' ']);
        }
        frame
    }
}
