//! The two shapes of frames that the crate `compose` has, with the same operations.

use compose::props::{Colr, Imir, Irot, PropertyEntry};
use compose::recorded::{self, RecordFrame};
use compose::{GridCanvas, GridDescriptor, HeifFrame, OverlayDescriptor, Result};
use differential::shaped::{clap, iscl};
use model::{Frame, Operation};

/// What is a shape's own.
pub trait Own: Sized + 'static {
    fn of(frame: &Frame) -> Self;
    /// Whether it is a frame.
    fn judge(&self) -> Result<()>;
}

impl Own for HeifFrame {
    fn of(frame: &Frame) -> Self {
        Self::from_record(&frame.record()).expect("a record")
    }

    fn judge(&self) -> Result<()> {
        self.validate()
    }
}

impl Own for RecordFrame<'static> {
    fn of(frame: &Frame) -> Self {
        Self::from_record(frame.record()).expect("a record")
    }

    fn judge(&self) -> Result<()> {
        RecordFrame::from_record(self.as_record()).map(drop)
    }
}

/// A frame in one of them, and the operations.
pub trait Shape: Own {
    fn operation(&self, operation: Operation) -> Result<Self>;
    fn attach(&self, alpha: &Self) -> Result<Self>;
    fn chain(&self, chain: &[PropertyEntry]) -> Result<Self>;
    fn grid(desc: &GridDescriptor, tiles: &[Self]) -> Result<Self>;
    /// A grid's cells placed from the last to the first.
    fn session(desc: &GridDescriptor, tiles: &[Self]) -> Result<Self>;
    /// Each input with whether it is premultiplied.
    fn overlay(
        desc: &OverlayDescriptor,
        inputs: &[(Self, bool)],
        colr: Option<&Colr>,
    ) -> Result<Self>;
}

/// A shape whose operations are a module's.
macro_rules! shape {
    ($frame:ty, $functions:ident, $place:ident, $finish:ident) => {
        impl Shape for $frame {
            fn operation(&self, operation: Operation) -> Result<Self> {
                match operation {
                    Operation::Crop(crop) => {
                        let to = crop.rectangle;
                        $functions::crop(self, to.x, to.y, to.width, to.height)
                    }
                    Operation::Clap(fields) => $functions::apply_clap(self, &clap(&fields)),
                    Operation::Irot(angle) => $functions::apply_irot(self, &Irot::new(angle)),
                    Operation::Imir(axis) => $functions::apply_imir(self, &Imir::new(axis)),
                    Operation::Iscl(fields) => $functions::apply_iscl(self, &iscl(&fields)),
                    Operation::Nearest(width, height) => {
                        $functions::resize_nearest(self, width, height)
                    }
                    Operation::Depth(depth) => $functions::rescale_depth(self, depth as u8),
                }
            }

            fn attach(&self, alpha: &Self) -> Result<Self> {
                $functions::attach_alpha(self, alpha)
            }

            fn chain(&self, chain: &[PropertyEntry]) -> Result<Self> {
                $functions::apply_transforms(self, chain, false)
            }

            fn grid(desc: &GridDescriptor, tiles: &[Self]) -> Result<Self> {
                $functions::composite_grid(desc, tiles)
            }

            fn session(desc: &GridDescriptor, tiles: &[Self]) -> Result<Self> {
                let mut canvas = GridCanvas::new(desc);
                for (index, tile) in tiles.iter().enumerate().rev() {
                    canvas.$place(index, tile)?;
                }
                canvas.$finish()
            }

            fn overlay(
                desc: &OverlayDescriptor,
                inputs: &[(Self, bool)],
                colr: Option<&Colr>,
            ) -> Result<Self> {
                let inputs: Vec<_> = inputs
                    .iter()
                    .map(|(frame, premultiplied)| {
                        $functions::OverlayInput::new(frame, *premultiplied)
                    })
                    .collect();
                $functions::composite_overlay(desc, &inputs, colr)
            }
        }
    };
}

shape!(HeifFrame, compose, place, finish);
shape!(RecordFrame<'static>, recorded, place_record, finish_record);
