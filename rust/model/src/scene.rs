//! The scene calls, and a chain on one record (document 01, "The scene call" and "Refusals in
//! order").

use crate::chain::{Entry, Property, parse_chain};
use crate::composite::{composite_grid, composite_overlay};
use crate::derived::{parse_grid, parse_overlay};
use crate::operation::Operation;
use crate::oracle::{Colour, Grid, Overlay, OverlayInput};
use crate::record::{Frame, parse_record, parse_tray, tray_count};
use crate::refusal::{self, Refusal};

/// What scene and point calls are handed, for grids and overlays alike.
#[derive(Clone, Copy, Debug)]
pub struct SceneParts<'a> {
    pub body: &'a [u8],
    pub tray: &'a [u8],
    pub chain: &'a [u8],
    pub essential_only: bool,
}

/// What an overlay is handed beside: a premultiplied list and a colour description.
#[derive(Clone, Copy, Debug)]
pub struct Marks<'a> {
    pub premultiplied: &'a [u8],
    pub colour: Option<Colour>,
}

/// What a scene call writes.
#[derive(Clone, Debug, PartialEq, Eq)]
pub struct Scene {
    pub record: Vec<u8>,
    /// The longest of the composed and step records: output and spare must have it.
    pub room: usize,
}

impl AsRef<[u8]> for Scene {
    fn as_ref(&self) -> &[u8] {
        &self.record
    }
}

impl Scene {
    /// The answer, then what output and spare of some lengths hold after it: the record and zeros,
    /// zeros alone. 17 where either is shorter than the room.
    pub fn lent(self, output: usize, spare: usize) -> Result<(usize, [Vec<u8>; 2]), Refusal> {
        if output < self.room || spare < self.room {
            return Err(refusal::ROOM);
        }
        let (length, mut record) = (self.record.len(), self.record);
        record.resize(output, 0);
        Ok((length, [record, vec![0; spare]]))
    }
}

impl Entry {
    /// What an entry of a chain does; none where it is skipped.
    pub fn applied(&self, essential_only: bool) -> Option<Operation> {
        if essential_only && !self.essential {
            return None;
        }
        match self.property {
            Property::Other => None,
            Property::Clap(clap) => Some(Operation::Clap(clap)),
            Property::Irot(angle) => Some(Operation::Irot(angle)),
            Property::Imir(axis) => Some(Operation::Imir(axis)),
            Property::Iscl(fields) => Some(Operation::Iscl(fields)),
        }
    }
}

/// What the entries of a chain that are applied do, each with its index in the chain.
pub(crate) fn applied(
    chain: &[Entry],
    essential_only: bool,
) -> impl Iterator<Item = (usize, Operation)> {
    let applied = move |(index, entry): (usize, &Entry)| {
        let operation = entry.applied(essential_only)?;
        Some((index, operation))
    };
    chain.iter().enumerate().filter_map(applied)
}

/// The chain on a composed picture, entry by entry, each with refusals of its own.
fn run_chain(composed: Frame, chain: &[Entry], essential_only: bool) -> Result<Scene, Refusal> {
    let mut frame = composed;
    let mut record = frame.record();
    let mut room = record.len();
    for (index, operation) in applied(chain, essential_only) {
        let made = operation.apply(&frame);
        frame = made.map_err(|refusal| refusal.of_entry(index))?;
        record = frame.record();
        room = room.max(record.len());
    }
    Ok(Scene { record, room })
}

/// Chain, grid and tiles: 5 tray count, the chain's form, the body, 11, the records in turn.
pub(crate) fn read_grid(parts: &SceneParts) -> Result<(Vec<Entry>, Grid, Vec<Frame>), Refusal> {
    let count = tray_count(parts.tray)?;
    let chain = parse_chain(parts.chain)?;
    let grid = parse_grid(parts.body)?;
    if count as usize != grid.cells() {
        return Err(refusal::COUNT);
    }
    Ok((chain, grid, parse_tray(parts.tray)?))
}

/// Chain, overlay and inputs: 5 tray count, the chain's form, the body and its offsets, 15, 11, the
/// records in turn.
pub(crate) fn read_overlay(
    parts: &SceneParts,
    premultiplied: &[u8],
) -> Result<(Vec<Entry>, Overlay, Vec<OverlayInput>), Refusal> {
    let count = tray_count(parts.tray)? as usize;
    let chain = parse_chain(parts.chain)?;
    let overlay = parse_overlay(parts.body, count)?;
    if count == 0 {
        return Err(refusal::MISSING);
    }
    if premultiplied.len() != count {
        return Err(refusal::COUNT);
    }
    let frames = parse_tray(parts.tray)?.into_iter().zip(premultiplied);
    let inputs = frames.map(|(frame, byte)| OverlayInput {
        frame,
        premultiplied: *byte != 0,
    });
    Ok((chain, overlay, inputs.collect()))
}

/// The grid scene. 17 is judged when its buffers are lent ([`Scene::lent`]).
pub fn grid_scene(parts: &SceneParts) -> Result<Scene, Refusal> {
    let (chain, grid, tiles) = read_grid(parts)?;
    let composed = composite_grid(&grid, &tiles)?;
    run_chain(composed, &chain, parts.essential_only)
}

/// The overlay scene.
pub fn overlay_scene(parts: &SceneParts, marks: &Marks) -> Result<Scene, Refusal> {
    let (chain, overlay, inputs) = read_overlay(parts, marks.premultiplied)?;
    let composed = composite_overlay(&overlay, &inputs, marks.colour)?;
    run_chain(composed, &chain, parts.essential_only)
}

/// A chain on one record, which an empty chain writes tight: the record's refusals, the chain's
/// form, the entries' in turn. 17 and the buffers are a scene's.
pub fn transforms(record: &[u8], chain: &[u8], essential_only: bool) -> Result<Scene, Refusal> {
    let frame = parse_record(record)?;
    let chain = parse_chain(chain)?;
    run_chain(frame.tightened(), &chain, essential_only)
}
