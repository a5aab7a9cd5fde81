//! What documents 01 and 02 want of a call, refusals in their order, with the pictures worked by the
//! oracle. Where a paper adds a refusal that the published Rust lacks, it is judged here, and so are the
//! items that have their own.

use crate::refusals;
use model::{
    Canvas, CanvasState, Colour, Crop, Entry, Frame, Grid, Iscl, MAX_ENTRIES, Margins, Marks,
    Operation, Oracle, Outcome, Overlay, OverlayInput, Property, Reader, Refusal, Scene,
    SceneParts, Size, parse_chain, parse_record, parse_steps, parse_untested, push_number, refusal,
    steps_text, tray_count, untested_tray,
};
use std::cell::Cell;

/// Why a call wrote nothing.
#[derive(Clone, Debug, PartialEq, Eq)]
pub enum Stop {
    /// A refusal of document 01.
    Refused(Refusal),
    /// The oracle panicked, or gave an error that has no number.
    Broke(String),
    /// A legal picture that is too large to be worked here.
    Large,
}

/// What a call answers.
pub type Want<T> = Result<T, Stop>;

impl From<Refusal> for Stop {
    fn from(refusal: Refusal) -> Self {
        Self::Refused(refusal)
    }
}

impl Stop {
    /// A refusal as the own one of a record of the tray.
    pub(crate) fn of_record(self, index: usize) -> Self {
        match self {
            Self::Refused(refusal) => Self::Refused(refusal.of_record(index)),
            other => other,
        }
    }

    /// A refusal as the own one of an entry of the chain.
    pub(crate) fn of_entry(self, index: usize) -> Self {
        match self {
            Self::Refused(refusal) => Self::Refused(refusal.of_entry(index)),
            other => other,
        }
    }
}

/// The pixel limit L of document 01.
const MAX_PIXELS: u64 = 1 << 30;
/// The longest side that a changing iscl admits.
const MAX_SCALED_SIDE: u32 = 1 << 26;
/// The most pixels that a comparison works on.
const LARGE: u64 = 1 << 20;

/// An outcome of the oracle, its errors as refusals of no item.
pub fn settle<T>(outcome: Outcome<T>) -> Want<T> {
    match outcome {
        Outcome::Done(answer) => Ok(answer),
        Outcome::Error(text) => match refusals::refusal(&text) {
            Some(refusal) => Err(Stop::Refused(refusal)),
            None => Err(Stop::Broke(text)),
        },
        Outcome::Panic(text) => Err(Stop::Broke(text)),
    }
}

/// Passes over a legal size that takes too long or too much memory.
fn bearable(width: u32, height: u32) -> Want<()> {
    let pixels = u64::from(width) * u64::from(height);
    if pixels > LARGE && pixels <= MAX_PIXELS {
        return Err(Stop::Large);
    }
    Ok(())
}

/// The frame of a record, its planes held to the header by `HeifFrame::validate`.
pub fn record(oracle: &dyn Oracle, bytes: &[u8]) -> Want<Frame> {
    let frame = parse_untested(bytes)?;
    settle(oracle.validate(&frame))?;
    Ok(frame)
}

/// The frames of a tray, the planes of each held to its header by `HeifFrame::validate`, in turn. What
/// stops the reading is the own refusal of the record after those that were read, if the tray has more.
pub fn tray(oracle: &dyn Oracle, bytes: &[u8]) -> Want<Vec<Frame>> {
    let (frames, end) = untested_tray(bytes);
    for (index, frame) in frames.iter().enumerate() {
        settle(oracle.validate(frame)).map_err(|stop| stop.of_record(index))?;
    }
    let Err(Refusal { number, .. }) = end else {
        return Ok(frames);
    };
    let (read, count) = (frames.len(), tray_count(bytes)? as usize);
    let stop = Stop::Refused(Refusal::new(number));
    Err(match read < count {
        true => stop.of_record(read),
        false => stop,
    })
}

/// Rows and columns of tiles: 19 outside 1 to 256 (document 02, A4).
pub(crate) fn hold_tiles(tiles: [u32; 2]) -> Want<()> {
    match tiles {
        [1..=256, 1..=256] => Ok(()),
        _ => Err(Stop::Refused(refusal::TILING)),
    }
}

/// A body that was written; the published Rust's `read` of it must be the fields.
fn read_back<T: PartialEq>(body: Vec<u8>, read: Outcome<T>, fields: &T) -> Want<Vec<u8>> {
    match settle(read)? == *fields {
        true => Ok(body),
        false => Err(Stop::Broke("other fields are read back".into())),
    }
}

/// The body of a grid: 19; then 3 and 4, with which the published Rust refuses to read what it wrote.
pub fn grid_body(oracle: &dyn Oracle, tiles: [u32; 2], (width, height): Size) -> Want<Vec<u8>> {
    hold_tiles(tiles)?;
    let [rows, columns] = tiles.map(|count| count as u16);
    let grid = Grid {
        rows,
        columns,
        width,
        height,
    };
    let body = settle(oracle.write_grid(&grid))?;
    let read = oracle.parse_grid(&body);
    read_back(body, read, &grid)
}

/// The body of an overlay: 3, 4 and 4 as [`grid_body`] has them; then 15, which the published Rust does
/// not have here.
pub fn overlay_body(oracle: &dyn Oracle, overlay: &Overlay) -> Want<Vec<u8>> {
    let body = settle(oracle.write_overlay(overlay))?;
    let read = oracle.parse_overlay(&body, overlay.offsets.len());
    let body = read_back(body, read, overlay)?;
    match overlay.offsets.is_empty() {
        true => Err(Stop::Refused(refusal::MISSING)),
        false => Ok(body),
    }
}

/// The most that each number of an entry may be, by its kind: essential, then the fields.
const ENTRIES: [&[u32]; 5] = [
    &[1],
    &[1, MOST, MOST, MOST, MOST, MOST, MOST, MOST, MOST],
    &[1, 255],
    &[1, 255],
    &[1, 65_535, 65_535, 65_535, 65_535],
];
const MOST: u32 = u32::MAX;

/// Whether an entry can be read.
fn has_entry(reader: &mut Reader) -> bool {
    let kind = reader.number().ok();
    let most = kind.and_then(|kind| ENTRIES.get(kind as usize));
    most.is_some_and(|most| most.iter().all(|most| reader.number_to(*most).is_ok()))
}

/// The entries of a chain, which the published Rust does not read from bytes.
pub fn chain(bytes: &[u8]) -> Want<Vec<Entry>> {
    let mut reader = Reader::new(bytes);
    let count = reader.number()?;
    if count > MAX_ENTRIES {
        return Err(Stop::Refused(refusal::LIMIT));
    }
    for index in 0..count as usize {
        if !has_entry(&mut reader) {
            return Err(Stop::Refused(refusal::MALFORMED.of_entry(index)));
        }
    }
    reader.end()?;
    parse_chain(bytes).map_err(|refusal| Stop::Broke(format!("the model's reading: {refusal:?}")))
}

/// A size that an iscl made of another: 4, only where it changes, above L or where a side before or
/// after exceeds 2^26.
fn scaled(before: Size, after: Size) -> Want<Size> {
    let sides = [before.0, before.1, after.0, after.1];
    let above = u64::from(after.0) * u64::from(after.1) > MAX_PIXELS
        || sides.iter().any(|side| *side > MAX_SCALED_SIDE);
    if before != after && above {
        return Err(Stop::Refused(refusal::LIMIT));
    }
    Ok(after)
}

/// The size that an iscl makes of a size.
pub fn iscl_size(oracle: &dyn Oracle, iscl: &Iscl, before: Size) -> Want<Size> {
    scaled(before, settle(oracle.iscl_size(iscl, before.0, before.1))?)
}

fn iscl(oracle: &dyn Oracle, frame: &Frame, iscl: &Iscl) -> Want<Frame> {
    let before = (frame.width, frame.height);
    let (width, height) = iscl_size(oracle, iscl, before)?;
    if (width, height) == before {
        return Ok(frame.clone());
    }
    bearable(width, height)?;
    settle(oracle.apply_iscl(frame, iscl))
}

/// The size after one entry by `ItemProperties::output_size`, which lacks iscl's 4.
fn size_after(oracle: &dyn Oracle, entry: &Entry, before: Size) -> Want<Size> {
    let after = settle(oracle.chain_size(&[*entry], before, false))?;
    match entry.property {
        Property::Iscl(_) => scaled(before, after),
        _ => Ok(after),
    }
}

/// The text that the steps program prints. The sizes of a whole chain that has no 4 are held against
/// `ItemProperties::output_size`.
pub fn steps(oracle: &dyn Oracle, input: &[u8]) -> Want<Vec<u8>> {
    let last = Cell::new(None);
    let text = steps_text(input, |entry, before| {
        let after = match size_after(oracle, entry, before) {
            Ok(size) => Ok(size),
            Err(Stop::Refused(refusal)) => Err(refusal),
            Err(other) => return Err(other),
        };
        last.set(Some(after));
        Ok(after)
    })?;
    if let Ok((size, chain)) = parse_steps(input)
        && let Some(last) = last.get()
        && last != Err(refusal::LIMIT)
    {
        let whole = settle(oracle.chain_size(&chain, size, false));
        if whole != last.map_err(Stop::Refused) {
            return Err(Stop::Broke("output_size departs from its steps".into()));
        }
    }
    Ok(text.into_bytes())
}

/// A crop. The published Rust has no margins: where it takes the rectangle, they are held to what lies
/// about that.
fn crop(oracle: &dyn Oracle, frame: &Frame, to: &Crop) -> Want<Frame> {
    let rectangle = to.rectangle;
    let made = settle(oracle.crop(frame, &rectangle))?;
    let margins = Margins {
        left: rectangle.x,
        top: rectangle.y,
        right: frame.width - rectangle.width - rectangle.x,
        bottom: frame.height - rectangle.height - rectangle.y,
    };
    match to.margins == margins {
        true => Ok(made),
        false => Err(Stop::Refused(refusal::OUTSIDE)),
    }
}

/// The picture that `operation` makes of `frame`.
fn apply(oracle: &dyn Oracle, frame: &Frame, operation: &Operation) -> Want<Frame> {
    match operation {
        Operation::Crop(to) => crop(oracle, frame, to),
        Operation::Clap(clap) => settle(oracle.apply_clap(frame, clap)),
        Operation::Irot(angle) => settle(oracle.apply_irot(frame, *angle)),
        Operation::Imir(axis) => settle(oracle.apply_imir(frame, *axis)),
        Operation::Iscl(fields) => iscl(oracle, frame, fields),
        Operation::Nearest(width, height) => {
            bearable(*width, *height)?;
            settle(oracle.resize_nearest(frame, *width, *height))
        }
        Operation::Depth(depth) => {
            let depth = u8::try_from(*depth).map_err(|_| refusal::DEPTH)?;
            settle(oracle.rescale_depth(frame, depth))
        }
    }
}

/// The record that a single operation writes.
pub fn operation(oracle: &dyn Oracle, record: &[u8], operation: &Operation) -> Want<Vec<u8>> {
    let frame = parse_record(record)?;
    Ok(apply(oracle, &frame, operation)?.record())
}

/// The record that `attach_alpha` writes: the master's refusals, then the alpha's.
pub fn attach(oracle: &dyn Oracle, master: &[u8], alpha: &[u8]) -> Want<Vec<u8>> {
    let master = parse_record(master)?;
    let alpha = parse_record(alpha)?;
    Ok(settle(oracle.attach_alpha(&master, &alpha))?.record())
}

/// The three numbers of a fill, or 6.
pub fn fill(
    oracle: &dyn Oracle,
    fill: [u16; 3],
    depth: u32,
    colour: Option<Colour>,
) -> Want<[u16; 3]> {
    if !(8..=16).contains(&depth) {
        return Err(Stop::Refused(refusal::DEPTH));
    }
    settle(oracle.fill_to_ycbcr(fill, depth as u8, colour))
}

/// The entries of a chain that are applied, each with its index and what it does.
fn applied(
    chain: &[Entry],
    essential_only: bool,
) -> impl Iterator<Item = (usize, &Entry, Operation)> {
    let entries = chain.iter().enumerate();
    entries.filter_map(move |(index, entry)| Some((index, entry, entry.applied(essential_only)?)))
}

/// The applied entries of a chain in turn. The whole is held against `apply_transforms`.
fn run_chain(
    oracle: &dyn Oracle,
    composed: Frame,
    chain: &[Entry],
    essential_only: bool,
) -> Want<Scene> {
    let mut frame = composed.clone();
    let mut record = frame.record();
    let mut room = record.len();
    for (index, _, operation) in applied(chain, essential_only) {
        let made = apply(oracle, &frame, &operation);
        frame = made.map_err(|stop| stop.of_entry(index))?;
        record = frame.record();
        room = room.max(record.len());
    }
    let whole = settle(oracle.apply_transforms(&composed, chain, essential_only))?;
    if whole != frame {
        return Err(Stop::Broke(
            "apply_transforms departs from its steps".into(),
        ));
    }
    Ok(Scene { record, room })
}

/// Chain, grid and tiles: 5 tray count, the chain's form, the body, 11, the records.
fn read_grid(oracle: &dyn Oracle, parts: &SceneParts) -> Want<(Vec<Entry>, Grid, Vec<Frame>)> {
    let count = tray_count(parts.tray)?;
    let chain = chain(parts.chain)?;
    let grid = settle(oracle.parse_grid(parts.body))?;
    if count as usize != grid.cells() {
        return Err(Stop::Refused(refusal::COUNT));
    }
    Ok((chain, grid, tray(oracle, parts.tray)?))
}

/// The tiles of a grid composed: 12, then 13 and 14 of the tile that the error's text names.
pub(crate) fn compose_grid(oracle: &dyn Oracle, grid: &Grid, tiles: &[Frame]) -> Want<Frame> {
    bearable(grid.width, grid.height)?;
    let composed = oracle.composite_grid(grid, tiles);
    let tile = match &composed {
        Outcome::Error(text) => refusals::tile(text),
        _ => None,
    };
    settle(composed).map_err(|stop| match tile {
        Some(tile) => stop.of_record(tile),
        None => stop,
    })
}

/// The grid scene: as it is read, 12 to 14, then the entries in turn. 17 is the caller's to judge from
/// the room.
pub fn grid_scene(oracle: &dyn Oracle, parts: &SceneParts) -> Want<Scene> {
    let (chain, grid, tiles) = read_grid(oracle, parts)?;
    let composed = compose_grid(oracle, &grid, &tiles)?;
    run_chain(oracle, composed, &chain, parts.essential_only)
}

/// Whether any alpha sample of `frame` lies above top.
pub fn alpha_above_top(frame: &Frame) -> bool {
    frame.alpha != 0
        && frame
            .samples(frame.chroma.colour_planes())
            .iter()
            .any(|sample| *sample > frame.top())
}

/// Chain, overlay and inputs: 5 tray count, the chain's form, the body with its offsets, 15, 11, the
/// records, then 14 over all inputs.
fn read_overlay(
    oracle: &dyn Oracle,
    parts: &SceneParts,
    premultiplied: &[u8],
) -> Want<(Vec<Entry>, Overlay, Vec<OverlayInput>)> {
    let count = tray_count(parts.tray)? as usize;
    let chain = chain(parts.chain)?;
    let overlay = settle(oracle.parse_overlay(parts.body, count))?;
    if count == 0 {
        return Err(Stop::Refused(refusal::MISSING));
    }
    if premultiplied.len() != count {
        return Err(Stop::Refused(refusal::COUNT));
    }
    let inputs: Vec<OverlayInput> = tray(oracle, parts.tray)?
        .into_iter()
        .zip(premultiplied)
        .map(|(frame, byte)| OverlayInput {
            frame,
            premultiplied: *byte != 0,
        })
        .collect();
    let depth = inputs[0].frame.depth;
    hold_inputs(&inputs, refusal::FORM, |frame| frame.depth == depth)?;
    Ok((chain, overlay, inputs))
}

/// The refusal of the lowest input that does not `pass`, if there is one.
pub(crate) fn hold_inputs(
    inputs: &[OverlayInput],
    refusal: Refusal,
    passes: impl Fn(&Frame) -> bool,
) -> Want<()> {
    for (index, input) in inputs.iter().enumerate() {
        if !passes(&input.frame) {
            return Err(Stop::Refused(refusal.of_record(index)));
        }
    }
    Ok(())
}

/// The overlay scene: as it is read, 16 over all inputs, then the entries in turn.
pub fn overlay_scene(oracle: &dyn Oracle, parts: &SceneParts, marks: &Marks) -> Want<Scene> {
    let (chain, overlay, inputs) = read_overlay(oracle, parts, marks.premultiplied)?;
    hold_inputs(&inputs, refusal::ALPHA, |frame| !alpha_above_top(frame))?;
    bearable(overlay.width, overlay.height)?;
    let composed = settle(oracle.composite_overlay(&overlay, &inputs, marks.colour))?;
    run_chain(oracle, composed, &chain, parts.essential_only)
}

/// The final size of a point call, before its place is judged: as it is read, 12 to 14 or 18 for an
/// input with alpha, then the entries in turn, 18 for an iscl.
pub fn point(oracle: &dyn Oracle, parts: &SceneParts, marks: Option<&Marks>) -> Want<Size> {
    let (chain, mut size) = match marks {
        Some(marks) => {
            let (chain, overlay, inputs) = read_overlay(oracle, parts, marks.premultiplied)?;
            hold_inputs(&inputs, refusal::POINT, |frame| frame.alpha == 0)?;
            (chain, (overlay.width, overlay.height))
        }
        None => {
            let (chain, grid, tiles) = read_grid(oracle, parts)?;
            let composed = compose_grid(oracle, &grid, &tiles)?;
            (chain, (composed.width, composed.height))
        }
    };
    for (index, entry, _) in applied(&chain, parts.essential_only) {
        let after = match entry.property {
            Property::Iscl(_) => Err(Stop::Refused(refusal::POINT)),
            _ => size_after(oracle, entry, size),
        };
        size = after.map_err(|stop| stop.of_entry(index))?;
    }
    Ok(size)
}

/// A chain on one record: the record's refusals, the chain's form, the entries in turn, from the
/// tight record on. The whole is held against `apply_transforms` on the record as it is, too.
pub fn transforms(
    oracle: &dyn Oracle,
    record: &[u8],
    chain: &[u8],
    essential_only: bool,
) -> Want<Scene> {
    let frame = parse_record(record)?;
    let entries = self::chain(chain)?;
    let tight = settle(oracle.tight(&frame))?;
    let made = run_chain(oracle, tight, &entries, essential_only)?;
    let whole = settle(oracle.apply_transforms(&frame, &entries, essential_only))?;
    if settle(oracle.tight(&whole))?.record() != made.record {
        return Err(Stop::Broke(
            "apply_transforms departs from its steps on a tight record".into(),
        ));
    }
    Ok(made)
}

/// The length of what an operation writes that ends with the form of `frame`, a mirror: `frame` is
/// of that form, with strides and data of any length.
pub fn record_size(oracle: &dyn Oracle, frame: &Frame) -> Want<u64> {
    let mirrored = settle(oracle.apply_imir(frame, 0))?;
    Ok(mirrored.record().len() as u64)
}

/// One call of a canvas session.
#[derive(Clone, Copy, Debug, PartialEq, Eq)]
pub enum Call<'a> {
    /// A cell and a record.
    Place(u32, &'a [u8]),
    Blank(u32),
    Finish,
}

/// What one call of a session answers and leaves.
#[derive(Clone, Debug, PartialEq, Eq)]
pub struct Event {
    /// The record's length from a finish, else 0.
    pub answer: Want<usize>,
    /// The lent buffer as far as it is written, once it is.
    pub buffer: Option<Vec<u8>>,
    /// The state's ten numbers: rows, columns, width, height; the first tile's width, height,
    /// chroma, depth and alpha; whether a tile had alpha.
    pub numbers: [u64; 10],
    /// The marks of the cells.
    pub placed: Vec<bool>,
}

/// The ten numbers that a session's state begins with.
fn state_numbers(grid: &Grid, state: &CanvasState) -> [u64; 10] {
    let [rows, columns] = [grid.rows, grid.columns].map(u64::from);
    let tile = state.tile.as_ref().map_or([0; 5], |tile| {
        let [chroma, depth, alpha] = [tile.chroma as u8, tile.depth, tile.alpha].map(u32::from);
        [tile.width, tile.height, chroma, depth, alpha]
    });
    let alpha = state.canvas.as_ref().map_or(0, |canvas| canvas.alpha);
    let [width, height] = [grid.width, grid.height].map(u64::from);
    let [tile_width, tile_height, chroma, depth, tile_alpha] = tile.map(u64::from);
    [
        rows,
        columns,
        width,
        height,
        tile_width,
        tile_height,
        chroma,
        depth,
        tile_alpha,
        u64::from(alpha),
    ]
}

/// Places a tile or a blank: 11 first (after 15 for a blank), then the record, then 12 to 14.
fn place(canvas: &mut dyn Canvas, grid: &Grid, call: &Call) -> Want<()> {
    match call {
        Call::Place(index, _) if *index as usize >= grid.cells() => {
            Err(Stop::Refused(refusal::COUNT))
        }
        Call::Place(index, record) => {
            let tile = parse_record(record)?;
            settle(canvas.place(*index as usize, &tile))
        }
        Call::Blank(index) => settle(canvas.place_blank(*index as usize)),
        Call::Finish => Ok(()),
    }
}

/// The picture of another session that is finished after the same calls.
pub fn finished(oracle: &dyn Oracle, grid: &Grid, calls: &[Call]) -> Want<Frame> {
    let mut canvas = oracle.canvas(grid);
    for call in calls {
        // What it answers is the session's own to say.
        let _ = place(&mut *canvas, grid, call);
    }
    settle(canvas.finish())
}

/// What each call of a session answers and leaves. Finishing takes the oracle's session with it,
/// so a finish is asked of another one that has had the same calls.
pub fn session(oracle: &dyn Oracle, grid: &Grid, calls: &[Call]) -> Vec<Event> {
    let mut canvas = oracle.canvas(grid);
    let mut events = Vec::new();
    for (at, call) in calls.iter().enumerate() {
        let answer = if *call == Call::Finish {
            finished(oracle, grid, &calls[..at]).map(|picture| picture.record().len())
        } else {
            place(&mut *canvas, grid, call).map(|()| 0)
        };
        let state = canvas.state();
        events.push(Event {
            answer,
            buffer: canvas_buffer(&state),
            numbers: state_numbers(grid, &state),
            placed: state.placed,
        });
    }
    events
}

/// What the session's lent buffer holds from the first accepted place on: the tight canvas record,
/// and behind one without alpha the reserved alpha plane, its samples at top.
pub fn canvas_buffer(state: &CanvasState) -> Option<Vec<u8>> {
    let canvas = state.canvas.as_ref()?;
    let mut buffer = canvas.record();
    if canvas.alpha == 0 {
        let row = canvas.width as usize * canvas.sample_bytes();
        let length = row * canvas.height as usize;
        push_number(&mut buffer, row as u32);
        push_number(&mut buffer, length as u32);
        let top = canvas.top().to_le_bytes();
        buffer.extend(top[..canvas.sample_bytes()].iter().cycle().take(length));
    }
    Some(buffer)
}
