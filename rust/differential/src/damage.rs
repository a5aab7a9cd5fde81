//! Broken inputs: numbers in forms that document 01 calls malformed, records, trays, chains and scenes
//! with faults whose refusal is known, margins that are not a crop's, and blind damage.

use crate::generate;
use crate::rng::Rng;
use model::{
    Chroma, Clap, Colour, Crop, Entry, Frame, Grid, Iscl, Item, MAX_ENTRIES, Marks, Overlay,
    Property, Rectangle, Refusal, SceneParts, Size, chain_bytes, grid_bytes, number_bytes,
    overlay_bytes, refusal,
};
use std::ops::Range;

/// Values at each length boundary of a house number.
pub const BOUNDARIES: [u32; 12] = [
    0,
    1,
    127,
    128,
    16_383,
    16_384,
    2_097_151,
    2_097_152,
    268_435_455,
    268_435_456,
    u32::MAX - 1,
    u32::MAX,
];

/// A value near a length boundary, or any.
pub fn boundary(rng: &mut Rng) -> u32 {
    if rng.once_in(4) {
        return rng.word() as u32;
    }
    rng.pick(&BOUNDARIES)
}

/// A number that is whole but malformed: a last group of 0 in a longer form, five bytes at or
/// above 2^32, or six bytes.
pub fn malformed_number(rng: &mut Rng) -> Vec<u8> {
    let mut bytes: Vec<u8>;
    match rng.below(3) {
        0 => {
            bytes = number_bytes(rng.pick(&BOUNDARIES[..10]));
            let last = bytes.len() - 1;
            bytes[last] |= 128;
            bytes.push(0);
        }
        1 => {
            bytes = (0..4).map(|_| rng.byte() | 128).collect();
            bytes.push(rng.number(16..=127) as u8);
        }
        _ => {
            bytes = (0..5).map(|_| rng.byte() | 128).collect();
            bytes.push(rng.byte() & 127);
        }
    }
    bytes
}

/// Bytes that begin with a house number in any form, or with none.
pub fn number_form(rng: &mut Rng) -> Vec<u8> {
    let mut bytes = match rng.below(4) {
        0 => malformed_number(rng),
        1 => {
            let count = rng.below(7);
            rng.bytes(count)
        }
        _ => number_bytes(boundary(rng)),
    };
    match rng.below(4) {
        0 => bytes.truncate(rng.below(bytes.len() + 1)),
        1 => bytes.push(rng.byte()),
        _ => {}
    }
    bytes
}

/// A record or a chain field by field, each as its bytes.
struct Draft {
    fields: Vec<Vec<u8>>,
    /// The field that the bytes end in, and how many of its bytes are left.
    cut: Option<(usize, usize)>,
}

impl Draft {
    fn of_record(frame: &Frame) -> Self {
        let mut fields: Vec<Vec<u8>> = frame.header().map(number_bytes).to_vec();
        for plane in &frame.planes {
            fields.push(number_bytes(plane.stride as u32));
            fields.push(number_bytes(plane.data.len() as u32));
            fields.push(plane.data.clone());
        }
        Self { fields, cut: None }
    }

    fn of_chain(entries: &[Entry]) -> Self {
        let numbers = entries.iter().flat_map(Entry::numbers);
        let fields = std::iter::once(entries.len() as u32)
            .chain(numbers)
            .map(number_bytes)
            .collect();
        Self { fields, cut: None }
    }

    fn set(&mut self, field: usize, value: u32) {
        self.fields[field] = number_bytes(value);
    }

    /// Ends the bytes inside one of the given fields.
    fn cut(&mut self, rng: &mut Rng, fields: Range<usize>) {
        let field = fields.start + rng.below(fields.len());
        self.cut = Some((field, rng.below(self.fields[field].len())));
    }

    fn leave_over(&mut self, rng: &mut Rng) {
        let count = 1 + rng.below(3);
        self.fields.push(rng.bytes(count));
    }

    fn bytes(&self) -> Vec<u8> {
        let Some((field, left)) = self.cut else {
            return self.fields.concat();
        };
        let mut bytes = self.fields[..field].concat();
        bytes.extend(self.fields[field].iter().take(left));
        bytes
    }
}

/// A fault that stands at a place of document 01's order and has a refusal there.
pub trait Fault: Copy + Ord + 'static {
    /// Every fault, in the order in which they are judged.
    fn all() -> Vec<Self>;

    fn refusal(self) -> Refusal;
}

/// The refusal of several faults together: the first's.
pub fn first_refusal<F: Fault>(faults: &[F]) -> Refusal {
    faults.iter().min().expect("a fault at least").refusal()
}

/// One to three faults of those that `fit`.
pub fn some_faults<F: Fault>(rng: &mut Rng, fit: impl Fn(F) -> bool) -> Vec<F> {
    let mut fitting = F::all();
    fitting.retain(|fault| fit(*fault));
    (0..1 + rng.below(3)).map(|_| rng.pick(&fitting)).collect()
}

/// Every choice of three faults, one and the same included: so each fault alone, each two of them
/// and each three.
pub fn triples<F: Fault>() -> Vec<[F; 3]> {
    let all = F::all();
    let mut triples = Vec::new();
    for (at, first) in all.iter().enumerate() {
        for (next, second) in all.iter().enumerate().skip(at) {
            let thirds = all[next..].iter();
            triples.extend(thirds.map(|third| [*first, *second, *third]));
        }
    }
    triples
}

/// Bytes with faults, and their refusal.
pub type Faulty = (Vec<u8>, Refusal);

/// Every choice of one, two and three faults, each made `times` times: the faults, the bytes, and
/// their refusal.
pub fn each_choice<F: Fault>(
    times: usize,
    make: impl Fn(&mut Rng, &[F]) -> Faulty,
) -> Vec<([F; 3], Vec<u8>, Refusal)> {
    let mut rng = Rng::new(1);
    let mut choices = Vec::new();
    for faults in triples() {
        for _ in 0..times {
            let (bytes, refusal) = make(&mut rng, &faults);
            choices.push((faults, bytes, refusal));
        }
    }
    choices
}

/// The faults from the last judged to the first, so that the first stays as it was made.
fn last_first<F: Fault>(faults: &[F]) -> Vec<F> {
    let mut order = faults.to_vec();
    order.sort();
    order.reverse();
    order
}

/// Faults of a record, in document 01's order.
#[derive(Clone, Copy, Debug, PartialEq, Eq, PartialOrd, Ord)]
pub enum RecordFault {
    HeaderCut,
    HeaderNumber,
    Chroma,
    Alpha,
    Depth,
    ZeroSide,
    Limit,
    StrideNumber,
    LengthNumber,
    StrideBelowRow,
    DataShort,
    PastEnd,
    LeftOver,
}

impl Fault for RecordFault {
    fn all() -> Vec<Self> {
        vec![
            Self::HeaderCut,
            Self::HeaderNumber,
            Self::Chroma,
            Self::Alpha,
            Self::Depth,
            Self::ZeroSide,
            Self::Limit,
            Self::StrideNumber,
            Self::LengthNumber,
            Self::StrideBelowRow,
            Self::DataShort,
            Self::PastEnd,
            Self::LeftOver,
        ]
    }

    fn refusal(self) -> Refusal {
        match self {
            Self::Depth => refusal::DEPTH,
            Self::ZeroSide => refusal::ZERO_SIDE,
            Self::Limit => refusal::LIMIT,
            _ => refusal::MALFORMED,
        }
    }
}

impl RecordFault {
    /// Whether the fault is one wherever the record stands, not at the end of the bytes alone.
    fn stands_in_tray(self) -> bool {
        !matches!(self, Self::HeaderCut | Self::LeftOver)
    }

    fn apply(self, rng: &mut Rng, frame: &Frame, draft: &mut Draft) {
        let plane = rng.below(frame.planes.len());
        let (stride, length, data) = (5 + 3 * plane, 6 + 3 * plane, 7 + 3 * plane);
        match self {
            Self::HeaderCut => draft.cut(rng, 0..5),
            Self::HeaderNumber => draft.fields[rng.below(5)] = malformed_number(rng),
            Self::Chroma => draft.set(2, rng.pick(&[4, 5, 127, 128, 256, 257, u32::MAX])),
            Self::Alpha => draft.set(4, rng.pick(&[2, 3, 255, 256, 257, u32::MAX])),
            Self::Depth => draft.set(3, rng.pick(&[0, 1, 7, 17, 32, 255, 256, 264, u32::MAX])),
            Self::ZeroSide => match rng.below(3) {
                0 => draft.set(0, 0),
                1 => draft.set(1, 0),
                _ => {
                    draft.set(0, 0);
                    draft.set(1, 0);
                }
            },
            Self::Limit => {
                let (width, height) = rng.pick(&[
                    ((1 << 30) + 1, 1),
                    (1, (1 << 30) + 1),
                    (32_769, 32_768),
                    (65_536, 65_536),
                    (u32::MAX, u32::MAX),
                ]);
                draft.set(0, width);
                draft.set(1, height);
            }
            Self::StrideNumber => draft.fields[stride] = malformed_number(rng),
            Self::LengthNumber => draft.fields[length] = malformed_number(rng),
            Self::StrideBelowRow => {
                let row = frame.row_bytes(plane);
                draft.set(stride, row as u32 - 1 - rng.below(row) as u32);
            }
            Self::DataShort => {
                let needed = frame.data_needed(plane, frame.planes[plane].stride);
                let kept = needed - 1 - rng.below(needed.min(3));
                draft.set(length, kept as u32);
                draft.fields[data].truncate(kept);
            }
            Self::PastEnd => draft.set(length, rng.pick(&[1 << 28, 1 << 31, u32::MAX])),
            Self::LeftOver => draft.leave_over(rng),
        }
    }
}

/// A record with `faults` in it.
pub fn faulty_record(rng: &mut Rng, faults: &[RecordFault]) -> Faulty {
    let size = (generate::side(rng), generate::side(rng));
    let form = generate::form(rng);
    let frame = generate::frame_of(rng, size, form, true);
    let mut draft = Draft::of_record(&frame);
    for fault in last_first(faults) {
        fault.apply(rng, &frame, &mut draft);
    }
    (draft.bytes(), first_refusal(faults))
}

/// Faults of a tray of three records, in document 01's order.
#[derive(Clone, Copy, Debug, PartialEq, Eq, PartialOrd, Ord)]
pub enum TrayFault {
    CountNumber,
    /// A record's own, by its index.
    Record(usize, RecordFault),
    MissingRecord,
    LeftOver,
}

/// The records of a faulty tray.
const RECORDS: usize = 3;

impl Fault for TrayFault {
    fn all() -> Vec<Self> {
        let mut all = vec![Self::CountNumber];
        for index in 0..RECORDS {
            let faults = RecordFault::all().into_iter();
            let faults = faults.filter(|fault| fault.stands_in_tray());
            all.extend(faults.map(|fault| Self::Record(index, fault)));
        }
        all.extend([Self::MissingRecord, Self::LeftOver]);
        all
    }

    fn refusal(self) -> Refusal {
        match self {
            Self::CountNumber | Self::LeftOver => refusal::MALFORMED,
            Self::Record(index, fault) => fault.refusal().of_record(index),
            Self::MissingRecord => refusal::MALFORMED.of_record(RECORDS),
        }
    }
}

/// A tray with `faults` in it.
pub fn faulty_tray(rng: &mut Rng, faults: &[TrayFault]) -> Faulty {
    let has = |fault| faults.contains(&fault);
    let mut bytes = match has(TrayFault::CountNumber) {
        true => malformed_number(rng),
        false => number_bytes((RECORDS + usize::from(has(TrayFault::MissingRecord))) as u32),
    };
    for index in 0..RECORDS {
        let of_record = |fault: &TrayFault| match fault {
            TrayFault::Record(at, fault) if *at == index => Some(*fault),
            _ => None,
        };
        let faults: Vec<RecordFault> = faults.iter().filter_map(of_record).collect();
        bytes.extend(match faults.is_empty() {
            true => generate::frame(rng).record(),
            false => faulty_record(rng, &faults).0,
        });
    }
    if has(TrayFault::LeftOver) {
        // Too few for the header of a record that is missing.
        let count = 1 + rng.below(3);
        bytes.extend(rng.bytes(count));
    }
    (bytes, first_refusal(faults))
}

/// Faults of a chain's form, in document 01's order.
#[derive(Clone, Copy, Debug, PartialEq, Eq, PartialOrd, Ord)]
pub enum ChainFault {
    CountNumber,
    CountAbove,
    Cut,
    Kind,
    Essential,
    Angle,
    Axis,
    Scale,
    Number,
    MissingEntry,
    LeftOver,
}

impl Fault for ChainFault {
    fn all() -> Vec<Self> {
        vec![
            Self::CountNumber,
            Self::CountAbove,
            Self::Cut,
            Self::Kind,
            Self::Essential,
            Self::Angle,
            Self::Axis,
            Self::Scale,
            Self::Number,
            Self::MissingEntry,
            Self::LeftOver,
        ]
    }

    fn refusal(self) -> Refusal {
        match self {
            Self::CountAbove => refusal::LIMIT,
            _ => refusal::MALFORMED,
        }
    }
}

/// The fields of a chain that has one entry of each kind.
const FIELDS: usize = 25;

/// One entry of each kind, with the field where each kind starts: count, then `other`, clap, irot,
/// imir, iscl.
fn one_of_each(rng: &mut Rng) -> (Vec<Entry>, [usize; 5]) {
    let properties = [
        Property::Other,
        Property::Clap(Clap::from_fields([0; 8].map(|_: u32| boundary(rng)))),
        Property::Irot(rng.byte()),
        Property::Imir(rng.byte()),
        Property::Iscl(Iscl::from_fields([0; 4].map(|_: u16| rng.word() as u16))),
    ];
    let entries = properties.map(|property| Entry::new(rng.flag(), property));
    (entries.to_vec(), [1, 3, 13, 16, 19])
}

/// The entry that a field is of.
fn entry_of(starts: &[usize; 5], field: usize) -> usize {
    starts.partition_point(|start| *start <= field) - 1
}

impl ChainFault {
    /// Puts the fault in, and answers the entry that has it, if one has. A cut is the draft's to say.
    fn apply(self, rng: &mut Rng, starts: &[usize; 5], draft: &mut Draft) -> Option<usize> {
        let [.., irot, imir, iscl] = *starts;
        let above = |rng: &mut Rng, most: u32| rng.pick(&[most + 1, most + 2, 1 << 16, u32::MAX]);
        let count = starts.len();
        let (field, value) = match self {
            Self::CountNumber => {
                draft.fields[0] = malformed_number(rng);
                return None;
            }
            Self::CountAbove => {
                draft.set(0, rng.pick(&[MAX_ENTRIES + 1, 512, 65_536, u32::MAX]));
                return None;
            }
            Self::Cut => {
                draft.cut(rng, 1..FIELDS);
                return None;
            }
            Self::Kind => (rng.pick(starts), above(rng, 4)),
            Self::Essential => (rng.pick(starts) + 1, above(rng, 1)),
            Self::Angle => (irot + 2, above(rng, 255)),
            Self::Axis => (imir + 2, above(rng, 255)),
            Self::Scale => (iscl + 2 + rng.below(4), above(rng, 65_535)),
            Self::Number => {
                let number = malformed_number(rng);
                let field = 1 + rng.below(FIELDS - 1);
                draft.fields[field] = number;
                return Some(entry_of(starts, field));
            }
            Self::MissingEntry => {
                draft.set(0, count as u32 + 1);
                // What is left over must not be that entry.
                if let Some(left_over) = draft.fields.get_mut(FIELDS) {
                    left_over[0] = left_over[0].max(5);
                }
                return Some(count);
            }
            Self::LeftOver => {
                draft.leave_over(rng);
                return None;
            }
        };
        draft.set(field, value);
        Some(entry_of(starts, field))
    }
}

/// A chain with `faults` in its form.
pub fn faulty_chain(rng: &mut Rng, faults: &[ChainFault]) -> Faulty {
    let (entries, starts) = one_of_each(rng);
    let mut draft = Draft::of_chain(&entries);
    let mut hit = Vec::new();
    for fault in last_first(faults) {
        hit.extend(fault.apply(rng, &starts, &mut draft));
    }
    hit.extend(draft.cut.map(|(field, _)| entry_of(&starts, field)));
    let refusal = first_refusal(faults);
    let count = faults.iter().any(|fault| *fault <= ChainFault::CountAbove);
    let refusal = match hit.into_iter().min() {
        Some(entry) if !count => refusal.of_entry(entry),
        _ => refusal,
    };
    (draft.bytes(), refusal)
}

/// A chain of any sort: of entries with any fields, with known faults, or damaged blindly.
pub fn any_chain(rng: &mut Rng) -> Vec<u8> {
    match rng.below(6) {
        0 => {
            let faults = some_faults(rng, |_| true);
            faulty_chain(rng, &faults).0
        }
        1 => {
            let (entries, _) = one_of_each(rng);
            chain_bytes(&entries)
        }
        sort => {
            let size = generate::wide_size(rng);
            let mut bytes = chain_bytes(&generate::wide_chain(rng, size));
            if sort == 2 {
                damage(rng, &mut bytes);
            }
            bytes
        }
    }
}

/// Faults of a descriptor body, in document 01's order. The last two are an overlay's alone.
#[derive(Clone, Copy, Debug, PartialEq, Eq, PartialOrd, Ord)]
pub enum BodyFault {
    Empty,
    Version,
    Short,
    ZeroSide,
    Limit,
    Inputs,
    OffsetsShort,
}

impl Fault for BodyFault {
    fn all() -> Vec<Self> {
        vec![
            Self::Empty,
            Self::Version,
            Self::Short,
            Self::ZeroSide,
            Self::Limit,
            Self::Inputs,
            Self::OffsetsShort,
        ]
    }

    fn refusal(self) -> Refusal {
        match self {
            Self::Empty | Self::Short | Self::OffsetsShort => refusal::SHORT,
            Self::Version => refusal::VERSION,
            Self::ZeroSide => refusal::ZERO_SIDE,
            Self::Limit | Self::Inputs => refusal::LIMIT,
        }
    }
}

impl BodyFault {
    /// Whether a grid's body can have it.
    pub fn in_grid(self) -> bool {
        !matches!(self, Self::Inputs | Self::OffsetsShort)
    }

    /// `sides` is where the width's field stands; the height's is the next.
    fn apply(self, rng: &mut Rng, sides: usize, draft: &mut Draft, inputs: &mut usize) {
        let all = draft.fields.len();
        match self {
            Self::Empty => draft.cut = Some((0, 0)),
            Self::Version => draft.fields[0][0] = rng.byte().max(1),
            Self::Short => draft.cut(rng, 1..sides + 2),
            Self::ZeroSide => draft.fields[sides + rng.below(2)].fill(0),
            Self::Limit => {
                draft.fields[sides].fill(255);
                draft.fields[sides + 1].fill(255);
            }
            Self::Inputs => *inputs = rng.pick(&[65_537, 65_538, u32::MAX as usize]),
            Self::OffsetsShort => draft.cut(rng, sides + 2..all),
        }
    }
}

/// A body with `faults` in it, and the number of inputs that an overlay's is read for.
pub fn faulty_body(rng: &mut Rng, faults: &[BodyFault], overlay: bool) -> (Vec<u8>, usize) {
    let wide = rng.flag();
    let mut inputs = 1 + rng.below(3);
    let side = if wide { 4 } else { 2 };
    let number = |bytes: usize| [vec![0; bytes - 1], vec![7]].concat();
    let mut fields = vec![vec![0], vec![u8::from(wide)]];
    if overlay {
        fields.push(rng.bytes(8));
    } else {
        fields.extend([rng.bytes(1), rng.bytes(1)]);
    }
    let sides = fields.len();
    let offsets = if overlay { 2 * inputs } else { 0 };
    fields.extend((0..2 + offsets).map(|_| number(side)));
    let mut draft = Draft { fields, cut: None };
    for fault in last_first(faults) {
        fault.apply(rng, sides, &mut draft, &mut inputs);
    }
    (draft.bytes(), inputs)
}

/// The bytes that a scene call is handed; an overlay's have a premultiplied list.
#[derive(Clone, Debug)]
pub struct SceneDraft {
    pub body: Vec<u8>,
    pub tray: Vec<u8>,
    pub chain: Vec<u8>,
    pub premultiplied: Option<Vec<u8>>,
}

impl SceneDraft {
    pub fn parts(&self, essential_only: bool) -> SceneParts<'_> {
        SceneParts {
            body: &self.body,
            tray: &self.tray,
            chain: &self.chain,
            essential_only,
        }
    }

    /// What an overlay is handed beside.
    pub fn marks(&self, colour: Option<Colour>) -> Option<Marks<'_>> {
        self.premultiplied.as_ref().map(|premultiplied| Marks {
            premultiplied,
            colour,
        })
    }
}

/// Faults of a record of a scene's tray, in document 01's order. A missing one is the tray's end.
#[derive(Clone, Copy, Debug, PartialEq, Eq, PartialOrd, Ord)]
pub enum HeaderFault {
    Missing,
    Form,
    Depth,
}

/// Faults of a tile beside the first, in document 01's order.
#[derive(Clone, Copy, Debug, PartialEq, Eq, PartialOrd, Ord)]
pub enum TileFault {
    Size,
    Chroma,
    Depth,
}

/// Faults of an entry that is applied.
#[derive(Clone, Copy, Debug, PartialEq, Eq, PartialOrd, Ord)]
pub enum EntryFault {
    ZeroTerm,
    Fraction,
    Outside,
    ScaleZero,
    ScaleLimit,
}

impl EntryFault {
    const ALL: [Self; 5] = [
        Self::ZeroTerm,
        Self::Fraction,
        Self::Outside,
        Self::ScaleZero,
        Self::ScaleLimit,
    ];

    fn refusal(self) -> Refusal {
        match self {
            Self::ZeroTerm | Self::ScaleZero => refusal::ZERO_DENOMINATOR,
            Self::Fraction => refusal::NOT_WHOLE,
            Self::Outside => refusal::OUTSIDE,
            Self::ScaleLimit => refusal::LIMIT,
        }
    }

    fn property(self) -> Property {
        let clap = |fields| Property::Clap(Clap::from_fields(fields));
        let scale = |fields| Property::Iscl(Iscl::from_fields(fields));
        match self {
            Self::ZeroTerm => clap([1, 0, 1, 1, 0, 1, 0, 1]),
            Self::Fraction => clap([3, 2, 1, 1, 0, 1, 0, 1]),
            Self::Outside => clap([0, 1, 1, 1, 0, 1, 0, 1]),
            Self::ScaleZero => scale([1, 1, 0, 1]),
            Self::ScaleLimit => scale([65_535, 1, 65_535, 1]),
        }
    }
}

/// Faults of a scene, in document 01's order: tray count, chain, body, counts, records, tiles or
/// inputs, entries in turn. A number is the index of the record or of the entry that has it.
#[derive(Clone, Copy, Debug, PartialEq, Eq, PartialOrd, Ord)]
pub enum SceneFault {
    TrayCount,
    ChainLong,
    ChainEntry(usize),
    ChainLeftOver,
    BodyEmpty,
    BodyVersion,
    BodyShort,
    ZeroSide,
    Limit,
    Inputs,
    OffsetsShort,
    NoInputs,
    Count,
    Record(usize, HeaderFault),
    LeftOver,
    Cover,
    Tile(usize, TileFault),
    Depth(usize),
    Alpha(usize),
    Entry(usize, EntryFault),
}

/// The entries of a faulty scene's chain.
const STEPS: usize = 5;

/// The tiles or the inputs of a faulty scene.
fn pictures(overlay: bool) -> usize {
    if overlay { 3 } else { 4 }
}

impl Fault for SceneFault {
    fn all() -> Vec<Self> {
        let mut all = vec![Self::TrayCount, Self::ChainLong];
        all.extend([0, 2, 4].map(Self::ChainEntry));
        all.extend([
            Self::ChainLeftOver,
            Self::BodyEmpty,
            Self::BodyVersion,
            Self::BodyShort,
            Self::ZeroSide,
            Self::Limit,
            Self::Inputs,
            Self::OffsetsShort,
            Self::NoInputs,
            Self::Count,
        ]);
        for index in 0..pictures(false) {
            let faults = [HeaderFault::Missing, HeaderFault::Form, HeaderFault::Depth];
            all.extend(faults.map(|fault| Self::Record(index, fault)));
        }
        all.extend([Self::LeftOver, Self::Cover]);
        for index in 1..pictures(false) {
            let faults = [TileFault::Size, TileFault::Chroma, TileFault::Depth];
            all.extend(faults.map(|fault| Self::Tile(index, fault)));
        }
        all.extend((1..pictures(true)).map(Self::Depth));
        all.extend((0..pictures(true)).map(Self::Alpha));
        for index in 0..STEPS {
            let own = |fault: &EntryFault| [0, *fault as usize, STEPS - 1].contains(&index);
            let faults = EntryFault::ALL.into_iter().filter(own);
            all.extend(faults.map(|fault| Self::Entry(index, fault)));
        }
        all
    }

    fn refusal(self) -> Refusal {
        match self {
            Self::TrayCount | Self::ChainLeftOver | Self::LeftOver => refusal::MALFORMED,
            Self::ChainEntry(index) => refusal::MALFORMED.of_entry(index),
            Self::ChainLong | Self::Limit | Self::Inputs => refusal::LIMIT,
            Self::BodyEmpty | Self::BodyShort | Self::OffsetsShort => refusal::SHORT,
            Self::BodyVersion => refusal::VERSION,
            Self::ZeroSide => refusal::ZERO_SIDE,
            Self::NoInputs => refusal::MISSING,
            Self::Count => refusal::COUNT,
            Self::Record(index, HeaderFault::Depth) => refusal::DEPTH.of_record(index),
            Self::Record(index, _) => refusal::MALFORMED.of_record(index),
            Self::Cover => refusal::COVER,
            Self::Tile(index, TileFault::Size) => refusal::TILE_SIZE.of_record(index),
            Self::Tile(index, _) | Self::Depth(index) => refusal::FORM.of_record(index),
            Self::Alpha(index) => refusal::ALPHA.of_record(index),
            Self::Entry(index, fault) => fault.refusal().of_entry(index),
        }
    }
}

impl SceneFault {
    /// Whether a grid's scene, or an overlay's, can have it.
    pub fn fits(self, overlay: bool) -> bool {
        match self {
            Self::Inputs | Self::OffsetsShort | Self::NoInputs => overlay,
            Self::Depth(_) | Self::Alpha(_) => overlay,
            Self::Cover | Self::Tile(..) => !overlay,
            Self::Record(index, _) => index < pictures(overlay),
            _ => true,
        }
    }

    /// Whether the scenes of the comparisons have it, which the stored answers stand on: of the faults
    /// with an index each has one place there, and some have none.
    pub fn is_drawn(self) -> bool {
        match self {
            Self::ChainEntry(_) => false,
            Self::Record(index, fault) => index == 1 && fault != HeaderFault::Missing,
            Self::Tile(index, fault) => index == 2 && fault != TileFault::Chroma,
            Self::Depth(index) => index == 2,
            Self::Alpha(index) => index == 0,
            Self::Entry(index, fault) => index == fault as usize,
            _ => true,
        }
    }

    /// Whether the chain has it.
    pub fn is_of_chain(self) -> bool {
        matches!(
            self,
            Self::ChainLong | Self::ChainEntry(_) | Self::ChainLeftOver | Self::Entry(..)
        )
    }

    /// The refusal that a point call gives it: alpha and scaling are 18 there.
    pub fn point_refusal(self) -> Refusal {
        match self {
            Self::Alpha(index) => refusal::POINT.of_record(index),
            Self::Entry(index, EntryFault::ScaleZero | EntryFault::ScaleLimit) => {
                refusal::POINT.of_entry(index)
            }
            other => other.refusal(),
        }
    }
}

/// Every choice of one, two and three faults that scenes of a sort can have; without inputs no
/// offsets are short.
pub fn scene_choices(overlay: bool) -> impl Iterator<Item = [SceneFault; 3]> {
    let fits = move |faults: &[SceneFault; 3]| {
        let both = [SceneFault::OffsetsShort, SceneFault::NoInputs];
        faults.iter().all(|fault| fault.fits(overlay))
            && !both.iter().all(|fault| faults.contains(fault))
    };
    triples().into_iter().filter(fits)
}

/// A chain with an entry before each of its own that the flag skips, and that would be refused.
pub fn with_skipped(chain: &[Entry]) -> Vec<Entry> {
    let skipped = Entry::new(false, EntryFault::ZeroTerm.property());
    let entries = chain.iter();
    entries.flat_map(|entry| [skipped, *entry]).collect()
}

/// The refusal that a chain's becomes [`with_skipped`] entries.
pub fn behind_skipped(refusal: Refusal) -> Refusal {
    match refusal.item {
        Some(Item::Entry(index)) => refusal.of_entry(2 * index as usize + 1),
        _ => refusal,
    }
}

/// A scene of four tiles, or three inputs, with `faults` in it; every entry of its chain is
/// essential.
pub fn faulty_scene(rng: &mut Rng, faults: &[SceneFault], overlay: bool) -> SceneDraft {
    let has = |fault| faults.contains(&fault);
    let count = pictures(overlay);
    let side = 4 + 2 * rng.below(3) as u32;
    let form = generate::Form {
        depth: rng.number(9..=15) as u8,
        ..generate::form(rng)
    };
    let mut frames: Vec<Frame> = (0..count)
        .map(|_| {
            let alpha = if overlay { 0 } else { rng.number(0..=1) as u8 };
            generate::frame_of(rng, (side, side), generate::Form { alpha, ..form }, false)
        })
        .collect();
    for (index, frame) in frames.iter_mut().enumerate() {
        if has(SceneFault::Alpha(index)) {
            let form = generate::Form { alpha: 1, ..form };
            *frame = generate::frame_of(rng, (side, side), form, false);
            let plane = &mut frame.planes[form.chroma.colour_planes()];
            let at = plane.stride * rng.below(side as usize) + 2 * rng.below(side as usize);
            let above = (1u16 << form.depth).to_le_bytes();
            plane.data[at..at + 2].copy_from_slice(&above);
        }
        if has(SceneFault::Tile(index, TileFault::Size)) {
            *frame = generate::frame_of(rng, (side, side + 1), form, false);
        }
        let size = (frame.width, frame.height);
        if has(SceneFault::Tile(index, TileFault::Chroma)) {
            let chroma = Chroma::ALL[(form.chroma as usize + 1) % 4];
            *frame = generate::frame_of(rng, size, generate::Form { chroma, ..form }, false);
        }
        if has(SceneFault::Tile(index, TileFault::Depth)) || has(SceneFault::Depth(index)) {
            let form = generate::Form { depth: 16, ..form };
            *frame = generate::frame_of(rng, size, form, false);
            if overlay {
                frame.alpha = 0;
                frame.planes.truncate(frame.plane_count());
            }
        }
    }
    let mut drafts: Vec<Draft> = frames.iter().map(Draft::of_record).collect();
    for (index, draft) in drafts.iter_mut().enumerate() {
        if has(SceneFault::Record(index, HeaderFault::Depth)) {
            draft.set(3, rng.pick(&[7, 17, 264]));
        }
        if has(SceneFault::Record(index, HeaderFault::Form)) {
            draft.set(2, rng.pick(&[4, 257]));
        }
    }
    if has(SceneFault::LeftOver) {
        drafts[count - 1].leave_over(rng);
    }
    let listed = count + usize::from(has(SceneFault::Count));
    let mut tray = match listed {
        _ if has(SceneFault::TrayCount) => malformed_number(rng),
        _ if has(SceneFault::Inputs) => number_bytes(65_537),
        _ if has(SceneFault::NoInputs) => number_bytes(0),
        _ if overlay => number_bytes(count as u32),
        listed => number_bytes(listed as u32),
    };
    for (index, draft) in drafts.iter().enumerate() {
        if has(SceneFault::Record(index, HeaderFault::Missing)) {
            break;
        }
        tray.extend(draft.bytes());
    }
    let canvas = if overlay { side + 3 } else { 2 * side };
    let wider = u32::from(has(SceneFault::Cover));
    let (mut width, mut height) = (canvas + wider, canvas);
    if has(SceneFault::Limit) {
        (width, height) = (65_536, 65_536);
    }
    if has(SceneFault::ZeroSide) {
        height = 0;
    }
    let mut body = if overlay {
        let offset = |rng: &mut Rng| rng.within(-3..=3) as i32;
        let offsets = (0..count).map(|_| (offset(rng), offset(rng))).collect();
        let fill = [0; 4].map(|_: u16| rng.word() as u16);
        let overlay = Overlay {
            fill,
            width,
            height,
            offsets,
        };
        overlay_bytes(&overlay, true)
    } else {
        let grid = Grid {
            rows: 2,
            columns: 2,
            width,
            height,
        };
        grid_bytes(&grid, true)
    };
    let fields = if overlay { 18 } else { 12 };
    if has(SceneFault::OffsetsShort) {
        body.truncate(fields + rng.below(8 * count));
    }
    if has(SceneFault::BodyShort) {
        body.truncate(1 + rng.below(fields - 1));
    }
    if has(SceneFault::BodyVersion) {
        body[0] = rng.byte().max(1);
    }
    if has(SceneFault::BodyEmpty) {
        body.clear();
    }
    let mut entries = Vec::new();
    for index in 0..STEPS {
        let mut at_it = EntryFault::ALL.into_iter();
        let property = match at_it.find(|fault| has(SceneFault::Entry(index, *fault))) {
            Some(fault) => fault.property(),
            None => rng.pick(&[Property::Other, Property::Irot(1), Property::Imir(0)]),
        };
        entries.push(Entry::new(true, property));
    }
    let mut chain = Draft::of_chain(&entries);
    let mut field = 1;
    for (index, entry) in entries.iter().enumerate() {
        if has(SceneFault::ChainEntry(index)) {
            chain.set(field + 1, 2);
        }
        field += entry.numbers().len();
    }
    if has(SceneFault::ChainLeftOver) {
        chain.leave_over(rng);
    }
    if has(SceneFault::ChainLong) {
        chain.set(0, rng.pick(&[257, 65_536]));
    }
    let long = usize::from(has(SceneFault::Count));
    SceneDraft {
        body,
        tray,
        chain: chain.bytes(),
        premultiplied: overlay.then(|| rng.bytes(count + long)),
    }
}

/// What a crop of a picture of the given size becomes when it is broken: a margin one off, two that make
/// up for each other, margins in each other's place, none at all; and along either axis sums that are
/// right only modulo 2^32. Where the crop fits, none of these does.
pub fn broken_crops(crop: &Crop, (width, height): Size) -> Vec<Crop> {
    let mut broken = Vec::new();
    let mut add = |change: &dyn Fn(&mut [u32; 8])| {
        let mut fields = crop.fields();
        change(&mut fields);
        broken.push(Crop::from_fields(fields));
    };
    for by in [1, u32::MAX] {
        for margin in 4..8 {
            add(&|fields| fields[margin] = fields[margin].wrapping_add(by));
        }
        for near in [4, 5] {
            add(&|fields| {
                fields[near] = fields[near].wrapping_add(by);
                fields[near + 2] = fields[near + 2].wrapping_sub(by);
            });
        }
    }
    for turn in 1..4 {
        add(&|fields| fields[4..].rotate_left(turn));
    }
    for near in [4, 5] {
        add(&|fields| fields.swap(near, near + 2));
    }
    add(&|fields| fields[4..].fill(0));
    for (axis, side) in [(0, width), (1, height)] {
        let mut add = |edge: u32, size: u32| {
            add(&|fields| {
                fields[axis] = edge;
                fields[axis + 2] = size;
                fields[axis + 4] = edge;
                fields[axis + 6] = side.wrapping_sub(edge).wrapping_sub(size);
            });
        };
        let [edge, size] = [axis, axis + 2].map(|at| crop.fields()[at]);
        add(edge, side.wrapping_sub(edge).wrapping_add(1));
        add(side.wrapping_add(1), size);
        add(edge, u32::MAX);
        add(u32::MAX, 2);
        add(u32::MAX, u32::MAX);
        add(1 << 31, 1 << 31);
    }
    broken.retain(|one| one != crop);
    broken
}

/// A crop of a picture of the given size, most with right margins; once in four one that is broken.
pub fn any_crop(rng: &mut Rng, size: Size) -> Crop {
    let ((x, width), (y, height)) = (generate::span(rng, size.0), generate::span(rng, size.1));
    let rectangle = Rectangle {
        x,
        y,
        width,
        height,
    };
    let crop = Crop::of(rectangle, size);
    match rng.once_in(4) {
        true => rng.pick(&broken_crops(&crop, size)),
        false => crop,
    }
}

/// Blind damage, one to three times: an end cut off, a byte changed, put in or taken out.
pub fn damage(rng: &mut Rng, bytes: &mut Vec<u8>) {
    for _ in 0..1 + rng.below(3) {
        if bytes.is_empty() {
            bytes.push(rng.byte());
            continue;
        }
        // Numbers stand at the front as a rule: half of the damage is done there.
        let reach = if rng.flag() {
            bytes.len().min(12)
        } else {
            bytes.len()
        };
        let at = rng.below(reach);
        match rng.below(5) {
            0 => bytes.truncate(at),
            1 => bytes[at] = rng.byte(),
            2 => bytes[at] ^= 1 << rng.below(8),
            3 => bytes.insert(at, rng.byte()),
            _ => {
                bytes.remove(at);
            }
        }
    }
}

/// A record of any sort: valid, with known faults, or damaged blindly.
pub fn any_record(rng: &mut Rng) -> Vec<u8> {
    match rng.below(4) {
        0 => {
            let faults = some_faults(rng, |_| true);
            faulty_record(rng, &faults).0
        }
        1 => {
            let mut bytes = generate::frame(rng).record();
            damage(rng, &mut bytes);
            bytes
        }
        2 => loose_record(rng),
        _ => generate::frame(rng).record(),
    }
}

/// A tray of any sort: of valid records, with known faults, damaged blindly, or of loose records.
pub fn any_tray(rng: &mut Rng) -> Vec<u8> {
    let sort = rng.below(4);
    if sort == 0 {
        let faults = some_faults(rng, |_| true);
        return faulty_tray(rng, &faults).0;
    }
    let count = rng.below(4);
    let mut bytes = number_bytes(count as u32);
    for _ in 0..count {
        bytes.extend(match sort {
            1 => loose_record(rng),
            _ => generate::frame(rng).record(),
        });
    }
    if sort == 2 {
        damage(rng, &mut bytes);
    }
    bytes
}

/// A record whose strides and data lengths lie about the least ones, on both sides.
fn loose_record(rng: &mut Rng) -> Vec<u8> {
    let mut frame = generate::frame(rng);
    for index in 0..frame.planes.len() {
        let row = frame.row_bytes(index);
        let stride = (row + rng.below(3)).saturating_sub(rng.below(3));
        let needed = frame.data_needed(index, stride);
        let length = (needed + rng.below(3)).saturating_sub(rng.below(3));
        frame.planes[index].stride = stride;
        frame.planes[index].data.resize(length, 0);
    }
    frame.record()
}
