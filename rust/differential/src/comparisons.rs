//! The comparisons by name.

use crate::bodies;
use crate::compare::{Comparison, Input, Sides, Verdict};
use crate::damage::{self, BodyFault, SceneDraft, SceneFault};
use crate::expected::{self, Call, Stop, Want};
use crate::generate;
use crate::ours::{self, Answer};
use crate::rng::Rng;
use crate::rooms;
use model::{
    Clap, Colour, Crop, Entry, Frame, Grid, Iscl, Item, Marks, Named, Operation, Oracle, Outcome,
    Overlay, OverlayInput, Point, Property, Reader, Refusal, Scene, SceneParts, Sighted, Size,
    chain_bytes, fill_samples, grid_bytes, number_bytes, overlay_bytes, parse_chain, parse_grid,
    parse_overlay, parse_record, parse_steps, parse_tray, read_sentence, refusal, steps_text,
    tray_bytes,
};
use std::collections::HashSet;
use std::fmt::Debug;

/// Every comparison.
pub const ALL: &[Comparison] = &[
    Comparison {
        name: "house-number",
        generate: house_number_input,
        judge: house_number,
    },
    Comparison {
        name: "record",
        generate: record_input,
        judge: record,
    },
    Comparison {
        name: "tray",
        generate: tray_input,
        judge: tray,
    },
    Comparison {
        name: "grid-descriptor",
        generate: |rng| descriptor_input(rng, false),
        judge: grid_descriptor,
    },
    Comparison {
        name: "overlay-descriptor",
        generate: |rng| descriptor_input(rng, true),
        judge: overlay_descriptor,
    },
    Comparison {
        name: "grid-body",
        generate: bodies::grid_input,
        judge: bodies::grid,
    },
    Comparison {
        name: "overlay-body",
        generate: bodies::overlay_input,
        judge: bodies::overlay,
    },
    Comparison {
        name: "chain",
        generate: chain_input,
        judge: chain,
    },
    Comparison {
        name: "clap-resolve",
        generate: clap_resolve_input,
        judge: clap_resolve,
    },
    Comparison {
        name: "iscl-size",
        generate: iscl_size_input,
        judge: iscl_size,
    },
    Comparison {
        name: "steps",
        generate: steps_input,
        judge: steps,
    },
    Comparison {
        name: "crop",
        generate: |rng| operation_input(rng, Kind::Crop),
        judge: |sides, input| operation(sides, input, Kind::Crop),
    },
    Comparison {
        name: "clap",
        generate: |rng| operation_input(rng, Kind::Clap),
        judge: |sides, input| operation(sides, input, Kind::Clap),
    },
    Comparison {
        name: "irot",
        generate: |rng| operation_input(rng, Kind::Irot),
        judge: |sides, input| operation(sides, input, Kind::Irot),
    },
    Comparison {
        name: "imir",
        generate: |rng| operation_input(rng, Kind::Imir),
        judge: |sides, input| operation(sides, input, Kind::Imir),
    },
    Comparison {
        name: "iscl",
        generate: |rng| operation_input(rng, Kind::Iscl),
        judge: |sides, input| operation(sides, input, Kind::Iscl),
    },
    Comparison {
        name: "nearest",
        generate: |rng| operation_input(rng, Kind::Nearest),
        judge: |sides, input| operation(sides, input, Kind::Nearest),
    },
    Comparison {
        name: "depth",
        generate: |rng| operation_input(rng, Kind::Depth),
        judge: |sides, input| operation(sides, input, Kind::Depth),
    },
    Comparison {
        name: "attach",
        generate: attach_input,
        judge: attach,
    },
    Comparison {
        name: "fill",
        generate: fill_input,
        judge: fill,
    },
    Comparison {
        name: "composite-grid",
        generate: grid_input,
        judge: composite_grid,
    },
    Comparison {
        name: "composite-overlay",
        generate: overlay_input,
        judge: composite_overlay,
    },
    Comparison {
        name: "session",
        generate: session_input,
        judge: session,
    },
    Comparison {
        name: "grid-scene",
        generate: |rng| scene_input(rng, false),
        judge: |sides, input| scene(sides, input, false),
    },
    Comparison {
        name: "overlay-scene",
        generate: |rng| scene_input(rng, true),
        judge: |sides, input| scene(sides, input, true),
    },
    Comparison {
        name: "transforms",
        generate: rooms::transforms_input,
        judge: rooms::transforms,
    },
    Comparison {
        name: "record-size",
        generate: rooms::record_size_input,
        judge: rooms::record_size,
    },
    Comparison {
        name: "grid-room",
        generate: |rng| rooms::room_input(rng, false),
        judge: |sides, input| rooms::room(sides, input, false),
    },
    Comparison {
        name: "overlay-room",
        generate: |rng| rooms::room_input(rng, true),
        judge: |sides, input| rooms::room(sides, input, true),
    },
    Comparison {
        name: "point",
        generate: point_input,
        judge: point,
    },
    Comparison {
        name: "sentence",
        generate: sentence_input,
        judge: sentence,
    },
];

/// What both builds want of a call: the same, and no panic. `departs` says how another side does
/// not answer it.
pub(crate) fn agree<T: PartialEq + Debug>(
    [plain, checked]: [Want<T>; 2],
    departs: impl FnOnce(&Answer<T>) -> Option<String>,
) -> Verdict {
    if plain != checked {
        return Verdict::Different(format!("plain {plain:?}, checked {checked:?}"));
    }
    let want = match plain {
        Ok(answer) => Ok(answer),
        Err(Stop::Refused(refusal)) => Err(refusal),
        Err(Stop::Large) => return Verdict::PassedOver,
        Err(Stop::Broke(text)) => return Verdict::Different(format!("both builds: {text}")),
    };
    match (departs(&want), want) {
        (Some(shows), _) => Verdict::Different(shows),
        (None, Ok(_)) => Verdict::Accepted,
        (None, Err(refusal)) => Verdict::Refused(refusal),
    }
}

/// What is written must be a record.
pub(crate) fn no_record(want: &Answer<impl AsRef<[u8]>>) -> Option<String> {
    let refusal = parse_record(want.as_ref().ok()?.as_ref()).err()?;
    Some(format!("the record written is refused {}", refusal.number))
}

fn house_number_input(rng: &mut Rng) -> Input {
    Input::new().with_bytes("number", damage::number_form(rng))
}

/// The model's reader against the paper's words taken one by one; what is read is written back to
/// the same bytes.
fn house_number(_: &Sides, input: &Input) -> Verdict {
    let bytes = input.bytes("number");
    let mut reader = Reader::new(bytes);
    let read = reader.number();
    let last = bytes.iter().take(5).position(|byte| *byte < 128);
    let wanted = last.and_then(|last| {
        let groups = &bytes[..=last];
        let value = groups
            .iter()
            .rev()
            .fold(0u64, |sum, group| sum * 128 + u64::from(group % 128));
        let shortest = last == 0 || groups[last] != 0;
        (shortest && value < 1 << 32).then_some((value, last + 1))
    });
    match (read, wanted) {
        (Ok(value), Some((wanted, length)))
            if u64::from(value) == wanted
                && number_bytes(value) == bytes[..length]
                && reader.rest() == &bytes[length..] =>
        {
            Verdict::Accepted
        }
        (Err(refusal @ refusal::MALFORMED), None) => Verdict::Refused(refusal),
        _ => Verdict::Different(format!("read {read:?}, wanted {wanted:?}")),
    }
}

fn record_input(rng: &mut Rng) -> Input {
    Input::new().with_bytes("record", damage::any_record(rng))
}

/// How the model's answer departs from `want`.
pub(crate) fn model_answers<T: PartialEq + Debug>(
    want: &Answer<T>,
    model: &Answer<T>,
) -> Option<String> {
    (model != want).then(|| format!("the model {model:?}, wanted {want:?}"))
}

/// How the model's reading departs from `want`, or is written back to other bytes.
fn model_departs<T: PartialEq + Debug>(
    want: &Answer<T>,
    read: &Answer<T>,
    bytes: &[u8],
    write: impl Fn(&T) -> Vec<u8>,
) -> Option<String> {
    model_answers(want, read).or_else(|| {
        let other = read.as_ref().is_ok_and(|read| write(read) != bytes);
        other.then(|| "the model writes it back to other bytes".into())
    })
}

/// Taken where `HeifFrame::validate` takes the frame and the header passes; the model's reading,
/// and the composer's numbers, form and places.
fn record(sides: &Sides, input: &Input) -> Verdict {
    let bytes = input.bytes("record");
    let wants = sides.wants(|build| expected::record(build, bytes));
    agree(wants, |want| {
        let read = parse_record(bytes);
        model_departs(want, &read, bytes, Frame::record).or_else(|| {
            let layout = read.map(|frame| frame.layout());
            ours::answers(&layout, sides.ours.record(bytes))
        })
    })
}

fn tray_input(rng: &mut Rng) -> Input {
    Input::new().with_bytes("tray", damage::any_tray(rng))
}

/// As [`record`], for a tray; the composer answers its count.
fn tray(sides: &Sides, input: &Input) -> Verdict {
    let bytes = input.bytes("tray");
    let wants = sides.wants(|build| expected::tray(build, bytes));
    agree(wants, |want| {
        let read = parse_tray(bytes);
        model_departs(want, &read, bytes, |frames| tray_bytes(frames)).or_else(|| {
            let count = read.map(|frames| frames.len() as u32);
            ours::answers(&count, sides.ours.tray(bytes))
        })
    })
}

/// A body whose fields are any: small, at the edges of their bits, or far beyond. An overlay's has
/// the offsets of `inputs`.
fn wide_body(rng: &mut Rng, overlay: bool, inputs: usize) -> Vec<u8> {
    let size = generate::wide_size(rng);
    if overlay {
        let channels = [0; 4].map(|_: u16| rng.word() as u16);
        let offset = |rng: &mut Rng| generate::border(rng).cast_signed();
        let overlay = Overlay {
            fill: channels,
            width: size.0,
            height: size.1,
            offsets: (0..inputs).map(|_| (offset(rng), offset(rng))).collect(),
        };
        return overlay_bytes(&overlay, rng.flag());
    }
    let grid = Grid {
        rows: rng.number(1..=256) as u16,
        columns: rng.number(1..=256) as u16,
        width: size.0,
        height: size.1,
    };
    grid_bytes(&grid, rng.flag())
}

/// A body: valid, loosened, with known faults or damaged, and the inputs that an overlay's is read
/// for, now and then not those that it has.
fn descriptor_input(rng: &mut Rng, overlay: bool) -> Input {
    let mut inputs = 0;
    let mut body;
    match rng.below(4) {
        0 => {
            let faults = damage::some_faults(rng, |fault: BodyFault| overlay || fault.in_grid());
            (body, inputs) = damage::faulty_body(rng, &faults, overlay);
        }
        1 if overlay => {
            let scene = generate::overlay_scene(rng).0;
            inputs = scene.offsets.len();
            body = overlay_bytes(&scene, rng.flag());
        }
        1 => body = grid_bytes(&generate::grid_scene(rng).0, rng.flag()),
        _ => {
            inputs = match rng.below(50) {
                0 => rng.below(400),
                _ => rng.below(6),
            };
            body = wide_body(rng, overlay, inputs);
        }
    }
    generate::loosen_body(rng, &mut body);
    if rng.once_in(8) {
        damage::damage(rng, &mut body);
    }
    let input = Input::new().with_bytes("body", body);
    if !overlay {
        return input;
    }
    let inputs = match rng.below(24) {
        0 => inputs + 1,
        1 => rng.pick(&[0, 65_535, 65_536, 65_537, u32::MAX as usize]),
        _ => inputs,
    };
    input.with_numbers("inputs", vec![inputs as i64])
}

pub(crate) fn grid_descriptor(sides: &Sides, input: &Input) -> Verdict {
    let body = input.bytes("body");
    let wants = sides.wants(|build| expected::settle(build.parse_grid(body)));
    agree(wants, |want| {
        let words = want.map(|grid| {
            let tiles = [grid.rows, grid.columns].map(u64::from);
            let canvas = [grid.width, grid.height].map(u64::from);
            [tiles[0], tiles[1], canvas[0], canvas[1]]
        });
        let call = |lent: &mut [u64]| sides.ours.grid_descriptor(body, lent);
        model_answers(want, &parse_grid(body)).or_else(|| ours::fills(&words, call))
    })
}

/// How far ahead and how far behind an offset goes.
fn split(offset: i32) -> [u64; 2] {
    let far = u64::from(offset.unsigned_abs());
    if offset < 0 { [0, far] } else { [far, 0] }
}

/// Where an input goes, in four words.
fn placed((across, down): &(i32, i32)) -> [u64; 4] {
    let ([right, left], [below, above]) = (split(*across), split(*down));
    [right, left, below, above]
}

/// The descriptor, then all offsets, then each input's, then one index past them and the last there
/// is.
pub(crate) fn overlay_descriptor(sides: &Sides, input: &Input) -> Verdict {
    let body = input.bytes("body");
    let inputs = input.numbers("inputs")[0] as u32;
    let wants = sides.wants(|build| expected::settle(build.parse_overlay(body, inputs as usize)));
    agree(wants, |want| {
        let read = want.as_ref().map_err(|refusal| *refusal);
        let words = read.map(|overlay| {
            let [red, green, blue, alpha] = overlay.fill.map(u64::from);
            let [width, height] = [overlay.width, overlay.height].map(u64::from);
            [red, green, blue, alpha, width, height]
        });
        let call = |lent: &mut [u64]| sides.ours.overlay_descriptor(body, inputs, lent);
        let all = || {
            let words = read.map(|overlay| overlay.offsets.iter().map(placed).collect::<Vec<_>>());
            let words = words.map(|inputs| inputs.concat());
            let call = |lent: &mut [u64]| sides.ours.overlay_offsets(body, inputs, lent);
            ours::fills(&words, call).map(|shows| format!("all offsets: {shows}"))
        };
        let offset = |index: u32| {
            let words = read.and_then(|overlay| {
                let offset = overlay.offsets.get(index as usize);
                offset.map(placed).ok_or(refusal::COUNT)
            });
            let call = |lent: &mut [u64]| sides.ours.overlay_offset(body, inputs, index, lent);
            ours::fills(&words, call).map(|shows| format!("offset {index}: {shows}"))
        };
        let count = read.map_or(0, |overlay| overlay.offsets.len() as u32);
        model_answers(want, &parse_overlay(body, inputs as usize))
            .or_else(|| ours::fills(&words, call))
            .or_else(all)
            .or_else(|| (0..count).chain([inputs, u32::MAX]).find_map(offset))
    })
}

fn chain_input(rng: &mut Rng) -> Input {
    Input::new().with_bytes("chain", damage::any_chain(rng))
}

/// The model's reading, which is written back to the same bytes, and the composer's count. The
/// published Rust has no chains of bytes; `steps` holds what it makes of their entries.
fn chain(sides: &Sides, input: &Input) -> Verdict {
    let bytes = input.bytes("chain");
    agree(sides.wants(|_| expected::chain(bytes)), |want| {
        let read = parse_chain(bytes);
        model_departs(want, &read, bytes, |entries| chain_bytes(entries)).or_else(|| {
            let count = read.map(|entries| entries.len() as u32);
            ours::answers(&count, sides.ours.chain(bytes))
        })
    })
}

/// A size of any sides.
fn size_input(rng: &mut Rng) -> (u32, u32) {
    (generate::border(rng), generate::border(rng))
}

pub(crate) fn with_size(input: Input, (width, height): (u32, u32)) -> Input {
    input.with_numbers("size", vec![i64::from(width), i64::from(height)])
}

pub(crate) fn size_of(input: &Input) -> (u32, u32) {
    let side = |at: usize| input.numbers("size")[at] as u32;
    (side(0), side(1))
}

fn clap_resolve_input(rng: &mut Rng) -> Input {
    let size = size_input(rng);
    let fields = generate::wide_clap(rng, size).fields();
    let input = Input::new().with_numbers("fields", fields.map(i64::from).to_vec());
    with_size(input, size)
}

/// The published Rust's rectangle and the model's; then the model's margins, too, and the composer's.
fn clap_resolve(sides: &Sides, input: &Input) -> Verdict {
    let field = |at: usize| input.numbers("fields")[at] as u32;
    let (clap, size) = (
        Clap::from_fields(std::array::from_fn(field)),
        size_of(input),
    );
    let wants = sides.wants(|build| expected::settle(build.resolve_clap(&clap, size.0, size.1)));
    agree(wants, |want| {
        let model = clap.resolve(size.0, size.1);
        let words = model.map(|crop| crop.fields());
        let call = |lent: &mut [u32]| sides.ours.clap_resolve(&clap, size, lent);
        model_answers(want, &model.map(|crop| crop.rectangle)).or_else(|| ours::fills(&words, call))
    })
}

fn iscl_size_input(rng: &mut Rng) -> Input {
    let size = if rng.flag() {
        generate::wide_size(rng)
    } else {
        size_input(rng)
    };
    let iscl = if rng.flag() {
        generate::iscl(rng)
    } else {
        generate::wide_iscl(rng)
    };
    let input = Input::new().with_numbers("fields", iscl.fields().map(i64::from).to_vec());
    with_size(input, size)
}

fn iscl_size(sides: &Sides, input: &Input) -> Verdict {
    let field = |at: usize| input.numbers("fields")[at] as u16;
    let (iscl, size) = (
        Iscl::from_fields(std::array::from_fn(field)),
        size_of(input),
    );
    let wants = sides.wants(|build| expected::iscl_size(build, &iscl, size));
    agree(wants, |want| {
        let words = want.map(|(width, height)| [width, height]);
        let call = |lent: &mut [u32]| sides.ours.iscl_size(&iscl, size, lent);
        model_answers(want, &iscl.output_size(size.0, size.1)).or_else(|| ours::fills(&words, call))
    })
}

/// A size and a chain that follows it; now and then damaged, with a chain of faults or of any sort.
fn steps_input(rng: &mut Rng) -> Input {
    let size = generate::wide_size(rng);
    let mut bytes = [number_bytes(size.0), number_bytes(size.1)].concat();
    bytes.extend(match rng.below(8) {
        0 => damage::any_chain(rng),
        _ => chain_bytes(&generate::wide_chain(rng, size)),
    });
    if rng.once_in(16) {
        damage::damage(rng, &mut bytes);
    }
    Input::new().with_bytes("input", bytes)
}

/// The text of the oracle's sizes, of the model's, and the composer's. Input counts as refused where
/// the text is a refusal and no more.
fn steps(sides: &Sides, input: &Input) -> Verdict {
    let bytes = input.bytes("input");
    let wants = sides.wants(|build| expected::steps(build, bytes));
    let verdict = agree(wants, |want| {
        let model = steps_text(bytes, |entry, size| Ok(entry.size_after(size)));
        let call = |output: &mut [u8]| sides.ours.steps(bytes, output);
        model_answers(want, &model.map(String::into_bytes)).or_else(|| ours::writes(want, call))
    });
    match (verdict, parse_steps(bytes)) {
        (Verdict::Accepted, Err(refusal)) => Verdict::Refused(refusal),
        (verdict, _) => verdict,
    }
}

/// A property's fields as numbers, after its kind.
fn property_numbers(property: Property) -> Vec<i64> {
    let entry = Entry::new(false, property);
    entry.numbers()[2..]
        .iter()
        .map(|field| i64::from(*field))
        .collect()
}

/// The operations on one record.
#[derive(Clone, Copy)]
pub(crate) enum Kind {
    Crop,
    Clap,
    Irot,
    Imir,
    Iscl,
    Nearest,
    Depth,
}

/// The fields of an operation on a picture of the given size.
fn operation_fields(rng: &mut Rng, kind: Kind, size: (u32, u32)) -> Vec<i64> {
    match kind {
        Kind::Crop => damage::any_crop(rng, size).fields().map(i64::from).to_vec(),
        Kind::Clap => property_numbers(Property::Clap(generate::clap(rng, size))),
        Kind::Irot => vec![i64::from(generate::turn(rng, 3))],
        Kind::Imir => vec![i64::from(generate::turn(rng, 1))],
        Kind::Iscl => property_numbers(Property::Iscl(generate::iscl(rng))),
        Kind::Nearest => {
            let side = |rng: &mut Rng, same: u32| match rng.below(12) {
                0 => same,
                1 => rng.pick(&[0, u32::MAX]),
                _ => generate::side(rng),
            };
            [side(rng, size.0), side(rng, size.1)]
                .map(i64::from)
                .to_vec()
        }
        Kind::Depth => {
            vec![rng.pick(&[0, 7, 8, 8, 9, 10, 11, 12, 13, 14, 15, 16, 17, 255, 256, 264])]
        }
    }
}

/// A frame's record, once in eight any but a valid one as a rule.
pub(crate) fn record_of(rng: &mut Rng, frame: &Frame) -> Vec<u8> {
    match rng.below(16) {
        0 => damage::any_record(rng),
        1 => {
            let mut record = frame.record();
            damage::damage(rng, &mut record);
            record
        }
        _ => frame.record(),
    }
}

/// A record and an operation's fields.
fn operation_input(rng: &mut Rng, kind: Kind) -> Input {
    let frame = generate::frame(rng);
    let mut fields = operation_fields(rng, kind, (frame.width, frame.height));
    let record = record_of(rng, &frame);
    let input = Input::new().with_bytes("record", record);
    match kind {
        Kind::Crop => {
            let margins = fields.split_off(4);
            input
                .with_numbers("fields", fields)
                .with_numbers("margins", margins)
        }
        _ => input.with_numbers("fields", fields),
    }
}

/// The crop that an input names.
pub(crate) fn crop_of(input: &Input) -> Crop {
    let fields = [input.numbers("fields"), input.numbers("margins")].concat();
    Crop::from_fields(std::array::from_fn(|at| fields[at] as u32))
}

/// The operation of a kind with an input's fields.
pub(crate) fn operation_of(input: &Input, kind: Kind) -> Operation {
    let field = |at: usize| input.numbers("fields")[at] as u32;
    match kind {
        Kind::Crop => Operation::Crop(crop_of(input)),
        Kind::Clap => Operation::Clap(Clap::from_fields(std::array::from_fn(field))),
        Kind::Irot => Operation::Irot(field(0) as u8),
        Kind::Imir => Operation::Imir(field(0) as u8),
        Kind::Iscl => Operation::Iscl(Iscl::from_fields(std::array::from_fn(|at| {
            field(at) as u16
        }))),
        Kind::Nearest => Operation::Nearest(field(0), field(1)),
        Kind::Depth => Operation::Depth(field(0)),
    }
}

/// What the model makes of an operation, then what the composer writes.
fn operation(sides: &Sides, input: &Input, kind: Kind) -> Verdict {
    let (record, operation) = (input.bytes("record"), operation_of(input, kind));
    let wants = sides.wants(|build| expected::operation(build, record, &operation));
    agree(wants, |want| {
        let model = parse_record(record).and_then(|frame| operation.apply(&frame));
        let model = model.map(|frame| frame.record());
        let call = |output: &mut [u8]| sides.ours.operation(record, &operation, output);
        model_answers(want, &model)
            .or_else(|| no_record(want))
            .or_else(|| ours::writes(want, call))
    })
}

fn attach_input(rng: &mut Rng) -> Input {
    let master = generate::frame(rng);
    let mut form = generate::form(rng);
    if rng.flag() {
        form.depth = master.depth;
    }
    let size = if rng.flag() {
        (master.width, master.height)
    } else {
        generate::size(rng)
    };
    let alpha = generate::frame_of(rng, size, form, true);
    let (master, alpha) = (record_of(rng, &master), record_of(rng, &alpha));
    Input::new()
        .with_bytes("master", master)
        .with_bytes("alpha", alpha)
}

fn attach(sides: &Sides, input: &Input) -> Verdict {
    let (master, alpha) = (input.bytes("master"), input.bytes("alpha"));
    let wants = sides.wants(|build| expected::attach(build, master, alpha));
    agree(wants, |want| {
        let call = |output: &mut [u8]| sides.ours.attach(master, alpha, output);
        no_record(want).or_else(|| ours::writes(want, call))
    })
}

fn colour_numbers(colour: Option<Colour>) -> Vec<i64> {
    colour.map_or(Vec::new(), |colour| {
        vec![i64::from(colour.matrix), i64::from(colour.full_range)]
    })
}

pub(crate) fn colour_of(input: &Input) -> Option<Colour> {
    match input.numbers("colour") {
        [matrix, full_range] => Some(Colour {
            matrix: *matrix as u16,
            full_range: *full_range != 0,
        }),
        _ => None,
    }
}

fn fill_input(rng: &mut Rng) -> Input {
    Input::new()
        .with_numbers("fill", generate::fill(rng).map(i64::from).to_vec())
        .with_numbers(
            "depth",
            vec![rng.pick(&[7, 8, 9, 10, 11, 12, 13, 14, 15, 16, 17, 264])],
        )
        .with_numbers("colour", colour_numbers(generate::colour(rng)))
}

fn fill(sides: &Sides, input: &Input) -> Verdict {
    let channels = std::array::from_fn(|at| input.numbers("fill")[at] as u16);
    let depth = input.numbers("depth")[0] as u32;
    let colour = colour_of(input);
    let wants = sides.wants(|build| expected::fill(build, channels, depth, colour));
    agree(wants, |want| {
        let call = |words: &mut [u16]| sides.ours.fill(channels, depth, colour, words);
        model_answers(want, &fill_samples(channels, depth, colour))
            .or_else(|| ours::fills(want, call))
    })
}

/// A body, a tray and a chain as one input, each part now and then loosened or damaged.
fn whole_input(rng: &mut Rng, draft: SceneDraft) -> Input {
    let SceneDraft {
        mut body,
        mut tray,
        mut chain,
        premultiplied,
    } = draft;
    generate::loosen_body(rng, &mut body);
    for part in [&mut body, &mut tray, &mut chain] {
        if rng.once_in(16) {
            damage::damage(rng, part);
        }
    }
    let input = Input::new()
        .with_bytes("body", body)
        .with_bytes("tray", tray)
        .with_bytes("chain", chain)
        .with_numbers("essential-only", vec![rng.within(0..=1)]);
    match premultiplied {
        None => input,
        Some(mut list) => {
            if rng.once_in(24) {
                damage::damage(rng, &mut list);
            }
            input
                .with_bytes("premultiplied", list)
                .with_numbers("colour", colour_numbers(generate::colour(rng)))
        }
    }
}

/// A premultiplied byte an input.
fn list_of(rng: &mut Rng, inputs: &[OverlayInput]) -> Vec<u8> {
    let byte = |input: &OverlayInput| {
        let any = rng.byte() | 1;
        if input.premultiplied { any } else { 0 }
    };
    inputs.iter().map(byte).collect()
}

fn frames_of(inputs: &[OverlayInput]) -> Vec<Frame> {
    inputs.iter().map(|input| input.frame.clone()).collect()
}

/// Only where it `scales` the chain may have an iscl.
fn grid_draft(rng: &mut Rng, scales: bool) -> SceneDraft {
    let (grid, tiles) = generate::grid_scene(rng);
    let chain = generate::entries(rng, (grid.width, grid.height), scales);
    SceneDraft {
        body: grid_bytes(&grid, rng.flag()),
        tray: tray_bytes(&tiles),
        chain: chain_bytes(&chain),
        premultiplied: None,
    }
}

/// As [`grid_draft`]; only where it `shines` the inputs may have alpha.
fn overlay_draft(rng: &mut Rng, scales: bool, shines: bool) -> SceneDraft {
    let (overlay, mut inputs) = generate::overlay_scene(rng);
    if !shines {
        for OverlayInput { frame, .. } in &mut inputs {
            frame.alpha = 0;
            frame.planes.truncate(frame.plane_count());
        }
    }
    let chain = generate::entries(rng, (overlay.width, overlay.height), scales);
    SceneDraft {
        body: overlay_bytes(&overlay, rng.flag()),
        tray: tray_bytes(&frames_of(&inputs)),
        chain: chain_bytes(&chain),
        premultiplied: Some(list_of(rng, &inputs)),
    }
}

fn grid_input(rng: &mut Rng) -> Input {
    let draft = grid_draft(rng, true);
    whole_input(rng, draft)
}

fn overlay_input(rng: &mut Rng) -> Input {
    let draft = overlay_draft(rng, true, true);
    whole_input(rng, draft)
}

/// A scene; once in eight one with known faults.
pub(crate) fn scene_input(rng: &mut Rng, overlay: bool) -> Input {
    if rng.once_in(8) {
        let drawn = |fault: SceneFault| fault.fits(overlay) && fault.is_drawn();
        let faults = damage::some_faults(rng, drawn);
        let draft = damage::faulty_scene(rng, &faults, overlay);
        return whole_input(rng, draft);
    }
    if overlay {
        overlay_input(rng)
    } else {
        grid_input(rng)
    }
}

/// The parts that both scene calls are handed.
pub(crate) fn parts_of(input: &Input) -> SceneParts<'_> {
    SceneParts {
        body: input.bytes("body"),
        tray: input.bytes("tray"),
        chain: input.bytes("chain"),
        essential_only: input.flag("essential-only"),
    }
}

pub(crate) fn marks_of(input: &Input) -> Marks<'_> {
    Marks {
        premultiplied: input.bytes("premultiplied"),
        colour: colour_of(input),
    }
}

/// The same without a chain: what composing alone writes.
pub(crate) fn composed_of(input: &Input) -> SceneParts<'_> {
    SceneParts {
        chain: &[0],
        ..parts_of(input)
    }
}

/// What the model composes, then what the composer writes.
fn composite_grid(sides: &Sides, input: &Input) -> Verdict {
    let parts = composed_of(input);
    let wants = sides.wants(|build| Ok(expected::grid_scene(build, &parts)?.record));
    agree(wants, |want| {
        let model = model::grid_scene(&parts).map(|scene| scene.record);
        let call = |output: &mut [u8]| sides.ours.grid(parts.body, parts.tray, output);
        model_answers(want, &model)
            .or_else(|| no_record(want))
            .or_else(|| ours::writes(want, call))
    })
}

fn composite_overlay(sides: &Sides, input: &Input) -> Verdict {
    let (parts, marks) = (composed_of(input), marks_of(input));
    let wants = sides.wants(|build| Ok(expected::overlay_scene(build, &parts, &marks)?.record));
    agree(wants, |want| {
        let model = model::overlay_scene(&parts, &marks).map(|scene| scene.record);
        let (list, colour) = (marks.premultiplied, marks.colour);
        let call = |output: &mut [u8]| {
            sides
                .ours
                .overlay(parts.body, parts.tray, list, colour, output)
        };
        model_answers(want, &model)
            .or_else(|| no_record(want))
            .or_else(|| ours::writes(want, call))
    })
}

/// The oracle's scene, step by step and whole, the model's, and the composer's.
fn scene(sides: &Sides, input: &Input, overlay: bool) -> Verdict {
    let parts = parts_of(input);
    let marks = overlay.then(|| marks_of(input));
    let wants = sides.wants(|build| expected_scene(build, &parts, marks.as_ref()));
    agree(wants, |want| {
        let model = match &marks {
            Some(marks) => model::overlay_scene(&parts, marks),
            None => model::grid_scene(&parts),
        };
        let call = |output: &mut [u8], spare: &mut [u8]| match &marks {
            Some(marks) => sides.ours.overlay_scene(&parts, marks, output, spare),
            None => sides.ours.grid_scene(&parts, output, spare),
        };
        model_answers(want, &model)
            .or_else(|| no_record(want))
            .or_else(|| ours::composes(want, call))
    })
}

pub(crate) fn expected_scene(
    build: &dyn Oracle,
    parts: &SceneParts,
    marks: Option<&Marks>,
) -> Want<Scene> {
    match marks {
        Some(marks) => expected::overlay_scene(build, parts, marks),
        None => expected::grid_scene(build, parts),
    }
}

/// A scene of a grid or an overlay, most of them such that the point call answers.
fn point_input(rng: &mut Rng) -> Input {
    let overlay = rng.flag();
    let (scales, shines) = (rng.once_in(10), rng.once_in(10));
    if rng.once_in(16) {
        return scene_input(rng, overlay);
    }
    let draft = if overlay {
        overlay_draft(rng, scales, shines)
    } else {
        grid_draft(rng, scales)
    };
    whole_input(rng, draft)
}

/// The most places that are asked for.
const MANY: usize = 1 << 14;

/// A tray alike in all but its samples.
fn other_samples(tray: &[u8]) -> Vec<u8> {
    let mut frames = parse_tray(tray).expect("a tray that was taken");
    for plane in frames.iter_mut().flat_map(|frame| &mut frame.planes) {
        for (byte, at) in plane.data.iter_mut().zip(1..) {
            *byte = byte.wrapping_add(at).wrapping_mul(3);
        }
    }
    tray_bytes(&frames)
}

/// The point call at every place of the final picture, and at places outside it (18). The model's
/// answers are held to the oracle's final size, or why there is none, and to its picture: its size, and
/// every sample at every place that it covers; the composer's to the model's, on a tray of other
/// samples too. No spot is named twice.
fn point(sides: &Sides, input: &Input) -> Verdict {
    let parts = parts_of(input);
    let overlay = input.has("premultiplied");
    let marks = overlay.then(|| marks_of(input));
    let sighted = match &marks {
        Some(marks) => Sighted::overlay(&parts, marks),
        None => Sighted::grid(&parts),
    };
    let ask = |tray: &[u8], place: Size, words: &mut [u32]| {
        let parts = SceneParts { tray, ..parts };
        match &marks {
            Some(marks) => sides.ours.overlay_point(&parts, marks, place, words),
            None => sides.ours.grid_point(&parts, place, words),
        }
    };
    let ours = |tray: &[u8], place: Size, want: &Answer<Point>| {
        let want = want.map(|point| point.words());
        let departs = ours::fills(&want, |words| ask(tray, place, words));
        departs.map(|shows| format!("at {place:?}: {shows}"))
    };
    let refused = |refusal| {
        let places = [(0, 0), (1, 2), (u32::MAX, u32::MAX)];
        let mut asked = places.into_iter();
        asked.find_map(|place| ours(parts.tray, place, &Err(refusal)))
    };
    let size = sighted.as_ref().map(Sighted::size);
    let size = size.map_err(|refusal| *refusal);
    let wants = sides.wants(|build| expected::point(build, &parts, marks.as_ref()));
    if let shown @ Verdict::Different(_) = agree(wants, |want| model_answers(want, &size)) {
        return shown;
    }
    // Input with alpha, or an iscl: the scene may well be made.
    if let Err(refusal) = size
        && refusal.number == refusal::POINT.number
    {
        return refused(refusal).map_or(Verdict::Refused(refusal), Verdict::Different);
    }
    let wants = sides.wants(|build| expected_scene(build, &parts, marks.as_ref()));
    let mut many = false;
    let verdict = agree(wants, |want| match (want, &sighted) {
        (Err(refusal), Err(same)) if refusal == same => refused(*refusal),
        (Ok(scene), Ok(sighted)) => {
            let frame = parse_record(&scene.record).expect("a record that was made");
            many = frame.width as usize * frame.height as usize > MANY;
            if many {
                return None;
            }
            agreement(&frame, sighted).or_else(|| {
                let (width, height) = sighted.size();
                let outside = [
                    (width, 0),
                    (0, height),
                    (width, height),
                    (u32::MAX, 0),
                    (0, u32::MAX),
                ];
                let inside = places(sighted.size());
                let mut places = inside.chain(outside);
                let other = other_samples(parts.tray);
                places.find_map(|place| {
                    let want = sighted.at(place.0, place.1);
                    ours(parts.tray, place, &want).or_else(|| {
                        let departs = ours(&other, place, &want);
                        departs.map(|shows| format!("with other samples {shows}"))
                    })
                })
            })
        }
        (want, sighted) => {
            let want = want.as_ref().map(|_| "a picture");
            let sighted = sighted.as_ref().map(|_| "an answer");
            Some(format!("the scene {want:?}, the point {sighted:?}"))
        }
    });
    if many { Verdict::PassedOver } else { verdict }
}

fn places((width, height): Size) -> impl Iterator<Item = Size> {
    (0..height).flat_map(move |y| (0..width).map(move |x| (x, y)))
}

/// How a picture departs from what the model's point call names in it: demand 3.
pub fn agreement(frame: &Frame, sighted: &Sighted) -> Option<String> {
    let size = (frame.width, frame.height);
    if size != sighted.size() {
        return Some(format!(
            "the picture {size:?}, the point {:?}",
            sighted.size()
        ));
    }
    let mut named = HashSet::new();
    for (x, y) in places(size) {
        let at = sighted.at(x, y).map(|point| point.named);
        let Ok(at) = at else {
            return Some(format!("({x}, {y}) is refused"));
        };
        if at != Named::Fill && !named.insert(at) {
            return Some(format!("({x}, {y}): {at:?} is named twice"));
        }
        for plane in 0..frame.plane_count() {
            let part = frame.part(plane);
            let (shown, read) = (frame.covering(part, x, y), sighted.reads(at, part));
            if shown != read {
                return Some(format!(
                    "plane {plane} at ({x}, {y}) shows {shown}, {at:?} reads {read}"
                ));
            }
        }
    }
    None
}

/// A number, a sort, an index as its bit pattern and a language: known ones as a rule.
fn sentence_input(rng: &mut Rng) -> Input {
    let number = match rng.below(8) {
        0 => rng.pick(&[0, 20, 255, 256 + 5, u32::MAX]),
        _ => rng.number(1..=19),
    };
    let sort = match rng.below(8) {
        0 => rng.pick(&[3, 255]),
        _ => rng.number(0..=2),
    };
    let language = match rng.below(8) {
        0 => rng.pick(&[2, 255]),
        _ => rng.number(0..=1),
    };
    let index = match rng.below(4) {
        0 => rng.word(),
        1 => rng.word() >> rng.below(64),
        _ => rng.pick(&INDEXES),
    };
    let [number, sort, language] = [number, sort, language].map(i64::from);
    let refusal = vec![number, sort, index.cast_signed(), language];
    Input::new().with_numbers("refusal", refusal)
}

/// Indexes where another digit or another word begins.
const INDEXES: [u64; 9] = [
    0,
    9,
    10,
    (1 << 32) - 1,
    1 << 32,
    (1 << 32) + 1,
    (1 << 40) - 1,
    (1 << 40) + 1,
    u64::MAX,
];

/// The model's sentence, which says what it was made of, and what the composer writes. The published
/// Rust has none.
fn sentence(sides: &Sides, input: &Input) -> Verdict {
    let field = |at: usize| input.numbers("refusal")[at];
    let (number, sort, language) = (field(0) as u32, field(1) as u8, field(3) as u8);
    let index = field(2).cast_unsigned();
    let made = |_: &dyn Oracle| {
        let sentence = model::sentence(number, sort, index, language)?;
        Ok(sentence.into_bytes())
    };
    agree(sides.wants(made), |want| {
        let call = |output: &mut [u8]| sides.ours.sentence(number, sort, index, language, output);
        ours::writes(want, call).or_else(|| {
            let read = read_sentence(want.as_ref().ok()?);
            let said = Refusal {
                number: number as u8,
                item: Item::of_sort(sort, index),
            };
            (read != Some((language, said))).then(|| format!("it is read as {read:?}"))
        })
    })
}

/// A session: a body, a tray of tiles to take from, one more record, and calls of three bytes
/// each: what to do, a cell, a tile of the tray.
fn session_input(rng: &mut Rng) -> Input {
    let (grid, tiles) = generate::grid_scene(rng);
    let mut calls = Vec::new();
    for cell in generate::shuffled(rng, grid.cells()) {
        let again = rng.once_in(4).then(|| rng.below(grid.cells() + 1));
        for cell in again.into_iter().chain([cell]) {
            let call = rng.pick(&[PLACE, PLACE, PLACE, PLACE, BLANK]);
            calls.extend([call, cell as u8, rng.below(tiles.len()) as u8]);
        }
        if rng.once_in(8) {
            calls.extend([rng.pick(&[FINISH, STRANGER]), cell as u8, 0]);
        }
    }
    calls.extend([FINISH, 0, 0]);
    Input::new()
        .with_bytes("body", grid_bytes(&grid, rng.flag()))
        .with_bytes("tray", tray_bytes(&tiles))
        .with_bytes("stranger", damage::any_record(rng))
        .with_bytes("calls", calls)
}

const PLACE: u8 = 0;
const BLANK: u8 = 1;
const FINISH: u8 = 2;
/// Place the record that is not of the tray.
const STRANGER: u8 = 3;

/// The calls that an input names, with `tiles` as records.
pub fn calls_of<'a>(input: &'a Input, tiles: &'a [Vec<u8>]) -> Vec<Call<'a>> {
    let call = |&[kind, cell, tile]: &[u8; 3]| match (kind, tiles.get(usize::from(tile))) {
        (PLACE, Some(tile)) => Call::Place(u32::from(cell), tile),
        (PLACE | BLANK, _) => Call::Blank(u32::from(cell)),
        (FINISH, _) => Call::Finish,
        _ => Call::Place(u32::from(cell), input.bytes("stranger")),
    };
    input
        .bytes("calls")
        .as_chunks()
        .0
        .iter()
        .map(call)
        .collect()
}

fn session(sides: &Sides, input: &Input) -> Verdict {
    let (Outcome::Done(grid), Ok(tiles)) = (
        sides.plain.parse_grid(input.bytes("body")),
        parse_tray(input.bytes("tray")),
    ) else {
        return Verdict::PassedOver;
    };
    let tiles: Vec<Vec<u8>> = tiles.iter().map(Frame::record).collect();
    let calls = calls_of(input, &tiles);
    let [plain, checked] = sides.wants(|build| expected::session(build, &grid, &calls));
    let departs = ours::places(sides.ours, input.bytes("body"), &calls, &plain);
    for (at, (plain, checked)) in plain.into_iter().zip(checked).enumerate() {
        if (&plain.buffer, plain.numbers, &plain.placed)
            != (&checked.buffer, checked.numbers, &checked.placed)
        {
            return Verdict::Different(format!("call {at} leaves another canvas"));
        }
        let departs = departs.iter().find(|(call, _)| *call == at);
        match agree([plain.answer, checked.answer], |_| {
            departs.map(|(_, shows)| shows.clone())
        }) {
            Verdict::Different(shows) => {
                return Verdict::Different(format!("call {at}: {shows}"));
            }
            verdict if at + 1 == calls.len() => return verdict,
            _ => {}
        }
    }
    Verdict::PassedOver
}
