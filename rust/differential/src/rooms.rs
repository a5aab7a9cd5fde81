//! The comparisons of a chain on one record, and of room.

use crate::compare::{Input, Sides, Verdict};
use crate::comparisons::{
    agree, expected_scene, marks_of, model_answers, no_record, parts_of, record_of, scene_input,
};
use crate::damage;
use crate::expected;
use crate::generate::{self, Form};
use crate::ours;
use crate::rng::Rng;
use model::{
    Frame, Operation, Overlay, Size, chain_bytes, overlay_bytes, parse_grid, parse_overlay,
    tray_count,
};

/// A record and a chain that follows its size; now and then either is of any sort or damaged.
pub(crate) fn transforms_input(rng: &mut Rng) -> Input {
    let frame = generate::frame(rng);
    let mut chain = match rng.below(12) {
        0 => damage::any_chain(rng),
        _ => chain_bytes(&generate::chain(rng, (frame.width, frame.height))),
    };
    if rng.once_in(16) {
        damage::damage(rng, &mut chain);
    }
    Input::new()
        .with_bytes("record", record_of(rng, &frame))
        .with_bytes("chain", chain)
        .with_numbers("essential-only", vec![rng.within(0..=1)])
}

/// The oracle's steps from the tight record on and its `apply_transforms`, the model's record and
/// its room by forms, and what the composer writes.
pub(crate) fn transforms(sides: &Sides, input: &Input) -> Verdict {
    let (record, chain) = (input.bytes("record"), input.bytes("chain"));
    let flag = input.flag("essential-only");
    let wants = sides.wants(|build| expected::transforms(build, record, chain, flag));
    agree(wants, |want| {
        let room = want.as_ref().map(|made| made.room as u64);
        let room = room.map_err(|refusal| *refusal);
        let call = |output: &mut [u8], spare: &mut [u8]| {
            sides.ours.transforms(record, chain, flag, output, spare)
        };
        model_answers(want, &model::transforms(record, chain, flag))
            .or_else(|| model_answers(&room, &model::transforms_room(record, chain, flag)))
            .or_else(|| no_record(want))
            .or_else(|| ours::composes(want, call))
    })
}

/// A form as a header's five numbers: sides of any size, at the limit and beyond; now and then a
/// number that no record has, or several.
pub(crate) fn record_size_input(rng: &mut Rng) -> Input {
    let (width, height) = match rng.below(4) {
        0 => generate::wide_size(rng),
        _ => generate::size(rng),
    };
    let Form {
        chroma,
        depth,
        alpha,
    } = generate::form(rng);
    let mut form = [width, height, chroma as u32, depth.into(), alpha.into()];
    if rng.once_in(4) {
        for _ in 0..1 + rng.below(3) {
            let (at, wrong) = rng.pick(&[
                (0, 0),
                (1, 0),
                (0, u32::MAX),
                (2, 4),
                (2, 256),
                (3, 7),
                (3, 17),
                (3, 264),
                (4, 2),
                (4, 257),
            ]);
            form[at] = wrong;
        }
    }
    Input::new().with_numbers("form", form.map(i64::from).to_vec())
}

/// The most pixels of a form that a record is made of.
const MADE: u64 = 1 << 12;

/// The model's size and the composer's. Where a record is soon made, its length as the oracle and
/// the composer mirror one of that form whose rows are spaced and whose data goes on.
pub(crate) fn record_size(sides: &Sides, input: &Input) -> Verdict {
    let header = std::array::from_fn(|at| input.numbers("form")[at] as u32);
    let model = model::record_size(header);
    if let Some(shows) = ours::answers(&model, sides.ours.record_size(header)) {
        return Verdict::Different(shows);
    }
    let form = match Frame::of_header(header) {
        Err(refusal) => return Verdict::Refused(refusal),
        Ok(form) => form,
    };
    if u64::from(form.width) * u64::from(form.height) > MADE {
        return Verdict::Accepted;
    }
    let frame = spaced(form);
    agree(
        sides.wants(|build| expected::record_size(build, &frame)),
        |want| {
            model_answers(want, &model).or_else(|| {
                let (record, mirror) = (frame.record(), Operation::Imir(0));
                let mut output = vec![0; record.len()];
                let wrote = sides.ours.operation(&record, &mirror, &mut output);
                let wrote = wrote.map(|answer| answer.map(|length| length as u64));
                ours::answers(want, wrote)
            })
        },
    )
}

/// A frame of a form, each row three bytes longer than its samples, and five bytes at the end.
fn spaced(mut form: Frame) -> Frame {
    for plane in 0..form.plane_count() {
        let stride = form.row_bytes(plane) + 3;
        let data = vec![0; form.data_needed(plane, stride) + 5];
        form.planes.push(model::Plane { stride, data });
    }
    form
}

/// A scene. Of four, two have a chain of any sizes, and one of these, if it is an overlay, a canvas
/// of any size: nothing is drawn for the room alone.
pub(crate) fn room_input(rng: &mut Rng, overlay: bool) -> Input {
    let mut input = scene_input(rng, overlay);
    let sort = rng.below(4);
    if sort > 1 {
        return input;
    }
    if sort == 0
        && let Some(read) = overlay_of(&input)
    {
        let (width, height) = generate::wide_size(rng);
        let body = Overlay {
            width,
            height,
            ..read
        };
        part(&mut input, "body", overlay_bytes(&body, true));
    }
    let size = canvas_of(&input).unwrap_or((8, 8));
    let chain = chain_bytes(&generate::wide_chain(rng, size));
    part(&mut input, "chain", chain);
    input
}

/// Puts other bytes in place of a part.
fn part(input: &mut Input, name: &str, bytes: Vec<u8>) {
    for (_, part) in input.bytes.iter_mut().filter(|(part, _)| *part == name) {
        part.clone_from(&bytes);
    }
}

/// The overlay that an input's body says, if it is one's and can be read.
fn overlay_of(input: &Input) -> Option<Overlay> {
    if !input.has("premultiplied") {
        return None;
    }
    let count = tray_count(input.bytes("tray")).ok()?;
    parse_overlay(input.bytes("body"), count as usize).ok()
}

/// The canvas of an input's body, if it can be read.
fn canvas_of(input: &Input) -> Option<Size> {
    if input.has("premultiplied") {
        return overlay_of(input).map(|overlay| (overlay.width, overlay.height));
    }
    let grid = parse_grid(input.bytes("body")).ok()?;
    Some((grid.width, grid.height))
}

/// The most pixels of a canvas, and the longest room, for which a scene is made.
const LENT: u64 = 1 << 16;

/// The model's room by forms and the composer's; for that room and no less the composer's scene is
/// made. Where it is soon drawn, the oracle's longest record.
pub(crate) fn room(sides: &Sides, input: &Input, overlay: bool) -> Verdict {
    let parts = parts_of(input);
    let marks = overlay.then(|| marks_of(input));
    let (model, ours) = match &marks {
        Some(marks) => (
            model::overlay_room(&parts, marks.premultiplied),
            sides.ours.overlay_room(&parts, marks.premultiplied),
        ),
        None => (model::grid_room(&parts), sides.ours.grid_room(&parts)),
    };
    let call = |output: &mut [u8], spare: &mut [u8]| match &marks {
        Some(marks) => sides.ours.overlay_scene(&parts, marks, output, spare),
        None => sides.ours.grid_scene(&parts, output, spare),
    };
    let departs = ours::answers(&model, ours).or_else(|| match model {
        Ok(room) if room <= LENT => ours::suffices(room as usize, call),
        _ => None,
    });
    if let Some(shows) = departs {
        return Verdict::Different(shows);
    }
    let verdict = model.map_or_else(Verdict::Refused, |_| Verdict::Accepted);
    let pixels = canvas_of(input).map_or(0, |size| u64::from(size.0) * u64::from(size.1));
    if pixels.max(model.unwrap_or(0)) > LENT {
        return verdict;
    }
    let wants = sides.wants(|build| {
        let made = expected_scene(build, &parts, marks.as_ref())?;
        Ok(made.room as u64)
    });
    match agree(wants, |want| model_answers(want, &model)) {
        Verdict::PassedOver => verdict,
        verdict => verdict,
    }
}
