//! Inputs a step smaller than a given one, for showing a difference on little.

use crate::compare::Input;
use crate::comparisons::crop_of;
use model::{Crop, Frame, chain_bytes, parse_chain, parse_record, parse_tray, tray_bytes};

/// Smaller inputs, the ones that take most away first: whole pictures and entries, then bytes,
/// then numbers nearer to 0.
pub fn smaller(input: &Input) -> Vec<Input> {
    let mut candidates = without_one_input(input);
    for (part, (_, bytes)) in input.bytes.iter().enumerate() {
        let parts = smaller_parts(bytes).into_iter().chain(smaller_bytes(bytes));
        candidates.extend(parts.map(|less| edited(input, |copy| copy.bytes[part].1 = less)));
    }
    for (part, (_, numbers)) in input.numbers.iter().enumerate() {
        for (at, number) in numbers.iter().enumerate() {
            for less in [0, number / 2, number - number.signum()] {
                candidates.push(edited(input, |copy| copy.numbers[part].1[at] = less));
            }
        }
    }
    if right_margins(input).is_some_and(|right| input.numbers("margins") == right) {
        candidates = candidates
            .into_iter()
            .flat_map(with_right_margins)
            .collect();
    }
    candidates.retain(|candidate| candidate != input);
    candidates
}

/// The margins that the rectangle of a crop has in its record.
fn right_margins(input: &Input) -> Option<Vec<i64>> {
    input.numbers.iter().find(|(name, _)| *name == "margins")?;
    let frame = parse_record(input.bytes("record")).ok()?;
    let crop = Crop::of(crop_of(input).rectangle, (frame.width, frame.height));
    Some(crop.fields()[4..].iter().copied().map(i64::from).collect())
}

/// A crop with right margins again, where there are some, and as it is.
fn with_right_margins(input: Input) -> Vec<Input> {
    let mended = right_margins(&input).map(|margins| {
        edited(&input, |copy| {
            let list = copy.numbers.iter_mut().find(|(name, _)| *name == "margins");
            list.expect("margins").1 = margins;
        })
    });
    mended.into_iter().chain([input]).collect()
}

fn edited(input: &Input, edit: impl FnOnce(&mut Input)) -> Input {
    let mut copy = input.clone();
    edit(&mut copy);
    copy
}

/// `list` without its item `at`.
fn without<T: Clone>(list: &[T], at: usize) -> Vec<T> {
    [&list[..at], &list[at + 1..]].concat()
}

/// An overlay without one of its inputs: its record, its place in the list and its offset.
fn without_one_input(input: &Input) -> Vec<Input> {
    let part = |name| input.bytes.iter().position(|(part, _)| *part == name);
    let (Some(body), Some(tray), Some(list)) = (part("body"), part("tray"), part("premultiplied"))
    else {
        return Vec::new();
    };
    let bytes = |part: usize| &input.bytes[part].1;
    let Ok(frames) = parse_tray(bytes(tray)) else {
        return Vec::new();
    };
    let wide = bytes(body).get(1).is_some_and(|flags| flags % 2 == 1);
    let (start, length) = if wide { (18, 8) } else { (14, 4) };
    (0..frames.len().min(bytes(list).len()))
        .filter(|at| start + length * (at + 1) <= bytes(body).len())
        .map(|at| {
            edited(input, |copy| {
                copy.bytes[tray].1 = tray_bytes(&without(&frames, at));
                copy.bytes[list].1.remove(at);
                let offset = start + length * at;
                copy.bytes[body].1.drain(offset..offset + length);
            })
        })
        .collect()
}

/// The top left of `frame` at a smaller size, tight.
fn cut(frame: &Frame, size: (u32, u32)) -> Frame {
    let (chroma, depth, alpha) = (frame.chroma, frame.depth, frame.alpha);
    let form = Frame::empty(size, chroma, depth, alpha);
    let planes: Vec<Vec<u16>> = (0..frame.planes.len())
        .map(|plane| frame.samples_within(plane, form.plane_size(plane)))
        .collect();
    let planes: Vec<&[u16]> = planes.iter().map(Vec::as_slice).collect();
    Frame::tight(size, chroma, depth, alpha, &planes)
}

fn smaller_frames(frame: &Frame) -> Vec<Frame> {
    let Frame { width, height, .. } = *frame;
    [
        (width.div_ceil(2), height.div_ceil(2)),
        (width.div_ceil(2), height),
        (width, height.div_ceil(2)),
        ((width - 1).max(1), height),
        (width, (height - 1).max(1)),
        (width, height),
    ]
    .map(|size| cut(frame, size))
    .to_vec()
}

/// A tray, record or chain with less in it.
fn smaller_parts(bytes: &[u8]) -> Vec<Vec<u8>> {
    let mut parts = Vec::new();
    if let Ok(frames) = parse_tray(bytes) {
        for (at, frame) in frames.iter().enumerate() {
            parts.push(tray_bytes(&without(&frames, at)));
            for less in smaller_frames(frame) {
                let mut frames = frames.clone();
                frames[at] = less;
                parts.push(tray_bytes(&frames));
            }
        }
    }
    if let Ok(frame) = parse_record(bytes) {
        parts.extend(smaller_frames(&frame).iter().map(Frame::record));
    }
    if let Ok(chain) = parse_chain(bytes) {
        parts.extend((0..chain.len()).map(|at| chain_bytes(&without(&chain, at))));
    }
    parts
}

/// An end or a byte taken out, or a byte nearer to 0.
fn smaller_bytes(bytes: &[u8]) -> Vec<Vec<u8>> {
    let mut parts: Vec<Vec<u8>> = [0, bytes.len() / 2, bytes.len().saturating_sub(1)]
        .map(|end| bytes[..end].to_vec())
        .to_vec();
    for (at, byte) in bytes.iter().enumerate().take(200) {
        parts.push(without(bytes, at));
        for less in [0, byte / 2, byte.saturating_sub(1)] {
            let mut copy = bytes.to_vec();
            copy[at] = less;
            parts.push(copy);
        }
    }
    parts
}
