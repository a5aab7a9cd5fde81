//! The comparisons of descriptor bodies that are written from their fields (document 02, A4).

use crate::compare::{Input, Sides, Verdict};
use crate::comparisons::{
    agree, grid_descriptor, model_answers, overlay_descriptor, size_of, with_size,
};
use crate::expected;
use crate::generate;
use crate::ours::{self, Answer};
use crate::rng::Rng;
use model::{Overlay, Size, offsets_of};

/// A number at the edge of 15, 16, 31 or 32 bits.
fn edge(rng: &mut Rng) -> u32 {
    let power = 1i64 << rng.pick(&[15, 16, 31, 32]);
    (power + rng.within(-2..=1)) as u32
}

/// A size: of any area, or with a side at an edge.
fn size(rng: &mut Rng) -> Size {
    if rng.flag() {
        return generate::wide_size(rng);
    }
    let (side, other) = (edge(rng), rng.number(0..=9));
    if rng.flag() {
        (side, other)
    } else {
        (other, side)
    }
}

/// Rows or columns of tiles: 1 to 256 as a rule, now and then a number whose lowest 8 or 16 bits are
/// one of these, or not even that.
fn tiles(rng: &mut Rng) -> u32 {
    match rng.below(8) {
        0 => rng.pick(&[0, 257, 512, 65_535, 65_536, 65_537, 65_792, u32::MAX]),
        1 => rng.pick(&[1, 256]),
        _ => rng.number(1..=256),
    }
}

pub(crate) fn grid_input(rng: &mut Rng) -> Input {
    let tiles = [tiles(rng), tiles(rng)].map(i64::from);
    with_size(
        Input::new().with_numbers("tiles", tiles.to_vec()),
        size(rng),
    )
}

/// How what is written is read back otherwise by one of the sides.
fn misread(body: &Answer<Vec<u8>>, read: impl FnOnce(Input) -> Verdict) -> Option<String> {
    let body = body.clone().ok()?;
    match read(Input::new().with_bytes("body", body)) {
        Verdict::Accepted => None,
        verdict => Some(format!("read back: {verdict:?}")),
    }
}

/// The published Rust's body, which it reads back to the fields, the model's and the composer's; then
/// what all of them read of it.
pub(crate) fn grid(sides: &Sides, input: &Input) -> Verdict {
    let tiles = std::array::from_fn(|at| input.numbers("tiles")[at] as u32);
    let size = size_of(input);
    let wants = sides.wants(|build| expected::grid_body(build, tiles, size));
    agree(wants, |want| {
        let call = |output: &mut [u8]| sides.ours.write_grid(tiles, size, output);
        model_answers(want, &model::grid_body(tiles, size))
            .or_else(|| ours::writes(want, call))
            .or_else(|| misread(want, |body| grid_descriptor(sides, &body)))
    })
}

/// How many inputs an overlay has: few as a rule; once in a long while as many as it may have.
fn inputs(rng: &mut Rng) -> usize {
    match rng.below(2_000) {
        0 => rng.pick(&[65_535, 65_536, 65_537]),
        1..=20 => rng.below(400),
        21..=200 => 0,
        _ => 1 + rng.below(6),
    }
}

/// The words of so many inputs' offsets, now and then one more: any, or small ones of which one lies at
/// an edge.
fn words(rng: &mut Rng, inputs: usize) -> Vec<u32> {
    let count = 2 * inputs + usize::from(rng.once_in(8));
    let any = rng.once_in(8);
    let word = |rng: &mut Rng| match any {
        true => generate::border(rng),
        false => rng.within(-99..=99) as u32,
    };
    let mut words: Vec<u32> = (0..count).map(|_| word(rng)).collect();
    if count > 0 && rng.flag() {
        let far = edge(rng);
        let at = rng.below(count);
        words[at] = if rng.flag() { far } else { far.wrapping_neg() };
    }
    words
}

/// Offsets are bytes here, four a word, so that many of them can be made fewer.
pub(crate) fn overlay_input(rng: &mut Rng) -> Input {
    let fill = [0; 4].map(|_: i64| rng.number(0..=65_535).into());
    let inputs = inputs(rng);
    let offsets = words(rng, inputs).into_iter().flat_map(u32::to_be_bytes);
    let input = Input::new()
        .with_bytes("offsets", offsets.collect())
        .with_numbers("fill", fill.to_vec());
    with_size(input, size(rng))
}

/// As [`grid`], of an overlay.
pub(crate) fn overlay(sides: &Sides, input: &Input) -> Verdict {
    let (words, _) = input.bytes("offsets").as_chunks();
    let words: Vec<u32> = words.iter().copied().map(u32::from_be_bytes).collect();
    let size = size_of(input);
    let overlay = Overlay {
        fill: std::array::from_fn(|at| input.numbers("fill")[at] as u16),
        width: size.0,
        height: size.1,
        offsets: offsets_of(&words),
    };
    let wants = sides.wants(|build| expected::overlay_body(build, &overlay));
    agree(wants, |want| {
        let call = |output: &mut [u8]| sides.ours.write_overlay(overlay.fill, size, &words, output);
        let read = |body: Input| {
            let inputs = overlay.offsets.len() as i64;
            overlay_descriptor(sides, &body.with_numbers("inputs", vec![inputs]))
        };
        model_answers(want, &model::overlay_body(&overlay))
            .or_else(|| ours::writes(want, call))
            .or_else(|| misread(want, read))
    })
}
