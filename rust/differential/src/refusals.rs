//! The refusal that document 01 has for an error of the published Rust.

use model::Refusal;
use model::refusal::*;

/// Parts that an error's text has, in this order in the text, and its refusal. The first row that
/// fits decides.
const TEXTS: &[(&[&str], Refusal)] = &[
    (&["truncated "], SHORT),
    (&[" version "], VERSION),
    (&["zero output size"], ZERO_SIDE),
    (&["zero-sized frame"], ZERO_SIDE),
    (&["limit exceeded: ", " exceeds "], LIMIT),
    (&["plane ", ": stride "], MALFORMED),
    (&["plane ", " rows of stride "], MALFORMED),
    (&["frame has ", " planes"], MALFORMED),
    (&["unsupported: bit depth "], DEPTH),
    (&["clap: zero "], ZERO_DENOMINATOR),
    (&["iscl: zero "], ZERO_DENOMINATOR),
    (&["clap: fractional "], NOT_WHOLE),
    (&["clap: non-integer "], NOT_WHOLE),
    (&["clap: ", " outside the "], OUTSIDE),
    (&["crop ", " outside the "], OUTSIDE),
    (&["iscl: scaled size overflows"], SIDE_OVERFLOW),
    (&["grid: ", " tiles for a "], COUNT),
    (&["grid: tile ", " outside the "], COUNT),
    (&["grid: ", " do not cover "], COVER),
    (&["grid: ", " was never placed"], MISSING),
    (&["grid: a blank tile needs "], MISSING),
    (&["iovl: no inputs"], MISSING),
    (&["grid: tile ", ", the first tile is "], TILE_SIZE),
    (&["grid: tile ", " layout "], FORM),
    (&["iovl: input ", " bit depth "], FORM),
    (&["alpha plane ", " does not match the "], TILE_SIZE),
    (&["alpha depth ", " differs from master depth "], FORM),
];

/// Whether `text` has `parts`, one after the other.
fn has(text: &str, parts: &[&str]) -> bool {
    let mut rest = text;
    parts.iter().all(|part| match rest.split_once(part) {
        Some((_, tail)) => {
            rest = tail;
            true
        }
        None => false,
    })
}

/// The refusal that an error with this text counts as, if document 01 has one; it is of no item.
pub fn refusal(text: &str) -> Option<Refusal> {
    TEXTS
        .iter()
        .find(|(parts, _)| has(text, parts))
        .map(|(_, refusal)| *refusal)
}

/// The tile that a text names, counted from 0.
pub fn tile(text: &str) -> Option<usize> {
    let (_, rest) = text.split_once("grid: tile ")?;
    rest.split(' ').next()?.parse().ok()
}
