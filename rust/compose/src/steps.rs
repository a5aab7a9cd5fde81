//! The sizes along a chain as text (document 01, "Steps program").

use crate::Refusal;
use crate::record::push_number;
use crate::sys::Fresh;

/// No text is longer (`text-fits` of the crate `steps_text`).
const LONGEST: usize = 16_384;

/// The text that the program `steps` prints for `input`, which is a width, a height and a chain:
/// a heading, then for each entry its index, its kind and the size after it. A refused entry has
/// `refused` and its number in place of the size, and ends the text; refused input has that alone.
///
/// ```
/// let text = compose::steps::text(&[6, 4, 2, 2, 1, 1, 3, 0, 1]);
/// assert_eq!(text, "step kind width height\n0 2 4 6\n1 3 4 6\n");
/// assert_eq!(compose::steps::text(&[6, 4]), "refused 5\n");
/// ```
pub fn text(input: &[u8]) -> String {
    let text = Fresh::compose_steps(input, LONGEST);
    let text = text.expect("an output that is long enough is the only thing it asks for");
    String::from_utf8(text).expect("the text is ASCII")
}

/// Why `text`, which [`text`](fn@text) made, ends; none where no entry and no input is refused.
///
/// ```
/// use compose::{Refusal, steps};
///
/// // 6 × 4, and one iscl of 0/1, 1/1.
/// let text = steps::text(&[6, 4, 1, 4, 0, 0, 1, 1, 1]);
/// assert_eq!(text, "step kind width height\n0 4 refused 7\n");
/// assert_eq!(steps::refusal(&text), Some(Refusal::ZERO));
/// ```
pub fn refusal(text: &str) -> Option<Refusal> {
    let (_, number) = text.trim_end().rsplit_once("refused ")?;
    Refusal::from_number(number.parse().ok()?)
}

/// The input of [`text`](fn@text) that has these sides and this chain.
///
/// ```
/// use compose::steps;
///
/// assert_eq!(steps::input(300, 4, &[0]), [0xac, 2, 4, 0]);
/// ```
pub fn input(width: u32, height: u32, chain: &[u8]) -> Vec<u8> {
    let mut input = Vec::new();
    push_number(&mut input, width);
    push_number(&mut input, height);
    input.extend_from_slice(chain);
    input
}
