//! The library's C functions (`crates/capi`, which has their contracts), each as a safe function
//! on slices. The only unsafe code of the workspace is here, but for the clock of `bench` and the
//! earlier library that it can open.

#![allow(unsafe_code)]
#![allow(clippy::too_many_arguments)]

use crate::{Refusal, Result, stock};

/// What a function's word says: below 2^63 a count, a length, or 0 where there is none; from there
/// on a refusal.
#[inline]
fn answer(word: u64) -> Result<u64> {
    if word < 1 << 63 {
        return Ok(word);
    }
    let refusal = Refusal::from_answer(word);
    Err(refusal.unwrap_or_else(|| panic!("the library answered {word:#x}")))
}

/// Functions of the library, as `crates/capi_c` exports them.
macro_rules! library {
    ($($(#[$about:meta])* fn $name:ident($($parameters:tt)*);)*) => {
        $(safe! { ($(#[$about])* $name) () () () $($parameters)*, })*

        #[cfg(test)]
        const DECLARED: &[&str] = &[$(stringify!($name($($parameters)*))),*];
    };
}

/// One function, parameter by parameter: as it is here, as it is in C, and as it passes.
macro_rules! safe {
    ($head:tt ($($here:tt)*) ($($in_c:tt)*) ($($passes:tt)*)
        $part:ident: &[$item:ty], $($rest:tt)*) => {
        safe! { $head
            ($($here)* $part: &[$item],)
            ($($in_c)* $part: *const $item, _: usize,)
            ($($passes)* $part.as_ptr(), $part.len(),)
            $($rest)*
        }
    };
    // The last of a function that writes a record, a body or a text: into a buffer of its own, too.
    ($head:tt ($($here:tt)*) ($($in_c:tt)*) ($($passes:tt)*) out: &mut [u8], $(,)?) => {
        fresh! { $head ($($here)*) ($($in_c)*) ($($passes)*) out }
        safe! { $head
            ($($here)* out: &mut [u8],)
            ($($in_c)* out: *mut u8, _: usize,)
            ($($passes)* out.as_mut_ptr(), out.len(),)
        }
    };
    ($head:tt ($($here:tt)*) ($($in_c:tt)*) ($($passes:tt)*)
        output: &mut [u8], spare: &mut [u8], $(,)?) => {
        fresh! { $head ($($here)*) ($($in_c)*) ($($passes)*) output spare }
        safe! { $head
            ($($here)* output: &mut [u8], spare: &mut [u8],)
            ($($in_c)* output: *mut u8, _: usize, spare: *mut u8, _: usize,)
            ($($passes)* output.as_mut_ptr(), output.len(), spare.as_mut_ptr(), spare.len(),)
        }
    };
    ($head:tt ($($here:tt)*) ($($in_c:tt)*) ($($passes:tt)*)
        $part:ident: &mut [$item:ty], $($rest:tt)*) => {
        safe! { $head
            ($($here)* $part: &mut [$item],)
            ($($in_c)* $part: *mut $item, _: usize,)
            ($($passes)* $part.as_mut_ptr(), $part.len(),)
            $($rest)*
        }
    };
    ($head:tt ($($here:tt)*) ($($in_c:tt)*) ($($passes:tt)*)
        $part:ident: $number:ident, $($rest:tt)*) => {
        safe! { $head
            ($($here)* $part: $number,)
            ($($in_c)* $part: $number,)
            ($($passes)* $part,)
            $($rest)*
        }
    };
    (($(#[$about:meta])* $name:ident) ($($here:tt)*) ($($in_c:tt)*) ($($passes:tt)*) $(,)?) => {
        $(#[$about])*
        #[inline]
        pub fn $name($($here)*) -> $crate::Result<u64> {
            unsafe extern "C" {
                fn $name($($in_c)*) -> u64;
            }
            // SAFETY: the declaration is the library's (held to it below). Each pointer and length
            // are one slice's, borrowed until the call ends, and the proved code keeps inside them
            // whatever they hold.
            answer(unsafe { $name($($passes)*) })
        }
    };
}

/// Functions that write into a buffer of their own, of so many bytes as they are told; with none, the
/// answer is the refusal. The buffer holds nothing before: no answer depends on what it holds.
pub(crate) struct Fresh;

impl Fresh {
    /// What a function wrote to a buffer, by its word.
    fn written(mut buffer: Vec<u8>, word: u64) -> Result<Vec<u8>> {
        let length = answer(word)? as usize;
        assert!(length <= buffer.capacity(), "a length of the buffer");
        // SAFETY: the caller is one of the functions below: where the library answers a length, its
        // contract has that many bytes written, from the start of the buffer on.
        unsafe { buffer.set_len(length) };
        Ok(buffer)
    }
}

/// One function whose last part is an output, or an output and a spare of its length.
macro_rules! fresh {
    (($(#[$about:meta])* $name:ident) ($($here:tt)*) ($($in_c:tt)*) ($($passes:tt)*)
        $out:ident $($spare:ident)?) => {
        impl Fresh {
            $(#[$about])*
            #[inline]
            pub fn $name($($here)* room: usize) -> $crate::Result<Vec<u8>> {
                unsafe extern "C" {
                    fn $name($($in_c)* $out: *mut u8, _: usize $(, $spare: *mut u8, _: usize)?)
                        -> u64;
                }
                let mut $out = stock::take(room);
                $(let mut $spare = stock::take(room);)?
                // SAFETY: as in `safe`; output and spare are the vectors' own memory.
                let word = unsafe {
                    $name($($passes)* $out.as_mut_ptr(), room $(, $spare.as_mut_ptr(), room)?)
                };
                $(stock::give($spare);)?
                Self::written($out, word)
            }
        }
    };
}

library! {
    /// What a record says, in 17 words: width, height, chroma, depth, alpha; then of luma, Cb, Cr
    /// and alpha each where its bytes start, how many they are, and its stride.
    fn compose_record(record: &[u8], answer: &mut [u64]);

    /// How many records a tray has.
    fn compose_tray(tray: &[u8]);

    /// What a grid's descriptor body says, in 4 words: rows, columns, width, height.
    fn compose_grid_descriptor(body: &[u8], answer: &mut [u64]);

    /// What the descriptor body of an overlay of so many inputs says, in 6 words: the fill's red,
    /// green, blue and alpha, width, height.
    fn compose_overlay_descriptor(body: &[u8], count: u32, answer: &mut [u64]);

    /// Where an input of an overlay goes, in 4 words: how far right and how far left of the canvas
    /// edge, then how far below and how far above it; of each pair one is 0.
    fn compose_overlay_offset(body: &[u8], count: u32, index: u32, answer: &mut [u64]);

    /// Where all inputs of an overlay go, in list order, in 4 words each, as
    /// [`compose_overlay_offset`] has them.
    fn compose_overlay_offsets(body: &[u8], count: u32, answer: &mut [u64]);

    /// The descriptor body of a grid; answers its length, as the next one does.
    fn compose_write_grid(rows: u32, columns: u32, width: u32, height: u32, out: &mut [u8]);

    /// The descriptor body of an overlay, of whose inputs in turn `offsets` has two words each: the
    /// unsigned patterns of the horizontal and the vertical offset. A last word without a partner is
    /// not looked at.
    fn compose_write_overlay(
        red: u16,
        green: u16,
        blue: u16,
        alpha: u16,
        width: u32,
        height: u32,
        offsets: &[u32],
        out: &mut [u8],
    );

    /// How many entries a chain has.
    fn compose_chain(chain: &[u8]);

    /// The rectangle that a clap property cuts out of a size and the margins about it, in 8 words: x,
    /// y, width, height, left, top, right, bottom.
    fn compose_clap_resolve(
        width_n: u32,
        width_d: u32,
        height_n: u32,
        height_d: u32,
        horiz_off_n: u32,
        horiz_off_d: u32,
        vert_off_n: u32,
        vert_off_d: u32,
        width: u32,
        height: u32,
        answer: &mut [u32],
    );

    /// The size that an iscl property makes of a size, in 2 words: width, height.
    fn compose_iscl_size(
        width_num: u16,
        width_den: u16,
        height_num: u16,
        height_den: u16,
        width: u32,
        height: u32,
        answer: &mut [u32],
    );

    /// The text that the steps program prints for an input; answers its length.
    fn compose_steps(input: &[u8], out: &mut [u8]);

    /// The sentence of a refusal of a record (sort 1), of an entry (2) or of no item (0), where the index
    /// is not looked at, in German (language 0) or English (1); answers its length.
    fn compose_sentence(number: u32, sort: u8, index: u64, language: u8, out: &mut [u8]);

    /// A fill's samples of red, green and blue, in 3 words. Colour 0 is no description; a full
    /// range of 0 is the studio range.
    fn compose_fill(
        red: u16,
        green: u16,
        blue: u16,
        depth: u32,
        colour: u8,
        matrix: u16,
        full_range: u8,
        answer: &mut [u16],
    );

    /// The part of a record in a rectangle, the margins about it beside; answers the length that it
    /// wrote, as the next ones do.
    fn compose_crop(
        record: &[u8],
        x: u32,
        y: u32,
        width: u32,
        height: u32,
        left: u32,
        top: u32,
        right: u32,
        bottom: u32,
        out: &mut [u8],
    );

    /// A record cropped by a clap property, the offsets' numerators as 32-bit patterns.
    fn compose_clap(
        record: &[u8],
        width_n: u32,
        width_d: u32,
        height_n: u32,
        height_d: u32,
        horiz_off_n: u32,
        horiz_off_d: u32,
        vert_off_n: u32,
        vert_off_d: u32,
        out: &mut [u8],
    );

    /// A record turned by angle mod 4 quarter turns anticlockwise.
    fn compose_irot(record: &[u8], angle: u8, out: &mut [u8]);

    /// A record mirrored: axis mod 2, 0 top and bottom, 1 left and right.
    fn compose_imir(record: &[u8], axis: u8, out: &mut [u8]);

    /// A record scaled by an iscl property.
    fn compose_iscl(
        record: &[u8],
        width_num: u16,
        width_den: u16,
        height_num: u16,
        height_den: u16,
        out: &mut [u8],
    );

    /// A record at another size, by nearest samples.
    fn compose_resize_nearest(record: &[u8], width: u32, height: u32, out: &mut [u8]);

    /// A record at another depth.
    fn compose_rescale_depth(record: &[u8], depth: u32, out: &mut [u8]);

    /// The master's record with the luma of another as its alpha plane.
    fn compose_attach_alpha(master: &[u8], alpha: &[u8], out: &mut [u8]);

    /// The tiles of a tray, each in its cell of a grid.
    fn compose_grid(body: &[u8], tray: &[u8], out: &mut [u8]);

    /// The inputs of a tray laid over a canvas, the last on top.
    fn compose_overlay(
        body: &[u8],
        tray: &[u8],
        premultiplied: &[u8],
        colour: u8,
        matrix: u16,
        full_range: u8,
        out: &mut [u8],
    );

    /// A grid composed and its chain applied; answers the length of the record in the output, whose
    /// rest is then zero, as is the spare.
    fn compose_grid_scene(
        body: &[u8],
        tray: &[u8],
        chain: &[u8],
        essential_only: u8,
        output: &mut [u8],
        spare: &mut [u8],
    );

    /// The same of an overlay.
    fn compose_overlay_scene(
        body: &[u8],
        tray: &[u8],
        chain: &[u8],
        essential_only: u8,
        premultiplied: &[u8],
        colour: u8,
        matrix: u16,
        full_range: u8,
        output: &mut [u8],
        spare: &mut [u8],
    );

    /// A chain on one record, in the same two buffers; an empty chain writes the record tight.
    fn compose_transforms(
        record: &[u8],
        chain: &[u8],
        essential_only: u8,
        output: &mut [u8],
        spare: &mut [u8],
    );

    /// The length of the tight record of a form.
    fn compose_record_size(width: u32, height: u32, chroma: u32, depth: u32, alpha: u32);

    /// The least length of output and of the spare for `compose_grid_scene`.
    fn compose_grid_scene_room(body: &[u8], tray: &[u8], chain: &[u8], essential_only: u8);

    /// The same for `compose_overlay_scene`, whatever its colour.
    fn compose_overlay_scene_room(
        body: &[u8],
        tray: &[u8],
        chain: &[u8],
        essential_only: u8,
        premultiplied: &[u8],
    );

    /// The tile and the spot that a final place of a grid scene shows, in 10 words: 1 an input or 0
    /// fill, the input, the spot's column and row; the chain's rectangle as x, y, width, height; 1
    /// exchanged or 0, quarter turns.
    fn compose_grid_point(
        body: &[u8],
        tray: &[u8],
        chain: &[u8],
        essential_only: u8,
        column: u32,
        row: u32,
        answer: &mut [u32],
    );

    /// The topmost input and the spot that a final place of an overlay scene shows, or fill, in the
    /// same 10 words. The colour description has no effect.
    fn compose_overlay_point(
        body: &[u8],
        tray: &[u8],
        chain: &[u8],
        essential_only: u8,
        premultiplied: &[u8],
        colour: u8,
        matrix: u16,
        full_range: u8,
        column: u32,
        row: u32,
        answer: &mut [u32],
    );

    /// A canvas for a grid's body, in 1034 words; answers 0, as the next two do.
    fn compose_canvas_start(body: &[u8], state: &mut [u64]);

    /// A tile's record in its cell of the canvas that the buffer holds.
    fn compose_canvas_place(state: &mut [u64], index: u32, record: &[u8], buffer: &mut [u8]);

    /// A blank cell.
    fn compose_canvas_blank(state: &mut [u64], index: u32, buffer: &mut [u8]);

    /// The length of the canvas's record at the start of the buffer.
    fn compose_canvas_finish(state: &[u64], buffer: &[u8]);
}

#[cfg(test)]
mod tests {
    use super::{DECLARED, answer};
    use crate::declared::{Function, functions};
    use crate::{About, Refusal};

    #[test]
    fn words_are_answers_or_refusals() {
        assert_eq!(answer(0), Ok(0));
        assert_eq!(answer((1 << 63) - 1), Ok((1 << 63) - 1));
        assert_eq!(answer((1 << 63) + 17), Err(Refusal::ROOM));
        for (sort, about) in (1..).zip(About::ALL) {
            for index in [0, 1, 255, 256, 1 << 32, (1 << 40) - 1] {
                let word = (1 << 63) + 13 + (sort << 8) + (index << 16);
                assert_eq!(answer(word), Err(Refusal::TILE.of_item(about, index)));
            }
        }
    }

    /// No number, a sort or an index of no item, an index above its bits.
    #[test]
    fn words_that_no_call_answers() {
        for code in [
            0,
            20,
            255,
            13 + (3 << 8),
            13 + (1 << 16),
            13 + (1 << 8) + (1 << 56),
        ] {
            assert_eq!(Refusal::from_answer((1 << 63) + code), None, "{code:#x}");
        }
    }

    #[test]
    fn declarations_are_those_of_the_library() {
        let mut ours: Vec<Function> = DECLARED.iter().copied().map(Function::read).collect();
        ours.sort();
        assert_eq!(ours, functions());
    }
}
