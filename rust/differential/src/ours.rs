//! The composer's side of the comparisons: its calls on plain types, and what they are held to.

use crate::expected::{Call, Event, Stop};
use compose::{About, sys};
use model::refusal::ROOM;
use model::{
    Clap, Colour, Iscl, Item, Layout, Marks, Operation, Place, Refusal, Scene, SceneParts, Size,
};
use std::fmt::Debug;

/// What a call answers, or how it refuses: number, sort and index.
pub type Answer<T> = Result<T, Refusal>;

/// The composer's calls on plain types. One that it does not have yet says `None`, and is not
/// compared. A call that is lent an output answers how much it wrote.
pub trait Composer: Sync {
    fn record(&self, _record: &[u8]) -> Option<Answer<Layout>> {
        None
    }

    /// The count of a tray.
    fn tray(&self, _tray: &[u8]) -> Option<Answer<u32>> {
        None
    }

    /// Rows, columns, width and height at the start of `_words`.
    fn grid_descriptor(&self, _body: &[u8], _words: &mut [u64]) -> Option<Answer<u64>> {
        None
    }

    /// The fill's red, green, blue and alpha, width and height at the start of `_words`.
    fn overlay_descriptor(
        &self,
        _body: &[u8],
        _count: u32,
        _words: &mut [u64],
    ) -> Option<Answer<u64>> {
        None
    }

    /// How far right, left, below and above an input goes, at the start of `_words`.
    fn overlay_offset(
        &self,
        _body: &[u8],
        _count: u32,
        _index: u32,
        _words: &mut [u64],
    ) -> Option<Answer<u64>> {
        None
    }

    /// The same of all inputs, one after the other.
    fn overlay_offsets(
        &self,
        _body: &[u8],
        _count: u32,
        _words: &mut [u64],
    ) -> Option<Answer<u64>> {
        None
    }

    /// The body of a grid of so many rows and columns, on a canvas of a size.
    fn write_grid(&self, _tiles: [u32; 2], _: Size, _output: &mut [u8]) -> Option<Answer<usize>> {
        None
    }

    /// The body of an overlay, of whose inputs in turn `_offsets` has two words each.
    fn write_overlay(
        &self,
        _fill: [u16; 4],
        _: Size,
        _offsets: &[u32],
        _output: &mut [u8],
    ) -> Option<Answer<usize>> {
        None
    }

    /// The count of a chain.
    fn chain(&self, _chain: &[u8]) -> Option<Answer<u32>> {
        None
    }

    /// X, y, width and height, then left, top, right and bottom, at the start of `_words`.
    fn clap_resolve(&self, _: &Clap, _: Size, _words: &mut [u32]) -> Option<Answer<u64>> {
        None
    }

    /// Width and height at the start of `_words`.
    fn iscl_size(&self, _: &Iscl, _: Size, _words: &mut [u32]) -> Option<Answer<u64>> {
        None
    }

    fn steps(&self, _input: &[u8], _output: &mut [u8]) -> Option<Answer<usize>> {
        None
    }

    /// The sentence of a refusal's number, sort and index in a language.
    fn sentence(
        &self,
        _number: u32,
        _sort: u8,
        _index: u64,
        _language: u8,
        _output: &mut [u8],
    ) -> Option<Answer<usize>> {
        None
    }

    /// The three samples at the start of `_words`.
    fn fill(
        &self,
        _: [u16; 3],
        _depth: u32,
        _: Option<Colour>,
        _words: &mut [u16],
    ) -> Option<Answer<u64>> {
        None
    }

    fn operation(
        &self,
        _record: &[u8],
        _: &Operation,
        _output: &mut [u8],
    ) -> Option<Answer<usize>> {
        None
    }

    fn attach(&self, _master: &[u8], _alpha: &[u8], _output: &mut [u8]) -> Option<Answer<usize>> {
        None
    }

    fn grid(&self, _body: &[u8], _tray: &[u8], _output: &mut [u8]) -> Option<Answer<usize>> {
        None
    }

    fn overlay(
        &self,
        _body: &[u8],
        _tray: &[u8],
        _premultiplied: &[u8],
        _: Option<Colour>,
        _output: &mut [u8],
    ) -> Option<Answer<usize>> {
        None
    }

    fn grid_scene(
        &self,
        _: &SceneParts,
        _output: &mut [u8],
        _spare: &mut [u8],
    ) -> Option<Answer<usize>> {
        None
    }

    fn overlay_scene(
        &self,
        _: &SceneParts,
        _: &Marks,
        _output: &mut [u8],
        _spare: &mut [u8],
    ) -> Option<Answer<usize>> {
        None
    }

    /// A chain on one record.
    fn transforms(
        &self,
        _record: &[u8],
        _chain: &[u8],
        _essential_only: bool,
        _output: &mut [u8],
        _spare: &mut [u8],
    ) -> Option<Answer<usize>> {
        None
    }

    /// The length of the tight record of a header's five numbers.
    fn record_size(&self, _header: [u32; 5]) -> Option<Answer<u64>> {
        None
    }

    /// The least length of output and spare that a grid's scene takes.
    fn grid_room(&self, _: &SceneParts) -> Option<Answer<u64>> {
        None
    }

    /// The same of an overlay's.
    fn overlay_room(&self, _: &SceneParts, _premultiplied: &[u8]) -> Option<Answer<u64>> {
        None
    }

    /// What a column and a row of a grid's final picture show, in ten words at the start of
    /// `_words` ([`model::Point::words`]).
    fn grid_point(&self, _: &SceneParts, _: Size, _words: &mut [u32]) -> Option<Answer<u64>> {
        None
    }

    /// The same of an overlay's.
    fn overlay_point(
        &self,
        _: &SceneParts,
        _: &Marks,
        _: Size,
        _words: &mut [u32],
    ) -> Option<Answer<u64>> {
        None
    }

    fn canvas_start(&self, _body: &[u8], _state: &mut [u64]) -> Option<Answer<u64>> {
        None
    }

    /// A session's call after its start; a finish answers the record's length.
    fn canvas_call(
        &self,
        _: &Call,
        _state: &mut [u64],
        _buffer: &mut [u8],
    ) -> Option<Answer<usize>> {
        None
    }
}

/// The linked library. A call that arrives gets a line in `compose/src/sys.rs`, a safe function in
/// `compose`, and a method here; its comparison then has one side more.
pub struct Linked;

impl Composer for Linked {
    fn record(&self, record: &[u8]) -> Option<Answer<Layout>> {
        answer(compose::record::inspect(record).map(layout))
    }

    fn tray(&self, tray: &[u8]) -> Option<Answer<u32>> {
        answer(compose::tray::count(tray))
    }

    fn grid_descriptor(&self, body: &[u8], words: &mut [u64]) -> Option<Answer<u64>> {
        answer(sys::compose_grid_descriptor(body, words))
    }

    fn overlay_descriptor(
        &self,
        body: &[u8],
        count: u32,
        words: &mut [u64],
    ) -> Option<Answer<u64>> {
        answer(sys::compose_overlay_descriptor(body, count, words))
    }

    fn overlay_offset(
        &self,
        body: &[u8],
        count: u32,
        index: u32,
        words: &mut [u64],
    ) -> Option<Answer<u64>> {
        answer(sys::compose_overlay_offset(body, count, index, words))
    }

    fn overlay_offsets(&self, body: &[u8], count: u32, words: &mut [u64]) -> Option<Answer<u64>> {
        answer(sys::compose_overlay_offsets(body, count, words))
    }

    fn write_grid(
        &self,
        [rows, columns]: [u32; 2],
        (width, height): Size,
        output: &mut [u8],
    ) -> Option<Answer<usize>> {
        let written = sys::compose_write_grid(rows, columns, width, height, output);
        answer(written.map(|length| length as usize))
    }

    fn write_overlay(
        &self,
        [red, green, blue, alpha]: [u16; 4],
        (width, height): Size,
        offsets: &[u32],
        output: &mut [u8],
    ) -> Option<Answer<usize>> {
        let written =
            sys::compose_write_overlay(red, green, blue, alpha, width, height, offsets, output);
        answer(written.map(|length| length as usize))
    }

    fn chain(&self, chain: &[u8]) -> Option<Answer<u32>> {
        answer(compose::chain::count(chain))
    }

    fn clap_resolve(&self, clap: &Clap, size: Size, words: &mut [u32]) -> Option<Answer<u64>> {
        let [width_n, width_d, height_n, height_d, x_n, x_d, y_n, y_d] = clap.fields();
        answer(sys::compose_clap_resolve(
            width_n, width_d, height_n, height_d, x_n, x_d, y_n, y_d, size.0, size.1, words,
        ))
    }

    fn iscl_size(&self, iscl: &Iscl, size: Size, words: &mut [u32]) -> Option<Answer<u64>> {
        let [width_n, width_d, height_n, height_d] = iscl.fields();
        answer(sys::compose_iscl_size(
            width_n, width_d, height_n, height_d, size.0, size.1, words,
        ))
    }

    fn steps(&self, input: &[u8], output: &mut [u8]) -> Option<Answer<usize>> {
        let written = sys::compose_steps(input, output);
        answer(written.map(|length| length as usize))
    }

    fn sentence(
        &self,
        number: u32,
        sort: u8,
        index: u64,
        language: u8,
        output: &mut [u8],
    ) -> Option<Answer<usize>> {
        let written = sys::compose_sentence(number, sort, index, language, output);
        answer(written.map(|length| length as usize))
    }

    fn fill(
        &self,
        [red, green, blue]: [u16; 3],
        depth: u32,
        colour: Option<Colour>,
        words: &mut [u16],
    ) -> Option<Answer<u64>> {
        let (given, matrix, full_range) = colour_words(colour);
        answer(sys::compose_fill(
            red, green, blue, depth, given, matrix, full_range, words,
        ))
    }

    fn operation(
        &self,
        record: &[u8],
        operation: &Operation,
        output: &mut [u8],
    ) -> Option<Answer<usize>> {
        let written = match *operation {
            Operation::Crop(crop) => {
                let [x, y, width, height, left, top, right, bottom] = crop.fields();
                sys::compose_crop(
                    record, x, y, width, height, left, top, right, bottom, output,
                )
            }
            Operation::Clap(clap) => {
                let [width_n, width_d, height_n, height_d, x_n, x_d, y_n, y_d] = clap.fields();
                sys::compose_clap(
                    record, width_n, width_d, height_n, height_d, x_n, x_d, y_n, y_d, output,
                )
            }
            Operation::Irot(angle) => sys::compose_irot(record, angle, output),
            Operation::Imir(axis) => sys::compose_imir(record, axis, output),
            Operation::Iscl(iscl) => {
                let [width_num, width_den, height_num, height_den] = iscl.fields();
                sys::compose_iscl(record, width_num, width_den, height_num, height_den, output)
            }
            Operation::Nearest(width, height) => {
                sys::compose_resize_nearest(record, width, height, output)
            }
            Operation::Depth(depth) => sys::compose_rescale_depth(record, depth, output),
        };
        answer(written.map(|length| length as usize))
    }

    fn attach(&self, master: &[u8], alpha: &[u8], output: &mut [u8]) -> Option<Answer<usize>> {
        let written = sys::compose_attach_alpha(master, alpha, output);
        answer(written.map(|length| length as usize))
    }

    fn grid(&self, body: &[u8], tray: &[u8], output: &mut [u8]) -> Option<Answer<usize>> {
        let written = sys::compose_grid(body, tray, output);
        answer(written.map(|length| length as usize))
    }

    fn overlay(
        &self,
        body: &[u8],
        tray: &[u8],
        premultiplied: &[u8],
        colour: Option<Colour>,
        output: &mut [u8],
    ) -> Option<Answer<usize>> {
        let (some, matrix, range) = colour_words(colour);
        let written = sys::compose_overlay(body, tray, premultiplied, some, matrix, range, output);
        answer(written.map(|length| length as usize))
    }

    fn canvas_start(&self, body: &[u8], state: &mut [u64]) -> Option<Answer<u64>> {
        answer(sys::compose_canvas_start(body, state))
    }

    fn canvas_call(
        &self,
        call: &Call,
        state: &mut [u64],
        buffer: &mut [u8],
    ) -> Option<Answer<usize>> {
        let answered = match *call {
            Call::Place(index, record) => sys::compose_canvas_place(state, index, record, buffer),
            Call::Blank(index) => sys::compose_canvas_blank(state, index, buffer),
            Call::Finish => sys::compose_canvas_finish(state, buffer),
        };
        answer(answered.map(|length| length as usize))
    }

    fn grid_scene(
        &self,
        parts: &SceneParts,
        output: &mut [u8],
        spare: &mut [u8],
    ) -> Option<Answer<usize>> {
        let written = sys::compose_grid_scene(
            parts.body,
            parts.tray,
            parts.chain,
            u8::from(parts.essential_only),
            output,
            spare,
        );
        answer(written.map(|length| length as usize))
    }

    fn overlay_scene(
        &self,
        parts: &SceneParts,
        marks: &Marks,
        output: &mut [u8],
        spare: &mut [u8],
    ) -> Option<Answer<usize>> {
        let (some, matrix, range) = colour_words(marks.colour);
        let written = sys::compose_overlay_scene(
            parts.body,
            parts.tray,
            parts.chain,
            u8::from(parts.essential_only),
            marks.premultiplied,
            some,
            matrix,
            range,
            output,
            spare,
        );
        answer(written.map(|length| length as usize))
    }

    fn transforms(
        &self,
        record: &[u8],
        chain: &[u8],
        essential_only: bool,
        output: &mut [u8],
        spare: &mut [u8],
    ) -> Option<Answer<usize>> {
        let flag = u8::from(essential_only);
        let written = sys::compose_transforms(record, chain, flag, output, spare);
        answer(written.map(|length| length as usize))
    }

    fn record_size(&self, [width, height, chroma, depth, alpha]: [u32; 5]) -> Option<Answer<u64>> {
        answer(sys::compose_record_size(
            width, height, chroma, depth, alpha,
        ))
    }

    fn grid_room(&self, parts: &SceneParts) -> Option<Answer<u64>> {
        let flag = u8::from(parts.essential_only);
        answer(sys::compose_grid_scene_room(
            parts.body,
            parts.tray,
            parts.chain,
            flag,
        ))
    }

    fn overlay_room(&self, parts: &SceneParts, premultiplied: &[u8]) -> Option<Answer<u64>> {
        let flag = u8::from(parts.essential_only);
        answer(sys::compose_overlay_scene_room(
            parts.body,
            parts.tray,
            parts.chain,
            flag,
            premultiplied,
        ))
    }

    fn grid_point(
        &self,
        parts: &SceneParts,
        (column, row): Size,
        words: &mut [u32],
    ) -> Option<Answer<u64>> {
        answer(sys::compose_grid_point(
            parts.body,
            parts.tray,
            parts.chain,
            u8::from(parts.essential_only),
            column,
            row,
            words,
        ))
    }

    fn overlay_point(
        &self,
        parts: &SceneParts,
        marks: &Marks,
        (column, row): Size,
        words: &mut [u32],
    ) -> Option<Answer<u64>> {
        let (some, matrix, range) = colour_words(marks.colour);
        answer(sys::compose_overlay_point(
            parts.body,
            parts.tray,
            parts.chain,
            u8::from(parts.essential_only),
            marks.premultiplied,
            some,
            matrix,
            range,
            column,
            row,
            words,
        ))
    }
}

/// A colour description as the calls take it: 0 where there is none, matrix, range.
fn colour_words(colour: Option<Colour>) -> (u8, u16, u8) {
    colour.map_or((0, 0, 0), |colour| {
        (1, colour.matrix, u8::from(colour.full_range))
    })
}

/// An answer of the library.
fn answer<T>(answer: Result<T, compose::Refusal>) -> Option<Answer<T>> {
    Some(answer.map_err(refusal))
}

/// A refusal of the library: number, sort and index.
pub fn refusal(said: compose::Refusal) -> Refusal {
    let item = said.about().zip(said.index());
    Refusal {
        number: said.number(),
        item: item.map(|(about, index)| match about {
            About::Record => Item::Record(index),
            About::Entry => Item::Entry(index),
        }),
    }
}

fn layout(info: compose::record::RecordInfo) -> Layout {
    let [chroma, depth, alpha] = [info.chroma as u8, info.depth, info.alpha].map(u32::from);
    Layout {
        header: [info.width, info.height, chroma, depth, alpha],
        places: info.planes.map(|plane| Place {
            start: plane.start,
            length: plane.len,
            stride: plane.stride,
        }),
    }
}

/// How a call that only answers departs from `want`.
pub fn answers<T: PartialEq + Debug>(want: &Answer<T>, ours: Option<Answer<T>>) -> Option<String> {
    let ours = ours?;
    (ours != *want).then(|| format!("the composer {ours:?}, wanted {want:?}"))
}

/// What stands in each byte of a lent buffer before the call.
pub const BEFORE: u8 = 0xa5;

/// Lends buffers of some lengths. `want` is the answer and what the buffers hold after it; a
/// refusal leaves them as they were.
fn lend<T: PartialEq + Clone + From<u8>, A: PartialEq + Debug, const N: usize>(
    lengths: [usize; N],
    want: Answer<(A, [Vec<T>; N])>,
    call: impl Fn([&mut [T]; N]) -> Option<Answer<A>>,
) -> Option<String> {
    let before = lengths.map(|length| vec![T::from(BEFORE); length]);
    let mut lent = before.clone();
    let ours = call(lent.each_mut().map(Vec::as_mut_slice))?;
    let (want, after) = match want {
        Ok((length, after)) => (Ok(length), after),
        Err(refusal) => (Err(refusal), before),
    };
    let departs = answers(&want, Some(ours));
    let departs = departs.or_else(|| (lent != after).then(|| "other bytes are left".into()));
    departs.map(|shows| format!("lent {lengths:?}: {shows}"))
}

/// How a call that fills the start of one buffer departs from `want`, which is what it answers and
/// what it writes. It is lent more than it needs, just that, one less, and nothing: 17. What is
/// past the part that it writes stays.
fn fills_start<T: PartialEq + Clone + From<u8>, A: PartialEq + Debug + Clone>(
    want: Answer<(A, Vec<T>)>,
    call: impl Fn(&mut [T]) -> Option<Answer<A>>,
) -> Option<String> {
    let needed = want.as_ref().map_or(1, |(_, written)| written.len());
    let lengths = [needed + 3, needed, needed.saturating_sub(1), 0];
    lengths.into_iter().find_map(|length| {
        let want = want.clone().and_then(|(answer, mut written)| {
            if length < needed {
                return Err(ROOM);
            }
            written.resize(length, T::from(BEFORE));
            Ok((answer, [written]))
        });
        lend([length], want, |[output]| call(output))
    })
}

/// How a single operation departs from `want`, the record to be written. It answers its length.
pub fn writes(
    want: &Answer<Vec<u8>>,
    call: impl Fn(&mut [u8]) -> Option<Answer<usize>>,
) -> Option<String> {
    let want = want.clone().map(|record| (record.len(), record));
    fills_start(want, call)
}

/// How a call departs from `want`, the words that it puts at the start. It answers 0.
pub fn fills<T: PartialEq + Clone + From<u8>>(
    want: &Answer<impl AsRef<[T]>>,
    call: impl Fn(&mut [T]) -> Option<Answer<u64>>,
) -> Option<String> {
    let want = want.as_ref().map(|words| (0, words.as_ref().to_vec()));
    fills_start(want.map_err(|refusal| *refusal), call)
}

/// How a scene call departs from `want`. Output and spare have more than they need, just that, one
/// of them or both a byte less, or nothing: 17.
pub fn composes(
    want: &Answer<Scene>,
    call: impl Fn(&mut [u8], &mut [u8]) -> Option<Answer<usize>>,
) -> Option<String> {
    let room = want.as_ref().map_or(1, |scene| scene.room) as isize;
    let pairs = [[3, 5], [0, 0], [-1, 0], [0, -1], [-1, -1], [-room, 0]];
    pairs.into_iter().find_map(|more| {
        let lengths = more.map(|more| (room + more) as usize);
        let [output, spare] = lengths;
        let want = want.clone().and_then(|scene| scene.lent(output, spare));
        lend(lengths, want, |[output, spare]| call(output, spare))
    })
}

/// How a scene call departs from a room: lent so many bytes of output and of spare it must not say
/// 17, and it must with a byte less of either.
pub fn suffices(
    room: usize,
    call: impl Fn(&mut [u8], &mut [u8]) -> Option<Answer<usize>>,
) -> Option<String> {
    let pairs = [
        (room, room, false),
        (room - 1, room, true),
        (room, room - 1, true),
    ];
    pairs.into_iter().find_map(|(output, spare, short)| {
        let ours = call(&mut vec![BEFORE; output], &mut vec![BEFORE; spare])?;
        let shows = || format!("a room of {room}, lent {output} and {spare}: {ours:?}");
        ((ours == Err(ROOM)) != short).then(shows)
    })
}

/// The words of a session's state: ten numbers, then a bit for each of 65,536 cells.
const STATE: usize = 1034;
/// What stands in each word past the state.
const PAST: u64 = 0x5a5a_5a5a_5a5a_5a5a;

/// The state after an event, and three words past it.
fn state_words(event: &Event) -> Vec<u64> {
    let mut words = event.numbers.to_vec();
    words.resize(STATE, 0);
    for (cell, _) in event
        .placed
        .iter()
        .enumerate()
        .filter(|(_, placed)| **placed)
    {
        words[10 + cell / 64] |= 1 << (cell % 64);
    }
    words.extend([PAST; 3]);
    words
}

/// How a session departs from `want`, what each of its calls answers and leaves: the call at which
/// it does, and what it shows there. Each call is made before with a byte less of the buffer than
/// the canvas takes, and with a word less of the state: 17, or the refusal that comes before it.
/// The buffer is then three bytes longer than the canvas; nothing past either is written.
pub fn places(
    ours: &dyn Composer,
    body: &[u8],
    calls: &[Call],
    want: &[Event],
) -> Option<(usize, String)> {
    let mut state = vec![PAST; STATE + 3];
    for room in [0, STATE - 1] {
        let short = ours.canvas_start(body, &mut state[..room])?;
        if short != Err(ROOM) {
            return Some((0, format!("a start with {room} words {short:?}")));
        }
    }
    let started = ours.canvas_start(body, &mut state)?;
    let first = want.first()?;
    let mut before = Event {
        answer: Ok(0),
        buffer: None,
        numbers: first.numbers,
        placed: vec![false; first.placed.len()],
    };
    before.numbers[4..].fill(0);
    if started != Ok(0) || state != state_words(&before) {
        return Some((
            0,
            format!("the start {started:?}, words {:?}", &state[..12]),
        ));
    }
    let needed = want
        .iter()
        .find_map(|event| Some(event.buffer.as_ref()?.len()));
    let mut buffer = vec![BEFORE; needed.unwrap_or(0) + 3];
    for (at, (call, event)) in calls.iter().zip(want).enumerate() {
        let wanted = match event.answer {
            Ok(length) => Ok(length),
            Err(Stop::Refused(refusal)) => Err(refusal),
            Err(_) => return None,
        };
        let (words, bytes) = (state.clone(), buffer.clone());
        let unread = ours.canvas_call(call, &mut state[..STATE - 1], &mut buffer)?;
        let short = match needed {
            Some(needed) => ours.canvas_call(call, &mut state, &mut buffer[..needed - 1])?,
            None => Err(ROOM),
        };
        if unread != Err(ROOM) || short != wanted.and(Err(ROOM)) && needed.is_some() {
            return Some((at, format!("short of room {unread:?} and {short:?}")));
        }
        if state != words || buffer != bytes {
            return Some((at, "short of room, and something is written".into()));
        }
        let answered = ours.canvas_call(call, &mut state, &mut buffer)?;
        let mut expected = event.buffer.clone().unwrap_or_default();
        expected.resize(buffer.len(), BEFORE);
        let departs = answers(&wanted, Some(answered))
            .or_else(|| (state != state_words(event)).then(|| "another state is left".into()))
            .or_else(|| (buffer != expected).then(|| "another buffer is left".into()));
        if let Some(shows) = departs {
            return Some((at, shows));
        }
    }
    None
}

#[cfg(test)]
mod tests {
    use super::{Answer, Composer, Linked, answers, composes, places, writes};
    use crate::expected::{Call, Event, Stop};
    use model::Scene;
    use model::refusal::{LIMIT, MALFORMED, MISSING, ROOM};

    const RECORD: [u8; 3] = [1, 2, 3];

    fn write(output: &mut [u8]) -> Option<Answer<usize>> {
        output[..3].copy_from_slice(&RECORD);
        Some(Ok(3))
    }

    #[test]
    fn a_call_that_is_not_there_departs_from_nothing() {
        assert_eq!(answers(&Ok(1), None), None);
        assert_eq!(writes(&Ok(RECORD.to_vec()), |_| None), None);
    }

    #[test]
    fn answers_are_held() {
        assert_eq!(answers(&Ok(1), Some(Ok(1))), None);
        for wrong in [Ok(2), Err(MALFORMED)] {
            assert!(answers(&Ok(1), Some(wrong)).is_some());
            assert!(answers(&Err(LIMIT), Some(wrong)).is_some());
        }
    }

    /// A refusal of another item, of another list's, of none or of one where none is wanted.
    #[test]
    fn items_are_held() {
        let items = [
            MALFORMED,
            MALFORMED.of_record(0),
            MALFORMED.of_record(1),
            MALFORMED.of_entry(0),
            MALFORMED.of_entry(1),
        ];
        for want in items {
            for ours in items {
                let departs = answers::<u32>(&Err(want), Some(Err(ours)));
                assert_eq!(departs.is_none(), ours == want, "{departs:?}");
            }
        }
    }

    /// The right call and every wrong one that is made of three faults, by their bits.
    fn each_call(departs: impl Fn([bool; 3]) -> Option<String>) {
        for bits in 0..8 {
            let departs = departs([1, 2, 4].map(|bit| bits & bit != 0));
            assert_eq!(departs.is_none(), bits == 0, "{bits}: {departs:?}");
        }
    }

    #[test]
    fn writing_is_held() {
        // Other bytes, bytes past the record, 17 too early.
        each_call(|[other, past, early]| {
            writes(&Ok(RECORD.to_vec()), |output| {
                if output.len() < 3 + usize::from(early) {
                    return Some(Err(ROOM));
                }
                if past {
                    output.fill(0);
                }
                let answer = write(output);
                output[0] += u8::from(other);
                answer
            })
        });
        // A byte in front or at the end is written, another number.
        each_call(|[front, end, other]| {
            writes(&Err(MALFORMED), |output| {
                if let [first, .., last] = output {
                    *first += u8::from(front);
                    *last += u8::from(end);
                }
                Some(Err(if other { LIMIT } else { MALFORMED }))
            })
        });
    }

    #[test]
    fn composing_is_held() {
        let scene = Scene {
            record: RECORD.to_vec(),
            room: 5,
        };
        // A spare that is not looked at, or not cleared; an output that is not.
        each_call(|[blind, spared, past]| {
            composes(&Ok(scene.clone()), |output, spare| {
                if output.len() < 5 || (spare.len() < 5 && !blind) {
                    return Some(Err(ROOM));
                }
                if !spared {
                    spare.fill(0);
                }
                if !past {
                    output.fill(0);
                }
                write(output)
            })
        });
    }

    /// The library with faults in its session: a cell drawn again without its mark, a byte past the
    /// canvas, 15 with all cells placed.
    struct Faulty([bool; 3]);

    impl Composer for Faulty {
        fn canvas_start(&self, body: &[u8], state: &mut [u64]) -> Option<Answer<u64>> {
            Linked.canvas_start(body, state)
        }

        fn canvas_call(
            &self,
            call: &Call,
            state: &mut [u64],
            buffer: &mut [u8],
        ) -> Option<Answer<usize>> {
            let [unmarked, past, missing] = self.0;
            let answer = Linked.canvas_call(call, state, buffer)?;
            match (call, answer) {
                (Call::Place(1, _), Ok(_)) if unmarked => state[10] = 1,
                (Call::Place(..), Ok(_)) if past => *buffer.last_mut()? = 0,
                (Call::Finish, Ok(_)) if missing => return Some(Err(MISSING)),
                _ => {}
            }
            Some(answer)
        }
    }

    #[test]
    fn sessions_are_held() {
        let record = [1, 1, 0, 8, 0, 1, 1, 7];
        let calls = [
            Call::Blank(0),
            Call::Place(0, &record),
            Call::Place(1, &record),
            Call::Finish,
        ];
        let event = |answer: Result<usize, Stop>, placed: [bool; 2]| {
            let tile = u64::from(placed[0]);
            let samples = placed.map(|placed| 7 * u8::from(placed));
            let record = [2, 1, 0, 8, 0, 2, 2, samples[0], samples[1], 2, 2, 255, 255];
            Event {
                answer,
                buffer: placed[0].then(|| record.to_vec()),
                numbers: [1, 2, 2, 1, tile, tile, 0, 8 * tile, 0, 0],
                placed: placed.to_vec(),
            }
        };
        let want = [
            event(Err(Stop::Refused(MISSING)), [false, false]),
            event(Ok(0), [true, false]),
            event(Ok(0), [true, true]),
            event(Ok(9), [true, true]),
        ];
        each_call(|faults| {
            let departs = places(&Faulty(faults), &[0, 0, 0, 1, 0, 2, 0, 1], &calls, &want);
            departs.map(|(call, shows)| format!("call {call}: {shows}"))
        });
    }
}
