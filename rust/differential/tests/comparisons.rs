//! Every comparison on a few hundred cases, and the frame that runs them.

use differential::compare::{Comparison, Difference, Input, Sides, Verdict};
use differential::comparisons::ALL;
use differential::expected::Call;
use differential::ours::{Answer, Composer, Linked};
use model::refusal::{LIMIT, MALFORMED, MISSING, NOT_WHOLE, ROOM, TILING, ZERO_SIDE};
use model::{
    Clap, Colour, Crop, Iscl, Item, Layout, Marks, Operation, Overlay, Rectangle, Refusal,
    SceneParts, Size, offsets_of, parse_chain, parse_record,
};

/// The comparisons of calls that refuse records as their own.
const OF_RECORDS: [&str; 8] = [
    "tray",
    "composite-grid",
    "composite-overlay",
    "grid-scene",
    "overlay-scene",
    "grid-room",
    "overlay-room",
    "point",
];

/// The comparisons of calls that refuse entries as their own.
const OF_ENTRIES: [&str; 7] = [
    "chain",
    "grid-scene",
    "overlay-scene",
    "transforms",
    "grid-room",
    "overlay-room",
    "point",
];

#[test]
fn every_comparison_agrees() {
    let Some(sides) = Sides::open() else { return };
    for comparison in ALL {
        let report = comparison.run(&sides, 500, 3);
        assert!(report.differences.is_empty(), "{report}");
        assert!(report.accepted > 100, "{report}");
        let mut of_items = OF_RECORDS.iter().chain(&OF_ENTRIES);
        let has_items = of_items.any(|name| *name == comparison.name);
        assert_eq!(report.of_items > 20, has_items, "{report}");
        assert!(has_items || report.of_items == 0, "{report}");
    }
}

/// The first page names every comparison.
#[test]
fn the_comparisons_are_named() {
    let path = concat!(env!("CARGO_MANIFEST_DIR"), "/../../README.md");
    let readme = std::fs::read_to_string(path).expect("the first page");
    let (_, names) = readme.split_once("The names:").expect("them");
    let (names, _) = names.split_once('.').expect("an end");
    let names: Vec<&str> = names.split(',').map(str::trim).collect();
    let all: Vec<&str> = ALL.iter().map(|comparison| comparison.name).collect();
    assert_eq!(names, all);
}

#[test]
fn a_difference_is_made_small() {
    let Some(sides) = Sides::open() else { return };
    let comparison = Comparison {
        name: "seven",
        generate: |rng| {
            Input::new()
                .with_bytes("bytes", rng.bytes(40))
                .with_numbers("numbers", vec![rng.within(-99..=99)])
        },
        judge: |_, input| match input.bytes("bytes").iter().any(|byte| *byte >= 7) {
            true => Verdict::Different("a byte from 7 on".into()),
            false => Verdict::Accepted,
        },
    };
    let report = comparison.run(&sides, 1, 1);
    assert_eq!(
        report.to_string(),
        "seven: 1 cases, 0 accepted, 0 refused, 1 differences\n  \
         case 0: a byte from 7 on\n    bytes=07 numbers=[0]"
    );
}

/// A crop's margins go with its picture, which is cut to the rectangle's far edges.
#[test]
fn a_crop_is_made_small() {
    let Some(sides) = Sides::open() else { return };
    let comparison = ALL.iter().find(|known| known.name == "crop").expect("it");
    let wrong = Sides {
        ours: &SHIFTED,
        ..sides
    };
    let report = comparison.run(&wrong, 25, 1);
    assert!(report.differences.len() > 4, "{report}");
    for Difference { input, .. } in &report.differences {
        let [x, y, ..] = input.numbers("fields") else {
            panic!("{input}");
        };
        assert_eq!(input.numbers("margins"), [*x, *y, 0, 0], "{input}");
        let shows = format!(
            "fields={:?} margins=[{x}, {y}, 0, 0]",
            input.numbers("fields")
        );
        assert!(input.to_string().ends_with(&shows), "{input}");
    }
}

/// Judges every record malformed.
struct Stern;

impl Composer for Stern {
    fn record(&self, _: &[u8]) -> Option<Answer<Layout>> {
        Some(Err(MALFORMED))
    }
}

/// Puts a plane one byte too far, and takes a tray at its word.
struct Lax;

impl Composer for Lax {
    fn record(&self, record: &[u8]) -> Option<Answer<Layout>> {
        let mut answer = Linked.record(record)?;
        if let Ok(layout) = &mut answer {
            layout.places[3].start += 1;
        }
        Some(answer)
    }

    fn tray(&self, tray: &[u8]) -> Option<Answer<u32>> {
        Some(model::tray_count(tray))
    }
}

/// A wrong operation.
type Writes = fn(&[u8], Operation, &mut [u8]) -> Option<Answer<usize>>;

/// Writes by a function of its own.
struct Writer(Writes);

impl Composer for Writer {
    fn operation(&self, record: &[u8], op: &Operation, out: &mut [u8]) -> Option<Answer<usize>> {
        (self.0)(record, *op, out)
    }
}

/// The right answer to another operation.
fn other(record: &[u8], op: Operation, out: &mut [u8]) -> Option<Answer<usize>> {
    Linked.operation(record, &op, out)
}

const CLOCKWISE: Writer = Writer(|record, op, out| match op {
    Operation::Irot(angle) => other(record, Operation::Irot(4 - angle % 4), out),
    _ => None,
});

/// A crop that shifts an odd edge instead of promoting.
const SHIFTED: Writer = Writer(|record, op, out| match op {
    Operation::Crop(mut to) => {
        let odd = to.rectangle.x & 1;
        to.rectangle.x -= odd;
        to.margins.left = to.margins.left.wrapping_sub(odd);
        to.margins.right = to.margins.right.wrapping_add(odd);
        other(record, Operation::Crop(to), out)
    }
    _ => None,
});

/// A crop that overlooks a wrong bottom margin.
const DEEP: Writer = Writer(|record, op, out| match op {
    Operation::Crop(mut to) => {
        if let Ok(frame) = parse_record(record) {
            let right = Crop::of(to.rectangle, (frame.width, frame.height));
            to.margins.bottom = right.margins.bottom;
        }
        other(record, Operation::Crop(to), out)
    }
    _ => None,
});

/// A crop that adds up in 32 bits: what then passes for one has the whole width.
const WRAPPED: Writer = Writer(|record, op, out| match op {
    Operation::Crop(to) => {
        let Rectangle { x, width, .. } = to.rectangle;
        let sum = x.wrapping_add(width).wrapping_add(to.margins.right);
        let frame = parse_record(record).ok();
        let frame = frame.filter(|frame| sum == frame.width && width > frame.width);
        let Some(frame) = frame else {
            return other(record, op, out);
        };
        let whole = Rectangle {
            x: 0,
            width: frame.width,
            ..to.rectangle
        };
        let crop = Crop::of(whole, (frame.width, frame.height));
        other(record, Operation::Crop(crop), out)
    }
    _ => None,
});

/// An aperture whose edge is rounded to a whole pixel.
const ROUNDED: Writer = Writer(|record, op, out| match op {
    Operation::Clap(mut clap) => {
        if let Ok(frame) = parse_record(record)
            && clap.resolve(frame.width, frame.height) == Err(NOT_WHOLE)
        {
            clap.horizontal_n = clap.horizontal_n.wrapping_add(1);
        }
        other(record, Operation::Clap(clap), out)
    }
    _ => None,
});

/// Odd 4:2:0 mirrored through promotion: a half turn, then the other mirror.
const PROMOTED: Writer = Writer(|record, op, out| match op {
    Operation::Imir(axis) => {
        let mut turned = vec![0; 2 * record.len() + 64];
        match other(record, Operation::Irot(2), &mut turned)? {
            Ok(length) => other(&turned[..length], Operation::Imir(axis ^ 1), out),
            refused => Some(refused),
        }
    }
    _ => None,
});

/// 17 before any other refusal.
const HASTY: Writer = Writer(|record, op, out| match out.len() {
    0 => Some(Err(ROOM)),
    _ => other(record, op, out),
});

/// The same answer, and a byte past what was written.
fn spilt(answer: Option<Answer<usize>>, out: &mut [u8]) -> Option<Answer<usize>> {
    if let Some(Ok(length)) = answer
        && let Some(past) = out.get_mut(length)
    {
        *past = 0;
    }
    answer
}

/// A byte past the record is written.
const LONG: Writer = Writer(|record, op, out| spilt(other(record, op, out), out));

/// A refused call writes.
const SMEARED: Writer = Writer(|record, op, out| {
    let answer = other(record, op, out);
    if let (Some(Err(_)), Some(first)) = (&answer, out.first_mut()) {
        *first = 0;
    }
    answer
});

/// Wrong in the fill alone: another matrix, or the range flag disregarded.
struct Painter(fn(Colour) -> Colour);

impl Composer for Painter {
    fn fill(
        &self,
        channels: [u16; 3],
        depth: u32,
        colour: Option<Colour>,
        words: &mut [u16],
    ) -> Option<Answer<u64>> {
        Linked.fill(channels, depth, colour.map(self.0), words)
    }
}

const RANGELESS: Painter = Painter(|colour| Colour {
    full_range: true,
    ..colour
});

const UNWEIGHTED: Painter = Painter(|colour| Colour {
    matrix: if colour.matrix == 10 {
        6
    } else {
        colour.matrix
    },
    ..colour
});

/// Writes a fourth sample.
struct Spiller;

impl Composer for Spiller {
    fn fill(
        &self,
        channels: [u16; 3],
        depth: u32,
        colour: Option<Colour>,
        words: &mut [u16],
    ) -> Option<Answer<u64>> {
        let answer = Linked.fill(channels, depth, colour, words);
        if let Some(fourth) = words.get_mut(3) {
            *fourth = 0;
        }
        answer
    }
}

/// Wrong in what it reads of descriptors and chains.
struct Reader;

impl Composer for Reader {
    /// Rows and columns exchanged.
    fn grid_descriptor(&self, body: &[u8], words: &mut [u64]) -> Option<Answer<u64>> {
        let answer = Linked.grid_descriptor(body, words);
        if answer == Some(Ok(0)) {
            words.swap(0, 1);
        }
        answer
    }

    /// Blue put where alpha belongs.
    fn overlay_descriptor(
        &self,
        body: &[u8],
        count: u32,
        words: &mut [u64],
    ) -> Option<Answer<u64>> {
        let answer = Linked.overlay_descriptor(body, count, words);
        if answer == Some(Ok(0)) {
            words[3] = words[2];
        }
        answer
    }

    /// A chain of 257 entries taken.
    fn chain(&self, chain: &[u8]) -> Option<Answer<u32>> {
        match Linked.chain(chain) {
            Some(Err(LIMIT)) if chain[..2] == [0x81, 2] => Some(Ok(257)),
            answer => answer,
        }
    }
}

/// Wrong in the offsets alone: the second input's is the first's.
struct Stacker;

impl Composer for Stacker {
    fn overlay_offset(
        &self,
        body: &[u8],
        count: u32,
        index: u32,
        words: &mut [u64],
    ) -> Option<Answer<u64>> {
        let index = if index == 1 && count > 1 { 0 } else { index };
        Linked.overlay_offset(body, count, index, words)
    }
}

/// Wrong in all offsets at once: the last input's are exchanged, width with height.
struct Exchanger;

impl Composer for Exchanger {
    fn overlay_offsets(&self, body: &[u8], count: u32, words: &mut [u64]) -> Option<Answer<u64>> {
        let answer = Linked.overlay_offsets(body, count, words);
        if answer == Some(Ok(0)) && count > 0 {
            let last = 4 * (count as usize - 1);
            words[last..][..4].rotate_left(2);
        }
        answer
    }
}

/// Wrong in all offsets at once: a word less is taken as well.
struct Cutter;

impl Composer for Cutter {
    fn overlay_offsets(&self, body: &[u8], count: u32, words: &mut [u64]) -> Option<Answer<u64>> {
        let mut room = words.to_vec();
        room.push(0);
        let answer = Linked.overlay_offsets(body, count, &mut room);
        words.copy_from_slice(&room[..words.len()]);
        answer
    }
}

/// Wrong in 11 alone: an index outside is the last one's.
struct Clamper;

impl Composer for Clamper {
    fn overlay_offset(
        &self,
        body: &[u8],
        count: u32,
        index: u32,
        words: &mut [u64],
    ) -> Option<Answer<u64>> {
        let index = index.min(count.saturating_sub(1));
        Linked.overlay_offset(body, count, index, words)
    }
}

/// Wrong in sizes: an aperture's height axis first, a scaled side without its limit of 2^26, the
/// sizes after it in another order.
struct Sizer;

impl Composer for Sizer {
    fn clap_resolve(&self, clap: &Clap, size: Size, words: &mut [u32]) -> Option<Answer<u64>> {
        let [wn, wd, hn, hd, xn, xd, yn, yd] = clap.fields();
        let turned = Clap::from_fields([hn, hd, wn, wd, yn, yd, xn, xd]);
        let answer = Linked.clap_resolve(&turned, (size.1, size.0), words);
        if answer == Some(Ok(0)) {
            for pair in words[..8].chunks_exact_mut(2) {
                pair.swap(0, 1);
            }
        }
        answer
    }

    fn iscl_size(&self, iscl: &Iscl, size: Size, words: &mut [u32]) -> Option<Answer<u64>> {
        let longest = size.0.max(size.1);
        match Linked.iscl_size(iscl, size, words) {
            Some(Err(LIMIT)) if longest > 1 << 26 && words.len() >= 2 => Some(Ok(0)),
            answer => answer,
        }
    }

    fn steps(&self, input: &[u8], output: &mut [u8]) -> Option<Answer<usize>> {
        let answer = Linked.steps(input, output);
        if let Some(Ok(length)) = answer {
            // The last line's end.
            output[length - 1] = b' ';
        }
        answer
    }
}

/// Wrong in margins: the right one is a column short.
struct Shaver;

impl Composer for Shaver {
    fn clap_resolve(&self, clap: &Clap, size: Size, words: &mut [u32]) -> Option<Answer<u64>> {
        let answer = Linked.clap_resolve(clap, size, words);
        if answer == Some(Ok(0)) {
            words[6] = words[6].wrapping_sub(1);
        }
        answer
    }
}

/// Wrong in room: four words are enough, and the margins are left out.
struct Marginless;

impl Composer for Marginless {
    fn clap_resolve(&self, clap: &Clap, size: Size, words: &mut [u32]) -> Option<Answer<u64>> {
        let mut all = [0; 8];
        let answer = Linked.clap_resolve(clap, size, &mut all);
        match (answer, words.get_mut(..4)) {
            (Some(Ok(0)), None) => Some(Err(ROOM)),
            (Some(Ok(0)), Some(words)) => {
                words.copy_from_slice(&all[..4]);
                answer
            }
            _ => answer,
        }
    }
}

/// Right but for refusals, of which it makes others.
struct Misled(fn(Refusal) -> Refusal);

/// Calls that are the library's, their refusals changed.
macro_rules! misled {
    ($($name:ident($($part:ident: $of:ty),*) -> $answer:ty;)*) => {
        $(fn $name(&self, $($part: $of),*) -> Option<Answer<$answer>> {
            Some(Linked.$name($($part),*)?.map_err(self.0))
        })*
    };
}

impl Composer for Misled {
    misled! {
        record(record: &[u8]) -> Layout;
        tray(tray: &[u8]) -> u32;
        grid_descriptor(body: &[u8], words: &mut [u64]) -> u64;
        overlay_descriptor(body: &[u8], count: u32, words: &mut [u64]) -> u64;
        overlay_offset(body: &[u8], count: u32, index: u32, words: &mut [u64]) -> u64;
        overlay_offsets(body: &[u8], count: u32, words: &mut [u64]) -> u64;
        write_grid(tiles: [u32; 2], size: Size, output: &mut [u8]) -> usize;
        write_overlay(fill: [u16; 4], size: Size, words: &[u32], output: &mut [u8]) -> usize;
        chain(chain: &[u8]) -> u32;
        clap_resolve(clap: &Clap, size: Size, words: &mut [u32]) -> u64;
        iscl_size(iscl: &Iscl, size: Size, words: &mut [u32]) -> u64;
        steps(input: &[u8], output: &mut [u8]) -> usize;
        sentence(number: u32, sort: u8, index: u64, language: u8, output: &mut [u8]) -> usize;
        fill(channels: [u16; 3], depth: u32, colour: Option<Colour>, words: &mut [u16]) -> u64;
        operation(record: &[u8], operation: &Operation, output: &mut [u8]) -> usize;
        attach(master: &[u8], alpha: &[u8], output: &mut [u8]) -> usize;
        grid(body: &[u8], tray: &[u8], output: &mut [u8]) -> usize;
        overlay(
            body: &[u8], tray: &[u8], list: &[u8], colour: Option<Colour>, output: &mut [u8]
        ) -> usize;
        grid_scene(parts: &SceneParts, output: &mut [u8], spare: &mut [u8]) -> usize;
        overlay_scene(
            parts: &SceneParts, marks: &Marks, output: &mut [u8], spare: &mut [u8]
        ) -> usize;
        transforms(
            record: &[u8], chain: &[u8], flag: bool, output: &mut [u8], spare: &mut [u8]
        ) -> usize;
        record_size(header: [u32; 5]) -> u64;
        grid_room(parts: &SceneParts) -> u64;
        overlay_room(parts: &SceneParts, list: &[u8]) -> u64;
        grid_point(parts: &SceneParts, place: Size, words: &mut [u32]) -> u64;
        overlay_point(parts: &SceneParts, marks: &Marks, place: Size, words: &mut [u32]) -> u64;
        canvas_start(body: &[u8], state: &mut [u64]) -> u64;
        canvas_call(call: &Call, state: &mut [u64], buffer: &mut [u8]) -> usize;
    }
}

const RECORD_AFTER: Misled = Misled(|refusal| match refusal.item {
    Some(Item::Record(index)) => refusal.of_record(index as usize + 1),
    _ => refusal,
});

const ENTRY_AFTER: Misled = Misled(|refusal| match refusal.item {
    Some(Item::Entry(index)) => refusal.of_entry(index as usize + 1),
    _ => refusal,
});

/// The tray's sort for an entry.
const TRAYS_SORT: Misled = Misled(|refusal| match refusal.item {
    Some(Item::Entry(index)) => refusal.of_record(index as usize),
    _ => refusal,
});

const ITEMLESS: Misled = Misled(|refusal| Refusal::new(refusal.number));

/// An item where there is none.
const ALL_ITEMS: Misled = Misled(|refusal| match refusal.item {
    None => refusal.of_record(0),
    _ => refusal,
});

/// An index for bytes left over: that of the item after the last.
struct Counter;

impl Composer for Counter {
    fn tray(&self, tray: &[u8]) -> Option<Answer<u32>> {
        let count = model::tray_count(tray).ok();
        let answer = Linked.tray(tray)?;
        Some(answer.map_err(|refusal| match (refusal.item, count) {
            (None, Some(count)) => refusal.of_record(count as usize),
            _ => refusal,
        }))
    }

    fn chain(&self, chain: &[u8]) -> Option<Answer<u32>> {
        let count = model::tray_count(chain).ok();
        let answer = Linked.chain(chain)?;
        Some(answer.map_err(|refusal| match (refusal, count) {
            (MALFORMED, Some(count)) => refusal.of_entry(count as usize),
            _ => refusal,
        }))
    }
}

/// An index among the entries that are applied alone.
struct Skipper;

impl Composer for Skipper {
    fn transforms(
        &self,
        record: &[u8],
        chain: &[u8],
        essential_only: bool,
        output: &mut [u8],
        spare: &mut [u8],
    ) -> Option<Answer<usize>> {
        let answer = Linked.transforms(record, chain, essential_only, output, spare)?;
        Some(
            answer.map_err(|refusal| match (refusal.item, parse_chain(chain)) {
                (Some(Item::Entry(index)), Ok(entries)) => {
                    let before = entries[..index as usize].iter();
                    let applied = before.filter(|entry| entry.applied(essential_only).is_some());
                    refusal.of_entry(applied.count())
                }
                _ => refusal,
            }),
        )
    }
}

/// A wrong sentence, of number, sort, index and language.
type Says = fn(u32, u8, u64, u8, &mut [u8]) -> Option<Answer<usize>>;

/// Writes sentences by a function of its own.
struct Speaker(Says);

impl Composer for Speaker {
    fn sentence(
        &self,
        number: u32,
        sort: u8,
        index: u64,
        language: u8,
        output: &mut [u8],
    ) -> Option<Answer<usize>> {
        (self.0)(number, sort, index, language, output)
    }
}

/// The model in the composer's place.
const MODELLED: Speaker = Speaker(|number, sort, index, language, output| {
    let length = model::write_sentence(number, sort, index, language, output);
    Some(length)
});

/// English for German, German for English.
const EXCHANGED: Speaker = Speaker(|number, sort, index, language, output| {
    let other = if language < 2 { 1 - language } else { language };
    Linked.sentence(number, sort, index, other, output)
});

/// An index of 32 bits.
const SHORT_INDEX: Speaker = Speaker(|number, sort, index, language, output| {
    Linked.sentence(number, sort, index & 0xffff_ffff, language, output)
});

/// A number of 8 bits.
const SHORT_NUMBER: Speaker = Speaker(|number, sort, index, language, output| {
    Linked.sentence(number & 0xff, sort, index, language, output)
});

/// 17 before 5.
const SPEAKS_HASTILY: Speaker =
    Speaker(
        |number, sort, index, language, output| match output.is_empty() {
            true => Some(Err(ROOM)),
            false => Linked.sentence(number, sort, index, language, output),
        },
    );

/// A zero behind the sentence, as for C.
const ENDED: Speaker = Speaker(|number, sort, index, language, output| {
    let answer = Linked.sentence(number, sort, index, language, output);
    spilt(answer, output)
});

/// A wrong body of a grid, of rows and columns and a canvas.
type WritesGrid = fn([u32; 2], Size, &mut [u8]) -> Option<Answer<usize>>;

/// Writes grids' bodies by a function of its own.
struct GridScribe(WritesGrid);

impl Composer for GridScribe {
    fn write_grid(&self, tiles: [u32; 2], size: Size, output: &mut [u8]) -> Option<Answer<usize>> {
        (self.0)(tiles, size, output)
    }
}

const MODELLED_GRID: GridScribe =
    GridScribe(|tiles, size, output| Some(model::write_grid(tiles, size, output)));

/// A side of 65,536 is held to 16 bits.
fn squeezed((width, height): Size) -> Size {
    let held = |side| if side == 65_536 { 65_535 } else { side };
    (held(width), held(height))
}

const SQUEEZED_GRID: GridScribe =
    GridScribe(|tiles, size, output| Linked.write_grid(tiles, squeezed(size), output));

/// Rows that are not less 1.
const ALL_ROWS: GridScribe = GridScribe(|tiles, size, output| {
    let answer = Linked.write_grid(tiles, size, output);
    if let Some(Ok(_)) = answer {
        output[2] = tiles[0] as u8;
    }
    answer
});

/// Rows and columns of 16 bits.
const SHORT_TILES: GridScribe = GridScribe(|tiles, size, output| {
    Linked.write_grid(tiles.map(|many| many & 0xffff), size, output)
});

/// 3 before 19.
const CANVAS_FIRST: GridScribe =
    GridScribe(
        |tiles, size, output| match Linked.write_grid(tiles, size, output) {
            Some(Err(TILING)) if size.0 == 0 || size.1 == 0 => Some(Err(ZERO_SIDE)),
            answer => answer,
        },
    );

/// A byte past the body.
const SPILT_GRID: GridScribe =
    GridScribe(|tiles, size, output| spilt(Linked.write_grid(tiles, size, output), output));

/// A wrong body of an overlay, of fill, canvas and the words of its offsets.
type WritesOverlay = fn([u16; 4], Size, &[u32], &mut [u8]) -> Option<Answer<usize>>;

/// Writes overlays' bodies by a function of its own.
struct OverlayScribe(WritesOverlay);

impl Composer for OverlayScribe {
    fn write_overlay(
        &self,
        fill: [u16; 4],
        size: Size,
        words: &[u32],
        output: &mut [u8],
    ) -> Option<Answer<usize>> {
        (self.0)(fill, size, words, output)
    }
}

const MODELLED_OVERLAY: OverlayScribe = OverlayScribe(|fill, (width, height), words, output| {
    let overlay = Overlay {
        fill,
        width,
        height,
        offsets: offsets_of(words),
    };
    Some(model::write_overlay(&overlay, output))
});

const SQUEEZED_OVERLAY: OverlayScribe = OverlayScribe(|fill, size, words, output| {
    Linked.write_overlay(fill, squeezed(size), words, output)
});

/// The lowest 16 bits of -32,769, which are those of 32,767, for it.
const FAR_LEFT: OverlayScribe = OverlayScribe(|fill, size, words, output| {
    let short = |word: &u32| {
        if word.cast_signed() == -32_769 {
            32_767
        } else {
            *word
        }
    };
    let words: Vec<u32> = words.iter().map(short).collect();
    Linked.write_overlay(fill, size, &words, output)
});

/// A last word without a partner is an input's.
const PARTNERLESS: OverlayScribe = OverlayScribe(|fill, size, words, output| {
    let mut words = words.to_vec();
    words.resize(words.len().next_multiple_of(2), 0);
    Linked.write_overlay(fill, size, &words, output)
});

/// 15 before 4.
const INPUTS_FIRST: OverlayScribe = OverlayScribe(|fill, size, words, output| {
    match Linked.write_overlay(fill, size, words, output) {
        Some(Err(LIMIT)) if words.len() < 2 => Some(Err(MISSING)),
        answer => answer,
    }
});

/// 17 before 15.
const ROOM_FIRST: OverlayScribe = OverlayScribe(|fill, size, words, output| {
    match Linked.write_overlay(fill, size, words, output) {
        Some(Err(MISSING)) if output.len() < 14 => Some(Err(ROOM)),
        answer => answer,
    }
});

const SPILT_OVERLAY: OverlayScribe = OverlayScribe(|fill, size, words, output| {
    spilt(Linked.write_overlay(fill, size, words, output), output)
});

#[test]
fn the_model_passes_in_the_composers_place() {
    let Some(sides) = Sides::open() else { return };
    let models: [(&str, &'static dyn Composer); 3] = [
        ("sentence", &MODELLED),
        ("grid-body", &MODELLED_GRID),
        ("overlay-body", &MODELLED_OVERLAY),
    ];
    for (name, ours) in models {
        let comparison = ALL.iter().find(|known| known.name == name).expect(name);
        let report = comparison.run(&Sides { ours, ..sides }, 1_000, 2);
        assert!(report.differences.is_empty(), "{report}");
    }
}

/// The names of the comparisons of the composer's calls.
fn every_call() -> Vec<&'static str> {
    let names = ALL.iter().map(|comparison| comparison.name);
    names.filter(|name| *name != "house-number").collect()
}

#[test]
fn a_wrong_composer_is_found() {
    let Some(sides) = Sides::open() else { return };
    let of_items = [&OF_RECORDS[..], &OF_ENTRIES].concat();
    let wrong: [(&str, &'static dyn Composer, &[&str]); 45] = [
        ("judges every record malformed", &Stern, &["record"]),
        ("a plane too far, a tray's word", &Lax, &["record", "tray"]),
        ("turns clockwise", &CLOCKWISE, &["irot"]),
        ("shifts instead of promoting", &SHIFTED, &["crop"]),
        ("any bottom margin", &DEEP, &["crop"]),
        ("sums of 32 bits", &WRAPPED, &["crop"]),
        ("rounds an edge", &ROUNDED, &["clap"]),
        ("mirrors through promotion", &PROMOTED, &["imir"]),
        ("17 too early", &HASTY, &["crop", "clap", "irot", "imir"]),
        ("writes too far", &LONG, &["crop", "clap", "irot", "imir"]),
        (
            "writes and refuses",
            &SMEARED,
            &["crop", "clap", "irot", "imir"],
        ),
        ("full range always", &RANGELESS, &["fill"]),
        ("other weights", &UNWEIGHTED, &["fill"]),
        ("fills too far", &Spiller, &["fill"]),
        (
            "other fields, a longer chain",
            &Reader,
            &[
                "grid-descriptor",
                "overlay-descriptor",
                "grid-body",
                "overlay-body",
                "chain",
            ],
        ),
        ("one offset for another", &Stacker, &["overlay-descriptor"]),
        ("a place turned", &Exchanger, &["overlay-descriptor"]),
        ("a word short", &Cutter, &["overlay-descriptor"]),
        ("an index outside", &Clamper, &["overlay-descriptor"]),
        (
            "height first, no limit, no end of line",
            &Sizer,
            &["clap-resolve", "iscl-size", "steps"],
        ),
        ("a margin too short", &Shaver, &["clap-resolve"]),
        ("no margins", &Marginless, &["clap-resolve"]),
        ("the record after", &RECORD_AFTER, &OF_RECORDS),
        ("the entry after", &ENTRY_AFTER, &OF_ENTRIES),
        ("an entry taken for a record", &TRAYS_SORT, &OF_ENTRIES),
        ("no item", &ITEMLESS, &of_items),
        ("an item where none is", &ALL_ITEMS, &every_call()),
        ("an item for bytes left over", &Counter, &["tray", "chain"]),
        ("skipped entries not counted", &Skipper, &["transforms"]),
        ("the other language", &EXCHANGED, &["sentence"]),
        ("an index of 32 bits", &SHORT_INDEX, &["sentence"]),
        ("a number of 8 bits", &SHORT_NUMBER, &["sentence"]),
        ("17 before 5", &SPEAKS_HASTILY, &["sentence"]),
        ("a sentence with an end", &ENDED, &["sentence"]),
        ("65,536 in 16 bits", &SQUEEZED_GRID, &["grid-body"]),
        ("rows not less 1", &ALL_ROWS, &["grid-body"]),
        ("rows of 16 bits", &SHORT_TILES, &["grid-body"]),
        ("3 before 19", &CANVAS_FIRST, &["grid-body"]),
        ("a grid's body too far", &SPILT_GRID, &["grid-body"]),
        ("65,536 in 16 bits", &SQUEEZED_OVERLAY, &["overlay-body"]),
        ("-32,769 in 16 bits", &FAR_LEFT, &["overlay-body"]),
        ("a word without a partner", &PARTNERLESS, &["overlay-body"]),
        ("15 before 4", &INPUTS_FIRST, &["overlay-body"]),
        ("17 before 15", &ROOM_FIRST, &["overlay-body"]),
        (
            "an overlay's body too far",
            &SPILT_OVERLAY,
            &["overlay-body"],
        ),
    ];
    for (what, ours, names) in wrong {
        for name in names {
            let comparison = ALL.iter().find(|known| known.name == *name).expect(name);
            let wrong = Sides { ours, ..sides };
            assert!(comparison.finds(&wrong, 500, 1), "{name}: {what}");
        }
    }
}
