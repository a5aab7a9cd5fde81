//! A chain on one record, the size of a record, and room: the model against itself and the composer
//! on every form, every few faults, every cut and changed byte; and composers that are wrong in
//! them, which the comparisons must find.

use differential::compare::{Input, Sides, Verdict};
use differential::comparisons::ALL;
use differential::damage::{
    ChainFault, Fault, RecordFault, SceneDraft, SceneFault, behind_skipped, faulty_chain,
    faulty_record, faulty_scene, first_refusal, scene_choices, with_skipped,
};
use differential::expected::{self, Stop};
use differential::generate::{self, Form};
use differential::ours::{Answer, Composer, Linked};
use differential::rng::Rng;
use model::refusal::{DEPTH, LIMIT, MALFORMED, OUTSIDE, ROOM, ZERO_DENOMINATOR, ZERO_SIDE};
use model::{
    Chroma, Clap, Colour, Crop, Entry, Frame, Grid, Iscl, Marks, Operation, Overlay, Property,
    Rectangle, Refusal, Scene, SceneParts, chain_bytes, grid_bytes, grid_room, overlay_bytes,
    overlay_room, parse_chain, parse_record, record_size, tray_bytes,
};

/// Every chroma, depth and alpha.
fn forms() -> impl Iterator<Item = Form> {
    let formats = |chroma| (8..=16).flat_map(move |depth| [(chroma, depth, 0), (chroma, depth, 1)]);
    let forms = Chroma::ALL.into_iter().flat_map(formats);
    forms.map(|(chroma, depth, alpha)| Form {
        chroma,
        depth,
        alpha,
    })
}

/// The size of a written record is that of its form, by the model and by the composer.
fn assert_sized(what: &str, written: &[u8]) {
    let frame = parse_record(written).expect("a record");
    let length = Ok(written.len() as u64);
    let header = frame.header();
    assert_eq!(record_size(header), length, "{what} {header:?}");
    assert_eq!(
        Linked.record_size(header),
        Some(length),
        "{what} {header:?}"
    );
}

/// What `call` writes into a long buffer.
fn written(call: impl Fn(&mut [u8]) -> Option<Answer<usize>>) -> Vec<u8> {
    let mut output = vec![0; 1 << 16];
    let length = call(&mut output).expect("a call").expect("a record");
    output.truncate(length);
    output
}

/// Sides of both parities, and where a number takes another byte.
const SIZES: [(u32, u32); 9] = [
    (1, 1),
    (2, 1),
    (1, 2),
    (3, 2),
    (2, 5),
    (5, 3),
    (7, 7),
    (127, 1),
    (3, 129),
];

#[test]
fn a_records_size_is_what_operations_write() {
    let mut rng = Rng::new(1);
    for (form, size) in forms().flat_map(|form| SIZES.map(|size| (form, size))) {
        let record = generate::frame_of(&mut rng, size, form, false).record();
        let (width, height) = size;
        let corner = Rectangle {
            x: width / 2,
            y: height / 3,
            width: width - width / 2,
            height: height - height / 3,
        };
        let operations = [
            Operation::Crop(Crop::of(corner, size)),
            Operation::Clap(Clap::from_fields([width, 1, height, 1, 0, 1, 0, 1])),
            Operation::Irot(1),
            Operation::Irot(2),
            Operation::Irot(3),
            Operation::Imir(0),
            Operation::Imir(1),
            Operation::Iscl(Iscl::from_fields([3, 2, 2, 1])),
            Operation::Nearest(5, 9),
            Operation::Depth(if form.depth == 8 { 9 } else { 8 }),
        ];
        for operation in operations {
            let wrote = written(|output| Linked.operation(&record, &operation, output));
            assert_sized(&format!("{operation:?}"), &wrote);
        }
        // Planes that are not resampled keep their stride: tight ones stay tight.
        let tight = written(|output| Linked.operation(&record, &Operation::Imir(0), output));
        let attached = written(|output| Linked.attach(&tight, &tight, output));
        assert_sized("attach", &attached);
        compose_all(&mut rng, &record, size);
    }
}

/// A grid that cuts its one tile, overlays of one input with alpha and without, and chains.
fn compose_all(rng: &mut Rng, record: &[u8], (width, height): (u32, u32)) {
    let tray = [&[1], record].concat();
    let grid = grid_bytes(&Grid::row(1, width.div_ceil(2), height), true);
    let grid_written = written(|output| Linked.grid(&grid, &tray, output));
    assert_sized("grid", &grid_written);
    for alpha in [0, 65_535] {
        let overlay = Overlay {
            fill: [rng.word() as u16, 1, 2, alpha],
            width: width + 1,
            height,
            offsets: vec![(1, 0)],
        };
        let body = overlay_bytes(&overlay, true);
        let wrote = written(|output| Linked.overlay(&body, &tray, &[0], None, output));
        assert_sized("overlay", &wrote);
    }
    let chain = chain_bytes(&[Entry::new(true, Property::Irot(1))]);
    for chain in [&chain[..], &[0]] {
        let wrote = written(|output| {
            let mut spare = vec![0; output.len()];
            Linked.transforms(record, chain, false, output, &mut spare)
        });
        assert_sized("transforms", &wrote);
    }
}

/// 5 chroma or alpha, then 6, then 3, then 4, whatever else is wrong.
#[test]
fn a_records_size_is_refused_in_order() {
    let sides = [0, 1, 7, 1 << 15, (1 << 15) + 1, 1 << 30, u32::MAX];
    let mut seen = [0; 7];
    for chroma in [0, 1, 2, 3, 4, 5, 256, u32::MAX] {
        for alpha in [0, 1, 2, 256, 257, u32::MAX] {
            for depth in [0, 7, 8, 9, 16, 17, 255, 256, 264, u32::MAX] {
                for (width, height) in sides.iter().flat_map(|w| sides.map(|h| (*w, h))) {
                    let pixels = u64::from(width) * u64::from(height);
                    let number = match () {
                        () if chroma > 3 || alpha > 1 => Some(5),
                        () if !(8..=16).contains(&depth) => Some(6),
                        () if width == 0 || height == 0 => Some(3),
                        () if pixels > 1 << 30 => Some(4),
                        () => None,
                    };
                    let header = [width, height, chroma, depth, alpha];
                    let size = record_size(header);
                    assert_eq!(size.err(), number.map(Refusal::new), "{header:?}");
                    assert_eq!(Linked.record_size(header), Some(size), "{header:?}");
                    seen[usize::from(number.unwrap_or(0))] += 1;
                }
            }
        }
    }
    for number in [0, 3, 4, 5, 6] {
        assert!(seen[number] > 100, "{seen:?}");
    }
}

/// Document 01's worked case, its record of 15 bytes; and the largest there is.
#[test]
fn sizes_that_are_known() {
    for (header, size) in [
        ([4, 2, 0, 8, 0], 15),
        ([1, 1, 0, 8, 0], 8),
        ([5, 3, 1, 8, 0], 38),
        ([1 << 15, 1 << 15, 3, 16, 1], 8_589_934_633),
    ] {
        assert_eq!(record_size(header), Ok(size), "{header:?}");
        assert_eq!(Linked.record_size(header), Some(Ok(size)), "{header:?}");
    }
    let parts = SceneParts {
        body: &[0, 0, 0, 1, 0, 4, 0, 2],
        tray: &tray_bytes(&[
            Frame::mono(2, 2, &[1, 2, 3, 4]),
            Frame::mono(2, 2, &[5, 6, 7, 8]),
        ]),
        chain: &[0],
        essential_only: false,
    };
    assert_eq!(grid_room(&parts), Ok(15));
    assert_eq!(Linked.grid_room(&parts), Some(Ok(15)));
}

/// Few bytes ask for a large scene: the room is answered, and nothing is drawn for it.
#[test]
fn the_room_of_a_large_scene() {
    let scale = |factor| Property::Iscl(Iscl::from_fields([factor, 1, factor, 1]));
    let parts = |factors: &[u16]| {
        let entries: Vec<Entry> = factors
            .iter()
            .map(|factor| Entry::new(true, scale(*factor)))
            .collect();
        chain_bytes(&entries)
    };
    let tray = tray_bytes(&[Frame::mono(1, 1, &[7])]);
    let room = |chain: &[u8]| {
        let parts = SceneParts {
            body: &[0, 0, 0, 0, 0, 1, 0, 1],
            tray: &tray,
            chain,
            essential_only: false,
        };
        let room = grid_room(&parts);
        assert_eq!(Linked.grid_room(&parts), Some(room));
        room
    };
    assert_eq!(room(&parts(&[32_768])), Ok((1 << 30) + 17));
    assert_eq!(room(&parts(&[1])), Ok(8));
    assert_eq!(room(&parts(&[32_769])), Err(LIMIT.of_entry(0)));
    assert_eq!(room(&parts(&[32_768, 32_768])), Err(LIMIT.of_entry(1)));
}

/// The room by forms is the longest record that is drawn, in scenes and in chains on one record.
#[test]
fn the_models_room_is_what_it_draws() {
    let mut rng = Rng::new(4);
    let mut made = 0;
    for case in 0..3_000 {
        let draft = drawn_draft(&mut rng, case % 2 == 0);
        let parts = draft.parts(rng.flag());
        let (scene, room) = match draft.marks(generate::colour(&mut rng)) {
            None => (model::grid_scene(&parts), grid_room(&parts)),
            Some(marks) => (
                model::overlay_scene(&parts, &marks),
                overlay_room(&parts, marks.premultiplied),
            ),
        };
        made += usize::from(scene.is_ok());
        assert_eq!(scene.map(|scene| scene.room as u64), room, "{draft:?}");
        let record = generate::frame(&mut rng).record();
        let flag = parts.essential_only;
        let drawn = model::transforms(&record, &draft.chain, flag);
        let room = model::transforms_room(&record, &draft.chain, flag);
        assert_eq!(drawn.map(|drawn| drawn.room as u64), room);
    }
    assert!(made > 1_000, "{made}");
}

fn drawn_draft(rng: &mut Rng, overlay: bool) -> SceneDraft {
    if !overlay {
        let (grid, tiles) = generate::grid_scene(rng);
        return SceneDraft {
            body: grid_bytes(&grid, true),
            tray: tray_bytes(&tiles),
            chain: chain_bytes(&small_chain(rng, (grid.width, grid.height))),
            premultiplied: None,
        };
    }
    let (overlay, inputs) = generate::overlay_scene(rng);
    let frames: Vec<Frame> = inputs.into_iter().map(|input| input.frame).collect();
    SceneDraft {
        body: overlay_bytes(&overlay, true),
        tray: tray_bytes(&frames),
        chain: chain_bytes(&small_chain(rng, (overlay.width, overlay.height))),
        premultiplied: Some(rng.bytes(frames.len())),
    }
}

/// A chain that keeps a picture small, scaling included.
fn small_chain(rng: &mut Rng, size: (u32, u32)) -> Vec<Entry> {
    let mut chain = generate::entries(rng, size, false);
    if rng.flag() {
        let ratio = rng.pick(&[[1, 2, 1, 1], [2, 1, 2, 1], [1, 1, 3, 2], [1, 1, 1, 1]]);
        let scale = Property::Iscl(Iscl::from_fields(ratio));
        let at = rng.below(chain.len() + 1);
        chain.insert(at, Entry::new(rng.flag(), scale));
    }
    chain
}

/// What a chain on one record is refused with, by the model, where the oracle makes the pictures and by
/// the composer, which leaves output and spare alone.
fn refusal(record: &[u8], chain: &[u8], essential_only: bool) -> Option<Refusal> {
    let refusal = model::transforms(record, chain, essential_only).err();
    for (_, build) in Sides::open().iter().flat_map(Sides::builds) {
        let theirs = expected::transforms(build, record, chain, essential_only);
        assert_eq!(theirs.err(), refusal.map(Stop::Refused));
    }
    let [mut output, mut spare] = [vec![9; 4_096], vec![9; 4_096]];
    let ours = Linked.transforms(record, chain, essential_only, &mut output, &mut spare);
    assert_eq!(ours.expect("a call").err(), refusal);
    if refusal.is_some() {
        assert!(output.iter().chain(&spare).all(|byte| *byte == 9));
    }
    // With no room at all it is the same refusal; 17 comes last.
    let none = Linked.transforms(record, chain, essential_only, &mut [], &mut []);
    assert_eq!(none, Some(Err(refusal.unwrap_or(ROOM))));
    refusal
}

/// The record's faults come first and are of no item, then the chain's, then the entries'.
#[test]
fn faulty_chains_on_faulty_records() {
    let mut rng = Rng::new(2);
    let sound = Frame::mono(6, 4, &[1; 24]).record();
    let outside = Property::Clap(Clap::from_fields([0, 1, 1, 1, 0, 1, 0, 1]));
    let entry = chain_bytes(&[
        Entry::new(true, Property::Irot(1)),
        Entry::new(true, outside),
    ]);
    let outside = Some(OUTSIDE.of_entry(1));
    assert_eq!(refusal(&sound, &entry, false), outside);
    assert_eq!(refusal(&sound, &[0], false), None);
    let pairs = RecordFault::all()
        .into_iter()
        .flat_map(|one| ChainFault::all().into_iter().map(move |other| (one, other)));
    for (of_record, of_chain) in pairs {
        for _ in 0..3 {
            let (record, first) = faulty_record(&mut rng, &[of_record]);
            let (chain, next) = faulty_chain(&mut rng, &[of_chain]);
            assert_eq!(first, of_record.refusal());
            let of_both = refusal(&record, &chain, false);
            assert_eq!(of_both, Some(first), "{of_record:?}");
            let of_record_alone = refusal(&record, &entry, false);
            assert_eq!(of_record_alone, Some(first), "{of_record:?}");
            let of_chain_alone = refusal(&sound, &chain, false);
            assert_eq!(of_chain_alone, Some(next), "{of_chain:?}");
        }
    }
}

/// Entries that are refused at several places of a chain on one record, behind entries that are skipped:
/// the first that is applied has the refusal, its place counted among all.
#[test]
fn faulty_entries_after_skipped_ones() {
    let mut rng = Rng::new(5);
    let sound = Frame::mono(6, 4, &[1; 24]).record();
    let of_entries = |faults: &[SceneFault; 3]| {
        let of_entry = |fault: &SceneFault| matches!(fault, SceneFault::Entry(..));
        faults.iter().all(of_entry)
    };
    for faults in scene_choices(false).filter(of_entries) {
        let chain = faulty_scene(&mut rng, &faults, false).chain;
        let first = first_refusal(&faults);
        assert_eq!(refusal(&sound, &chain, true), Some(first), "{faults:?}");
        let entries = parse_chain(&chain).expect("a chain");
        let skipping = chain_bytes(&with_skipped(&entries));
        let later = behind_skipped(first);
        assert_eq!(refusal(&sound, &skipping, true), Some(later), "{faults:?}");
        // Without the flag none is skipped.
        let without = refusal(&sound, &skipping, false);
        assert_eq!(without, Some(ZERO_DENOMINATOR.of_entry(0)), "{faults:?}");
    }
}

/// A room has the refusals of its scene, the first of several faults.
#[test]
fn faulty_rooms_have_the_first_faults_refusal() {
    let mut rng = Rng::new(3);
    for overlay in [false, true] {
        for faults in scene_choices(overlay) {
            let draft = faulty_scene(&mut rng, &faults, overlay);
            let parts = draft.parts(false);
            let first = first_refusal(&faults);
            let (model, ours) = match &draft.premultiplied {
                Some(list) => (
                    overlay_room(&parts, list),
                    Linked.overlay_room(&parts, list),
                ),
                None => (grid_room(&parts), Linked.grid_room(&parts)),
            };
            assert_eq!(model, Err(first), "{faults:?}");
            assert_eq!(ours, Some(Err(first)), "{faults:?}");
        }
    }
}

fn comparison(name: &str) -> &'static differential::compare::Comparison {
    ALL.iter().find(|known| known.name == name).expect("it")
}

/// Every cut and every changed bit of a record and of its chain.
#[test]
fn cut_and_changed_transforms() {
    let Some(sides) = Sides::open() else { return };
    let samples: [&[u16]; 3] = [&[1, 2, 3, 4, 5, 6], &[7, 8], &[9, 10]];
    let mut frame = Frame::tight((3, 2), Chroma::Yuv420, 8, 0, &samples);
    // A stride above the row, and a spare byte.
    frame.planes[0].stride = 4;
    frame.planes[0].data = vec![1, 2, 3, 99, 4, 5, 6, 98];
    let chain = chain_bytes(&[
        Entry::new(false, Property::Imir(0)),
        Entry::new(true, Property::Irot(0)),
        Entry::new(
            true,
            Property::Clap(Clap::from_fields([2, 1, 1, 1, 1, 2, 1, 2])),
        ),
    ]);
    let parts = [frame.record(), chain];
    let judge = |record: &[u8], chain: &[u8]| {
        let input = Input::new()
            .with_bytes("record", record.to_vec())
            .with_bytes("chain", chain.to_vec())
            .with_numbers("essential-only", vec![0]);
        let verdict = (comparison("transforms").judge)(&sides, &input);
        assert!(!matches!(verdict, Verdict::Different(_)), "{input}");
        verdict
    };
    assert_eq!(judge(&parts[0], &parts[1]), Verdict::Accepted);
    for which in 0..2 {
        let with = |bytes: &[u8]| match which {
            0 => judge(bytes, &parts[1]),
            _ => judge(&parts[0], bytes),
        };
        let whole = &parts[which];
        for end in 0..whole.len() {
            let Verdict::Refused(refusal) = with(&whole[..end]) else {
                panic!("cut to {end}");
            };
            // A record by itself is of no item, and neither is a chain's count. The two entries before
            // the last have three bytes each.
            let wanted = match (which, end) {
                (1, 1..) => MALFORMED.of_entry(((end - 1) / 3).min(2)),
                _ => MALFORMED,
            };
            assert_eq!(refusal, wanted, "cut to {end}");
        }
        for (at, bit) in (0..whole.len()).flat_map(|at| (0..8).map(move |bit| (at, bit))) {
            let mut changed = whole.clone();
            changed[at] ^= 1 << bit;
            with(&changed);
        }
    }
}

/// The model in the composer's place.
struct Modelled;

/// What a call does with the buffers that it is lent.
fn lend(
    made: Result<Scene, Refusal>,
    output: &mut [u8],
    spare: &mut [u8],
) -> Option<Answer<usize>> {
    let lent = made.and_then(|made| made.lent(output.len(), spare.len()));
    Some(lent.map(|(length, [written, cleared])| {
        output.copy_from_slice(&written);
        spare.copy_from_slice(&cleared);
        length
    }))
}

impl Composer for Modelled {
    fn transforms(
        &self,
        record: &[u8],
        chain: &[u8],
        essential_only: bool,
        output: &mut [u8],
        spare: &mut [u8],
    ) -> Option<Answer<usize>> {
        lend(
            model::transforms(record, chain, essential_only),
            output,
            spare,
        )
    }

    fn record_size(&self, header: [u32; 5]) -> Option<Answer<u64>> {
        Some(record_size(header))
    }

    fn grid_room(&self, parts: &SceneParts) -> Option<Answer<u64>> {
        Some(grid_room(parts))
    }

    fn overlay_room(&self, parts: &SceneParts, premultiplied: &[u8]) -> Option<Answer<u64>> {
        Some(overlay_room(parts, premultiplied))
    }
}

/// Record, chain, flag, output and spare of a wrong chain on one record.
type Transforms = fn(&[u8], &[u8], bool, &mut [u8], &mut [u8]) -> Option<Answer<usize>>;

struct Spoiler(Transforms);

impl Composer for Spoiler {
    fn transforms(
        &self,
        record: &[u8],
        chain: &[u8],
        essential_only: bool,
        output: &mut [u8],
        spare: &mut [u8],
    ) -> Option<Answer<usize>> {
        (self.0)(record, chain, essential_only, output, spare)
    }
}

/// A grid of the one record as its tile: odd 4:2:0 is promoted, and the chain is judged first.
const BY_A_GRID: Spoiler = Spoiler(|record, chain, essential_only, output, spare| {
    let Ok(frame) = parse_record(record) else {
        return Linked.transforms(record, chain, essential_only, output, spare);
    };
    let grid = Grid::row(1, frame.width, frame.height);
    let parts = SceneParts {
        body: &grid_bytes(&grid, true),
        tray: &[&[1], record].concat(),
        chain,
        essential_only,
    };
    Linked.grid_scene(&parts, output, spare)
});

/// An empty chain hands the record back, stride included.
const AS_IT_IS: Spoiler = Spoiler(|record, chain, essential_only, output, spare| {
    let made = model::transforms(record, chain, essential_only);
    let made = made.map(|made| match chain {
        [0] => Scene {
            record: record.to_vec(),
            room: record.len(),
        },
        _ => made,
    });
    lend(made, output, spare)
});

/// The chain's form before the record.
const CHAIN_FIRST: Spoiler = Spoiler(|record, chain, essential_only, output, spare| {
    let made = model::parse_chain(chain);
    let made = made.and_then(|_| model::transforms(record, chain, essential_only));
    lend(made, output, spare)
});

/// Every entry is applied under the flag, too.
const ALL_ENTRIES: Spoiler = Spoiler(|record, chain, _, output, spare| {
    Linked.transforms(record, chain, false, output, spare)
});

/// Entries are judged after the room.
const HASTY: Spoiler = Spoiler(|record, chain, essential_only, output, spare| {
    if parse_record(record).is_ok() && model::parse_chain(chain).is_ok() && output.is_empty() {
        return Some(Err(ROOM));
    }
    Linked.transforms(record, chain, essential_only, output, spare)
});

/// The room of the last record alone.
const CRAMPED: Spoiler = Spoiler(|record, chain, essential_only, output, spare| {
    let made = model::transforms(record, chain, essential_only);
    let made = made.map(|made| Scene {
        room: made.record.len(),
        ..made
    });
    lend(made, output, spare)
});

/// The room of the record as it is handed in.
const ROOMY: Spoiler = Spoiler(|record, chain, essential_only, output, spare| {
    let made = model::transforms(record, chain, essential_only);
    let made = made.map(|made| Scene {
        room: made.room.max(record.len()),
        ..made
    });
    lend(made, output, spare)
});

/// The spare is not cleared.
const UNTIDY: Spoiler = Spoiler(|record, chain, essential_only, output, spare| {
    let before = spare.to_vec();
    let answer = Linked.transforms(record, chain, essential_only, output, spare);
    spare.copy_from_slice(&before);
    answer
});

/// Wrong sizes: what it makes of the header and of the right size.
struct Sizer(fn([u32; 5]) -> Answer<u64>);

impl Composer for Sizer {
    fn record_size(&self, header: [u32; 5]) -> Option<Answer<u64>> {
        Some((self.0)(header))
    }
}

/// An odd halved side is rounded down.
const DOWN: Sizer = Sizer(|[width, height, chroma, depth, alpha]| {
    let even = |side: u32| if chroma == 1 { side & !1 } else { side };
    record_size([even(width), even(height), chroma, depth, alpha])
});

/// One byte a sample.
const SHALLOW: Sizer = Sizer(|[width, height, chroma, depth, alpha]| {
    record_size([width, height, chroma, depth.min(8), alpha])
});

/// The depth is judged before chroma and alpha.
const DEPTH_FIRST: Sizer = Sizer(|header| match header[3] {
    8..=16 => record_size(header),
    _ => Err(DEPTH),
});

/// The limit is judged before a side of 0, as where it is taken for the largest.
const ZERO_LAST: Sizer = Sizer(|header| match record_size(header) {
    Err(ZERO_SIDE) if header[..2].contains(&u32::MAX) => Err(LIMIT),
    answer => answer,
});

/// Wrong rooms: what it makes of the right one and of the scene's parts.
struct Roomer(fn(Answer<u64>, &SceneParts) -> Answer<u64>);

impl Composer for Roomer {
    fn grid_room(&self, parts: &SceneParts) -> Option<Answer<u64>> {
        Some((self.0)(grid_room(parts), parts))
    }

    fn overlay_room(&self, parts: &SceneParts, premultiplied: &[u8]) -> Option<Answer<u64>> {
        Some((self.0)(overlay_room(parts, premultiplied), parts))
    }
}

const ONE_MORE: Roomer = Roomer(|room, _| room.map(|room| room + 1));
const ONE_LESS: Roomer = Roomer(|room, _| room.map(|room| room - 1));
const ENTRIES_TAKEN: Roomer = Roomer(|room, _| {
    room.or_else(|refusal| match refusal.number {
        7..=10 => Ok(0),
        _ => Err(refusal),
    })
});

/// The room of the composed record, whatever the chain makes of it.
struct Composed;

impl Composer for Composed {
    fn grid_room(&self, parts: &SceneParts) -> Option<Answer<u64>> {
        let composed = SceneParts {
            chain: &[0],
            ..*parts
        };
        Some(grid_room(parts).and(grid_room(&composed)))
    }

    fn overlay_room(&self, parts: &SceneParts, premultiplied: &[u8]) -> Option<Answer<u64>> {
        let composed = SceneParts {
            chain: &[0],
            ..*parts
        };
        Some(overlay_room(parts, premultiplied).and(overlay_room(&composed, premultiplied)))
    }
}

/// A right room, and a scene that wants a byte more, or does with less.
struct Greedy(bool);

impl Greedy {
    fn scene(&self, made: Result<Scene, Refusal>, lent: [&mut [u8]; 2]) -> Option<Answer<usize>> {
        let made = made.map(|made| Scene {
            room: match self.0 {
                true => made.room + 1,
                false => made.record.len(),
            },
            ..made
        });
        let [output, spare] = lent;
        lend(made, output, spare)
    }
}

impl Composer for Greedy {
    fn grid_scene(
        &self,
        parts: &SceneParts,
        output: &mut [u8],
        spare: &mut [u8],
    ) -> Option<Answer<usize>> {
        self.scene(model::grid_scene(parts), [output, spare])
    }

    fn overlay_scene(
        &self,
        parts: &SceneParts,
        marks: &Marks,
        output: &mut [u8],
        spare: &mut [u8],
    ) -> Option<Answer<usize>> {
        self.scene(model::overlay_scene(parts, marks), [output, spare])
    }
}

const NAMES: [&str; 4] = ["transforms", "record-size", "grid-room", "overlay-room"];

#[test]
fn the_model_passes_in_the_composers_place() {
    let Some(sides) = Sides::open() else { return };
    let modelled = Sides {
        ours: &Modelled,
        ..sides
    };
    for name in NAMES {
        let report = comparison(name).run(&modelled, 1_000, 2);
        assert!(report.differences.is_empty(), "{report}");
    }
}

#[test]
fn a_wrong_composer_is_found() {
    let Some(sides) = Sides::open() else { return };
    const CHAIN: &[&str] = &["transforms"];
    const SIZE: &[&str] = &["record-size"];
    const ROOMS: &[&str] = &["grid-room", "overlay-room"];
    let wrong: [(&str, &'static dyn Composer, &[&str]); 18] = [
        ("a grid of one tile", &BY_A_GRID, CHAIN),
        ("an empty chain keeps strides", &AS_IT_IS, CHAIN),
        ("the chain before the record", &CHAIN_FIRST, CHAIN),
        ("the flag is ignored", &ALL_ENTRIES, CHAIN),
        ("17 before the entries", &HASTY, CHAIN),
        ("looks at the last record alone", &CRAMPED, CHAIN),
        ("room for the record as it is", &ROOMY, CHAIN),
        ("leaves the spare", &UNTIDY, CHAIN),
        ("halved sides rounded down", &DOWN, SIZE),
        ("one byte a sample", &SHALLOW, SIZE),
        ("6 before 5", &DEPTH_FIRST, SIZE),
        ("4 before 3", &ZERO_LAST, SIZE),
        ("a byte too many", &ONE_MORE, ROOMS),
        ("a byte too few", &ONE_LESS, ROOMS),
        ("no refusal of an entry", &ENTRIES_TAKEN, ROOMS),
        ("the composed record alone", &Composed, ROOMS),
        ("a scene that wants more", &Greedy(true), ROOMS),
        ("a scene that does with less", &Greedy(false), ROOMS),
    ];
    for (what, ours, names) in wrong {
        for name in names {
            let wrong = Sides { ours, ..sides };
            assert!(comparison(name).finds(&wrong, 500, 1), "{name}: {what}");
        }
    }
}

/// The room of an overlay does for every colour description.
#[test]
fn an_overlays_room_does_for_every_colour() {
    let mut rng = Rng::new(7);
    for _ in 0..200 {
        let draft = drawn_draft(&mut rng, true);
        let list = draft.premultiplied.as_deref().expect("a list");
        let parts = draft.parts(false);
        let Some(Ok(room)) = Linked.overlay_room(&parts, list) else {
            continue;
        };
        let nclx = |matrix, full_range| Some(Colour { matrix, full_range });
        for colour in [None, nclx(0, true), nclx(1, false), nclx(9, true)] {
            let marks = Marks {
                premultiplied: list,
                colour,
            };
            let lent = |output: u64, spare: u64| {
                let (mut output, mut spare) = (vec![0; output as usize], vec![0; spare as usize]);
                Linked.overlay_scene(&parts, &marks, &mut output, &mut spare)
            };
            assert!(lent(room, room).expect("a call").is_ok());
            assert_eq!(lent(room - 1, room), Some(Err(ROOM)));
            assert_eq!(lent(room, room - 1), Some(Err(ROOM)));
        }
    }
}
