//! Scenes and points: the model of document 01 against itself, the published Rust and scenes whose
//! refusal is known; and composers that are wrong in them, which the comparisons must find.

mod common;

use common::{bytes, on_each_build};
use differential::compare::Sides;
use differential::comparisons::{ALL, agreement};
use differential::damage::{
    Fault, SceneDraft, behind_skipped, faulty_scene, scene_choices, with_skipped,
};
use differential::expected::{self, Stop, Want};
use differential::generate;
use differential::ours::{Answer, Composer, Linked};
use differential::rng::Rng;
use model::refusal::{ALPHA, FORM, MALFORMED, POINT, ROOM, SIDE_OVERFLOW};
use model::{
    Chroma, Crop, Entry, Frame, Iscl, Marks, Named, Operation, Oracle, Overlay, OverlayInput,
    Point, Property, Rectangle, Refusal, Scene, SceneParts, Sight, Sighted, Size, chain_bytes,
    grid_bytes, grid_scene, overlay_bytes, overlay_scene, parse_chain, parse_record, tray_bytes,
};

/// What the model makes of a draft, with the flag or without.
fn model_scene(draft: &SceneDraft, essential_only: bool) -> Result<Scene, Refusal> {
    let parts = draft.parts(essential_only);
    match draft.marks(None) {
        Some(marks) => overlay_scene(&parts, &marks),
        None => grid_scene(&parts),
    }
}

fn model_point(draft: &SceneDraft, essential_only: bool) -> Result<Sighted, Refusal> {
    let parts = draft.parts(essential_only);
    match draft.marks(None) {
        Some(marks) => Sighted::overlay(&parts, &marks),
        None => Sighted::grid(&parts),
    }
}

fn wanted_scene(build: &dyn Oracle, draft: &SceneDraft, essential_only: bool) -> Want<Scene> {
    let parts = draft.parts(essential_only);
    match draft.marks(None) {
        Some(marks) => expected::overlay_scene(build, &parts, &marks),
        None => expected::grid_scene(build, &parts),
    }
}

/// What the composer says with nothing lent: of the picture without its chain, of the scene and of a
/// point.
fn our_refusals(draft: &SceneDraft, essential_only: bool) -> Option<[Option<Refusal>; 3]> {
    let parts = draft.parts(essential_only);
    let (composed, scene, point) = match draft.marks(None) {
        Some(marks) => (
            Linked.overlay(parts.body, parts.tray, marks.premultiplied, None, &mut []),
            Linked.overlay_scene(&parts, &marks, &mut [], &mut []),
            Linked.overlay_point(&parts, &marks, (0, 0), &mut []),
        ),
        None => (
            Linked.grid(parts.body, parts.tray, &mut []),
            Linked.grid_scene(&parts, &mut [], &mut []),
            Linked.grid_point(&parts, (0, 0), &mut []),
        ),
    };
    Some([composed?.err(), scene?.err(), point?.err()])
}

/// Holds what all sides say to a scene: the composer, the model, and where the oracle makes the pictures.
/// Where it is not refused, the composer has 17 left to say.
fn hold_refusals(
    draft: &SceneDraft,
    essential_only: bool,
    wanted: [Option<Refusal>; 3],
    shows: &str,
) {
    let short = wanted.map(|refusal| refusal.or(Some(ROOM)));
    let ours = our_refusals(draft, essential_only);
    assert_eq!(ours, Some(short), "{shows}");
    let composed = SceneDraft {
        chain: vec![0],
        ..draft.clone()
    };
    let model = [
        model_scene(&composed, essential_only).err(),
        model_scene(draft, essential_only).err(),
        model_point(draft, essential_only).err(),
    ];
    assert_eq!(model, wanted, "{shows}");
    for (_, build) in Sides::open().iter().flat_map(|sides| sides.builds()) {
        let parts = draft.parts(essential_only);
        let theirs = [
            wanted_scene(build, &composed, essential_only).err(),
            wanted_scene(build, draft, essential_only).err(),
            expected::point(build, &parts, draft.marks(None).as_ref()).err(),
        ];
        assert_eq!(
            theirs,
            wanted.map(|refusal| refusal.map(Stop::Refused)),
            "{shows}"
        );
    }
}

/// The first of several faults in document 01's order gives the refusal, its item included, by every
/// side; for a point alpha and scaling are 18. Entries that the flag skips count, and are not judged.
#[test]
fn faulty_scenes_have_the_first_faults_refusal() {
    let mut rng = Rng::new(1);
    for overlay in [false, true] {
        for faults in scene_choices(overlay) {
            let draft = faulty_scene(&mut rng, &faults, overlay);
            let first = faults.iter().min().expect("a fault");
            let composed = faults.iter().filter(|fault| !fault.is_of_chain()).min();
            let wanted = [
                composed.map(|fault| fault.refusal()),
                Some(first.refusal()),
                Some(first.point_refusal()),
            ];
            let shows = format!("{faults:?}");
            hold_refusals(&draft, false, wanted, &shows);
            let Ok(chain) = parse_chain(&draft.chain) else {
                continue;
            };
            let skipping = SceneDraft {
                chain: chain_bytes(&with_skipped(&chain)),
                ..draft
            };
            let later = wanted.map(|refusal| refusal.map(behind_skipped));
            hold_refusals(&skipping, true, later, &shows);
        }
        // Without a fault it is made, and answered.
        for _ in 0..100 {
            let draft = faulty_scene(&mut rng, &[], overlay);
            hold_refusals(&draft, false, [None; 3], "no fault");
            let made = model_scene(&draft, false).expect("a scene");
            let room = made.room as isize;
            for (output, spare, taken) in [(0, 0, true), (-1, 0, false), (0, -1, false)] {
                let [output, spare] = [output, spare].map(|more| (room + more) as usize);
                assert_eq!(made.clone().lent(output, spare).is_ok(), taken);
            }
        }
    }
}

/// The depth of an input of one pixel, and how far its alpha lies above top, if it has alpha.
type Pixel = (u8, Option<u16>);

/// Three inputs, each of one of two depths, without alpha, with alpha at top or above it: 14 is the own
/// refusal of the lowest that differs from the first, 16 of the lowest above top, a point's 18 of the
/// lowest that has alpha.
#[test]
fn overlays_of_every_depth_and_alpha() {
    let mut pixels: Vec<Pixel> = Vec::new();
    for depth in [9, 10] {
        pixels.extend([(depth, None), (depth, Some(0)), (depth, Some(1))]);
    }
    let frame = |(depth, above): Pixel| {
        let top = (1 << depth) - 1;
        let frame =
            |alpha, planes: &[&[u16]]| Frame::tight((1, 1), Chroma::Mono, depth, alpha, planes);
        match above {
            None => frame(0, &[&[7]]),
            Some(above) => frame(1, &[&[7], &[top + above]]),
        }
    };
    let overlay = Overlay {
        fill: [0; 4],
        width: 1,
        height: 1,
        offsets: vec![(0, 0); 3],
    };
    for at in 0..pixels.len().pow(3) {
        let inputs = [at / 36, at / 6 % 6, at % 6].map(|at| pixels[at]);
        let draft = SceneDraft {
            body: overlay_bytes(&overlay, false),
            tray: tray_bytes(&inputs.map(frame)),
            chain: vec![0],
            premultiplied: Some(vec![0; 3]),
        };
        let lowest = |refusal: Refusal, wrong: fn(&[Pixel; 3], Pixel) -> bool| {
            let mut each = inputs.into_iter();
            let index = each.position(|input| wrong(&inputs, input));
            index.map(|index| refusal.of_record(index))
        };
        let other = lowest(FORM, |[first, ..], (depth, _)| depth != first.0);
        let above = other.or_else(|| lowest(ALPHA, |_, (_, above)| above == Some(1)));
        let shines = other.or_else(|| lowest(POINT, |_, (_, above)| above.is_some()));
        let wanted = [above, above, shines];
        hold_refusals(&draft, false, wanted, &format!("{inputs:?}"));
    }
}

/// A scene without iscl and, where it is an overlay, without alpha.
fn plain_scene(rng: &mut Rng) -> SceneDraft {
    if rng.flag() {
        let (grid, tiles) = generate::grid_scene(rng);
        let chain = generate::entries(rng, (grid.width, grid.height), false);
        return SceneDraft {
            body: grid_bytes(&grid, true),
            tray: tray_bytes(&tiles),
            chain: chain_bytes(&chain),
            premultiplied: None,
        };
    }
    let (overlay, mut inputs) = generate::overlay_scene(rng);
    let opaque = |input: &mut OverlayInput| {
        input.frame.alpha = 0;
        input.frame.planes.truncate(input.frame.plane_count());
        input.frame.clone()
    };
    let frames: Vec<Frame> = inputs.iter_mut().map(opaque).collect();
    let chain = generate::entries(rng, (overlay.width, overlay.height), false);
    SceneDraft {
        body: overlay_bytes(&overlay, true),
        tray: tray_bytes(&frames),
        chain: chain_bytes(&chain),
        premultiplied: Some(rng.bytes(frames.len())),
    }
}

/// Demand 3 on the model: the same refusals, the same size, every sample at every place.
#[test]
fn the_models_picture_shows_what_its_points_name() {
    let mut rng = Rng::new(5);
    let mut answered = 0;
    for _ in 0..4_000 {
        let draft = plain_scene(&mut rng);
        match (model_scene(&draft, false), model_point(&draft, false)) {
            (Ok(scene), Ok(sighted)) => {
                let frame = parse_record(&scene.record).expect("a record");
                assert_eq!(agreement(&frame, &sighted), None, "{draft:?}");
                answered += 1;
            }
            (Err(one), Err(other)) => assert_eq!(one, other, "{draft:?}"),
            (scene, point) => panic!("{draft:?}: {scene:?}, {point:?}"),
        }
    }
    assert!(answered > 1_500, "{answered}");
}

/// The final luma is the rectangle of the composed luma, exchanged or not, then turned.
#[test]
fn rectangle_and_turn_are_the_chains() {
    let mut rng = Rng::new(6);
    let mut seen = std::collections::BTreeSet::new();
    for _ in 0..2_000 {
        let draft = plain_scene(&mut rng);
        let (Ok(scene), Ok(sighted)) = (model_scene(&draft, false), model_point(&draft, false))
        else {
            continue;
        };
        let composed = SceneDraft {
            chain: vec![0],
            ..draft
        };
        let composed = model_scene(&composed, false).expect("a scene without its chain");
        let luma = |record: &[u8]| {
            let frame = parse_record(record).expect("a record");
            let size = (frame.width, frame.height);
            Frame::tight(size, model::Chroma::Mono, 16, 0, &[&frame.samples(0)])
        };
        let Sight {
            rectangle,
            exchanged,
            turns,
        } = sighted.sight();
        let mut frame = luma(&composed.record);
        let mirror = exchanged.then_some(Operation::Imir(1));
        let crop = Crop::of(rectangle, (frame.width, frame.height));
        let steps = [Operation::Crop(crop)].into_iter().chain(mirror);
        for step in steps.chain([Operation::Irot(turns)]) {
            frame = step.apply(&frame).expect("a picture");
        }
        assert_eq!(frame, luma(&scene.record), "{:?}", sighted.sight());
        seen.insert((exchanged, turns));
    }
    assert_eq!(seen.len(), 8);
}

/// Document 01's worked case.
#[test]
fn the_grid_example_names_its_spots() {
    let tiles = [
        Frame::mono(2, 2, &[1, 2, 3, 4]),
        Frame::mono(2, 2, &[5, 6, 7, 8]),
    ];
    let draft = SceneDraft {
        body: bytes("00 00 00 01 00 04 00 02"),
        tray: tray_bytes(&tiles),
        chain: chain_bytes(&[Entry::new(true, Property::Irot(1))]),
        premultiplied: None,
    };
    let sighted = model_point(&draft, false).expect("an answer");
    assert_eq!(sighted.size(), (2, 4));
    let whole = Rectangle {
        x: 0,
        y: 0,
        width: 4,
        height: 2,
    };
    let point = sighted.at(0, 0).expect("a place inside");
    assert_eq!(point.named, Named::Spot(1, 1, 0));
    assert_eq!(point.words(), [1, 1, 1, 0, 0, 0, 4, 2, 0, 1]);
    assert_eq!(sighted.sight().rectangle, whole);
    assert_eq!(sighted.at(2, 0), Err(POINT));
    assert_eq!(sighted.at(0, 4), Err(POINT));
    let unturned = SceneDraft {
        chain: vec![0],
        ..draft
    };
    let scene = model_scene(&unturned, false).expect("a scene");
    assert_eq!(scene.clone().lent(15, 15).map(|lent| lent.0), Ok(15));
    assert_eq!(scene.clone().lent(14, 15).err(), Some(ROOM));
    assert_eq!(scene.lent(15, 14).err(), Some(ROOM));
}

/// The model in the composer's place: scenes and points as they should be.
struct Modelled;

/// What a scene call does with the buffers that it is lent.
fn compose(
    scene: Result<Scene, Refusal>,
    output: &mut [u8],
    spare: &mut [u8],
) -> Option<Answer<usize>> {
    let lent = scene.and_then(|scene| scene.lent(output.len(), spare.len()));
    Some(lent.map(|(length, [written, cleared])| {
        output.copy_from_slice(&written);
        spare.copy_from_slice(&cleared);
        length
    }))
}

/// What a point call does with the words that it is lent.
fn answer(point: Result<Point, Refusal>, words: &mut [u32]) -> Option<Answer<u64>> {
    Some(point.and_then(|point| {
        let lent = words.get_mut(..10).ok_or(ROOM)?;
        lent.copy_from_slice(&point.words());
        Ok(0)
    }))
}

impl Composer for Modelled {
    fn grid_scene(
        &self,
        parts: &SceneParts,
        output: &mut [u8],
        spare: &mut [u8],
    ) -> Option<Answer<usize>> {
        compose(grid_scene(parts), output, spare)
    }

    fn overlay_scene(
        &self,
        parts: &SceneParts,
        marks: &Marks,
        output: &mut [u8],
        spare: &mut [u8],
    ) -> Option<Answer<usize>> {
        compose(overlay_scene(parts, marks), output, spare)
    }

    fn grid_point(&self, parts: &SceneParts, at: Size, words: &mut [u32]) -> Option<Answer<u64>> {
        answer(Sighted::grid(parts).and_then(|it| it.at(at.0, at.1)), words)
    }

    fn overlay_point(
        &self,
        parts: &SceneParts,
        marks: &Marks,
        at: Size,
        words: &mut [u32],
    ) -> Option<Answer<u64>> {
        let point = Sighted::overlay(parts, marks).and_then(|it| it.at(at.0, at.1));
        answer(point, words)
    }
}

/// A wrong scene call: what it makes of the right one, and of the lent lengths.
type Spoils = fn(Result<Scene, Refusal>, &mut [u8], &mut [u8]) -> Option<Answer<usize>>;

/// Wrong in both scenes.
struct Spoiler(Spoils);

impl Composer for Spoiler {
    fn grid_scene(
        &self,
        parts: &SceneParts,
        output: &mut [u8],
        spare: &mut [u8],
    ) -> Option<Answer<usize>> {
        (self.0)(grid_scene(parts), output, spare)
    }

    fn overlay_scene(
        &self,
        parts: &SceneParts,
        marks: &Marks,
        output: &mut [u8],
        spare: &mut [u8],
    ) -> Option<Answer<usize>> {
        (self.0)(overlay_scene(parts, marks), output, spare)
    }
}

const TURNS_ALL_AWAY: Spoiler = Spoiler(|_, _, _| Some(Err(MALFORMED)));

/// 17 unless there is more room than is needed.
const EARLY: Spoiler = Spoiler(|scene, output, spare| {
    let short = |scene: &Scene| output.len() <= scene.room;
    match scene.as_ref().is_ok_and(short) {
        true => Some(Err(ROOM)),
        false => compose(scene, output, spare),
    }
});

/// 17 before any other refusal.
const HASTY: Spoiler = Spoiler(|scene, output, spare| match output.is_empty() {
    true => Some(Err(ROOM)),
    false => compose(scene, output, spare),
});

const GREY: Spoiler = Spoiler(|scene, output, spare| {
    let grey = scene.map(|scene| {
        let mut frame = parse_record(&scene.record).expect("a record");
        for plane in &mut frame.planes {
            plane.data.fill(128);
        }
        Scene {
            record: frame.record(),
            ..scene
        }
    });
    compose(grey, output, spare)
});

/// The spare is not cleared.
const UNTIDY: Spoiler = Spoiler(|scene, output, spare| {
    let before = spare.to_vec();
    let answer = compose(scene, output, spare);
    spare.copy_from_slice(&before);
    answer
});

/// Output past the record stays as it was.
const SPARING: Spoiler = Spoiler(|scene, output, spare| {
    let before = output.to_vec();
    let answer = compose(scene, output, spare);
    if let Some(Ok(length)) = answer {
        output[length..].copy_from_slice(&before[length..]);
    }
    answer
});

/// The room of the last record, not of the longest.
const CRAMPED: Spoiler = Spoiler(|scene, output, spare| {
    let scene = scene.map(|scene| Scene {
        room: scene.record.len(),
        ..scene
    });
    compose(scene, output, spare)
});

/// Hands the first picture of the tray back; keeps the chain from being applied.
struct Idle;

impl Composer for Idle {
    fn grid_scene(
        &self,
        parts: &SceneParts,
        output: &mut [u8],
        spare: &mut [u8],
    ) -> Option<Answer<usize>> {
        let scene = grid_scene(parts).map(|scene| {
            let first = &model::parse_tray(parts.tray).expect("a tray")[0];
            let record = first.record();
            Scene { record, ..scene }
        });
        compose(scene, output, spare)
    }

    fn overlay_scene(
        &self,
        parts: &SceneParts,
        marks: &Marks,
        output: &mut [u8],
        spare: &mut [u8],
    ) -> Option<Answer<usize>> {
        let unturned = SceneParts {
            chain: &[0],
            ..*parts
        };
        let scene = overlay_scene(parts, marks).and_then(|_| overlay_scene(&unturned, marks));
        compose(scene, output, spare)
    }
}

/// A wrong point call: what it makes of the right answer.
struct Pointer(fn(Result<Point, Refusal>) -> Result<Point, Refusal>);

impl Composer for Pointer {
    fn grid_point(&self, parts: &SceneParts, at: Size, words: &mut [u32]) -> Option<Answer<u64>> {
        let point = Sighted::grid(parts).and_then(|it| it.at(at.0, at.1));
        answer((self.0)(point), words)
    }

    fn overlay_point(
        &self,
        parts: &SceneParts,
        marks: &Marks,
        at: Size,
        words: &mut [u32],
    ) -> Option<Answer<u64>> {
        let point = Sighted::overlay(parts, marks).and_then(|it| it.at(at.0, at.1));
        answer((self.0)(point), words)
    }
}

const ALWAYS_FILL: Pointer = Pointer(|point| {
    point.map(|point| Point {
        named: Named::Fill,
        ..point
    })
});

const CLOCKWISE: Pointer = Pointer(|point| {
    point.map(|mut point| {
        point.sight.turns = (4 - point.sight.turns) % 4;
        point
    })
});

/// Says 18 where the scene says another number.
const POINTLESS: Pointer = Pointer(|point| point.map_err(|_| POINT));

/// Names other spots where the samples are others.
struct Peeping;

impl Composer for Peeping {
    fn grid_point(&self, parts: &SceneParts, at: Size, words: &mut [u32]) -> Option<Answer<u64>> {
        let mut answer = Modelled.grid_point(parts, at, words);
        let sum: u32 = parts.tray.iter().map(|byte| u32::from(*byte)).sum();
        if let Some(Ok(_)) = answer
            && sum.is_multiple_of(7)
        {
            answer = Some(Err(POINT));
        }
        answer
    }
}

#[test]
fn the_model_passes_in_the_composers_place() {
    let Some(sides) = Sides::open() else { return };
    let modelled = Sides {
        ours: &Modelled,
        ..sides
    };
    for name in ["grid-scene", "overlay-scene", "point"] {
        let comparison = ALL.iter().find(|known| known.name == name).expect(name);
        let report = comparison.run(&modelled, 1_000, 2);
        assert!(report.differences.is_empty(), "{report}");
    }
}

#[test]
fn a_wrong_composer_is_found() {
    let Some(sides) = Sides::open() else { return };
    const SCENES: &[&str] = &["grid-scene", "overlay-scene"];
    let wrong: [(&str, &'static dyn Composer, &[&str]); 12] = [
        ("turns every scene away", &TURNS_ALL_AWAY, SCENES),
        ("17 where the room suffices", &EARLY, SCENES),
        ("17 before all else", &HASTY, SCENES),
        ("a grey canvas always", &GREY, SCENES),
        ("leaves the spare", &UNTIDY, SCENES),
        ("leaves output past the record", &SPARING, SCENES),
        ("looks at the last record alone", &CRAMPED, SCENES),
        ("hands the input back, applies no chain", &Idle, SCENES),
        ("always fill", &ALWAYS_FILL, &["point"]),
        ("turns clockwise", &CLOCKWISE, &["point"]),
        ("18 for everything", &POINTLESS, &["point"]),
        ("looks at samples", &Peeping, &["point"]),
    ];
    for (what, ours, names) in wrong {
        for name in names {
            let comparison = ALL.iter().find(|known| known.name == *name).expect(name);
            let wrong = Sides { ours, ..sides };
            assert!(comparison.finds(&wrong, 500, 1), "{name}: {what}");
        }
    }
}

/// A side above 2^32 − 1 (10): no chain gets there from the small pictures of the comparisons.
#[test]
fn a_scaled_side_above_32_bits() {
    let wide = Frame::mono(70_000, 1, &[7; 70_000]);
    let scale = Property::Iscl(Iscl::from_fields([65_535, 1, 1, 1]));
    let draft = SceneDraft {
        body: bytes("00 01 00 00 00 01 11 70 00 00 00 01"),
        tray: tray_bytes(&[wide]),
        chain: chain_bytes(&[Entry::new(true, scale)]),
        premultiplied: None,
    };
    let refusal = SIDE_OVERFLOW.of_entry(0);
    let refusals = [None, Some(refusal), Some(POINT.of_entry(0))];
    hold_refusals(&draft, false, refusals, "a strip");
    let [mut output, mut spare] = [vec![1; 80_000], vec![1; 80_000]];
    let ours = Linked.grid_scene(&draft.parts(false), &mut output, &mut spare);
    assert_eq!(ours, Some(Err(refusal)));
    assert!(output.iter().chain(&spare).all(|byte| *byte == 1));
}

/// `apply_transforms` as a whole, on scenes that it is known to do alike.
#[test]
fn the_models_scene_is_the_published_rusts() {
    on_each_build(|build| {
        let mut rng = Rng::new(8);
        for _ in 0..500 {
            let draft = plain_scene(&mut rng);
            let want = wanted_scene(build, &draft, false);
            let model = model_scene(&draft, false).map_err(Stop::Refused);
            assert_eq!(model, want, "{draft:?}");
        }
    });
}
