//! Descriptor bodies written from their fields (document 02, A4): the call and the crate `compose`, read
//! back by both builds of the published Rust, which writes the same bytes, by the model and by the
//! crate.

use compose::{GridDescriptor, OverlayDescriptor};
use differential::compare::Sides;
use differential::generate;
use differential::ours::{Answer, BEFORE, Composer, Linked, refusal};
use differential::rng::Rng;
use differential::shaped::{grid_descriptor, overlay_descriptor};
use model::refusal::{LIMIT, MISSING, ROOM, TILING, ZERO_SIDE};
use model::{
    Grid, Oracle, Outcome, Overlay, Refusal, Size, grid_bytes, overlay_bytes, parse_grid,
    parse_overlay,
};

/// What a call writes to a buffer of so many bytes. Those past it must stay, and all where it refuses.
fn written(room: usize, call: impl FnOnce(&mut [u8]) -> Option<Answer<usize>>) -> Answer<Vec<u8>> {
    let mut output = vec![BEFORE; room];
    let answer = call(&mut output).expect("the call");
    let length = answer.unwrap_or(0);
    assert!(output[length..].iter().all(|byte| *byte == BEFORE));
    answer?;
    output.truncate(length);
    Ok(output)
}

/// A grid's body, from a buffer of so many bytes.
fn write_grid(tiles: [u32; 2], size: Size, room: usize) -> Answer<Vec<u8>> {
    written(room, |output| Linked.write_grid(tiles, size, output))
}

/// An overlay's body from the words of its offsets, from a buffer of so many bytes.
fn write_words(fill: [u16; 4], size: Size, words: &[u32], room: usize) -> Answer<Vec<u8>> {
    written(room, |output| {
        Linked.write_overlay(fill, size, words, output)
    })
}

fn words(offsets: &[(i32, i32)]) -> Vec<u32> {
    let pair = |(across, down): &(i32, i32)| [across.cast_unsigned(), down.cast_unsigned()];
    offsets.iter().flat_map(pair).collect()
}

/// The builds of the published Rust that are there.
fn builds() -> Vec<&'static dyn Oracle> {
    let sides = Sides::open();
    sides.map_or(Vec::new(), |sides| vec![sides.plain, sides.checked])
}

/// A grid's body, which every side writes and reads back to its fields.
fn hold_grid(builds: &[&dyn Oracle], grid: &Grid) -> Vec<u8> {
    let tiles = [grid.rows, grid.columns].map(u32::from);
    let body = write_grid(tiles, (grid.width, grid.height), 15).expect("a body");
    assert_eq!(
        model::grid_body(tiles, (grid.width, grid.height)),
        Ok(body.clone())
    );
    assert_eq!(parse_grid(&body), Ok(*grid));
    let ours = grid_descriptor(grid);
    assert_eq!(ours.body(), Ok(body.clone()));
    assert_eq!(GridDescriptor::parse(&body), Ok(ours));
    for build in builds {
        assert_eq!(build.write_grid(grid), Outcome::Done(body.clone()));
        assert_eq!(build.parse_grid(&body), Outcome::Done(*grid));
    }
    body
}

/// The same of an overlay's.
fn hold_overlay(builds: &[&dyn Oracle], overlay: &Overlay) -> Vec<u8> {
    let inputs = overlay.offsets.len();
    let words = words(&overlay.offsets);
    let size = (overlay.width, overlay.height);
    let body = write_words(overlay.fill, size, &words, 21 + 8 * inputs).expect("a body");
    assert_eq!(model::overlay_body(overlay), Ok(body.clone()));
    assert_eq!(parse_overlay(&body, inputs).as_ref(), Ok(overlay));
    let ours = overlay_descriptor(overlay);
    assert_eq!(ours.body(), Ok(body.clone()));
    assert_eq!(OverlayDescriptor::parse(&body, inputs), Ok(ours));
    for build in builds {
        assert_eq!(build.write_overlay(overlay), Outcome::Done(body.clone()));
        let read = build.parse_overlay(&body, inputs);
        assert_eq!(read.done().as_ref(), Some(overlay));
    }
    body
}

/// A size that a canvas may have.
fn size(rng: &mut Rng) -> Size {
    loop {
        let (width, height) = generate::wide_size(rng);
        if (1..=1 << 30).contains(&(u64::from(width) * u64::from(height))) {
            return (width, height);
        }
    }
}

fn grid(rng: &mut Rng) -> Grid {
    let (width, height) = size(rng);
    Grid {
        rows: rng.number(1..=256) as u16,
        columns: rng.number(1..=256) as u16,
        width,
        height,
    }
}

/// An overlay of one to four inputs.
fn overlay(rng: &mut Rng) -> Overlay {
    let (width, height) = size(rng);
    let near = rng.flag();
    let offset = |rng: &mut Rng| match near {
        true => rng.within(-32_800..=32_800) as i32,
        false => generate::border(rng).cast_signed(),
    };
    let inputs = 1 + rng.below(4);
    Overlay {
        fill: [0; 4].map(|_: u16| rng.word() as u16),
        width,
        height,
        offsets: (0..inputs).map(|_| (offset(rng), offset(rng))).collect(),
    }
}

#[test]
fn grids_are_written_and_read() {
    let (mut rng, builds) = (Rng::new(1), builds());
    for _ in 0..100_000 {
        hold_grid(&builds, &grid(&mut rng));
    }
}

#[test]
fn overlays_are_written_and_read() {
    let (mut rng, builds) = (Rng::new(2), builds());
    for _ in 0..100_000 {
        hold_overlay(&builds, &overlay(&mut rng));
    }
}

/// Both sides of the edges of 15, 16, 30, 31 and 32 bits. From 2^30 + 1 on a canvas of one row is above
/// the pixel limit.
const SIDES: [u32; 12] = [
    1,
    (1 << 15) - 1,
    1 << 15,
    (1 << 16) - 1,
    1 << 16,
    (1 << 16) + 1,
    1 << 30,
    (1 << 30) + 1,
    (1 << 31) - 1,
    1 << 31,
    (1 << 31) + 1,
    u32::MAX,
];

#[test]
fn sizes_at_their_edges() {
    let builds = builds();
    for side in SIDES {
        for (width, height) in [(side, 1), (1, side)] {
            let grid = Grid {
                rows: 256,
                columns: 1,
                width,
                height,
            };
            let overlay = Overlay {
                fill: [0, 1, 65_534, 65_535],
                width,
                height,
                offsets: vec![(-1, 1)],
            };
            if side > 1 << 30 {
                let refused = [
                    write_grid([256, 1], (width, height), 12),
                    write_words(overlay.fill, (width, height), &[0; 2], 26),
                ];
                assert_eq!(refused, [Err(LIMIT), Err(LIMIT)]);
                continue;
            }
            let (flags, lengths) = match side {
                ..=65_535 => (0, [8, 18]),
                _ => (1, [12, 26]),
            };
            let bodies = [hold_grid(&builds, &grid), hold_overlay(&builds, &overlay)];
            assert_eq!(bodies.each_ref().map(Vec::len), lengths, "{side}");
            assert!(bodies.iter().all(|body| body[..2] == [0, flags]), "{side}");
        }
    }
}

/// The edges of signed 15, 16, 31 and 32 bits.
const OFFSETS: [i32; 18] = [
    i32::MIN,
    i32::MIN + 1,
    -65_537,
    -65_536,
    -65_535,
    -32_769,
    -32_768,
    -32_767,
    -1,
    0,
    32_766,
    32_767,
    32_768,
    65_535,
    65_536,
    65_537,
    i32::MAX - 1,
    i32::MAX,
];

/// Each offset of the first and of the last of three inputs widens the whole body, or does not.
#[test]
fn offsets_at_their_edges() {
    let builds = builds();
    for offset in OFFSETS {
        for place in [0, 1, 4, 5] {
            let mut words = [7, -8, 9, -10, 11, -12];
            words[place] = offset;
            let [a, b, c, d, e, f] = words;
            let overlay = Overlay {
                fill: [1, 2, 3, 4],
                width: 65_535,
                height: 2,
                offsets: vec![(a, b), (c, d), (e, f)],
            };
            let body = hold_overlay(&builds, &overlay);
            let wide = !(-32_768..=32_767).contains(&offset);
            assert_eq!(body[1], u8::from(wide), "{offset}");
            assert_eq!(body.len(), if wide { 42 } else { 26 }, "{offset}");
        }
    }
}

/// A body in the form that the rule picks is rewritten to the same bytes; other flags, a byte after the
/// last field and, where it is handed in, the other form are rewritten to these bytes, too.
fn hold_rewritten(
    body: &[u8],
    other_form: Option<Vec<u8>>,
    rewritten: impl Fn(&[u8]) -> compose::Result<Vec<u8>>,
) {
    assert_eq!(rewritten(body).as_deref(), Ok(body));
    let mut flagged = body.to_vec();
    flagged[1] |= 0xfe;
    let longer = [body, &[0]].concat();
    for other in [flagged, longer].into_iter().chain(other_form) {
        assert_eq!(rewritten(&other).as_deref(), Ok(body));
        assert_ne!(other, body);
    }
}

#[test]
fn bodies_are_rewritten() {
    let mut rng = Rng::new(3);
    let mut forms = [0; 2];
    for _ in 0..10_000 {
        let grid = grid(&mut rng);
        let narrow = grid.width <= 65_535 && grid.height <= 65_535;
        let other_form = narrow.then(|| grid_bytes(&grid, true));
        hold_rewritten(&grid_bytes(&grid, !narrow), other_form, |body| {
            GridDescriptor::parse(body)?.body()
        });
        forms[usize::from(narrow)] += 1;

        let overlay = overlay(&mut rng);
        let near = |offset: i32| (-32_768..=32_767).contains(&offset);
        let narrow = overlay.width <= 65_535
            && overlay.height <= 65_535
            && overlay.offsets.iter().all(|(x, y)| near(*x) && near(*y));
        let other_form = narrow.then(|| overlay_bytes(&overlay, true));
        hold_rewritten(&overlay_bytes(&overlay, !narrow), other_form, |body| {
            OverlayDescriptor::parse(body, overlay.offsets.len())?.body()
        });
        forms[usize::from(narrow)] += 1;
    }
    assert!(forms.iter().all(|count| *count > 2_000), "{forms:?}");
}

/// The canvas that has a side 0, is above the pixel limit, both, or neither.
fn canvas(zero: bool, above: bool) -> Size {
    match (zero, above) {
        (true, true) => (0, u32::MAX),
        (true, false) => (0, 1),
        (false, true) => (32_768, 32_769),
        (false, false) => (32_768, 32_768),
    }
}

/// The first refusal whose fault is there.
fn first(faults: &[(bool, Refusal)]) -> Option<Refusal> {
    faults.iter().find(|(there, _)| *there).map(|(_, one)| *one)
}

/// Every choice of a grid's faults: 19, 3, 4, 17.
#[test]
fn grids_are_refused_in_order() {
    for bits in 0..16 {
        let [tiling, zero, above, short] = [1, 2, 4, 8].map(|bit| bits & bit != 0);
        let wrong: &[u32] = match tiling {
            true => &[0, 257, 65_536, 65_537, u32::MAX],
            false => &[1, 2, 255, 256],
        };
        for tiles in wrong.iter().flat_map(|many| [[*many, 1], [256, *many]]) {
            let body = write_grid(tiles, canvas(zero, above), if short { 7 } else { 8 });
            let refused = first(&[
                (tiling, TILING),
                (zero, ZERO_SIDE),
                (above, LIMIT),
                (short, ROOM),
            ]);
            assert_eq!(body.err(), refused, "{tiles:?} {bits:04b}");
        }
    }
}

/// Every choice of an overlay's faults: 3, 4, 4, 15, 17.
#[test]
fn overlays_are_refused_in_order() {
    for bits in 0..8 {
        let [zero, above, short] = [1, 2, 4].map(|bit| bits & bit != 0);
        for inputs in [0, 1, 65_536, 65_537, 70_000] {
            let words = vec![0; 2 * inputs];
            let room = 14 + 4 * inputs - usize::from(short);
            let body = write_words([0; 4], canvas(zero, above), &words, room);
            let refused = first(&[
                (zero, ZERO_SIDE),
                (above, LIMIT),
                (inputs > 65_536, LIMIT),
                (inputs == 0, MISSING),
                (short, ROOM),
            ]);
            assert_eq!(body.err(), refused, "{inputs} inputs {bits:03b}");
        }
    }
}

/// As many inputs as there may be, in both forms.
#[test]
fn the_most_inputs() {
    let builds = builds();
    for last in [32_767, 32_768] {
        let mut offsets: Vec<(i32, i32)> = (0..65_536).map(|at| (at / 2, -(at / 2))).collect();
        offsets[65_535].1 = last;
        let overlay = Overlay {
            fill: [0; 4],
            width: 1,
            height: 1,
            offsets,
        };
        let body = hold_overlay(&builds, &overlay);
        let each = if last > 32_767 { 8 } else { 4 };
        assert_eq!(body.len(), 10 + each + each * 65_536);
    }
    let many = vec![(0, 0); 65_537];
    let many = OverlayDescriptor::new([0; 4], 1, 1, many);
    assert_eq!(many.body().map_err(refusal), Err(LIMIT));
}

/// A last word without a partner is no input, however far it lies.
#[test]
fn a_word_without_a_partner() {
    let write = |words: &[u32]| write_words([0; 4], (1, 1), words, 14 + 2 * words.len());
    let far = 1 << 31;
    assert_eq!(write(&[]), Err(MISSING));
    assert_eq!(write(&[far]), Err(MISSING));
    assert_eq!(write(&[5, 6, far]), write(&[5, 6]));
    assert_eq!(write(&[5, 6]).map(|body| body[1]), Ok(0));
    let mut most = vec![0; 2 * 65_536 + 1];
    assert_eq!(write(&most), write(&most[..2 * 65_536]));
    most.push(0);
    assert_eq!(write(&most), Err(LIMIT));
}
