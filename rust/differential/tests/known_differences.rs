//! Where the published Rust departs from document 01, each on its smallest input, in both builds.
//!
//! | what | input | document 01 | plain build | checked build |
//! |---|---|---|---|---|
//! | an alpha sample above top, drawn | body `0000000000000000ffff0001000100000000`, tray `0101010009010202000002020002`, list `00` | 16 | accepts; `max - a` wraps, sample 0 | panics at `max - a`, "attempt to subtract with overflow" (compose.rs:785) |
//! | the same on a white canvas | fill `ffffffffffffffff` | 16 | accepts; the wrapped product is held to top, sample 511 | panics there |
//! | an alpha sample above top, cut off | offset (1, 0): body `0000000000000000ffff0001000100010000` | 16 | accepts, sample 0 | accepts, sample 0 |
//! | a tile's origin at or above 2^32 | session body `000000ff012c0001`, mono tile 16,843,010 × 1 placed at cell 255 | accepts; the tile is cut | accepts; origin 254, so columns 254 to 299 are overwritten | panics at `c * tw`, "attempt to multiply with overflow" (compose.rs:522); the canvas is there, all 0, the cell not marked |
//! | a scaled side above 2^26 | 67,108,865 × 1, iscl 1/65535, 1/1 | 4 | `apply_iscl` and `Iscl::output_size` accept, 1,025 × 1 | the same |
//! | fill at depth 0 | red, no nclx | 6 | 0 0 0 | panics at `depth - 1` (compose.rs:621) |
//! | fill at depths 1 to 7 | red, no nclx, depth 7 | 6 | 38 43 127 | panics at `depth - 8` (compose.rs:622) |
//! | the same, not full range | red, matrix 6, depth 7 | 6 | 127 127 127 (2^(7 − 8) is 2^31) | panics there |
//! | fill at depths 17 to 31 | red, no nclx, depth 17 | 6 | 39190 43420 65535 (held to 16 bits) | the same |
//! | fill at depths from 32 | red, no nclx, depth 40 | 6 | 76 85 255 (the depth mod 32) | panics at `1 << depth`, "attempt to shift left with overflow" (compose.rs:599) |
//! | fill, matrix 0, at depths up to 31 | red, matrix 0, depth 7 | 6 | 0 0 127 | the same |
//! | a chain of 257 entries | 257 × imir 1 on `020100080002020102` | 4 | accepts, `02 01` | accepts, `02 01` |
//! | a chain that draws nothing | `010100080002020509` (stride 2, a spare byte), no entries, or irot 0 | the tight record, `0101000800010105` | the frame as it came, stride 2 | the same |
//! | a record that is never validated | imir 1 of `0201000800020105` | 5 | panics, "range end index 2 out of range for slice of length 1" (image.rs:358) | the same |
//! | a depth that `validate` does not look at | `0101000700010105` and `010100110002020500` | 6 | `validate` accepts | `validate` accepts |
//! | the size after an iscl | 1 × 1, iscl 65535/1, 65535/1 | 4 | `Iscl::output_size` and `ItemProperties::output_size` accept, 65,535 × 65,535; `apply_iscl` says "limit exceeded" | the same |
//! | an area of a ratio that no iscl has | `resize_area` of 70,001 × 1 to 70,000 × 1 | 4 | accepts | accepts |
//! | margins that are not a crop's own | crop of `0101000800010105` to 0, 0, 1, 1 with the margins 0, 0, 0, 1 | 9, by document 02 | has no margins: accepts the rectangle | the same |
//! | 257 rows of tiles | `GridDescriptor::new(257, 1, 2, 2)`, 257 tiles of 2 × 2 | 19, by document 02 | `composite_grid` accepts; `to_bytes` writes a body of one row | the same |
//! | no rows of tiles | `GridDescriptor::new(0, 1, 2, 2)`, no tiles | 19, by document 02 | `composite_grid` says "no tiles"; `to_bytes` writes a body of 256 rows | "no tiles"; `to_bytes` panics at `self.rows - 1` (derived.rs:106) |
//! | a body of a side 0 | `to_bytes` of a grid or an overlay of 0 × 2 | 3, by document 02 | writes one, which its `parse` refuses | the same |
//! | a body above 2^30 pixels | the same of 32,768 × 32,769 | 4, by document 02 | writes one, which its `parse` refuses | the same |
//! | a body of 65,537 inputs | `to_bytes` of an overlay of 1 × 1 and 65,537 offsets | 4, by document 02 | writes one, which its `parse` refuses | the same |
//! | a body without inputs | `to_bytes` of an overlay of 1 × 1 without offsets | 15, by document 02 | writes one | the same |
//! | no inputs for an offset | `OverlayDescriptor` of one offset, no inputs | 15 | "0 inputs for 1 offsets", which is 11 | the same |
//!
//! A premultiplied list of another length (11) has no counterpart: the Rust keeps the flag with
//! each input. 17, 18, the point call and the steps program have none either.
//!
//! Where the composer has the call, it is held to document 01's number here too.

mod common;

use common::{bytes, on_each_build};
use compose::Refusal;
use differential::compare::Sides;
use differential::ours::{Composer, Linked};
use differential::shaped::{grid_descriptor, heif, overlay_descriptor};
use model::refusal::{DEPTH, LIMIT, MALFORMED, OUTSIDE};
use model::{
    Chroma, Colour, Crop, Entry, Frame, Grid, Iscl, Operation, Oracle, Outcome, Overlay,
    OverlayInput, Plane, Property, attempt, chain_bytes, overlay_bytes, parse_tray, parse_untested,
};

/// Runs `plain` on the plain build and `checked` on the checked one, where they are present.
fn on_the_builds(plain: impl Fn(&dyn Oracle), checked: impl Fn(&dyn Oracle)) {
    if let Some(sides) = Sides::open() {
        plain(sides.plain);
        checked(sides.checked);
    }
}

/// Holds a panic to its message and the file it came from.
fn assert_panics<T: std::fmt::Debug>(outcome: Outcome<T>, message: &str, file: &str) {
    match outcome {
        Outcome::Panic(text) => {
            assert!(text.starts_with(message) && text.contains(file), "{text}");
        }
        other => panic!("no panic: {other:?}"),
    }
}

const SUBTRACT: &str = "attempt to subtract with overflow";

/// A 1 × 1 overlay of one pixel of depth 9 whose alpha is 512, with a fill and a column offset.
fn alpha_above_top(oracle: &dyn Oracle, fill: &str, column: u8) -> Outcome<Vec<u16>> {
    let body = bytes(&format!("0000 {fill} 0001 0001 00{column:02x} 0000"));
    let tray = parse_tray(&bytes("0101010009010202000002020002")).expect("a tray");
    let overlay = oracle.parse_overlay(&body, 1).done().expect("a body");
    let input = OverlayInput {
        frame: tray[0].clone(),
        premultiplied: false,
    };
    oracle
        .composite_overlay(&overlay, &[input], None)
        .map(|picture| picture.samples(0))
}

#[test]
fn an_alpha_sample_above_top_that_is_drawn() {
    for (fill, sample) in [("000000000000ffff", 0), ("ffffffffffffffff", 511)] {
        on_the_builds(
            |plain| assert_eq!(alpha_above_top(plain, fill, 0), Outcome::Done(vec![sample])),
            |checked| assert_panics(alpha_above_top(checked, fill, 0), SUBTRACT, "compose.rs"),
        );
    }
}

#[test]
fn an_alpha_sample_above_top_that_is_cut_off() {
    on_each_build(|oracle| {
        let picture = alpha_above_top(oracle, "000000000000ffff", 1);
        assert_eq!(picture, Outcome::Done(vec![0]));
    });
}

/// A mono strip of depth 8 with 7 in every sample.
fn strip(width: u32) -> Frame {
    let mut strip = Frame::empty((width, 1), Chroma::Mono, 8, 0);
    strip.planes.push(Plane {
        stride: width as usize,
        data: vec![7; width as usize],
    });
    strip
}

/// Places a strip of 16,843,010 at cell 255 and shows the columns it overwrote.
fn far_cell(oracle: &dyn Oracle) -> (Outcome<()>, Vec<usize>, bool) {
    let grid = oracle
        .parse_grid(&bytes("000000ff012c0001"))
        .done()
        .expect("a body");
    let mut session = oracle.canvas(&grid);
    let outcome = session.place(255, &strip(16_843_010));
    let state = session.state();
    let row = state.canvas.expect("a canvas").samples(0);
    let overwritten = (0..row.len()).filter(|column| row[*column] != 0).collect();
    (outcome, overwritten, state.placed[255])
}

#[test]
fn a_tile_origin_above_32_bits() {
    on_the_builds(
        |plain| {
            assert_eq!(
                far_cell(plain),
                (Outcome::Done(()), (254..300).collect(), true)
            )
        },
        |checked| {
            let (outcome, overwritten, placed) = far_cell(checked);
            assert_panics(outcome, "attempt to multiply with overflow", "compose.rs");
            assert_eq!((overwritten, placed), (Vec::new(), false));
        },
    );
}

#[test]
fn a_scaled_side_above_2_to_26() {
    let size = ((1 << 26) + 1, 1);
    let frame = strip(size.0);
    let iscl = Iscl::from_fields([1, 65_535, 1, 1]);
    on_each_build(|oracle| {
        let scaled = oracle.apply_iscl(&frame, &iscl).done().expect("a picture");
        assert_eq!((scaled.width, scaled.height), (1_025, 1));
        let scaled = oracle.iscl_size(&iscl, size.0, size.1);
        assert_eq!(scaled, Outcome::Done((1_025, 1)));
    });
    assert_eq!(Linked.iscl_size(&iscl, size, &mut [0; 2]), Some(Err(LIMIT)));
}

#[test]
fn fills_at_depths_outside_8_to_16() {
    let colour = |matrix, full_range| Some(Colour { matrix, full_range });
    const SHIFT: &str = "attempt to shift left with overflow";
    // Depth, colour, the plain build's numbers, and the checked build's panic if it has one.
    let cases = [
        (0, None, [0, 0, 0], Some(SUBTRACT)),
        (1, None, [0, 1, 1], Some(SUBTRACT)),
        (7, None, [38, 43, 127], Some(SUBTRACT)),
        (7, colour(6, false), [127, 127, 127], Some(SUBTRACT)),
        (17, None, [39_190, 43_420, 65_535], None),
        (17, colour(6, false), [41_718, 46_184, 65_535], None),
        (31, None, [65_535, 65_535, 65_535], None),
        (32, None, [0, 0, 0], Some(SHIFT)),
        (40, None, [76, 85, 255], Some(SHIFT)),
        (0, colour(0, true), [0, 0, 0], None),
        (7, colour(0, true), [0, 0, 127], None),
        (31, colour(0, true), [0, 0, 65_535], None),
        (32, colour(0, true), [0, 0, 0], Some(SHIFT)),
    ];
    for (depth, colour, numbers, panic) in cases {
        let fill = [65_535, 0, 0];
        let ours = Linked.fill(fill, u32::from(depth), colour, &mut [0; 3]);
        assert_eq!(ours, Some(Err(DEPTH)), "depth {depth}");
        let red = |oracle: &dyn Oracle| oracle.fill_to_ycbcr(fill, depth, colour);
        on_the_builds(
            |plain| assert_eq!(red(plain), Outcome::Done(numbers), "depth {depth}"),
            |checked| match panic {
                Some(message) => assert_panics(red(checked), message, "compose.rs"),
                None => assert_eq!(red(checked), Outcome::Done(numbers), "depth {depth}"),
            },
        );
    }
}

#[test]
fn a_chain_of_257_entries() {
    let mirror = Entry::new(true, Property::Imir(1));
    on_each_build(|oracle| {
        let frame = Frame::mono(2, 1, &[1, 2]);
        let picture = oracle.apply_transforms(&frame, &[mirror; 257], false);
        assert_eq!(picture, Outcome::Done(Frame::mono(2, 1, &[2, 1])));
        let size = oracle.chain_size(&[mirror; 257], (2, 1), false);
        assert_eq!(size, Outcome::Done((2, 1)));
    });
    assert_eq!(Linked.chain(&chain_bytes(&[mirror; 257])), Some(Err(LIMIT)));
}

#[test]
fn a_chain_that_draws_nothing() {
    let record = bytes("010100080002020509");
    let loose = parse_untested(&record).expect("a record");
    let turned_by_none = [Entry::new(true, Property::Irot(0))];
    for chain in [&[], &turned_by_none[..]] {
        let (mut output, mut spare) = ([7; 8], [7; 8]);
        let entries = chain_bytes(chain);
        let written = Linked.transforms(&record, &entries, false, &mut output, &mut spare);
        assert_eq!(written, Some(Ok(8)));
        assert_eq!(output.as_slice(), bytes("0101000800010105"));
        on_each_build(|oracle| {
            let left = oracle.apply_transforms(&loose, chain, false);
            assert_eq!(left, Outcome::Done(loose.clone()));
        });
    }
}

#[test]
fn a_record_that_is_never_validated() {
    let record = bytes("0201000800020105");
    let short = parse_untested(&record).expect("a header that passes");
    let mirrored = Linked.operation(&record, &Operation::Imir(1), &mut [0; 9]);
    assert_eq!(mirrored, Some(Err(MALFORMED)));
    on_each_build(|oracle| {
        assert!(matches!(oracle.validate(&short), Outcome::Error(_)));
        for axis in [0, 1] {
            let mirrored = oracle.apply_imir(&short, axis);
            assert_panics(mirrored, "range end index 2 out of range", "image.rs");
        }
    });
}

#[test]
fn a_depth_that_validate_does_not_look_at() {
    on_each_build(|oracle| {
        for depth in [7, 17] {
            let frame = Frame::tight((1, 1), Chroma::Mono, depth, 0, &[&[5]]);
            assert_eq!(oracle.validate(&frame), Outcome::Done(()));
            assert_eq!(Linked.record(&frame.record()), Some(Err(DEPTH)));
        }
    });
}

#[test]
fn the_size_after_an_iscl() {
    let iscl = Iscl::from_fields([65_535, 1, 65_535, 1]);
    let entry = Entry::new(true, Property::Iscl(iscl));
    on_each_build(|oracle| {
        let size = oracle.chain_size(&[entry], (1, 1), false);
        assert_eq!(size, Outcome::Done((65_535, 65_535)));
        let size = oracle.iscl_size(&iscl, 1, 1);
        assert_eq!(size, Outcome::Done((65_535, 65_535)));
        let Outcome::Error(text) = oracle.apply_iscl(&Frame::mono(1, 1, &[0]), &iscl) else {
            panic!("an error");
        };
        assert!(text.starts_with("heif: limit exceeded: "), "{text}");
    });
    assert_eq!(
        Linked.iscl_size(&iscl, (1, 1), &mut [0; 2]),
        Some(Err(LIMIT))
    );
    let input = compose::steps::input(1, 1, &chain_bytes(&[entry]));
    let text = compose::steps::text(&input);
    assert_eq!(text, "step kind width height\n0 4 refused 4\n");
}

/// Scaling by the ratio of two sides that have no smaller terms, both above 65,535.
#[test]
fn an_area_of_a_ratio_that_no_iscl_has() {
    let frame = strip(70_001);
    let ours = compose::resize_area(&heif(&frame), 70_000, 1);
    assert_eq!(ours, Err(Refusal::LIMIT));
    let ours = compose::resize_area(&heif(&frame), 35_000, 1);
    assert_eq!(ours, Err(Refusal::LIMIT));
    on_each_build(|oracle| {
        let scaled = oracle.resize_area(&frame, 70_000, 1).done();
        assert_eq!(scaled, Some(strip(70_000)));
    });
}

/// A crop whose bottom margin is one row more than its record has.
#[test]
fn margins_that_are_not_a_crops_own() {
    let record = bytes("0101000800010105");
    let crop = Crop::from_fields([0, 0, 1, 1, 0, 0, 0, 1]);
    let ours = Linked.operation(&record, &Operation::Crop(crop), &mut [0; 8]);
    assert_eq!(ours, Some(Err(OUTSIDE)));
    let frame = Frame::mono(1, 1, &[5]);
    on_each_build(|oracle| {
        let part = oracle.crop(&frame, &crop.rectangle).done();
        assert_eq!(part.expect("a picture").record(), record);
    });
}

/// Rows of tiles that no body holds: more than 256, and none.
#[test]
fn rows_that_no_body_holds() {
    for rows in [257, 0] {
        let grid = Grid {
            rows,
            columns: 1,
            width: 2,
            height: 2,
        };
        let tiles = vec![Frame::mono(2, 2, &[1, 2, 3, 4]); usize::from(rows)];
        let ours: Vec<compose::HeifFrame> = tiles.iter().map(heif).collect();
        let made = compose::composite_grid(&grid_descriptor(&grid), &ours);
        assert_eq!(made, Err(Refusal::TILING));
        on_each_build(|oracle| match oracle.composite_grid(&grid, &tiles) {
            Outcome::Done(picture) => assert_eq!((rows, picture), (257, tiles[0].clone())),
            Outcome::Error(text) => assert_eq!(text, "heif: invalid data: grid: no tiles"),
            Outcome::Panic(text) => panic!("{text}"),
        });
    }
}

/// The crate's `body` refuses, and its `to_bytes`, which has no error, panics with the sentence.
fn assert_unwritten(
    refusal: Refusal,
    body: compose::Result<Vec<u8>>,
    to_bytes: impl FnOnce() -> Vec<u8>,
) {
    assert_eq!(body, Err(refusal));
    let written = attempt(|| Ok::<_, String>(to_bytes()));
    assert_panics(written, "", &format!("'s body: {refusal} (derived.rs:"));
}

#[test]
fn grids_that_no_body_is_written_of() {
    for (rows, width, height, refusal, body) in [
        (257, 2, 2, Refusal::TILING, "0000 00 00 0002 0002"),
        (0, 2, 2, Refusal::TILING, "0000 ff 00 0002 0002"),
        (1, 0, 2, Refusal::EMPTY, "0000 00 00 0000 0002"),
        (1, 32_768, 32_769, Refusal::LIMIT, "0000 00 00 8000 8001"),
    ] {
        let grid = Grid {
            rows,
            columns: 1,
            width,
            height,
        };
        let ours = grid_descriptor(&grid);
        assert_unwritten(refusal, ours.body(), || ours.to_bytes());
        let written = Outcome::Done(bytes(body));
        on_the_builds(
            |plain| assert_eq!(plain.write_grid(&grid), written),
            |checked| match rows {
                0 => assert_panics(checked.write_grid(&grid), SUBTRACT, "derived.rs"),
                _ => assert_eq!(checked.write_grid(&grid), written),
            },
        );
    }
}

#[test]
fn overlays_that_no_body_is_written_of() {
    for (width, height, inputs, refusal) in [
        (0, 2, 1, Refusal::EMPTY),
        (32_768, 32_769, 1, Refusal::LIMIT),
        (1, 1, 65_537, Refusal::LIMIT),
        (1, 1, 0, Refusal::MISSING),
    ] {
        let overlay = Overlay {
            fill: [1, 2, 3, 4],
            width,
            height,
            offsets: vec![(5, -6); inputs],
        };
        let ours = overlay_descriptor(&overlay);
        assert_unwritten(refusal, ours.body(), || ours.to_bytes());
        let written = Outcome::Done(overlay_bytes(&overlay, false));
        on_each_build(|oracle| assert_eq!(oracle.write_overlay(&overlay), written));
    }
}

#[test]
fn no_inputs_for_an_offset() {
    let overlay = Overlay {
        fill: [0; 4],
        width: 1,
        height: 1,
        offsets: vec![(0, 0)],
    };
    let made = compose::composite_overlay(&overlay_descriptor(&overlay), &[], None);
    assert_eq!(made, Err(Refusal::MISSING));
    on_each_build(|oracle| {
        let refused = oracle.composite_overlay(&overlay, &[], None);
        let text = "heif: invalid data: iovl: 0 inputs for 1 offsets".to_string();
        assert_eq!(refused, Outcome::Error(text));
    });
}
