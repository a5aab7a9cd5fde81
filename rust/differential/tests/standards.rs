//! Where the published Rust departs from a standard. Document 01 keeps its arithmetic, so the
//! composer answers as the Rust does; each departure on its smallest input, in both builds, and what
//! the standard has.
//!
//! | what | input | here and the Rust | the standard |
//! |---|---|---|---|
//! | premultiplied YCbCr over a fill | body `0000808080808080ffff0001000100000000`, tray `010101030801010100010180010180010100`, list `01`, matrix 6, full range | 128 255 255 | 128 128 128 |
//! | the same, not full range | the tray with luma `10` | 142 255 255 | 126 128 128 |
//! | chroma of a full-range fill at a negative half | cyan, matrix 1, depth 8 | 201 157 1 | 201 157 0 |
//! | imir 1 of an odd width by itself | `0301020800030301020302020a1402021e28`, 4:2:2 | Cb of the pixels 20 20 10 | 20 10 10 |
//! | imir 0 of an odd height by itself | 1 × 3, 4:2:0, the same samples | 20 20 10 downwards | 20 10 10 |

mod common;

use common::{bytes, on_each_build};
use differential::ours::{Composer, Linked};
use model::{
    Chroma, Colour, Entry, Frame, Grid, Operation, OverlayInput, Property, SceneParts, chain_bytes,
    parse_record, parse_tray, tray_bytes,
};
use std::slice::from_ref;

const BODY: &str = "0000808080808080ffff0001000100000000";

fn described(matrix: u16, full_range: bool) -> Option<Colour> {
    Some(Colour { matrix, full_range })
}

/// The first sample of each colour plane.
fn pixel(picture: &Frame) -> [u16; 3] {
    [0, 1, 2].map(|plane| picture.sample(plane, 0, 0))
}

/// What the composer and both builds make of a premultiplied pixel over the grey fill of `BODY`.
fn over_grey(tray: &str, colour: Option<Colour>) -> [u16; 3] {
    let (body, tray) = (bytes(BODY), bytes(tray));
    let mut output = [0; 64];
    let length = Linked.overlay(&body, &tray, &[1], colour, &mut output);
    let length = length.expect("the call").expect("a picture");
    let ours = parse_record(&output[..length]).expect("a record");
    on_each_build(|oracle| {
        let overlay = oracle.parse_overlay(&body, 1).done().expect("a body");
        let inputs = parse_tray(&tray).expect("a tray").into_iter();
        let inputs: Vec<OverlayInput> = inputs
            .map(|frame| OverlayInput {
                frame,
                premultiplied: true,
            })
            .collect();
        let theirs = oracle.composite_overlay(&overlay, &inputs, colour).done();
        assert_eq!(theirs.as_ref(), Some(&ours));
    });
    pixel(&ours)
}

/// The fill of `BODY`, which is what a pixel of opacity 0 leaves.
fn grey(colour: Option<Colour>) -> [u16; 3] {
    let mut samples = [0; 3];
    let filled = Linked.fill([0x8080; 3], 8, colour, &mut samples);
    filled.expect("the call").expect("three samples");
    samples
}

/// ISO/IEC 23008-12 (`prem`): a colour multiplied by its opacity is black where that is 0. Black in
/// YCbCr has its chroma at the middle, and outside full range its luma at 16; the Rust adds the
/// samples as they stand.
#[test]
fn a_premultiplied_pixel_of_opacity_0() {
    let full = described(6, true);
    let black = "010101030801010100010180010180010100";
    assert_eq!(over_grey(black, full), [128, 255, 255]);
    assert_eq!(grey(full), [128, 128, 128]);

    let studio = described(6, false);
    let black = "010101030801010110010180010180010100";
    assert_eq!(over_grey(black, studio), [142, 255, 255]);
    assert_eq!(grey(studio), [126, 128, 128]);

    // Matrix 0 puts out G, B, R, whose black is 0 in each.
    let identity = described(0, true);
    let black = "010101030801010100010100010100010100";
    assert_eq!(over_grey(black, identity), grey(identity));
    // An opaque pixel is the input's, as it should be.
    let opaque = "0101010308010101400101200101600101ff";
    assert_eq!(over_grey(opaque, full), [64, 32, 96]);
}

/// `numerator / denominator` to the nearest whole number, a half away from zero.
fn rounded(numerator: i128, denominator: i128) -> i128 {
    let away = (2 * numerator.abs() + denominator) / (2 * denominator);
    away * numerator.signum()
}

/// A full-range fill as H.273 has it, in exact numbers: chroma is rounded, then 2^(depth − 1) is
/// added. The weights of red and blue are in ten-thousandths.
fn exact(fill: [u16; 3], depth: u32, of_red: i128, of_blue: i128) -> [u16; 3] {
    const WHOLE: i128 = 10_000;
    let [red, green, blue] = fill.map(i128::from);
    let luma = of_red * red + (WHOLE - of_red - of_blue) * green + of_blue * blue;
    let (top, middle) = ((1 << depth) - 1, 1 << (depth - 1));
    let chroma = |channel: i128, weight: i128| {
        let (above, span) = (channel * WHOLE - luma, 2 * (WHOLE - weight) * 65_535);
        rounded(above * top, span) + middle
    };
    let samples = [
        rounded(luma * top, WHOLE * 65_535),
        chroma(blue, of_blue),
        chroma(red, of_red),
    ];
    samples.map(|sample| sample.clamp(0, top) as u16)
}

#[test]
fn full_range_fill_chroma_at_a_negative_half() {
    const TOP: u16 = 65_535;
    let cyan = [0, TOP, TOP];
    let both = |fill: [u16; 3], depth: u8| {
        let mut ours = [0; 3];
        let filled = Linked.fill(fill, u32::from(depth), described(1, true), &mut ours);
        filled.expect("the call").expect("three samples");
        on_each_build(|oracle| {
            let theirs = oracle.fill_to_ycbcr(fill, depth, described(1, true));
            assert_eq!(theirs.done(), Some(ours));
        });
        (ours, exact(fill, u32::from(depth), 2_126, 722))
    };
    assert_eq!(both(cyan, 8), ([201, 157, 1], [201, 157, 0]));
    // No fill has less red: Cr lies top / 2 below the middle, a half at every depth.
    for depth in 8..=16 {
        let (ours, exact) = both(cyan, depth);
        assert_eq!((ours[2], exact[2]), (1, 0), "depth {depth}");
    }
    // A half above the middle goes up in both: Cr of red, held to top.
    let (ours, exact) = both([TOP, 0, 0], 8);
    assert_eq!(ours, exact);
}

/// The Cb samples that the pixels of a row or column of three show.
fn shown(picture: &Frame) -> [u16; 3] {
    [0, 1, 2].map(|at| match picture.width {
        1 => picture.covering(1, 0, at),
        _ => picture.covering(1, at, 0),
    })
}

const ODD_ROW: &str = "0301020800030301020302020a1402021e28";

/// ISO/IEC 23008-12 (`imir`): the picture is mirrored, so each pixel goes with its colour. A record
/// by itself has its planes mirrored, and the middle pixel takes its neighbour's chroma; a scene
/// promotes the picture before.
#[test]
fn imir_of_an_odd_side() {
    let samples: [&[u16]; 3] = [&[1, 2, 3], &[10, 20], &[30, 40]];
    let row = Frame::tight((3, 1), Chroma::Yuv422, 8, 0, &samples);
    assert_eq!(row.record(), bytes(ODD_ROW));
    for (axis, size, chroma) in [
        (1, (3, 1), Chroma::Yuv422),
        (1, (3, 1), Chroma::Yuv420),
        (0, (1, 3), Chroma::Yuv420),
    ] {
        let frame = Frame::tight(size, chroma, 8, 0, &samples);
        assert_eq!(shown(&frame), [10, 10, 20]);

        let mut output = [0; 64];
        let alone = Linked.operation(&frame.record(), &Operation::Imir(axis), &mut output);
        let length = alone.expect("the call").expect("a picture");
        let alone = parse_record(&output[..length]).expect("a record");
        assert_eq!(alone.samples(0), [3, 2, 1]);
        assert_eq!(shown(&alone), [20, 20, 10], "axis {axis}, {chroma:?}");

        let body = [0, 0, 0, 0, 0, size.0 as u8, 0, size.1 as u8];
        let entry = Entry::new(true, Property::Imir(axis));
        let parts = SceneParts {
            body: &body,
            tray: &tray_bytes(from_ref(&frame)),
            chain: &chain_bytes(&[entry]),
            essential_only: false,
        };
        let mut output = [0; 64];
        let scene = Linked.grid_scene(&parts, &mut output, &mut [0; 64]);
        let length = scene.expect("the call").expect("a picture");
        let scene = parse_record(&output[..length]).expect("a record");
        assert_eq!(
            (scene.chroma, scene.samples(0)),
            (Chroma::Yuv444, vec![3, 2, 1])
        );
        assert_eq!(shown(&scene), [20, 10, 10], "axis {axis}, {chroma:?}");

        on_each_build(|oracle| {
            assert_eq!(
                oracle.apply_imir(&frame, axis).done().as_ref(),
                Some(&alone)
            );
            let grid = Grid::row(1, size.0, size.1);
            let composed = oracle.composite_grid(&grid, from_ref(&frame)).done();
            let composed = composed.expect("a picture");
            let mirrored = oracle.apply_transforms(&composed, &[entry], false).done();
            assert_eq!(mirrored.as_ref(), Some(&scene));
        });
    }
}
