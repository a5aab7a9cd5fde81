//! Overlays with alpha whose canvas has several stripes of 1,024 samples, with inputs that one list
//! holds, that need several blocks, and that are more than a list holds at every place: the comparisons'
//! own canvases are smaller than a stripe.

use differential::compare::Sides;
use differential::generate::{Form, frame_of};
use differential::ours::{Composer, Linked};
use differential::rng::Rng;
use model::{
    Chroma, Frame, Overlay, OverlayInput, composite_overlay, overlay_bytes, parse_record,
    tray_bytes,
};

/// An overlay of so many inputs with alpha, and now and then one without, on a canvas of that size;
/// the inputs' sides are at most `side`, and their corners lie in its `spread` first columns and rows.
fn scene(
    rng: &mut Rng,
    (width, height): (u32, u32),
    (count, side, spread): (usize, u32, (u32, u32)),
    (chroma, depth, fill_alpha): (Chroma, u8, u16),
) -> (Overlay, Vec<OverlayInput>) {
    let mut overlay = Overlay {
        fill: [20_000, 40_000, 60_000, fill_alpha],
        width,
        height,
        offsets: Vec::new(),
    };
    let mut inputs = Vec::new();
    for at in 0..count {
        let form = Form {
            chroma,
            depth,
            alpha: u8::from(at == 0 || !rng.once_in(8)),
        };
        let size = (rng.number(1..=side), rng.number(1..=side));
        let corner = |rng: &mut Rng, spread: u32| rng.within(-2..=i64::from(spread)) as i32;
        overlay
            .offsets
            .push((corner(rng, spread.0), corner(rng, spread.1)));
        inputs.push(OverlayInput {
            frame: frame_of(rng, size, form, false),
            premultiplied: rng.flag(),
        });
    }
    (overlay, inputs)
}

/// What the composer makes of a scene, from its body and its tray.
fn ours(overlay: &Overlay, inputs: &[OverlayInput], room: usize) -> Frame {
    let body = overlay_bytes(overlay, true);
    let frames: Vec<Frame> = inputs.iter().map(|input| input.frame.clone()).collect();
    let list: Vec<u8> = inputs
        .iter()
        .map(|input| input.premultiplied.into())
        .collect();
    let mut output = vec![0; room];
    let length = Linked.overlay(&body, &tray_bytes(&frames), &list, None, &mut output);
    let length = length.expect("the call").expect("a picture");
    parse_record(&output[..length]).expect("a record")
}

/// The scenes of one chroma, depth and fill alpha: the composer's picture is the model's and the Rust's.
fn compare(chroma: Chroma, depth: u8, fill_alpha: u16) {
    let mut rng = Rng::new(u64::from(depth) + u64::from(fill_alpha));
    // Where the source of the Rust is absent, the model alone.
    let sides = Sides::open();
    let canvas = (70, 50);
    for inputs in [
        // Few, and most of the canvas is the fill.
        (3, 9, (9, 40)),
        (12, 60, canvas),
        // Several blocks.
        (2_600, 4, canvas),
        // More than a list holds, at every place of a stripe.
        (1_300, 3, (2, 1)),
    ] {
        let (overlay, inputs) = scene(&mut rng, canvas, inputs, (chroma, depth, fill_alpha));
        let made = ours(&overlay, &inputs, 1 << 16);
        assert_eq!(
            composite_overlay(&overlay, &inputs, None).as_ref(),
            Ok(&made)
        );
        for (name, build) in sides.iter().flat_map(Sides::builds) {
            let theirs = build.composite_overlay(&overlay, &inputs, None).done();
            assert_eq!(theirs.as_ref(), Some(&made), "the {name} build");
        }
    }
}

#[test]
fn an_opaque_canvas_of_bytes() {
    compare(Chroma::Yuv444, 8, u16::MAX);
}

#[test]
fn an_opaque_canvas_of_two_bytes() {
    compare(Chroma::Yuv444, 10, u16::MAX);
}

#[test]
fn a_translucent_canvas_of_bytes() {
    compare(Chroma::Mono, 8, 30_000);
}

#[test]
fn a_translucent_canvas_of_two_bytes() {
    compare(Chroma::Yuv444, 16, 1_000);
}

#[test]
fn inputs_that_are_promoted() {
    compare(Chroma::Yuv420, 9, u16::MAX);
    compare(Chroma::Yuv422, 8, 0);
}
