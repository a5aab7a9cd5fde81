//! Document 01's worked cases and the errors it shuts out, on the published Rust.

mod common;

use common::{bytes, on_each_build};
use differential::expected::{self, Stop, Want};
use model::refusal::{MISSING, NOT_WHOLE, OUTSIDE, ZERO_DENOMINATOR};
use model::{
    Chroma, Clap, Colour, Entry, Frame, Grid, Iscl, Oracle, Outcome, Overlay, OverlayInput,
    Property, Rectangle, SceneParts, chain_bytes, parse_record, tray_bytes,
};

/// A picture that must come.
fn done<T>(outcome: Outcome<T>) -> T {
    match outcome {
        Outcome::Done(answer) => answer,
        Outcome::Error(text) | Outcome::Panic(text) => panic!("{text}"),
    }
}

/// The edge of a clap across a picture 64 wide, or its refusal.
fn edge(oracle: &dyn Oracle, (n, d): (u32, u32), (off_n, off_d): (i32, u32)) -> Want<u32> {
    let clap = Clap::from_fields([n, d, 1, 1, off_n.cast_unsigned(), off_d, 0, 1]);
    expected::settle(oracle.resolve_clap(&clap, 64, 1)).map(|rectangle| rectangle.x)
}

#[test]
fn clap_edges() {
    let [not_whole, outside] = [NOT_WHOLE, OUTSIDE].map(|refusal| Err(Stop::Refused(refusal)));
    on_each_build(|oracle| {
        assert_eq!(edge(oracle, (62, 1), (0, 1)), Ok(1));
        assert_eq!(edge(oracle, (63, 1), (0, 1)), not_whole);
        assert_eq!(edge(oracle, (63, 1), (1, 2)), Ok(1));
        assert_eq!(edge(oracle, (63, 1), (-1, 2)), Ok(0));
        assert_eq!(edge(oracle, (64, 1), (1, 1)), outside);
        assert_eq!(edge(oracle, (3, 2), (0, 1)), not_whole);
        assert_eq!(edge(oracle, (0, 1), (0, 1)), outside);
    });
}

#[test]
fn clap_judges_the_width_wholly_before_the_height() {
    on_each_build(|oracle| {
        let refusal = |fields| {
            expected::settle(oracle.resolve_clap(&Clap::from_fields(fields), 64, 64)).unwrap_err()
        };
        // The width's edge is outside (9), the height's denominator is 0 (7).
        assert_eq!(refusal([64, 1, 1, 0, 1, 1, 0, 0]), Stop::Refused(OUTSIDE));
        assert_eq!(
            refusal([64, 1, 1, 0, 0, 1, 0, 0]),
            Stop::Refused(ZERO_DENOMINATOR)
        );
    });
}

#[test]
fn iscl_rounds_up() {
    on_each_build(|oracle| {
        let half = Iscl::from_fields([1, 2, 1, 1]);
        assert_eq!(done(oracle.iscl_size(&half, 5, 1)), (3, 1));
    });
}

#[test]
fn area_rows() {
    on_each_build(|oracle| {
        let row = |samples: &[u16], width| {
            let frame = Frame::mono(samples.len() as u32, 1, samples);
            done(oracle.resize_area(&frame, width, 1)).samples(0)
        };
        assert_eq!(row(&[0, 100], 4), [0, 25, 75, 100]);
        assert_eq!(row(&[0, 30, 60], 2), [10, 50]);
    });
}

#[test]
fn depth_16_to_8() {
    on_each_build(|oracle| {
        let frame = Frame::tight((1, 1), Chroma::Mono, 16, 0, &[&[32_768]]);
        assert_eq!(done(oracle.rescale_depth(&frame, 8)).samples(0), [128]);
    });
}

/// A mono overlay of one input at (0, 0) on a 1 × 1 canvas.
fn overlay(oracle: &dyn Oracle, fill: [u16; 4], frame: Frame, premultiplied: bool) -> Frame {
    let descriptor = Overlay {
        fill,
        width: 1,
        height: 1,
        offsets: vec![(0, 0)],
    };
    let input = OverlayInput {
        frame,
        premultiplied,
    };
    done(oracle.composite_overlay(&descriptor, &[input], None))
}

/// A mono pixel of depth 8 with alpha.
fn pixel(sample: u16, alpha: u16) -> Frame {
    Frame::tight((1, 1), Chroma::Mono, 8, 1, &[&[sample], &[alpha]])
}

#[test]
fn fill_alpha() {
    on_each_build(|oracle| {
        for (fill, alpha) in [(128, 0), (129, 1)] {
            // An input of alpha 0 leaves fill and fill alpha.
            let picture = overlay(oracle, [0, 0, 0, fill], pixel(200, 0), false);
            assert_eq!(picture.samples(1), [alpha]);
        }
        let opaque = overlay(oracle, [0, 0, 0, 65_535], pixel(200, 0), false);
        assert_eq!(opaque.alpha, 0);
    });
}

#[test]
fn fill_red() {
    on_each_build(|oracle| {
        let red = [65_535, 0, 0];
        let matrix_6 = Colour {
            matrix: 6,
            full_range: true,
        };
        for colour in [None, Some(matrix_6)] {
            assert_eq!(done(oracle.fill_to_ycbcr(red, 8, colour)), [76, 85, 255]);
        }
    });
}

#[test]
fn blends() {
    on_each_build(|oracle| {
        let black = [0, 0, 0, 65_535];
        let sample =
            |premultiplied| overlay(oracle, black, pixel(200, 128), premultiplied).samples(0);
        assert_eq!(sample(false), [100]);
        assert_eq!(sample(true), [200]);
    });
}

/// The grid example's body and tiles.
fn grid_example() -> (Vec<u8>, Vec<Frame>) {
    let tiles = [[1, 2, 3, 4], [5, 6, 7, 8]].map(|samples| Frame::mono(2, 2, &samples));
    (bytes("00 00 00 01 00 04 00 02"), tiles.to_vec())
}

#[test]
fn grid_example_composes_and_turns() {
    let (body, tiles) = grid_example();
    let tray = tray_bytes(&tiles);
    let turn = Entry::new(true, Property::Irot(1));
    on_each_build(|oracle| {
        let scene = |chain: &[Entry]| {
            let parts = SceneParts {
                body: &body,
                tray: &tray,
                chain: &chain_bytes(chain),
                essential_only: false,
            };
            expected::grid_scene(oracle, &parts).expect("a scene")
        };
        let unturned = scene(&[]);
        let picture = parse_record(&unturned.record).expect("a record");
        assert_eq!(picture.samples(0), [1, 2, 5, 6, 3, 4, 7, 8]);
        assert_eq!((unturned.record.len(), unturned.room), (15, 15));
        let turned = parse_record(&scene(&[turn]).record).expect("a record");
        assert_eq!(turned.samples(0)[..2], [6, 8]);
    });
}

/// A tight 3 × 3 picture of 4:2:0, luma 0 to 8, Cb 10 to 13, Cr 20 to 23.
fn odd_picture() -> Frame {
    let luma: Vec<u16> = (0..9).collect();
    let planes: [&[u16]; 3] = [&luma, &[10, 11, 12, 13], &[20, 21, 22, 23]];
    Frame::tight((3, 3), Chroma::Yuv420, 8, 0, &planes)
}

#[test]
fn mirroring_odd_420_does_not_promote() {
    on_each_build(|oracle| {
        let mirrored = done(oracle.apply_imir(&odd_picture(), 1));
        assert_eq!(mirrored.chroma, Chroma::Yuv420);
        assert_eq!(mirrored.samples(0), [2, 1, 0, 5, 4, 3, 8, 7, 6]);
        assert_eq!(mirrored.samples(1), [11, 10, 13, 12]);
    });
}

#[test]
fn turns_are_anticlockwise_and_promote_odd_420() {
    on_each_build(|oracle| {
        let turned = done(oracle.apply_irot(&odd_picture(), 1));
        assert_eq!(turned.chroma, Chroma::Yuv444);
        assert_eq!(turned.samples(0), [2, 5, 8, 1, 4, 7, 0, 3, 6]);
        assert_eq!(turned.samples(1), [11, 11, 13, 10, 10, 12, 10, 10, 12]);
        assert_eq!(done(oracle.apply_irot(&odd_picture(), 4)), odd_picture());
    });
}

#[test]
fn crops_promote_on_odd_edges() {
    on_each_build(|oracle| {
        let corner = |x, width| {
            let rectangle = Rectangle {
                x,
                y: 0,
                width,
                height: 2,
            };
            done(oracle.crop(&odd_picture(), &rectangle))
        };
        assert_eq!(corner(0, 2).chroma, Chroma::Yuv420);
        assert_eq!(corner(1, 2).chroma, Chroma::Yuv444);
        assert_eq!(corner(1, 2).samples(1), [10, 11, 10, 11]);
    });
}

#[test]
fn attached_alpha_keeps_what_is_not_resampled() {
    let mut master = Frame::mono(2, 1, &[1, 2]);
    master.planes[0].data.extend([9, 9]);
    let mut alpha = Frame::mono(2, 1, &[3, 4]);
    alpha.planes[0].stride = 5;
    on_each_build(|oracle| {
        let kept = done(oracle.attach_alpha(&master, &alpha));
        assert_eq!(
            kept.planes,
            [master.planes[0].clone(), alpha.planes[0].clone()]
        );
        let resized = done(oracle.attach_alpha(&master, &Frame::mono(1, 1, &[3])));
        assert_eq!(resized.planes[0], master.planes[0]);
        assert_eq!(resized.planes[1].stride, 2);
        assert_eq!(resized.samples(1), [3, 3]);
    });
}

#[test]
fn a_session_holds_the_canvas_between_calls() {
    let grid = Grid::row(2, 4, 1);
    let plain = Frame::mono(2, 1, &[1, 2]);
    let alpha = Frame::tight((2, 1), Chroma::Mono, 8, 1, &[&[3, 4], &[5, 6]]);
    on_each_build(|oracle| {
        let mut session = oracle.canvas(&grid);
        assert_eq!(
            expected::settle(session.place_blank(0)),
            Err(Stop::Refused(MISSING))
        );
        assert_eq!(session.state().canvas, None);
        assert_eq!(session.place(0, &plain), Outcome::Done(()));
        let state = session.state();
        assert_eq!(state.placed, [true, false]);
        let buffer = expected::canvas_buffer(&state).expect("a canvas");
        assert_eq!(buffer, bytes("0401000800 0404 01020000 0404 ffffffff"));
        assert_eq!(session.place(1, &alpha), Outcome::Done(()));
        let buffer = expected::canvas_buffer(&session.state()).expect("a canvas");
        assert_eq!(buffer, bytes("0401000801 0404 01020304 0404 ffff0506"));
        // A tile without alpha, and a blank where the first tile had none, leave the alpha there.
        assert_eq!(session.place(1, &plain), Outcome::Done(()));
        assert_eq!(session.place_blank(0), Outcome::Done(()));
        let canvas = done(session.finish());
        assert_eq!(
            canvas.record(),
            bytes("0401000801 0404 80800102 0404 ffff0506")
        );
    });
}
