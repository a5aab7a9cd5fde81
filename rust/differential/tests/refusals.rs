//! The published Rust's error texts as document 01's refusals, which are of no item.

mod common;

use common::{bytes, on_each_build};
use differential::damage::{BodyFault, faulty_body, first_refusal, triples};
use differential::expected::{Stop, Want, settle};
use differential::rng::Rng;
use model::{
    Chroma, Clap, Entry, Frame, Grid, Iscl, Overlay, OverlayInput, Property, Rectangle, Refusal,
};

fn assert_refused<T: std::fmt::Debug + PartialEq>(want: Want<T>, number: u8) {
    assert_eq!(want, Err(Stop::Refused(Refusal::new(number))));
}

#[test]
fn descriptors() {
    on_each_build(|oracle| {
        for (body, number) in [
            ("", 1),
            ("01", 2),
            ("00 01 00 00 00000001 000000", 1),
            ("00 00 00 00 0000 0001", 3),
            ("00 01 00 00 00010000 00004001", 4),
        ] {
            assert_refused(settle(oracle.parse_grid(&bytes(body))), number);
        }
        let fill = "0000 0000 0000 0000";
        for (body, inputs, number) in [
            ("".into(), 1, 1),
            ("01".into(), 1, 2),
            (format!("00 00 {fill} 0001 00"), 1, 1),
            (format!("00 00 {fill} 0001 0000"), 1, 3),
            (format!("00 01 {fill} 40000001 00000001"), 1, 4),
            (format!("00 00 {fill} 0001 0001"), 65_537, 4),
            (format!("00 00 {fill} 0001 0001 0000 00"), 1, 1),
        ] {
            assert_refused(settle(oracle.parse_overlay(&bytes(&body), inputs)), number);
        }
    });
}

#[test]
fn faulty_bodies_have_the_first_faults_number() {
    on_each_build(|oracle| {
        let mut rng = Rng::new(1);
        for faults in triples::<BodyFault>() {
            let number = first_refusal(&faults).number;
            for _ in 0..5 {
                let (body, inputs) = faulty_body(&mut rng, &faults, true);
                assert_refused(settle(oracle.parse_overlay(&body, inputs)), number);
                if faults.iter().all(|fault| fault.in_grid()) {
                    let (body, _) = faulty_body(&mut rng, &faults, false);
                    assert_refused(settle(oracle.parse_grid(&body)), number);
                }
            }
        }
    });
}

#[test]
fn frames_and_single_operations() {
    let frame = Frame::mono(2, 2, &[1, 2, 3, 4]);
    let outside = Rectangle {
        x: 1,
        y: 0,
        width: 2,
        height: 1,
    };
    on_each_build(|oracle| {
        let mut broken = frame.clone();
        broken.planes[0].stride = 1;
        assert_refused(settle(oracle.validate(&broken)), 5);
        broken.planes[0].stride = 3;
        assert_refused(settle(oracle.validate(&broken)), 5);
        broken.planes.clear();
        assert_refused(settle(oracle.validate(&broken)), 5);
        assert_refused(settle(oracle.crop(&frame, &outside)), 9);
        assert_refused(settle(oracle.rescale_depth(&frame, 7)), 6);
        assert_refused(settle(oracle.resize_nearest(&frame, 0, 1)), 3);
        assert_refused(settle(oracle.resize_nearest(&frame, 1 << 30, 2)), 4);
        for (fields, number) in [
            ([0, 1, 1, 1], 7),
            ([1, 1, 1, 0], 7),
            ([65_535, 1, 1, 1], 10),
        ] {
            let size = oracle.iscl_size(&Iscl::from_fields(fields), 1 << 30, 1);
            assert_refused(settle(size), number);
        }
        for (fields, number) in [
            ([2, 0, 2, 1, 0, 1, 0, 1], 7),
            ([2, 1, 2, 1, 0, 1, 0, 0], 7),
            ([3, 2, 2, 1, 0, 1, 0, 1], 8),
            ([3, 1, 2, 1, 0, 1, 0, 1], 9),
            ([1, 1, 2, 1, 0, 1, 0, 1], 8),
            ([2, 1, 2, 1, 0, 1, 1, 1], 9),
        ] {
            let clap = Clap::from_fields(fields);
            assert_refused(settle(oracle.apply_clap(&frame, &clap)), number);
            let entry = Entry::new(true, Property::Clap(clap));
            assert_refused(
                settle(oracle.apply_transforms(&frame, &[entry], true)),
                number,
            );
        }
    });
}

#[test]
fn grids_and_sessions() {
    let grid = Grid::row(2, 4, 1);
    let tile = Frame::mono(2, 1, &[1, 2]);
    let short = Frame::mono(1, 1, &[1]);
    let deep = Frame::tight((2, 1), Chroma::Mono, 9, 0, &[&[1, 2]]);
    on_each_build(|oracle| {
        let compose = |tiles: &[&Frame]| {
            let tiles: Vec<Frame> = tiles.iter().copied().cloned().collect();
            settle(oracle.composite_grid(&grid, &tiles))
        };
        assert_refused(compose(&[&tile]), 11);
        assert_refused(compose(&[&short, &tile]), 12);
        assert_refused(compose(&[&tile, &short]), 13);
        assert_refused(compose(&[&tile, &deep]), 14);
        let mut session = oracle.canvas(&grid);
        assert_refused(settle(session.place_blank(9)), 15);
        assert_refused(settle(session.place(2, &tile)), 11);
        assert_eq!(settle(session.place(1, &tile)), Ok(()));
        assert_refused(settle(session.place_blank(2)), 11);
        assert_refused(settle(session.finish()), 15);
    });
}

#[test]
fn overlays() {
    let tile = Frame::mono(2, 1, &[1, 2]);
    let deep = Frame::tight((2, 1), Chroma::Mono, 9, 0, &[&[1, 2]]);
    on_each_build(|oracle| {
        let compose = |frames: &[&Frame]| {
            let overlay = Overlay {
                fill: [0; 4],
                width: 1,
                height: 1,
                offsets: vec![(0, 0); frames.len()],
            };
            let input = |frame: &&Frame| OverlayInput {
                frame: (*frame).clone(),
                premultiplied: false,
            };
            let inputs: Vec<OverlayInput> = frames.iter().map(input).collect();
            settle(oracle.composite_overlay(&overlay, &inputs, None))
        };
        assert_refused(compose(&[]), 15);
        assert_refused(compose(&[&tile, &deep]), 14);
    });
}
