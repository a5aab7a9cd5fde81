//! The crate `compose` in oxideav-heif's place: the same calls on the same frames give the same
//! pictures and, where it refuses, the number that its text counts as and the entry of the chain.

mod common;

use common::{bytes, on_each_build};
use compose::props::{self, Clap, CropRect, Imir, Irot, Property, PropertyEntry};
use compose::{
    Chroma, HeifFrame, HeifPixelFormat, Plane, RecordFrame, Refusal, apply_clap, apply_imir,
    apply_irot, apply_transforms, apply_transforms_owned, chain, crop, crop_with_margins,
    operation, recorded, resize_area,
};
use differential::damage::broken_crops;
use differential::generate;
use differential::rng::Rng;
use differential::shaped::{self, heif, hold, hold_to};
use model::{Crop, Frame, Operation, Rectangle, parse_record};

#[test]
fn operations_are_oxideav_heifs() {
    on_each_build(|oracle| {
        let mut rng = Rng::new(11);
        for _ in 0..3_000 {
            let frame = generate::frame(&mut rng);
            let (ours, size) = (heif(&frame), (frame.width, frame.height));

            let angle = generate::turn(&mut rng, 3);
            let turned = apply_irot(&ours, &Irot::new(angle));
            hold(turned, oracle.apply_irot(&frame, angle), "irot");

            let to = (1 + rng.below(12) as u32, 1 + rng.below(12) as u32);
            let resized = resize_area(&ours, to.0, to.1);
            hold(resized, oracle.resize_area(&frame, to.0, to.1), "area");

            let axis = generate::turn(&mut rng, 1);
            let mirrored = apply_imir(&ours, &Imir::new(axis));
            hold(mirrored, oracle.apply_imir(&frame, axis), "imir");

            let (across, down) = (
                generate::span(&mut rng, size.0),
                generate::span(&mut rng, size.1),
            );
            let rectangle = Rectangle {
                x: across.0,
                y: down.0,
                width: across.1,
                height: down.1,
            };
            let cropped = crop(&ours, across.0, down.0, across.1, down.1);
            hold(cropped, oracle.crop(&frame, &rectangle), "crop");

            let clap = generate::clap(&mut rng, size);
            let aperture = shaped::clap(&clap);
            let cropped = apply_clap(&ours, &aperture);
            hold(cropped, oracle.apply_clap(&frame, &clap), "clap");
        }
    });
}

#[test]
fn frames_are_records_and_back() {
    let mut rng = Rng::new(12);
    for _ in 0..3_000 {
        let frame = generate::frame(&mut rng);
        let record = frame.record();
        assert_eq!(heif(&frame).to_record().as_ref(), Ok(&record));
        assert_eq!(HeifFrame::from_record(&record), Ok(heif(&frame)));
    }
}

/// A stride below a row, which the published Rust does not look at.
#[test]
fn a_record_is_judged_before_its_frame_is_made() {
    let short = HeifFrame::from_record(&bytes("02 01 00 08 00 02 01 05"));
    assert_eq!(short, Err(Refusal::MALFORMED));
    let deep = HeifFrame::from_record(&bytes("01 01 00 11 00 02 02 05 00"));
    assert_eq!(deep, Err(Refusal::DEPTH));
}

#[test]
fn tight_copies_are_oxideav_heifs() {
    on_each_build(|oracle| {
        let mut rng = Rng::new(13);
        for _ in 0..500 {
            let frame = generate::frame(&mut rng);
            hold(Ok(heif(&frame).tight()), oracle.tight(&frame), "tight");
        }
    });
}

#[test]
fn samples_and_rows_are_the_models() {
    let mut rng = Rng::new(14);
    for _ in 0..300 {
        let frame = generate::frame(&mut rng);
        let mut ours = heif(&frame);
        for plane in 0..frame.plane_count() {
            let (width, height) = ours.plane_dims(plane);
            assert_eq!((width, height), frame.plane_size(plane));
            let samples: Vec<u16> = (0..height)
                .flat_map(|y| (0..width).map(move |x| (x, y)))
                .map(|(x, y)| ours.sample(plane, x, y))
                .collect();
            assert_eq!(samples, frame.samples(plane));
            let (x, y) = (rng.number(0..=width - 1), rng.number(0..=height - 1));
            ours.set_sample(plane, x, y, 77);
            assert_eq!(ours.sample(plane, x, y), 77);
            assert_eq!(ours.row(plane, y).len(), frame.row_bytes(plane));
        }
    }
}

#[test]
fn alpha_planes_come_off() {
    let mut rng = Rng::new(15);
    for _ in 0..300 {
        let frame = generate::frame(&mut rng);
        let ours = heif(&frame);
        let colour = frame.chroma.colour_planes();
        assert_eq!(ours.without_alpha().planes, ours.planes[..colour]);
        let alpha = ours.alpha_as_frame();
        assert_eq!(alpha.is_some(), frame.alpha == 1);
        if let Some(alpha) = alpha {
            assert_eq!(alpha.planes, ours.planes[colour..]);
            assert_eq!(alpha.validate(), Ok(()));
        }
        assert_eq!(ours.without_alpha().validate(), Ok(()));
    }
}

/// A small frame whose fields a test may spoil.
fn small() -> HeifFrame {
    let format = HeifPixelFormat::new(Chroma::Yuv420, 10, true).expect("a depth");
    HeifFrame::filled(3, 3, format, 512).expect("a frame")
}

#[test]
fn frames_that_no_record_holds_are_refused() {
    let no_depth = small().format.with_bit_depth(17);
    for (spoilt, refusal) in [
        (small().with_width(0), Refusal::EMPTY),
        (small().with_width(1 << 31), Refusal::LIMIT),
        (small().with_height(4), Refusal::MALFORMED),
        (small().with_format(no_depth), Refusal::DEPTH),
        (small().with_planes(Vec::new()), Refusal::MALFORMED),
        (
            small().with_format(small().format.without_alpha()),
            Refusal::MALFORMED,
        ),
        (
            small().with_planes(vec![Plane::new(usize::MAX, vec![0; 9]); 4]),
            Refusal::MALFORMED,
        ),
    ] {
        assert_eq!(spoilt.validate(), Err(refusal), "{spoilt:?}");
        assert_eq!(apply_imir(&spoilt, &Imir::new(0)), Err(refusal));
    }
    assert_eq!(small().validate(), Ok(()));
    assert_eq!(
        HeifFrame::zeroed(1 << 16, 1 << 15, small().format),
        Err(Refusal::LIMIT)
    );
    assert_eq!(HeifFrame::zeroed(0, 1, small().format), Err(Refusal::EMPTY));
    assert_eq!(
        HeifPixelFormat::new(Chroma::Mono, 7, false),
        Err(Refusal::DEPTH)
    );
}

/// A chain on a frame: the whole of `apply_transforms`, and its limit, which is added.
#[test]
fn chains_are_oxideav_heifs() {
    on_each_build(|oracle| {
        let mut rng = Rng::new(12);
        for _ in 0..2_000 {
            let frame = generate::frame(&mut rng);
            let chain = generate::chain(&mut rng, (frame.width, frame.height));
            let entries = chain::entries(&model::chain_bytes(&chain)).expect("a chain");
            for essential_only in [false, true] {
                let want = shaped::apply_transforms(oracle, &frame, &chain, essential_only);
                let ours = apply_transforms(&heif(&frame), &entries, essential_only);
                hold_to(ours, want.clone(), "apply_transforms");
                let ours = apply_transforms_owned(heif(&frame), &entries, essential_only);
                hold_to(ours, want, "apply_transforms_owned");
            }
        }
    });
    let frame = heif(&Frame::mono(1, 1, &[7]));
    let other = PropertyEntry::new(1, false, Property::Other);
    assert_eq!(
        apply_transforms(&frame, &[other; 256], true),
        Ok(frame.clone())
    );
    for essential_only in [false, true] {
        let long = apply_transforms(&frame, &[other; 257], essential_only);
        assert_eq!(long, Err(Refusal::LIMIT));
        let long = apply_transforms_owned(frame.clone(), &[other; 257], essential_only);
        assert_eq!(long, Err(Refusal::LIMIT));
    }
}

/// A crop with the margins of its rectangle is the rectangle's, on frames of planes, on records and on
/// frames over records; one that does not fit is refused by each.
#[test]
fn crops_with_margins() {
    let mut rng = Rng::new(17);
    for _ in 0..1_000 {
        let frame = generate::frame(&mut rng);
        let (planes, record) = (heif(&frame), frame.record());
        let over = RecordFrame::from_record(&record).expect("a record");
        let size = (frame.width, frame.height);
        let (x, width) = generate::span(&mut rng, size.0);
        let (y, height) = generate::span(&mut rng, size.1);
        let rectangle = Rectangle {
            x,
            y,
            width,
            height,
        };
        let to = Crop::of(rectangle, size);
        let ours = shaped::crop(&to);
        assert_eq!(props::Crop::of(ours.rect, size.0, size.1), ours);
        let part = crop(&planes, x, y, width, height);
        assert_eq!(ours.fits(size.0, size.1), part.is_ok());
        assert_eq!(crop_with_margins(&planes, &ours), part);
        let part = operation::crop(&record, x, y, width, height);
        assert_eq!(operation::crop_with_margins(&record, &ours), part);
        let part = recorded::crop(&over, x, y, width, height);
        assert_eq!(recorded::crop_with_margins(&over, &ours), part);
        for broken in broken_crops(&to, size) {
            let broken = shaped::crop(&broken);
            assert!(!broken.fits(size.0, size.1), "{broken:?}");
            let outside = Refusal::OUTSIDE;
            assert_eq!(crop_with_margins(&planes, &broken), Err(outside));
            let part = operation::crop_with_margins(&record, &broken);
            assert_eq!(part, Err(outside));
            assert_eq!(recorded::crop_with_margins(&over, &broken), Err(outside));
        }
    }
}

/// A rectangle's aperture resolves to the rectangle.
#[test]
fn apertures_for_rectangles() {
    let mut rng = Rng::new(16);
    for _ in 0..1_000 {
        let frame = generate::frame(&mut rng);
        let span = |rng: &mut Rng, side: u32| {
            let start = rng.number(0..=side - 1);
            (start, rng.number(1..=side - start))
        };
        let (across, down) = (span(&mut rng, frame.width), span(&mut rng, frame.height));
        let rect = CropRect {
            x: across.0,
            y: down.0,
            width: across.1,
            height: down.1,
        };
        let clap = Clap::for_rect(frame.width, frame.height, rect);
        let rectangle = Rectangle {
            x: rect.x,
            y: rect.y,
            width: rect.width,
            height: rect.height,
        };
        let want = Operation::Crop(Crop::of(rectangle, (frame.width, frame.height)))
            .apply(&frame)
            .expect("a rectangle inside");
        let made = apply_clap(&heif(&frame), &clap).expect("a rectangle inside");
        let made = made.to_record().expect("a record");
        assert_eq!(parse_record(&made), Ok(want));
    }
}
