//! Crops, turns, mirrors and fills of the composer, held to the model: every small picture, every
//! rectangle of it, every flag byte. The published Rust is not needed here.

use compose::sys;
use differential::damage::broken_crops;
use differential::generate::{self, Form};
use differential::ours::{BEFORE, Composer, Linked, fills, writes};
use differential::rng::Rng;
use model::refusal::OUTSIDE;
use model::{
    Chroma, Clap, Colour, Crop, Frame, Operation, Rectangle, Refusal, fill_samples, parse_record,
};

/// Holds the composer to the model: the number, the length, each byte, and what is left alone.
fn hold(frame: &Frame, operation: Operation) {
    let record = frame.record();
    let want = operation.apply(frame).map(|made| made.record());
    let departs = writes(&want, |output| {
        Linked.operation(&record, &operation, output)
    });
    assert_eq!(departs, None, "{operation:?} of {frame:?}");
}

/// Every picture with sides of 1 to `most`: every chroma, with alpha and without, of one byte a
/// sample and of two, with padding and spare bytes as they fall.
fn small_frames(most: u32) -> Vec<Frame> {
    let mut rng = Rng::new(7);
    let mut frames = Vec::new();
    for chroma in Chroma::ALL {
        for (alpha, depth) in [(0, 8), (1, 8), (0, 11), (1, 16)] {
            let form = Form {
                chroma,
                depth,
                alpha,
            };
            for size in (1..=most).flat_map(|width| (1..=most).map(move |height| (width, height))) {
                frames.push(generate::frame_of(&mut rng, size, form, true));
            }
        }
    }
    frames
}

/// Each start and length along a side, up to one past its end.
fn spans(side: u32) -> Vec<(u32, u32)> {
    let starts = 0..=side;
    starts
        .flat_map(|start| (0..=side + 1 - start).map(move |length| (start, length)))
        .collect()
}

#[test]
fn every_rectangle_of_every_small_picture() {
    for frame in small_frames(4) {
        for (x, width) in spans(frame.width) {
            for (y, height) in spans(frame.height) {
                let rectangle = Rectangle {
                    x,
                    y,
                    width,
                    height,
                };
                let crop = Crop::of(rectangle, (frame.width, frame.height));
                hold(&frame, Operation::Crop(crop));
            }
        }
    }
}

/// Each rectangle in a picture, with its margins.
fn crops(size: (u32, u32)) -> Vec<Crop> {
    let inside = |side: u32| {
        let spans = spans(side).into_iter();
        spans.filter(move |(start, length)| *length > 0 && start + length <= side)
    };
    let mut crops = Vec::new();
    for (x, width) in inside(size.0) {
        for (y, height) in inside(size.1) {
            let rectangle = Rectangle {
                x,
                y,
                width,
                height,
            };
            crops.push(Crop::of(rectangle, size));
        }
    }
    crops
}

/// A crop that is 9, held to the model.
fn hold_broken(frame: &Frame, crop: Crop) {
    let operation = Operation::Crop(crop);
    assert_eq!(operation.apply(frame), Err(OUTSIDE), "{crop:?}");
    hold(frame, operation);
}

#[test]
fn margins_broken_in_each_way() {
    for frame in small_frames(3) {
        let size = (frame.width, frame.height);
        for crop in crops(size) {
            let broken = broken_crops(&crop, size);
            assert!(broken.len() >= 20, "{crop:?}: {}", broken.len());
            for crop in broken {
                hold_broken(&frame, crop);
            }
        }
    }
}

/// Of all margins about a rectangle just its own are taken.
#[test]
fn every_margin_of_a_small_picture() {
    let frame = Frame::mono(3, 2, &[1, 2, 3, 4, 5, 6]);
    for crop in crops((3, 2)) {
        let [x, y, width, height, ..] = crop.fields();
        let mut taken = 0;
        for at in 0..4u32.pow(4) {
            let [left, top, right, bottom] = [0, 2, 4, 6].map(|shift| at >> shift & 3);
            let fields = [x, y, width, height, left, top, right, bottom];
            match Crop::from_fields(fields) == crop {
                true => {
                    hold(&frame, Operation::Crop(crop));
                    taken += 1;
                }
                false => hold_broken(&frame, Crop::from_fields(fields)),
            }
        }
        assert_eq!(taken, 1);
    }
}

/// Along each axis sums that come to the side modulo 2^32 alone.
#[test]
fn margins_that_add_up_in_32_bits_alone() {
    const MOST: u32 = u32::MAX;
    let frame = Frame::mono(4, 4, &[7; 16]);
    for [edge, size, behind] in [
        [MOST, 2, 3],
        [MOST, MOST, 6],
        [MOST, 1, 4],
        [2, MOST, 3],
        [0, MOST, 5],
        [1 << 31, 1 << 31, 4],
        [1 << 31, 2, (1 << 31) + 2],
        [1, 1 << 31, (1 << 31) + 3],
        [1, 4, MOST],
        [0, 5, MOST],
        [4, 4, MOST - 3],
    ] {
        assert_eq!(edge.wrapping_add(size).wrapping_add(behind), 4);
        let across = Crop::from_fields([edge, 1, size, 2, edge, 1, behind, 1]);
        let down = Crop::from_fields([1, edge, 2, size, 1, edge, 1, behind]);
        for crop in [across, down] {
            hold_broken(&frame, crop);
        }
    }
}

/// The record is judged first, then the crop, then the room; and then nothing is written.
#[test]
fn crops_refuse_in_their_order() {
    let right = Crop::from_fields([0, 0, 1, 1, 0, 0, 1, 0]);
    let broken = Crop::from_fields([0, 0, 1, 1, 0, 0, 0, 1]);
    let record = Frame::mono(2, 1, &[1, 2]).record();
    let mut shallow = record.clone();
    shallow[3] = 7;
    let mut empty = record.clone();
    empty[0] = 0;
    for (record, crop, room, number) in [
        (&record[..8], right, 0, 5),
        (&record[..8], broken, 0, 5),
        (&[], broken, 99, 5),
        (&shallow, broken, 0, 6),
        (&empty, broken, 99, 3),
        (&record, broken, 0, 9),
        (&record, broken, 99, 9),
        (&record, right, 0, 17),
        (&record, right, 7, 17),
    ] {
        let mut output = vec![BEFORE; room];
        let answer = Linked.operation(record, &Operation::Crop(crop), &mut output);
        let refused = Some(Err(Refusal::new(number)));
        assert_eq!(answer, refused, "{crop:?} of {record:?}");
        assert_eq!(output, vec![BEFORE; room]);
    }
}

#[test]
fn every_turn_and_mirror_of_every_small_picture() {
    for frame in small_frames(6) {
        for turns in 0..8 {
            hold(&frame, Operation::Irot(turns));
            hold(&frame, Operation::Imir(turns));
        }
    }
}

#[test]
fn every_angle_and_axis() {
    for frame in small_frames(2) {
        for byte in 0..=255 {
            hold(&frame, Operation::Irot(byte));
            hold(&frame, Operation::Imir(byte));
        }
    }
}

/// Apertures about the borders: sizes and offsets in thirds and halves, zeros, and the ends of the
/// 32-bit range.
#[test]
fn apertures_of_small_pictures() {
    let ends = [0, 1, 2, 3, 0x7fff_ffff, 0x8000_0000, 0xffff_fffe, u32::MAX];
    for side in 1..=3 {
        let frame = Frame::mono(side, 1, &[7; 3][..side as usize]);
        for n in ends {
            for d in ends {
                for off_n in ends {
                    for off_d in ends {
                        let across = [n, d, 1, 1, off_n, off_d, 0, 1];
                        let clap = Clap::from_fields(across);
                        hold(&frame, Operation::Clap(clap));
                    }
                }
            }
        }
    }
}

#[test]
fn apertures_judge_the_width_wholly_before_the_height() {
    let frame = Frame::mono(2, 2, &[1, 2, 3, 4]);
    // Each axis: fine, then its refusals 7, 8, 9, 8, 9 in their order.
    let axes = [
        ([2, 1, 0, 1], None),
        ([2, 0, 0, 1], Some(7)),
        ([2, 1, 0, 0], Some(7)),
        ([3, 2, 0, 1], Some(8)),
        ([3, 1, 0, 1], Some(9)),
        ([0, 1, 0, 1], Some(9)),
        ([1, 1, 0, 1], Some(8)),
        ([2, 1, 1, 1], Some(9)),
        ([2, 1, u32::MAX, 1], Some(9)),
    ];
    for (across, first) in axes {
        for (down, second) in axes {
            let fields = [
                across[0], across[1], down[0], down[1], across[2], across[3], down[2], down[3],
            ];
            let clap = Clap::from_fields(fields);
            let refusal = first.or(second).map(Refusal::new);
            assert_eq!(clap.resolve(2, 2).err(), refusal, "{fields:?}");
            hold(&frame, Operation::Clap(clap));
        }
    }
}

/// A picture whose sides are as long as L allows, of few bytes a row.
#[test]
fn a_side_of_2_to_the_20() {
    let samples = vec![9; 1 << 20];
    for frame in [
        Frame::mono(1 << 20, 1, &samples),
        Frame::mono(1, 1 << 20, &samples),
    ] {
        hold(&frame, Operation::Irot(1));
        hold(&frame, Operation::Imir(0));
    }
}

#[test]
fn what_is_written_is_a_tight_record() {
    for frame in small_frames(3) {
        let mut output = vec![0; 2_000];
        let length = sys::compose_imir(&frame.record(), 1, &mut output).expect("a record");
        let made = parse_record(&output[..length as usize]).expect("a record");
        for (plane, at) in made.planes.iter().zip(0..) {
            assert_eq!(plane.stride, made.row_bytes(at));
            assert_eq!(plane.data.len(), made.data_needed(at, plane.stride));
        }
    }
}

/// Holds a fill of the composer to the model.
fn hold_fill(channels: [u16; 3], depth: u32, colour: Option<Colour>) {
    let want = fill_samples(channels, depth, colour);
    let departs = fills(&want, |words| Linked.fill(channels, depth, colour, words));
    assert_eq!(departs, None, "{channels:?} {depth} {colour:?}");
}

#[test]
fn corners_of_the_colour_cube() {
    let ends = [0, 1, 32_767, 32_768, 65_534, 65_535];
    for matrix in (0..=12).chain([255, 256, 65_535]) {
        for full_range in [false, true] {
            for depth in (0..=20).chain([24, 32, 255, 256, 264, u32::MAX]) {
                for red in ends {
                    for green in ends {
                        for blue in ends {
                            let colour = Colour { matrix, full_range };
                            hold_fill([red, green, blue], depth, Some(colour));
                        }
                    }
                }
            }
        }
    }
}

#[test]
fn every_matrix_number() {
    for matrix in 0..=u16::MAX {
        for full_range in [false, true] {
            let colour = Colour { matrix, full_range };
            hold_fill([65_535, 30_000, 100], 10, Some(colour));
        }
    }
}

/// The samples of a fill by its three words of colour.
fn fill_by_words(colour: u8, matrix: u16, full_range: u8) -> [u16; 3] {
    let mut words = [0; 3];
    sys::compose_fill(65_535, 7, 40_000, 9, colour, matrix, full_range, &mut words)
        .expect("a depth of 9");
    words
}

#[test]
fn colour_words_are_none_or_any() {
    for byte in 1..=255 {
        assert_eq!(fill_by_words(byte, 1, 0), fill_by_words(1, 1, 0));
        assert_eq!(fill_by_words(1, 1, byte), fill_by_words(1, 1, 1));
        // With no description matrix and range say nothing.
        assert_eq!(
            fill_by_words(0, u16::from(byte), byte),
            fill_by_words(1, 6, 1)
        );
    }
    assert_ne!(fill_by_words(1, 1, 0), fill_by_words(1, 1, 1));
}

/// A figure of H.273 as a fraction of whole numbers, held to 0 and top, is less than one step away.
#[test]
fn fills_are_less_than_a_step_from_the_papers_figures() {
    let mut rng = Rng::new(3);
    for _ in 0..200_000 {
        let channels = generate::fill(&mut rng);
        let depth = rng.number(8..=16);
        let matrix = rng.number(1..=12) as u16;
        let full_range = rng.flag();
        let mut words = [0; 3];
        let range = u8::from(full_range);
        let [red, green, blue] = channels;
        sys::compose_fill(red, green, blue, depth, 1, matrix, range, &mut words)
            .expect("a depth of 8 to 16");
        let figures = figures(channels, depth, matrix, full_range);
        for (sample, (above, below)) in words.into_iter().zip(figures) {
            let top = (1 << depth) - 1;
            let (above, below) = if above < 0 {
                (0, 1)
            } else if above > top * below {
                (top, 1)
            } else {
                (above, below)
            };
            let away = (i128::from(sample) * below - above).abs();
            assert!(away < below, "{channels:?} {depth} {matrix} {full_range}");
        }
    }
}

/// H.273's luma, Cb and Cr before rounding, each as a fraction, with weights in ten-thousandths.
fn figures(channels: [u16; 3], depth: u32, matrix: u16, full_range: bool) -> [(i128, i128); 3] {
    let (of_red, of_blue) = match matrix {
        1 => (2_126, 722),
        4 => (3_000, 1_100),
        7 => (2_120, 870),
        9 | 10 => (2_627, 593),
        _ => (2_990, 1_140),
    };
    let of_green = 10_000 - of_red - of_blue;
    let [red, green, blue] = channels.map(i128::from);
    // Of 10,000 × 65,535.
    let luma = of_red * red + of_green * green + of_blue * blue;
    // Of 2 × (10,000 − weight) × 65,535.
    let chroma = |channel: i128, weight: i128| {
        let above = 10_000 * channel - luma;
        (above, 2 * (10_000 - weight) * 65_535)
    };
    let luma = (luma, 10_000 * 65_535);
    let (cb, cr) = (chroma(blue, of_blue), chroma(red, of_red));
    let (step, middle, top) = (1 << (depth - 8), 1 << (depth - 1), (1 << depth) - 1);
    let plus = |(above, below): (i128, i128), times: i128, more: i128| {
        (above * times + more * below, below)
    };
    if full_range {
        [
            plus(luma, top, 0),
            plus(cb, top, middle),
            plus(cr, top, middle),
        ]
    } else {
        [
            plus(luma, 219 * step, 16 * step),
            plus(cb, 224 * step, 128 * step),
            plus(cr, 224 * step, 128 * step),
        ]
    }
}
