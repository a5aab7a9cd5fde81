//! From depth 10 to 8 (document 02, A3): every sample of 16 bits, in pictures of few samples and of
//! many, and in alpha planes of the picture's size and of others, held to the rule and to the
//! published Rust.

#[allow(dead_code, reason = "no bytes are written out here")]
mod common;

use common::on_each_build;
use compose::sys;
use model::{Chroma, Frame, Outcome, parse_record};

/// The paper's rule: sample × 255 / 1,023 to the nearest whole number, held to 255.
fn level(sample: u16) -> u16 {
    let (sample, old, new) = (u32::from(sample), 1_023, 255);
    ((2 * sample * new + old) / (2 * old)).min(new) as u16
}

/// A picture of one plane at depth 10 that counts from a sample on, and from 65,535 to 0.
fn counting(size: (u32, u32), first: u16) -> Frame {
    let samples: Vec<u16> = (0..size.0 * size.1)
        .map(|place| first.wrapping_add(place as u16))
        .collect();
    Frame::tight(size, Chroma::Mono, 10, 0, &[&samples])
}

/// A picture of one plane at depth 8.
fn grey(size: (u32, u32)) -> Frame {
    let samples = vec![7; (size.0 * size.1) as usize];
    Frame::tight(size, Chroma::Mono, 8, 0, &[&samples])
}

/// The frame that a call writes.
fn written(call: impl Fn(&mut [u8]) -> compose::Result<u64>) -> Frame {
    let mut output = vec![0; 400_000];
    let length = call(&mut output).expect("a record");
    parse_record(&output[..length as usize]).expect("a record")
}

fn done(outcome: Outcome<Frame>) -> Frame {
    match outcome {
        Outcome::Done(frame) => frame,
        Outcome::Error(text) | Outcome::Panic(text) => panic!("{text}"),
    }
}

fn hold_depth(frame: &Frame) {
    let record = frame.record();
    let made = written(|output| sys::compose_rescale_depth(&record, 8, output));
    assert_eq!(
        (made.depth, made.width, made.height),
        (8, frame.width, frame.height)
    );
    let want: Vec<u16> = frame.samples(0).into_iter().map(level).collect();
    assert_eq!(made.samples(0), want, "{} × {}", frame.width, frame.height);
    on_each_build(|oracle| assert_eq!(done(oracle.rescale_depth(frame, 8)), made));
}

fn hold_attach(master: &Frame, alpha: &Frame) {
    let records = [master.record(), alpha.record()];
    let made = written(|output| sys::compose_attach_alpha(&records[0], &records[1], output));
    let samples = alpha.samples(0);
    let sample = |x: u32, y: u32| {
        let (x, y) = (
            x * alpha.width / master.width,
            y * alpha.height / master.height,
        );
        level(samples[(y * alpha.width + x) as usize])
    };
    let rows = 0..master.height;
    let want: Vec<u16> = rows
        .flat_map(|y| (0..master.width).map(move |x| (x, y)))
        .map(|(x, y)| sample(x, y))
        .collect();
    assert_eq!((made.alpha, made.samples(1)), (1, want));
    assert_eq!(made.planes[0], master.planes[0]);
    on_each_build(|oracle| assert_eq!(done(oracle.attach_alpha(master, alpha)), made));
}

#[test]
fn every_sample() {
    hold_depth(&counting((256, 256), 0));
}

#[test]
fn every_sample_of_an_alpha_plane() {
    let alpha = counting((256, 256), 0);
    for size in [(256, 256), (512, 256), (256, 300), (100, 70)] {
        hold_attach(&grey(size), &alpha);
    }
}

#[test]
fn pictures_of_few_samples() {
    let firsts = [0, 1_000, 1_020, 65_530];
    for size in [(1, 1), (3, 1), (1, 5), (33, 31), (32, 32), (25, 41)] {
        for first in firsts {
            let frame = counting(size, first);
            hold_depth(&frame);
            for side in [1, 2, 40] {
                hold_attach(&grey((side, side)), &frame);
            }
        }
    }
}
