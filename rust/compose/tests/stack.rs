//! Every call of `include/compose.h` on a thread of little stack, on inputs that it takes: a program
//! for a small machine has no more. A call that takes more ends its process, so each runs in one of
//! its own.

use compose::canvas::STATE_WORDS;
use compose::props::{Clap, Imir, Irot, Iscl, Property, PropertyEntry};
use compose::{Chroma, GridDescriptor, HeifFrame, HeifPixelFormat, OverlayDescriptor, Result};
use compose::{chain, steps, sys, tray};
use std::collections::BTreeSet;
use std::hint::black_box;
use std::process::Command;
use std::{env, fs, thread};

/// The thread's stack in bytes. A call has less of it: the thread itself takes some.
const STACK: usize = 64 << 10;

/// The variable that names the call a process is to make.
const CALL: &str = "COMPOSE_CALL_ON_A_SMALL_STACK";

/// A call made ready, with all that it is lent.
type Ready = Box<dyn FnOnce() -> Result<u64> + Send>;

/// Calls made ready, with their names.
struct Calls(Vec<(&'static str, Ready)>);

impl Calls {
    fn add(&mut self, name: &'static str, call: impl FnOnce() -> Result<u64> + Send + 'static) {
        self.0.push((name, Box::new(call)));
    }
}

/// The layouts that the calls are tried on: every chroma, one byte and two a sample, without alpha
/// and with it.
fn formats() -> Vec<HeifPixelFormat> {
    let mut formats = Vec::new();
    for chroma in (0..4).filter_map(Chroma::from_idc) {
        for (depth, alpha) in [(8, false), (8, true), (10, false), (10, true)] {
            formats.push(HeifPixelFormat::new(chroma, depth, alpha).expect("a depth"));
        }
    }
    formats
}

/// A picture of one value, as a record.
fn record(width: u32, height: u32, format: HeifPixelFormat) -> Vec<u8> {
    let frame = HeifFrame::filled(width, height, format, 100).expect("a size");
    frame.to_record().expect("a record")
}

/// Room for any answer to the inputs here.
fn room() -> Vec<u8> {
    vec![0; 1 << 20]
}

/// A chain of every kind; with `scaling` an iscl, too, which point calls turn away.
fn properties(scaling: bool) -> Vec<u8> {
    let mut properties = vec![
        Property::Other,
        Property::Clap(Clap::integer(180, 140, 0, 0)),
        Property::Irot(Irot::new(1)),
        Property::Imir(Imir::new(1)),
        // Odd edges.
        Property::Clap(Clap::new(139, 1, 179, 1, 1, 2, 1, 2)),
    ];
    if scaling {
        properties.push(Property::Iscl(Iscl::new(3, 2, 2, 3)));
        properties.push(Property::Irot(Irot::new(2)));
    }
    let entry = |property| PropertyEntry::new(1, true, property);
    let entries: Vec<PropertyEntry> = properties.into_iter().map(entry).collect();
    chain::join(&entries).expect("a chain")
}

/// Bodies, of either form.
fn add_bodies(calls: &mut Calls) {
    for side in [200, 70_000] {
        let mut out = room();
        calls.add("compose_write_grid", move || {
            sys::compose_write_grid(3, 2, side, 160, &mut out)
        });
        let mut out = room();
        calls.add("compose_write_overlay", move || {
            sys::compose_write_overlay(1, 2, 3, 4, side, 160, &[0; 6], &mut out)
        });
    }
}

/// Records, bodies, chains and numbers that are read.
fn add_reading(calls: &mut Calls) {
    for format in formats() {
        let one = record(75, 51, format);
        let several = tray::join(&[&one, &one]).expect("a tray");
        calls.add("compose_record", move || {
            sys::compose_record(&one, &mut [0; 17])
        });
        calls.add("compose_tray", move || sys::compose_tray(&several));
        let [chroma, depth, alpha] = [
            format.chroma as u32,
            u32::from(format.bit_depth),
            u32::from(format.has_alpha),
        ];
        calls.add("compose_record_size", move || {
            sys::compose_record_size(75, 51, chroma, depth, alpha)
        });
    }
    let grid = grid_body().to_bytes();
    calls.add("compose_grid_descriptor", move || {
        sys::compose_grid_descriptor(&grid, &mut [0; 4])
    });
    let overlay = overlay_body(65_535).to_bytes();
    let body = overlay.clone();
    calls.add("compose_overlay_descriptor", move || {
        sys::compose_overlay_descriptor(&body, 3, &mut [0; 6])
    });
    let body = overlay.clone();
    calls.add("compose_overlay_offset", move || {
        sys::compose_overlay_offset(&body, 3, 2, &mut [0; 4])
    });
    calls.add("compose_overlay_offsets", move || {
        sys::compose_overlay_offsets(&overlay, 3, &mut [0; 12])
    });
    let (entries, input) = (properties(true), steps::input(200, 160, &properties(true)));
    calls.add("compose_chain", move || sys::compose_chain(&entries));
    let mut out = room();
    calls.add("compose_steps", move || {
        sys::compose_steps(&input, &mut out)
    });
    for language in [0, 1] {
        calls.add("compose_sentence", move || {
            sys::compose_sentence(18, 2, u64::MAX, language, &mut [0; 192])
        });
    }
    calls.add("compose_clap_resolve", || {
        sys::compose_clap_resolve(63, 1, 48, 1, 1, 2, 0, 1, 64, 48, &mut [0; 8])
    });
    calls.add("compose_iscl_size", || {
        sys::compose_iscl_size(3, 2, 2, 3, 64, 48, &mut [0; 2])
    });
    for colour in [0, 1] {
        calls.add("compose_fill", move || {
            sys::compose_fill(50_000, 1_000, 65_535, 10, colour, 9, 0, &mut [0; 3])
        });
    }
}

/// Operations on one record, with odd edges, turns and sizes, so that what can be is promoted.
fn add_operations(calls: &mut Calls, format: HeifPixelFormat) {
    let one = record(75, 51, format);
    let mut operation = |name, call: fn(&[u8], &mut [u8]) -> Result<u64>| {
        let (one, mut out) = (one.clone(), room());
        calls.add(name, move || call(&one, &mut out));
    };
    operation("compose_crop", |one, out| {
        sys::compose_crop(one, 1, 1, 33, 21, 1, 1, 41, 29, out)
    });
    operation("compose_crop", |one, out| {
        sys::compose_crop(one, 2, 2, 32, 20, 2, 2, 41, 29, out)
    });
    operation("compose_clap", |one, out| {
        sys::compose_clap(one, 33, 1, 21, 1, 0, 1, 0, 1, out)
    });
    operation("compose_irot", |one, out| sys::compose_irot(one, 1, out));
    operation("compose_irot", |one, out| sys::compose_irot(one, 2, out));
    operation("compose_imir", |one, out| sys::compose_imir(one, 0, out));
    operation("compose_imir", |one, out| sys::compose_imir(one, 1, out));
    operation("compose_iscl", |one, out| {
        sys::compose_iscl(one, 1, 2, 2, 1, out)
    });
    operation("compose_iscl", |one, out| {
        sys::compose_iscl(one, 7, 5, 5, 7, out)
    });
    operation("compose_resize_nearest", |one, out| {
        sys::compose_resize_nearest(one, 30, 70, out)
    });
    for depth in [8, 10, 16] {
        let (one, mut out) = (one.clone(), room());
        calls.add("compose_rescale_depth", move || {
            sys::compose_rescale_depth(&one, depth, &mut out)
        });
    }
    for (width, height) in [(75, 51), (20, 30)] {
        let (one, mut out) = (one.clone(), room());
        let alpha = record(width, height, format);
        calls.add("compose_attach_alpha", move || {
            sys::compose_attach_alpha(&one, &alpha, &mut out)
        });
    }
    let (one, entries) = (record(200, 160, format), properties(true));
    let (mut out, mut spare) = (room(), room());
    calls.add("compose_transforms", move || {
        sys::compose_transforms(&one, &entries, 0, &mut out, &mut spare)
    });
}

/// Six tiles on a canvas that cuts some of them.
fn grid_body() -> GridDescriptor {
    GridDescriptor::new(3, 2, 200, 160)
}

/// Three inputs, one of them across an edge, on a canvas of several stripes.
fn overlay_body(fill_alpha: u16) -> OverlayDescriptor {
    let offsets = vec![(0, 0), (-20, 31), (90, 80)];
    OverlayDescriptor::new([9_000, 20_000, 40_000, fill_alpha], 200, 160, offsets)
}

fn add_grids(calls: &mut Calls, format: HeifPixelFormat) {
    let body = grid_body().to_bytes();
    for (width, height) in [(100, 56), (101, 55)] {
        let tiles = tray::join(&vec![record(width, height, format); 6]).expect("a tray");
        let (lent, tray, mut out) = (body.clone(), tiles.clone(), room());
        calls.add("compose_grid", move || {
            sys::compose_grid(&lent, &tray, &mut out)
        });
        let (lent, tray, entries) = (body.clone(), tiles.clone(), properties(true));
        let (mut out, mut spare) = (room(), room());
        calls.add("compose_grid_scene", move || {
            sys::compose_grid_scene(&lent, &tray, &entries, 0, &mut out, &mut spare)
        });
        let (lent, tray, entries) = (body.clone(), tiles.clone(), properties(true));
        calls.add("compose_grid_scene_room", move || {
            sys::compose_grid_scene_room(&lent, &tray, &entries, 0)
        });
        let (lent, entries) = (body.clone(), properties(false));
        calls.add("compose_grid_point", move || {
            sys::compose_grid_point(&lent, &tiles, &entries, 0, 70, 90, &mut [0; 10])
        });
    }
}

fn add_overlays(calls: &mut Calls, format: HeifPixelFormat) {
    for (fill_alpha, multiplied) in [(65_535, [0, 0, 0]), (20_000, [0, 1, 1])] {
        let body = overlay_body(fill_alpha).to_bytes();
        let inputs = tray::join(&vec![record(100, 80, format); 3]).expect("a tray");
        let (lent, tray, mut out) = (body.clone(), inputs.clone(), room());
        calls.add("compose_overlay", move || {
            sys::compose_overlay(&lent, &tray, &multiplied, 1, 9, 0, &mut out)
        });
        let (lent, tray, entries) = (body.clone(), inputs.clone(), properties(true));
        let (mut out, mut spare) = (room(), room());
        calls.add("compose_overlay_scene", move || {
            sys::compose_overlay_scene(
                &lent,
                &tray,
                &entries,
                0,
                &multiplied,
                1,
                9,
                0,
                &mut out,
                &mut spare,
            )
        });
        let (lent, tray, entries) = (body.clone(), inputs.clone(), properties(true));
        calls.add("compose_overlay_scene_room", move || {
            sys::compose_overlay_scene_room(&lent, &tray, &entries, 0, &multiplied)
        });
        if format.has_alpha {
            continue;
        }
        let entries = properties(false);
        calls.add("compose_overlay_point", move || {
            sys::compose_overlay_point(
                &body,
                &inputs,
                &entries,
                0,
                &multiplied,
                1,
                9,
                0,
                70,
                90,
                &mut [0; 10],
            )
        });
    }
}

/// A session's state and buffer after its start and some places.
fn session(tile: &[u8], places: u32) -> (Vec<u64>, Vec<u8>) {
    let (mut state, mut buffer) = (vec![0; STATE_WORDS], room());
    sys::compose_canvas_start(&grid_body().to_bytes(), &mut state).expect("a canvas");
    for cell in 0..places {
        sys::compose_canvas_place(&mut state, cell, tile, &mut buffer).expect("a cell");
    }
    (state, buffer)
}

fn add_sessions(calls: &mut Calls, format: HeifPixelFormat) {
    let tile = record(101, 55, format);
    let (mut state, _) = session(&tile, 0);
    calls.add("compose_canvas_start", move || {
        sys::compose_canvas_start(&grid_body().to_bytes(), &mut state)
    });
    for placed in [0, 3] {
        let (mut state, mut buffer) = session(&tile, placed);
        let tile = tile.clone();
        calls.add("compose_canvas_place", move || {
            sys::compose_canvas_place(&mut state, 4, &tile, &mut buffer)
        });
    }
    let (mut state, mut buffer) = session(&tile, 1);
    calls.add("compose_canvas_blank", move || {
        sys::compose_canvas_blank(&mut state, 5, &mut buffer)
    });
    let (state, buffer) = session(&tile, 6);
    calls.add("compose_canvas_finish", move || {
        sys::compose_canvas_finish(&state, &buffer)
    });
}

fn all() -> Vec<(&'static str, Ready)> {
    let mut calls = Calls(Vec::new());
    add_reading(&mut calls);
    add_bodies(&mut calls);
    for format in formats() {
        add_operations(&mut calls, format);
        add_grids(&mut calls, format);
        add_overlays(&mut calls, format);
        add_sessions(&mut calls, format);
    }
    calls.0
}

/// No call: as much stack as the thread has.
fn too_much() -> Result<u64> {
    Ok(u64::from(black_box([1u8; STACK])[STACK / 2]))
}

/// Makes a call on a thread of little stack; it must be answered.
fn make(name: &str, call: Ready) {
    let small = thread::Builder::new().stack_size(STACK);
    let answer = small.spawn(call).expect("a thread").join().expect("an end");
    answer.unwrap_or_else(|refusal| panic!("{name} refused {}", refusal.number()));
}

/// The process that makes the call of a name, by running the test `makes_the_call` alone.
fn runs(name: &str) -> bool {
    let program = env::current_exe().expect("the test's program");
    let ended = Command::new(program)
        .args(["--exact", "makes_the_call"])
        .env(CALL, name)
        .output()
        .expect("a process");
    if !ended.status.success() {
        let text = String::from_utf8_lossy(&ended.stderr);
        println!("{name}: {}\n{text}", ended.status);
    }
    ended.status.success()
}

/// What a process of its own does; without a name, nothing.
#[test]
fn makes_the_call() {
    let Ok(wanted) = env::var(CALL) else { return };
    if wanted == "too_much" {
        make("too_much", Box::new(too_much));
    }
    for (name, call) in all() {
        if name == wanted {
            make(name, call);
        }
    }
}

/// The calls that the header declares.
fn declared() -> BTreeSet<String> {
    let header = concat!(env!("CARGO_MANIFEST_DIR"), "/../../include/compose.h");
    let header = fs::read_to_string(header).expect("the header");
    let names = header.split("\nuint64_t ").skip(1);
    let names = names.filter_map(|rest| rest.split('(').next());
    names.map(String::from).collect()
}

#[test]
fn every_call_runs_on_a_small_stack() {
    let calls: BTreeSet<String> = all().into_iter().map(|(name, _)| name.into()).collect();
    assert_eq!(calls, declared());
    let ended: Vec<&String> = calls.iter().filter(|name| !runs(name)).collect();
    assert!(ended.is_empty(), "{ended:?}");
}

#[test]
fn more_stack_than_there_is_ends_the_process() {
    assert!(!runs("too_much"));
}
