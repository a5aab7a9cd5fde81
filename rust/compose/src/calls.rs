//! Every call of `include/compose.h` from C: with parts of length 0 behind NULL, and how much stack
//! each takes. `tests/calls.c` makes the calls; the parts that they are handed are written here.

use crate::declared::{Function, functions, in_repository};
use crate::image::{Chroma, HeifFrame, HeifPixelFormat};
use crate::props::{Clap, Imir, Irot, Iscl, Property, PropertyEntry};
use crate::{GridDescriptor, OverlayDescriptor, chain, steps, tray};
use std::fs;
use std::process::Command;

/// The most bytes of stack that a call takes; the header says it.
const STACK: usize = 46 << 10;

/// A record that is promoted when it is cropped: 5 × 5.
fn picture(chroma: Chroma, alpha: bool) -> Vec<u8> {
    let format = HeifPixelFormat::new(chroma, 10, alpha).expect("a depth");
    let frame = HeifFrame::filled(5, 5, format, 700).expect("a frame");
    frame.to_record().expect("a record")
}

/// A clap, an irot and an imir; and for a scene an iscl.
fn properties(scales: bool) -> Vec<u8> {
    let properties = [
        Property::Clap(Clap::integer(5, 5, 0, 0)),
        Property::Irot(Irot::new(1)),
        Property::Imir(Imir::new(0)),
        Property::Iscl(Iscl::new(3, 2, 2, 3)),
    ];
    let entries = properties.map(|property| PropertyEntry::new(1, true, property));
    chain::join(&entries[..if scales { 4 } else { 3 }]).expect("a chain")
}

/// The parts that are read, by the names that they have in the C program.
fn parts() -> Vec<(&'static str, Vec<u8>)> {
    let shining = picture(Chroma::Yuv420, true);
    let pair = |first: &[u8], second: &[u8]| tray::join(&[first, second]).expect("a tray");
    let places = OverlayDescriptor::new([1, 2, 3, 30_000], 7, 7, vec![(0, 0), (-1, 2)]);
    vec![
        ("tiles", pair(&shining, &shining)),
        ("marks", pair(&shining, &picture(Chroma::Mono, true))),
        (
            "opaque",
            pair(
                &picture(Chroma::Yuv420, false),
                &picture(Chroma::Mono, false),
            ),
        ),
        ("picture", shining),
        ("cells", GridDescriptor::new(1, 2, 9, 5).to_bytes()),
        ("places", places.to_bytes()),
        ("changes", properties(true)),
        ("moves", properties(false)),
        ("steps", steps::input(9, 5, &properties(true))),
        ("list", vec![0, 1]),
    ]
}

/// The words of two inputs' offsets, which are read.
const OFFSETS: [u32; 4] = [0, 0, u32::MAX, 2];

/// The parts that are written: type, name and length.
const WRITTEN: [(&str, &str, usize); 8] = [
    ("uint64_t", "words_u64", 32),
    ("uint32_t", "words_u32", 32),
    ("uint16_t", "words_u16", 32),
    ("uint64_t", "state", 1034),
    ("uint8_t", "out", 4096),
    ("uint8_t", "output", 4096),
    ("uint8_t", "spare", 4096),
    ("uint8_t", "buffer", 4096),
];

/// The part that a parameter of a call is handed.
fn part(call: &str, parameter: &str, item: &str) -> String {
    let (overlay, point) = (call.contains("overlay"), call.contains("point"));
    match parameter {
        "record" | "master" | "alpha" => "picture".into(),
        "tray" if overlay && point => "opaque".into(),
        "tray" if overlay => "marks".into(),
        "tray" => "tiles".into(),
        "body" if overlay => "places".into(),
        "body" => "cells".into(),
        "chain" if point => "moves".into(),
        "chain" => "changes".into(),
        "premultiplied" => "list".into(),
        "input" => "steps".into(),
        "answer" => format!("words_{item}"),
        written => written.into(),
    }
}

/// The number that a parameter of a call is handed.
fn number(call: &str, parameter: &str) -> u32 {
    match (call, parameter) {
        ("compose_canvas_blank", "index") => 1,
        (_, "index" | "column" | "row" | "essential_only" | "horiz_off_n" | "vert_off_n") => 0,
        (_, "count") => 2,
        (_, "depth") => 12,
        (_, "width" | "height" | "width_n" | "height_n" | "width_num" | "height_num") => 3,
        _ => 1,
    }
}

/// The C function that makes a call, and its line in the table.
fn made(function: &Function) -> (String, String) {
    let name = &function.name;
    let mut arguments = Vec::new();
    let mut slices = 0;
    for (parameter, of) in &function.parameters {
        let written = of.strip_prefix("&mut [");
        let Some(item) = written.or(of.strip_prefix("&[")) else {
            arguments.push(number(name, parameter).to_string());
            continue;
        };
        let item = item.trim_end_matches(']');
        let part = part(name, parameter, item);
        let constant = if written.is_some() { "" } else { "const " };
        let in_c = format!("{constant}uint{}_t", &item[1..]);
        arguments.push(format!("POINTER(parts, {slices}, {in_c}, {part})"));
        arguments.push(format!("LENGTH(parts, {slices}, {part})"));
        slices += 1;
    }
    let arguments = arguments.join(", ");
    (
        format!(
            "static uint64_t make_{name}(const struct parts *parts) {{ return {name}({arguments}); }}\n"
        ),
        format!("    {{\"{name}\", {slices}, make_{name}}},\n"),
    )
}

/// The calls in the order in which a session needs them: it is started, then filled, then finished.
fn in_turn() -> Vec<Function> {
    let mut calls = functions();
    let turn = |call: &Function| {
        let turns = ["start", "place", "blank", "finish"];
        turns.iter().position(|turn| call.name.ends_with(turn))
    };
    calls.sort_by_key(turn);
    calls
}

fn program() -> String {
    let mut text = include_str!("../tests/calls.c").to_string();
    for (name, bytes) in parts() {
        let bytes: Vec<String> = bytes.iter().map(u8::to_string).collect();
        text += &format!("static const uint8_t {name}[] = {{{}}};\n", bytes.join(","));
    }
    let offsets = OFFSETS.map(|word| format!("{word}u")).join(",");
    text += &format!("static const uint32_t offsets[] = {{{offsets}}};\n");
    for (of, name, length) in WRITTEN {
        text += &format!("static {of} {name}[{length}];\n");
    }
    let (functions, lines): (Vec<_>, Vec<_>) = in_turn().iter().map(made).unzip();
    text += &functions.concat();
    text += &format!(
        "static const struct call calls[] = {{\n{}}};\n",
        lines.concat()
    );
    text + "int main(void) { return try_all(calls, sizeof calls / sizeof calls[0]); }\n"
}

/// What the program prints, compiled as C or as C++ by `compiler`; none where that is not here.
fn printed(compiler: &str, language: &str) -> Option<String> {
    let file =
        |end: &str| std::env::temp_dir().join(format!("compose-calls-{}{end}", std::process::id()));
    let (source, made) = (file(&format!(".{language}")), file(language));
    fs::write(&source, program()).expect("a file that can be written");
    let compiled = Command::new(compiler)
        .args(["-Wall", "-Wextra", "-Werror", "-pedantic", "-pthread", "-I"])
        .arg(in_repository("include"))
        .arg(&source)
        .arg(in_repository("target/staticlib/libcapi.a"))
        .arg("-o")
        .arg(&made)
        .output();
    let printed = compiled.ok().map(|compiled| {
        let complaint = String::from_utf8_lossy(&compiled.stderr);
        assert!(compiled.status.success(), "{complaint}");
        let ran = Command::new(&made).output().expect("the program starts");
        let printed = String::from_utf8(ran.stdout).expect("text");
        assert!(ran.status.success(), "{:?}: {printed}", ran.status);
        printed
    });
    for file in [source, made] {
        let _ = fs::remove_file(file);
    }
    printed
}

/// Every call takes NULL for a part of length 0, alone and for all parts, and answers as it does
/// behind another pointer; and none takes more stack than the header says.
#[test]
fn calls_from_c() {
    let Some(printed) = printed("cc", "c") else {
        println!("no C compiler is here; the calls are not made");
        return;
    };
    print!("{printed}");
    let lines: Vec<(&str, usize)> = printed
        .lines()
        .filter_map(|line| line.split_once(' '))
        .map(|(name, bytes)| (name, bytes.parse().expect("a number")))
        .collect();
    let mut called: Vec<String> = lines.iter().map(|(name, _)| name.to_string()).collect();
    called.sort();
    let all: Vec<String> = functions().into_iter().map(|call| call.name).collect();
    assert_eq!(called, all);
    let most = lines.iter().map(|(_, bytes)| *bytes).max().expect("calls");
    assert!(most <= STACK, "{most} bytes of stack");
}

#[test]
fn calls_from_cpp() {
    if printed("c++", "cpp").is_none() {
        println!("no C++ compiler is here; the calls are not made");
    }
}

#[test]
fn the_header_says_what_calls_take() {
    let header = fs::read_to_string(in_repository("include/compose.h")).expect("the header");
    let words: Vec<&str> = header.split_whitespace().collect();
    let header = words.join(" ");
    let stack = format!("A call takes at most {} KiB of stack.", STACK >> 10);
    for line in [
        &stack,
        "A part of length 0 may have * any pointer, NULL too",
    ] {
        assert!(header.contains(line), "{line}");
    }
}
