//! What the commands print and make.

use crate::folder::{Folder, complaint, status};
use compose::operation::{attach_alpha, crop, imir, irot, iscl, rescale_depth, resize_nearest};
use compose::props::{Clap, Imir, Irot, Iscl, Property, PropertyEntry};
use compose::{About, OverlayDescriptor, Refusal, chain, record, steps, tray};
use std::fs;

#[test]
fn without_a_word_it_is_the_demonstration() {
    let folder = Folder::new("demo");
    let shown = folder.done("");
    assert_eq!(shown, folder.done("demo"));
    for title in [
        "A debris field, joined from four tiles: 48 × 32, 4:2:0, depth 8",
        "Three flags laid over it: 48 × 32, 4:2:0, depth 8",
        "A searched strip blended over it, clearer to the right: 48 × 32, 4:4:4, depth 8",
        "The flags, turned a quarter anticlockwise, and cropped: 24 × 36, 4:2:0, depth 8",
    ] {
        assert!(shown.contains(title), "{title}");
    }
    for flag in ["red", "yellow", "blue"] {
        let line = format!(" shows the {flag} flag at (");
        assert!(shown.contains(&line), "{flag}");
    }
    assert!(shown.contains(", 1 quarter turn.\n"));
}

/// The demonstration's pictures as files, where they are asked for.
#[test]
fn the_demonstration_writes_its_pictures() {
    let folder = Folder::new("demo-files");
    let said = folder.done("demo -o made/pictures");
    assert!(
        said.contains("made/pictures/field.ppm: 48 × 32, 4:2:0, depth 8, "),
        "{said}"
    );
    for (file, size) in [
        ("field", "48 32"),
        ("marked", "48 32"),
        ("searched", "48 32"),
        ("shown", "24 36"),
    ] {
        let ppm = folder.get(&format!("made/pictures/{file}.ppm"));
        assert!(
            ppm.starts_with(format!("P6\n{size}\n255\n").as_bytes()),
            "{file}"
        );
    }
    // What is blended lies between what is below and what is laid over it.
    let pixels = |file: &str| folder.get(&format!("made/pictures/{file}.ppm"))[13..].to_vec();
    let (marked, searched) = (pixels("marked"), pixels("searched"));
    let at = |picture: &[u8], x: usize, y: usize| picture[3 * (48 * y + x)..][..3].to_vec();
    assert_eq!(at(&searched, 0, 20), [40, 160, 70]);
    assert_eq!(at(&searched, 0, 2), at(&marked, 0, 2));
    let (below, blended) = (at(&marked, 24, 20)[0], at(&searched, 24, 20)[0]);
    assert!(40 < blended && blended < below, "{below} {blended}");
    let there = "compose: made/pictures/field.ppm is there already; --force replaces it";
    folder.fails("demo -o made/pictures", 1, there);
    folder.done("demo -o made/pictures --force");
    folder.done("demo -o made/pictures --format y4m");
    assert!(
        folder
            .get("made/pictures/shown.y4m")
            .starts_with(b"YUV4MPEG2 W24 H36 ")
    );
}

#[test]
fn records_and_trays_are_shown() {
    let folder = Folder::with_picture("records");
    assert_eq!(
        folder.done("record a.rec"),
        "6 × 4, 4:2:0, depth 8\n\
         plane  columns     rows   stride    start    bytes\n\
         luma         6        4        6        7       24\n\
         Cb           3        2        3       33        6\n\
         Cr           3        2        3       41        6\n"
    );
    folder.done("irot a.rec 1 -o b.rec");
    folder.done("pack a.rec b.rec -o t.tray");
    assert_eq!(
        folder.done("tray t.tray"),
        "2 records\n    \
         0  6 × 4, 4:2:0, depth 8, 47 bytes\n    \
         1  4 × 6, 4:2:0, depth 8, 47 bytes\n"
    );
    let tray = folder.get("t.tray");
    let records = tray::records(&tray).expect("a tray");
    assert_eq!(records, [folder.get("a.rec"), folder.get("b.rec")]);
    // A tray of none.
    folder.done("pack -o none.tray");
    assert_eq!(folder.done("tray none.tray"), "0 records\n");
}

#[test]
fn operations_write_what_the_library_makes() {
    let folder = Folder::with_picture("operations");
    let record = folder.get("a.rec");
    for (words, made) in [
        (
            "crop a.rec 1 0 3 2 -o out.rec --force",
            crop(&record, 1, 0, 3, 2),
        ),
        ("irot a.rec 3 -o out.rec --force", irot(&record, 3)),
        ("irot a.rec 0 -o out.rec --force", irot(&record, 0)),
        ("imir a.rec 1 -o out.rec --force", imir(&record, 1)),
        // Two columns less on each side, a row less at the bottom.
        (
            "clap a.rec 2 1 3 1 0 1 -1 2 -o out.rec --force",
            crop(&record, 2, 0, 2, 3),
        ),
        (
            "iscl a.rec 1 2 3 2 -o out.rec --force",
            iscl(&record, &Iscl::new(1, 2, 3, 2)),
        ),
        (
            "nearest a.rec 9 5 -o out.rec --force",
            resize_nearest(&record, 9, 5),
        ),
        (
            "depth a.rec 12 -o out.rec --force",
            rescale_depth(&record, 12),
        ),
        (
            "attach a.rec a.rec -o out.rec --force",
            attach_alpha(&record, &record),
        ),
    ] {
        let made = made.expect("a record");
        let info = record::inspect(&made).expect("a record");
        let said = folder.done(words);
        let beginning = format!("out.rec: {} × {}, ", info.width, info.height);
        assert!(said.starts_with(&beginning), "{said}");
        assert_eq!(folder.get("out.rec"), made, "{words}");
    }
}

/// A folder with two tiles in a tray: mono, 2 × 2, as in document 01's case.
fn with_tiles(name: &str) -> Folder {
    let folder = Folder::new(name);
    folder.put("one.rec", &[2, 2, 0, 8, 0, 2, 4, 1, 2, 3, 4]);
    folder.put("two.rec", &[2, 2, 0, 8, 0, 2, 4, 5, 6, 7, 8]);
    folder.done("pack one.rec two.rec -o tiles.tray");
    folder
}

#[test]
fn pictures_are_composed() {
    let folder = with_tiles("composing");
    assert_eq!(
        folder.done("body grid 1 2 4 2 -o grid.body"),
        "grid.body: grid body, 8 bytes\n"
    );
    assert_eq!(folder.get("grid.body"), [0, 0, 0, 1, 0, 4, 0, 2]);
    let said = folder.done("grid grid.body tiles.tray -o out.rec");
    assert_eq!(said, "out.rec: 4 × 2, mono, depth 8, 15 bytes\n");
    let joined = [4, 2, 0, 8, 0, 4, 8, 1, 2, 5, 6, 3, 4, 7, 8];
    assert_eq!(folder.get("out.rec"), joined);

    // The second input a column to the left and a row down, on white.
    folder.done("body overlay 3 2 65535 65535 65535 65535 0 0 -1 1 -o overlay.body");
    for options in ["", " --premultiplied 0,1", " --matrix 1 --studio"] {
        folder.done(&format!(
            "overlay overlay.body tiles.tray -o out.rec --force{options}"
        ));
        let white = if options.ends_with("studio") {
            235
        } else {
            255
        };
        let laid = [3, 2, 0, 8, 0, 3, 6, 1, 2, white, 6, 4, white];
        assert_eq!(folder.get("out.rec"), laid, "{options}");
    }
}

/// The 16-bit form up to its last size and offset, and the 32-bit form from the next on; a body shows
/// what it was written from.
#[test]
fn bodies_are_written() {
    let folder = Folder::new("bodies");
    for (fields, length, reading, shown) in [
        (
            "grid 256 1 65535 2",
            8,
            "grid new.body",
            "65535 × 2, rows 256, columns 1\n",
        ),
        (
            "grid 1 256 2 65536",
            12,
            "grid new.body",
            "2 × 65536, rows 1, columns 256\n",
        ),
        (
            "overlay 65535 2 1 2 3 65535 -32768 32767",
            18,
            "overlay new.body 1",
            "65535 × 2, fill 1 2 3, alpha 65535, 1 input\n    0  -32768 32767\n",
        ),
        (
            "overlay 2 2 1 2 3 4 0 0 -32769 -1",
            34,
            "overlay new.body 2",
            "2 × 2, fill 1 2 3, alpha 4, 2 inputs\n    0  0 0\n    1  -32769 -1\n",
        ),
    ] {
        let said = folder.done(&format!("body {fields} -o new.body --force"));
        assert!(
            said.ends_with(&format!(" body, {length} bytes\n")),
            "{said}"
        );
        assert_eq!(folder.done(&format!("descriptor {reading}")), shown);
    }
}

/// Document 01's case: turned, the top row is 6 8, and (0, 0) is tile 1's (1, 0).
#[test]
fn scenes_are_composed_and_asked() {
    let folder = with_tiles("scenes");
    folder.done("body grid 1 2 4 2 -o grid.body");
    folder.done("entries irot! 1 imir 1 -o turn.chain");
    folder.done("scene grid grid.body tiles.tray turn.chain --essential -o out.rec");
    let turned = [2, 4, 0, 8, 0, 2, 8, 6, 8, 5, 7, 2, 4, 1, 3];
    assert_eq!(folder.get("out.rec"), turned);
    assert_eq!(
        folder.done("point grid grid.body tiles.tray turn.chain 0 0 --essential"),
        "input 1 at 1 0\nfrom 0 0, 4 × 2, 1 quarter turn\n"
    );
    folder.done("scene grid grid.body tiles.tray turn.chain -o out.rec --force");
    let mirrored = [2, 4, 0, 8, 0, 2, 8, 8, 6, 7, 5, 4, 2, 3, 1];
    assert_eq!(folder.get("out.rec"), mirrored);
    assert_eq!(
        folder.done("point grid grid.body tiles.tray turn.chain 0 0"),
        "input 1 at 1 1\nfrom 0 0, 4 × 2, left and right exchanged, 3 quarter turns\n"
    );
    folder.refuses(
        "point grid grid.body tiles.tray turn.chain 2 0",
        "",
        Refusal::POINT,
    );

    folder.done("body overlay 3 2 65535 65535 65535 65535 0 0 -1 1 -o overlay.body");
    folder.done("entries -o none.chain");
    folder.done("scene overlay overlay.body tiles.tray none.chain -o out.rec --force");
    let laid = [3, 2, 0, 8, 0, 3, 6, 1, 2, 255, 6, 4, 255];
    assert_eq!(folder.get("out.rec"), laid);
    assert_eq!(
        folder.done("point overlay overlay.body tiles.tray none.chain 2 0"),
        "fill\nfrom 0 0, 3 × 2, 0 quarter turns\n"
    );
    folder.done("entries iscl 1 2 1 2 -o scale.chain");
    folder.refuses(
        "point overlay overlay.body tiles.tray scale.chain 0 0",
        "scale.chain: ",
        Refusal::POINT.of_item(About::Entry, 0),
    );
    folder.refuses(
        "scene overlay overlay.body tiles.tray none.chain -o new.rec --premultiplied 1",
        "--premultiplied: ",
        Refusal::COUNT,
    );
    folder.refuses(
        "scene grid overlay.body tiles.tray overlay.body -o new.rec",
        "overlay.body: ",
        Refusal::MALFORMED,
    );
    assert!(!folder.has("new.rec"));
    folder.fails(
        "scene grid grid.body tiles.tray none.chain",
        1,
        "compose: scene: -o OUT is missing",
    );
    folder.fails(
        "point iden a b c 1 2",
        1,
        "compose: point: it takes grid or overlay, not iden",
    );
}

#[test]
fn chains_are_made() {
    let folder = Folder::new("entries");
    let said =
        folder.done("entries irot! 1 clap 6 1 4 1 0 1 -1 2 other iscl 1 2 3 4 imir! 0 -o c.chain");
    assert_eq!(said, "c.chain: 5 entries, 29 bytes\n");
    assert_eq!(
        folder.done("chain c.chain"),
        "5 entries\n    0  irot 1, essential\n    1  clap 6 1 4 1 0 1 -1 2\n    2  other\n    \
         3  iscl 1 2 3 4\n    4  imir 0, essential\n"
    );
    folder.done("entries -o none.chain");
    assert_eq!(folder.get("none.chain"), [0]);
}

#[test]
fn standard_input_and_output_serve() {
    let folder = Folder::with_picture("pipes");
    let record = folder.get("a.rec");
    let output = folder.run_with("imir - 1 -o -", &record);
    assert_eq!(status(&output), 0);
    assert_eq!(Ok(output.stdout), imir(&record, 1));
    let ppm = folder.run_with("convert - --matrix 6 --format ppm -o -", &record);
    assert!(ppm.stdout.starts_with(b"P6\n6 4\n255\n"));
    assert_eq!(ppm.stdout.len(), 11 + 3 * 24);
}

#[test]
fn pictures_are_shown() {
    let folder = Folder::with_picture("view");
    let plain = folder.done("view a.rec");
    assert_eq!(plain, folder.done("view --plain a.rec"));
    // 5 times as large, two rows to a line.
    assert_eq!(plain.lines().count(), 10 + 1);
    assert_eq!(plain.lines().next().map(str::len), Some(30));
    let colour = folder.done("view a.rec --colour --columns 6 --matrix 1 --studio");
    assert_eq!(colour.matches('▀').count(), 6 * 2);
    assert!(colour.contains("\x1b[38;2;"));
    assert!(colour.ends_with("6 × 4, 4:2:0, depth 8\n"));
}

#[test]
fn fills_are_printed() {
    let folder = Folder::new("fill");
    assert_eq!(folder.done("fill 65535 0 0"), "76 85 255\n");
    assert_eq!(
        folder.done("fill --studio --depth 10 65535 65535 65535 --matrix 9"),
        "940 512 512\n"
    );
    assert_eq!(
        folder.done("fill 65535 0 0 --matrix 0 --depth 16"),
        "0 0 65535\n"
    );
    for depth in [7, 17, 264] {
        let words = format!("fill 1 2 3 --depth {depth}");
        folder.refuses(&words, "", Refusal::DEPTH);
    }
}

#[test]
fn descriptors_are_shown() {
    let folder = Folder::new("descriptors");
    folder.put("grid", &[0, 0, 0, 1, 0, 4, 0, 2]);
    assert_eq!(
        folder.done("descriptor grid grid"),
        "4 × 2, rows 1, columns 2\n"
    );
    let overlay = OverlayDescriptor::new([65_535, 0, 1, 2], 70_000, 2, vec![(-1, 0), (7, -70_000)]);
    folder.put("overlay", &overlay.to_bytes());
    assert_eq!(
        folder.done("descriptor overlay overlay 2"),
        "70000 × 2, fill 65535 0 1, alpha 2, 2 inputs\n    0  -1 0\n    1  7 -70000\n"
    );
    // Bytes after the last field are passed over.
    assert_eq!(
        folder.done("descriptor overlay overlay 0"),
        "70000 × 2, fill 65535 0 1, alpha 2, 0 inputs\n"
    );
    for (words, part, refusal) in [
        ("overlay overlay 3", "overlay: ", Refusal::SHORT),
        ("overlay overlay 65537", "overlay: ", Refusal::LIMIT),
        ("overlay grid 0", "grid: ", Refusal::SHORT),
    ] {
        folder.refuses(&format!("descriptor {words}"), part, refusal);
    }
}

#[test]
fn chains_are_shown() {
    let folder = Folder::new("chains");
    let clap = Property::Clap(Clap::new(62, 1, 48, 2, -1, 2, 0, 1));
    let entries = [
        Property::Other,
        clap,
        Property::Irot(Irot::new(255)),
        Property::Imir(Imir::new(1)),
        Property::Iscl(Iscl::new(1, 2, 65_535, 3)),
    ];
    let entries = entries.map(|property| PropertyEntry::new(0, property == clap, property));
    folder.put("chain", &chain::join(&entries).expect("a chain"));
    assert_eq!(
        folder.done("chain chain"),
        "5 entries\n    0  other\n    1  clap 62 1 48 2 -1 2 0 1, essential\n    \
         2  irot 255\n    3  imir 1\n    4  iscl 1 2 65535 3\n"
    );
    folder.put("long", &[0x81, 2]);
    folder.refuses("chain long", "long: ", Refusal::LIMIT);
    folder.put("cut", &[1, 2, 0]);
    let first = Refusal::MALFORMED.of_item(About::Entry, 0);
    folder.refuses("chain cut", "cut: ", first);
}

/// With a size, a line says what its entry makes of what is left of it.
#[test]
fn a_chain_says_what_it_takes() {
    let folder = Folder::new("chain-takes");
    folder.done(
        "entries clap! 24 1 16 1 0 1 -2 1 irot 1 other clap 15 1 24 1 1 2 0 1 imir! 0 iscl 1 2 3 1 -o c",
    );
    assert_eq!(
        folder.done("chain c 32 24"),
        "6 entries\n    \
         0  clap 24 1 16 1 0 1 -2 1, essential: takes 4 left, 2 top, 4 right, 6 bottom of 32 × 24, \
         leaves 24 × 16\n    \
         1  irot 1: leaves 16 × 24\n    \
         2  other: leaves 16 × 24\n    \
         3  clap 15 1 24 1 1 2 0 1: takes 1 left, 0 top, 0 right, 0 bottom of 16 × 24, \
         leaves 15 × 24\n    \
         4  imir 0, essential: leaves 15 × 24\n    \
         5  iscl 1 2 3 1: leaves 8 × 72\n"
    );
    assert_eq!(
        folder.done("chain --essential c 24 20"),
        "6 entries\n    \
         0  clap 24 1 16 1 0 1 -2 1, essential: takes 0 left, 0 top, 0 right, 4 bottom of 24 × 20, \
         leaves 24 × 16\n    \
         1  irot 1: skipped\n    2  other: skipped\n    3  clap 15 1 24 1 1 2 0 1: skipped\n    \
         4  imir 0, essential: leaves 24 × 16\n    \
         5  iscl 1 2 3 1: skipped\n"
    );
    // What is skipped is without a size, too.
    folder.done("entries irot 1 imir! 0 -o turn");
    assert_eq!(
        folder.done("chain turn --essential"),
        "2 entries\n    0  irot 1: skipped\n    1  imir 0, essential\n"
    );
}

/// A refused entry ends the text, and a size that no picture has is refused before it.
#[test]
fn a_chain_says_where_it_is_refused() {
    let folder = Folder::new("chain-refused");
    folder.done("entries irot! 1 clap 24 1 16 1 0 1 0 1 imir 1 -o c");
    let output = folder.run("chain c 24 16");
    assert_eq!(status(&output), 2);
    let refusal = Refusal::OUTSIDE;
    assert_eq!(
        String::from_utf8_lossy(&output.stdout),
        format!(
            "3 entries\n    0  irot 1, essential: leaves 16 × 24\n    \
             1  clap 24 1 16 1 0 1 0 1: {refusal}\n"
        )
    );
    let own = refusal.of_item(About::Entry, 1);
    assert_eq!(complaint(&output), format!("compose chain: c: {own}\n"));
    assert!(
        folder
            .done("chain c 24 16 --essential")
            .ends_with("imir 1: skipped\n")
    );
    for (size, refusal) in [("0 4", Refusal::EMPTY), ("65536 16385", Refusal::LIMIT)] {
        folder.refuses(&format!("chain c {size}"), "", refusal);
    }
}

/// A scene says what each clap of its chain took, unless the picture itself goes to standard output.
#[test]
fn scenes_say_what_they_take() {
    let folder = with_tiles("scene-takes");
    folder.done("body grid 1 2 4 2 -o grid.body");
    folder.done("entries clap! 3 1 2 1 -1 2 0 1 irot! 1 clap 2 1 1 1 0 1 1 1 -o part.chain");
    let first = "part.chain, entry 0: takes 0 left, 0 top, 1 right, 0 bottom of 4 × 2\n";
    let last = "part.chain, entry 2: takes 0 left, 2 top, 0 right, 0 bottom of 2 × 3\n";
    let scene = "scene grid grid.body tiles.tray part.chain";
    assert_eq!(
        folder.done(&format!("{scene} -o out.rec")),
        format!("out.rec: 2 × 1, mono, depth 8, 9 bytes\n{first}{last}")
    );
    let row = [2, 1, 0, 8, 0, 2, 2, 1, 3];
    assert_eq!(folder.get("out.rec"), row);
    assert_eq!(folder.run(&format!("{scene} -o -")).stdout, row);
    assert_eq!(
        folder.done(&format!("{scene} --essential -o out.rec --force")),
        format!("out.rec: 2 × 3, mono, depth 8, 13 bytes\n{first}")
    );
}

/// What a crop and a clap take stands beside what they leave.
#[test]
fn crops_say_what_they_take() {
    let folder = Folder::with_picture("takes");
    for (words, said) in [
        (
            "crop a.rec 1 0 3 2",
            "3 × 2, 4:4:4, depth 8, takes 1 left, 0 top, 2 right, 2 bottom of 6 × 4, 29 bytes",
        ),
        (
            "clap a.rec 2 1 3 1 0 1 -1 2",
            "2 × 3, 4:4:4, depth 8, takes 2 left, 0 top, 2 right, 1 bottom of 6 × 4, 29 bytes",
        ),
        (
            "clap a.rec 6 1 4 1 0 1 0 1",
            "6 × 4, 4:2:0, depth 8, takes 0 left, 0 top, 0 right, 0 bottom of 6 × 4, 47 bytes",
        ),
    ] {
        let line = folder.done(&format!("{words} -o out.rec --force"));
        assert_eq!(line, format!("out.rec: {said}\n"));
    }
}

#[test]
fn sizes_are_worked_out() {
    let folder = Folder::new("sizes");
    for (words, numbers) in [
        ("clap 64 48 62 1 48 1 0 1 0 1", "1 0 62 48 1 0 1 0\n"),
        ("clap 64 48 63 1 48 1 -1 2 0 1", "0 0 63 48 0 0 1 0\n"),
        ("clap 32 24 24 1 16 1 0 1 -2 1", "4 2 24 16 4 2 4 6\n"),
        (
            "clap 4294967295 1 4294967295 1 1 1 0 1 0 1",
            "0 0 4294967295 1 0 0 0 0\n",
        ),
        ("iscl 5 5 1 2 2 3", "3 4\n"),
    ] {
        assert_eq!(folder.done(&format!("resolve {words}")), numbers);
    }
    for (words, refusal) in [
        ("clap 64 48 63 1 48 1 0 1 0 1", Refusal::FRACTION),
        ("clap 64 48 64 1 48 1 1 1 0 1", Refusal::OUTSIDE),
        ("iscl 5 5 1 2 0 3", Refusal::ZERO),
        ("iscl 65536 1 65535 1 65535 1", Refusal::LIMIT),
        ("iscl 4294967295 1 2 1 1 1", Refusal::SCALE),
    ] {
        folder.refuses(&format!("resolve {words}"), "", refusal);
    }
}

/// The size and the chain as words, and the program's own input, print the same.
#[test]
fn steps_of_a_size_and_a_chain() {
    let folder = Folder::new("steps-of");
    folder.done("entries irot! 1 imir 1 -o turn.chain");
    let text = folder.done("steps 300 4 turn.chain");
    assert_eq!(text, "step kind width height\n0 2 4 300\n1 3 4 300\n");
    folder.put("input", &steps::input(300, 4, &folder.get("turn.chain")));
    assert_eq!(folder.done("steps input"), text);
    let refused = folder.run("steps 0 4 turn.chain");
    assert_eq!(status(&refused), 2);
    assert_eq!(refused.stdout, b"refused 3\n");
}

/// One thing is one, not several.
#[test]
fn counts_have_their_plural() {
    let folder = Folder::with_picture("plural");
    for (words, count, said) in [
        ("pack -o none.tray", "0 records, 1 byte\n", "tray none.tray"),
        (
            "pack a.rec -o one.tray",
            "1 record, 48 bytes\n",
            "tray one.tray",
        ),
        (
            "entries -o none.chain",
            "0 entries, 1 byte\n",
            "chain none.chain",
        ),
        (
            "entries other -o one.chain",
            "1 entry, 3 bytes\n",
            "chain one.chain",
        ),
    ] {
        let written = folder.done(words);
        assert!(written.ends_with(&format!(": {count}")), "{written}");
        let (count, _) = count.split_once(',').expect("two counts");
        assert!(folder.done(said).starts_with(&format!("{count}\n")));
    }
    folder.done("body overlay 4 4 0 0 0 0 1 1 -o one.body");
    assert!(
        folder
            .done("descriptor overlay one.body 1")
            .contains(", 1 input\n")
    );
}

/// A record of 400 MB, of which nothing but its numbers is on the disk.
#[test]
fn a_large_record_is_shown() {
    let folder = Folder::new("large");
    let header = [
        0xa0, 0x9c, 1, 0xa0, 0x9c, 1, 0, 8, 0, 0xa0, 0x9c, 1, 0x80, 0x88, 0xde, 0xbe, 1,
    ];
    folder.put("large.rec", &header);
    let file = fs::File::options()
        .write(true)
        .open(folder.0.join("large.rec"));
    let length = header.len() as u64 + 400_000_000;
    file.and_then(|file| file.set_len(length)).expect("a file");
    let text = folder.done("record large.rec");
    assert!(text.starts_with("20000 × 20000, mono, depth 8\n"), "{text}");
    assert!(
        text.ends_with("luma     20000    20000    20000       17 400000000\n"),
        "{text}"
    );
    // Through a pipe it is read, and the same is said of a small one.
    folder.put("small.rec", &[1, 1, 0, 8, 0, 1, 1, 7]);
    let piped = folder.run_with("record -", &folder.get("small.rec"));
    assert_eq!(piped.stdout, folder.run("record small.rec").stdout);
}

/// What the program prints is printed, refused or not; the status says which.
#[test]
fn steps_are_printed() {
    let folder = Folder::new("steps");
    for (input, text, refusal) in [
        (
            &[6, 4, 2, 2, 1, 1, 3, 0, 1][..],
            "step kind width height\n0 2 4 6\n1 3 4 6\n",
            None,
        ),
        (&[6, 4, 0], "step kind width height\n", None),
        (
            &[6, 4, 1, 4, 0, 0, 1, 1, 1],
            "step kind width height\n0 4 refused 7\n",
            Some(Refusal::ZERO),
        ),
        (&[0, 4, 0], "refused 3\n", Some(Refusal::EMPTY)),
    ] {
        let output = folder.run_with("steps -", input);
        assert_eq!(String::from_utf8_lossy(&output.stdout), text);
        match refusal {
            None => assert_eq!((status(&output), complaint(&output)), (0, String::new())),
            Some(refusal) => {
                assert_eq!(status(&output), 2);
                assert_eq!(complaint(&output), format!("compose steps: {refusal}\n"));
            }
        }
    }
}
