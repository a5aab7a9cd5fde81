//! How the command fails: nothing is written, and it is said what is wrong.

use crate::folder::{Folder, complaint, program};
use compose::limits::{Ceiling, Excess};
use compose::{About, Chroma, HeifFrame, HeifPixelFormat, Refusal};
use std::fs;

#[test]
fn what_is_refused_writes_nothing() {
    let folder = Folder::with_picture("refused");
    let record = folder.get("a.rec");
    folder.put("cut.rec", &record[..record.len() - 1]);
    folder.put("old.rec", b"as it was");
    folder.done("body overlay 4 4 0 0 0 0 0 0 -o one.body");
    folder.done("pack a.rec -o one.tray");
    folder.done("pack -o none.tray");
    for (words, part, refusal) in [
        ("record cut.rec", "cut.rec: ", Refusal::MALFORMED),
        ("view cut.rec", "cut.rec: ", Refusal::MALFORMED),
        (
            "tray a.rec",
            "a.rec: ",
            Refusal::MALFORMED.of_item(About::Record, 0),
        ),
        (
            "pack a.rec cut.rec -o new.rec",
            "cut.rec: ",
            Refusal::MALFORMED,
        ),
        (
            "pack a.rec cut.rec -o old.rec --force",
            "cut.rec: ",
            Refusal::MALFORMED,
        ),
        ("crop a.rec 0 0 7 1 -o new.rec", "", Refusal::OUTSIDE),
        (
            "crop a.rec 0 0 7 1 -o old.rec --force",
            "",
            Refusal::OUTSIDE,
        ),
        (
            "crop cut.rec 0 0 7 1 -o new.rec",
            "cut.rec: ",
            Refusal::MALFORMED,
        ),
        (
            "clap a.rec 5 1 4 1 0 1 0 1 -o new.rec",
            "",
            Refusal::FRACTION,
        ),
        ("clap a.rec 5 0 4 1 0 1 0 1 -o new.rec", "", Refusal::ZERO),
        ("irot cut.rec 1 -o new.rec", "cut.rec: ", Refusal::MALFORMED),
        ("iscl a.rec 0 1 1 1 -o new.rec", "", Refusal::ZERO),
        ("nearest a.rec 0 1 -o new.rec", "", Refusal::EMPTY),
        ("depth a.rec 17 -o old.rec --force", "", Refusal::DEPTH),
        (
            "attach a.rec cut.rec -o new.rec",
            "cut.rec: ",
            Refusal::MALFORMED,
        ),
        ("body grid 1 1 0 4 -o new.rec", "", Refusal::EMPTY),
        (
            "body overlay 65536 65536 0 0 0 0 1 2 -o new.rec",
            "",
            Refusal::LIMIT,
        ),
        ("grid a.rec a.rec -o new.rec", "a.rec: ", Refusal::VERSION),
        ("body grid 0 1 4 4 -o new.rec", "", Refusal::TILING),
        ("body grid 257 1 4 4 -o new.rec", "", Refusal::TILING),
        ("body grid 1 70000 4 4 -o new.rec", "", Refusal::TILING),
        ("body grid 1 0 0 4 -o new.rec", "", Refusal::TILING),
        ("body overlay 4 4 0 0 0 0 -o new.rec", "", Refusal::MISSING),
        ("body overlay 4 0 0 0 0 0 -o new.rec", "", Refusal::EMPTY),
        (
            "overlay one.body none.tray -o new.rec",
            "none.tray: ",
            Refusal::MISSING,
        ),
        (
            "overlay one.body one.tray -o new.rec --premultiplied 0,0",
            "--premultiplied: ",
            Refusal::COUNT,
        ),
        (
            "imir cut.rec 1 -o old.rec --force",
            "cut.rec: ",
            Refusal::MALFORMED,
        ),
    ] {
        folder.refuses(words, part, refusal);
        assert!(!folder.has("new.rec"), "{words}");
        assert_eq!(folder.get("old.rec"), b"as it was", "{words}");
    }
}

#[test]
fn wrong_words_write_nothing() {
    let folder = Folder::with_picture("wrong-words");
    for (words, beginning) in [
        ("turn a.rec", "compose: turn is no command"),
        ("help turn", "compose: turn is no command"),
        ("--versions", "compose: --versions is no command"),
        ("record", "compose: record: PICTURE is missing"),
        (
            "record a.rec b.rec",
            "compose: record: b.rec is a word too many",
        ),
        ("pack", "compose: pack: -o OUT is missing"),
        ("crop a.rec 0 0 2", "compose: crop: HEIGHT is missing"),
        ("crop a.rec 0 0 2 2", "compose: crop: -o OUT is missing"),
        (
            "crop a.rec 0 0 two 2 -o new.rec",
            "compose: crop: WIDTH is a number from 0 to 4294967295, not two",
        ),
        (
            "crop a.rec -1 0 2 2 -o new.rec",
            "compose: crop: X is a number from 0 to 4294967295, not -1",
        ),
        (
            "irot a.rec 256 -o new.rec",
            "compose: irot: ANGLE is a number from 0 to 255, not 256",
        ),
        (
            "imir a.rec 1 -o new.rec more",
            "compose: imir: more is a word too many",
        ),
        ("fill 1 2", "compose: fill: BLUE is missing"),
        (
            "descriptor",
            "compose: descriptor: grid or overlay is missing",
        ),
        (
            "descriptor iden a.rec",
            "compose: descriptor: it takes grid or overlay, not iden",
        ),
        (
            "descriptor overlay a.rec",
            "compose: descriptor: COUNT is missing",
        ),
        (
            "descriptor grid a.rec 2",
            "compose: descriptor: 2 is a word too many",
        ),
        ("chain", "compose: chain: CHAIN is missing"),
        ("chain a.rec 6", "compose: chain: HEIGHT is missing"),
        ("chain a.rec 6 4 2", "compose: chain: 2 is a word too many"),
        (
            "chain a.rec 6 -4",
            "compose: chain: HEIGHT is a number from 0 to 4294967295, not -4",
        ),
        ("entries", "compose: entries: -o OUT is missing"),
        (
            "entries turn 1 -o new.rec",
            "compose: entries: turn is no property",
        ),
        (
            "entries irot -o new.rec",
            "compose: entries: ANGLE is missing",
        ),
        (
            "body overlay 4 4 0 0 0 0 1 -o new.rec",
            "compose: body: BELOW is missing",
        ),
        (
            "body iden",
            "compose: body: it takes grid or overlay, not iden",
        ),
        (
            "body grid 4294967296 1 4 4 -o new.rec",
            "compose: body: ROWS is a number from 0 to 4294967295, not 4294967296",
        ),
        ("grid a.rec a.rec", "compose: grid: -o OUT is missing"),
        (
            "overlay a.rec a.rec -o new.rec --premultiplied 0,2",
            "compose: overlay: LIST is a 0 or a 1 for each input, not 0,2",
        ),
        (
            "attach a.rec -o new.rec",
            "compose: attach: ALPHA is missing",
        ),
        (
            "iscl a.rec 1 2 65536 3 -o new.rec",
            "compose: iscl: HN is a number from 0 to 65535, not 65536",
        ),
        ("resolve", "compose: resolve: clap or iscl is missing"),
        (
            "resolve irot 1 1 1",
            "compose: resolve: it takes clap or iscl, not irot",
        ),
        (
            "resolve iscl 5 5 1 2 65536 3",
            "compose: resolve: HN is a number from 0 to 65535, not 65536",
        ),
        (
            "resolve clap 5 5 1 2 1 3 2147483648",
            "compose: resolve: XN is a number from -2147483648 to 2147483647, not 2147483648",
        ),
        (
            "steps 6 4 a.rec more",
            "compose: steps: more is a word too many",
        ),
        ("steps", "compose: steps: WIDTH is missing"),
        ("steps 6 4", "compose: steps: CHAIN is missing"),
        (
            "completions sh",
            "compose: completions: it takes bash, zsh or fish, not sh",
        ),
        ("fill 1 2 3 --depth", "compose: fill: --depth takes a word"),
        (
            "fill 1 2 3 --studio=yes",
            "compose: fill: --studio takes no word",
        ),
        (
            "fill 1 2 3 --depth 8 --depth=9",
            "compose: fill: --depth is given twice",
        ),
        (
            "irot a.rec 1 -f new.rec",
            "compose: irot: -f is no option of irot",
        ),
        (
            "record a.rec -o new.rec",
            "compose: record: -o is no option of record",
        ),
        ("fill 1 2 65536", "compose: fill: BLUE is a number from 0 "),
        (
            "view a.rec --blue",
            "compose: view: --blue is no option of view",
        ),
        ("record none.rec", "compose: none.rec cannot be read: "),
        (
            "irot a.rec 1 -o none/new.rec",
            "compose: none/new.rec cannot be written: ",
        ),
    ] {
        folder.fails(words, 1, beginning);
        assert!(!folder.has("new.rec"), "{words}");
    }
}

/// A mono record of depth 8 or 9, 2 × 2, its alpha at `alpha` if it has one.
fn two(depth: u8, alpha: Option<u16>) -> Vec<u8> {
    let format = HeifPixelFormat::new(Chroma::Mono, depth, alpha.is_some()).expect("a depth");
    let mut frame = HeifFrame::filled(2, 2, format, 7).expect("a frame");
    if let (Some(plane), Some(alpha)) = (format.alpha_plane(), alpha) {
        frame.set_sample(plane, 1, 1, alpha);
    }
    frame.to_record().expect("a record")
}

/// A tray that nobody has judged.
fn tray(records: &[&[u8]]) -> Vec<u8> {
    [&[records.len() as u8], &records.concat()[..]].concat()
}

/// A refusal of several files names the one, and its part.
#[test]
fn refusals_name_the_file_and_its_part() {
    let folder = Folder::new("parts");
    let plain = two(8, None);
    let (cut, deep) = (&plain[..plain.len() - 1], two(9, None));
    let shining = two(9, Some(512));
    let small = [1, 1, 0, 8, 0, 1, 1, 7];
    for (file, bytes) in [
        ("tiles.tray", tray(&[&plain, &plain])),
        ("cut.tray", tray(&[&plain, cut])),
        ("over.tray", [tray(&[&plain, &plain]), vec![0]].concat()),
        ("count.tray", vec![0x82]),
        ("three.tray", tray(&[&plain, &plain, &plain])),
        ("small.tray", tray(&[&plain, &small])),
        ("deep.tray", tray(&[&plain, &deep])),
        ("shining.tray", tray(&[&deep, &shining])),
        ("none.tray", vec![0]),
        ("grid.body", vec![0, 0, 0, 1, 0, 4, 0, 2]),
        ("wide.body", vec![0, 0, 0, 1, 0, 5, 0, 2]),
        ("empty.body", vec![0, 0, 0, 1, 0, 0, 0, 2]),
        ("cut.chain", vec![1, 2, 0]),
    ] {
        folder.put(file, &bytes);
    }
    folder.done("body overlay 4 4 0 0 0 0 0 0 1 1 -o overlay.body");
    folder.done("entries irot! 1 other clap 5 1 4 1 0 1 0 1 -o clap.chain");
    folder.done("entries imir! 0 iscl 1 2 1 0 -o iscl.chain");
    folder.done("entries -o no.chain");
    for (words, part, refusal) in [
        ("grid empty.body tiles.tray", "empty.body: ", Refusal::EMPTY),
        (
            "grid empty.body count.tray",
            "count.tray: ",
            Refusal::MALFORMED,
        ),
        ("grid grid.body three.tray", "three.tray: ", Refusal::COUNT),
        (
            "grid grid.body cut.tray",
            "cut.tray: ",
            Refusal::MALFORMED.of_item(About::Record, 1),
        ),
        (
            "grid grid.body over.tray",
            "over.tray: ",
            Refusal::MALFORMED,
        ),
        ("grid wide.body tiles.tray", "tiles.tray: ", Refusal::COVER),
        (
            "grid grid.body small.tray",
            "small.tray: ",
            Refusal::TILE.of_item(About::Record, 1),
        ),
        (
            "grid grid.body deep.tray",
            "deep.tray: ",
            Refusal::LAYOUT.of_item(About::Record, 1),
        ),
        (
            "overlay overlay.body three.tray",
            "overlay.body: ",
            Refusal::SHORT,
        ),
        ("overlay grid.body none.tray", "grid.body: ", Refusal::SHORT),
        (
            "overlay overlay.body none.tray",
            "none.tray: ",
            Refusal::MISSING,
        ),
        (
            "overlay overlay.body cut.tray",
            "cut.tray: ",
            Refusal::MALFORMED.of_item(About::Record, 1),
        ),
        (
            "overlay overlay.body deep.tray",
            "deep.tray: ",
            Refusal::LAYOUT.of_item(About::Record, 1),
        ),
        (
            "overlay overlay.body shining.tray",
            "shining.tray: ",
            Refusal::OPACITY.of_item(About::Record, 1),
        ),
        (
            "scene grid empty.body cut.tray cut.chain",
            "cut.chain: ",
            Refusal::MALFORMED.of_item(About::Entry, 0),
        ),
        (
            "scene grid grid.body tiles.tray clap.chain",
            "clap.chain: ",
            Refusal::OUTSIDE.of_item(About::Entry, 2),
        ),
        (
            "scene grid grid.body tiles.tray iscl.chain",
            "iscl.chain: ",
            Refusal::ZERO.of_item(About::Entry, 1),
        ),
        (
            "scene overlay overlay.body cut.tray clap.chain",
            "cut.tray: ",
            Refusal::MALFORMED.of_item(About::Record, 1),
        ),
        (
            "point grid grid.body tiles.tray iscl.chain 0 0",
            "iscl.chain: ",
            Refusal::POINT.of_item(About::Entry, 1),
        ),
        (
            "point overlay overlay.body shining.tray no.chain 0 0",
            "shining.tray: ",
            Refusal::POINT.of_item(About::Record, 1),
        ),
        (
            "point grid grid.body tiles.tray no.chain 9 9",
            "",
            Refusal::POINT,
        ),
        ("pack tiles.tray", "tiles.tray: ", Refusal::MALFORMED),
        (
            "tray cut.tray",
            "cut.tray: ",
            Refusal::MALFORMED.of_item(About::Record, 1),
        ),
        (
            "attach tiles.tray cut.tray",
            "tiles.tray: ",
            Refusal::MALFORMED,
        ),
    ] {
        let command = words.split(' ').next().expect("a word");
        let out = if ["point", "tray"].contains(&command) {
            ""
        } else {
            " -o new.rec"
        };
        folder.refuses(&format!("{words}{out}"), part, refusal);
        assert!(!folder.has("new.rec"), "{words}");
    }
    // Under the flag the entry that would be refused is passed over.
    folder.done("scene grid grid.body tiles.tray clap.chain --essential -o new.rec");
}

/// A body, a tray and a chain of 28 bytes that ask for 32,768 × 32,768 pixels and, with a spare, for
/// 2 GiB.
fn small_and_large(name: &str) -> Folder {
    let folder = Folder::new(name);
    folder.put("one.body", &[0, 0, 0, 0, 0, 1, 0, 1]);
    folder.put("one.tray", &[1, 1, 1, 0, 8, 0, 1, 1, 7]);
    let scale = [1, 4, 0, 0x80, 0x80, 2, 1, 0x80, 0x80, 2, 1];
    folder.put("large.chain", &scale);
    folder
}

#[test]
fn what_is_above_a_ceiling_takes_no_memory() {
    let folder = small_and_large("ceilings");
    let scene = "scene grid one.body one.tray large.chain -o new.rec";
    let usual = "compose scene: 4: The picture is too large, or there are too many records or entries. \
                 It would have 1073741824 pixels, and at most 268435456 are allowed (--max-pixels N).\n";
    folder.fails(scene, 2, usual);
    let beyond = format!("{scene} --max-pixels 1073741824");
    let bytes = "compose scene: 4: The picture is too large, or there are too many records or entries. \
                 It would take 2147483682 bytes of memory, and at most 1073741824 are allowed \
                 (--max-bytes N).\n";
    folder.fails(&beyond, 2, bytes);
    let german = "compose scene: 4: Das Bild ist zu groß, oder es sind zu viele Bilder oder Einträge. Es \
                  bräuchte 2147483682 Byte Speicher, und höchstens 1073741824 sind erlaubt \
                  (--max-bytes N).\n";
    folder.fails(&format!("{beyond} --german"), 2, german);

    // A process that may have 256 MiB in all ends so, too.
    let compose = env!("CARGO_BIN_EXE_compose");
    let run = format!("ulimit -v 262144; {compose} {beyond}");
    let small = program("sh")
        .args(["-c", &run])
        .current_dir(&folder.0)
        .output()
        .expect("a shell");
    assert_eq!(complaint(&small), bytes);
    assert!(!folder.has("new.rec"));
}

/// What a command says where it is asked for one more than is allowed.
fn above(command: &str, what: Ceiling, asked: u64) -> String {
    let most = asked - 1;
    let option = match what {
        Ceiling::Pixels => "--max-pixels",
        Ceiling::Bytes => "--max-bytes",
    };
    let refusal = Refusal::from(Excess { what, asked, most }).to_string();
    let sentence = refusal.trim_end_matches('.');
    format!("compose {command}: {sentence} ({option} N).\n")
}

#[test]
fn ceilings_are_set_by_options() {
    let folder = Folder::with_picture("ceilings-set");
    folder.done("body grid 1 1 6 4 -o one.body");
    folder.done("body overlay 6 4 0 0 0 65535 0 0 -o over.body");
    folder.done("pack a.rec -o one.tray");
    folder.done("entries irot 2 -o turn.chain");
    for (words, bytes) in [
        ("crop a.rec 0 0 6 4", 47),
        ("clap a.rec 6 1 4 1 0 1 0 1", 47),
        ("irot a.rec 1", 47),
        ("imir a.rec 0", 47),
        ("iscl a.rec 1 1 1 1", 47),
        ("nearest a.rec 6 4", 47),
        ("depth a.rec 10", 83),
        ("attach a.rec a.rec", 73),
        ("convert a.rec", 47),
        ("grid one.body one.tray", 47),
        ("overlay over.body one.tray", 47),
        ("scene grid one.body one.tray turn.chain", 94),
        ("scene overlay over.body one.tray turn.chain", 94),
    ] {
        let command = words.split(' ').next().unwrap_or_default();
        let few = format!("{words} --max-pixels 23 -o new.rec");
        folder.fails(&few, 2, &above(command, Ceiling::Pixels, 24));
        let few = format!("{words} --max-bytes {} -o new.rec", bytes - 1);
        folder.fails(&few, 2, &above(command, Ceiling::Bytes, bytes));
        assert!(!folder.has("new.rec"), "{words}");
        folder.done(&format!(
            "{words} --max-pixels=24 --max-bytes={bytes} -o new.rec"
        ));
        fs::remove_file(folder.0.join("new.rec")).expect("a file");
        let own = folder.done(&format!("help {command}"));
        assert!(own.contains("\n--max-pixels N ") && own.contains("\n--max-bytes N "));
    }
    // The record, its planes and the file.
    let to_ppm = "convert a.rec --matrix 6 -o new.ppm";
    let refused = above("convert", Ceiling::Bytes, 166);
    folder.fails(&format!("{to_ppm} --max-bytes 165"), 2, &refused);
    folder.done(&format!("{to_ppm} --max-bytes 166"));
    folder.fails(
        "crop a.rec 0 0 6 4 -o new.rec --max-pixels all",
        1,
        "compose: crop: --max-pixels is a number from 0 to ",
    );
}
