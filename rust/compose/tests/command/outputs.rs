//! What is written, and what is not.

use crate::folder::Folder;
use compose::Refusal;
use compose::operation::irot;
use std::fs;

/// The files of a folder, by name.
fn files(folder: &Folder) -> Vec<String> {
    let files = fs::read_dir(&folder.0).expect("the folder").flatten();
    let mut files: Vec<String> = files
        .map(|file| file.file_name().into_string().expect("a name"))
        .collect();
    files.sort();
    files
}

/// Every command that writes names its output one way.
#[test]
fn outputs_are_named_by_an_option() {
    let folder = Folder::with_picture("outputs");
    let help = folder.done("--help");
    for command in [
        "example", "pack", "body", "entries", "convert", "crop", "clap", "irot", "imir", "iscl",
        "nearest", "depth", "attach", "grid", "overlay", "scene",
    ] {
        let line = help
            .lines()
            .find(|line| line.starts_with(&format!("  {command} ")));
        assert!(
            line.is_some_and(|line| line.contains(" -o OUT ")),
            "{command}"
        );
        let own = folder.done(&format!("help {command}"));
        assert!(own.contains("\n--force "), "{own}");
    }
    // With the output forgotten nothing is written.
    folder.done("irot a.rec 1 -o b.rec");
    let before = folder.get("b.rec");
    folder.fails(
        "pack a.rec b.rec",
        1,
        "compose: pack: -o OUT is missing\nusage: ",
    );
    folder.fails("irot a.rec 1 b.rec", 1, "compose: irot: -o OUT is missing");
    assert_eq!(folder.get("b.rec"), before);
    assert_eq!(files(&folder), ["a.rec", "b.rec"]);
    // Behind -- a word is no option, wherever -o stands.
    folder.done("imir -o c.rec -- a.rec 1");
    folder.done("imir --force -o c.rec a.rec 1");
}

/// What is handed in is not written to, whatever it is called.
#[test]
fn what_is_handed_in_stays() {
    let folder = Folder::with_picture("handed-in");
    let record = folder.get("a.rec");
    let path = |file: &str| folder.0.join(file);
    std::os::unix::fs::symlink("a.rec", path("link.rec")).expect("a link");
    fs::hard_link(path("a.rec"), path("same.rec")).expect("a link");
    let there = files(&folder);
    for (words, out) in [
        ("irot a.rec 1", "a.rec"),
        ("irot a.rec 1", "./a.rec"),
        ("irot a.rec 1", "link.rec"),
        ("irot a.rec 1", "same.rec"),
        ("irot link.rec 1", "a.rec"),
        ("attach a.rec same.rec", "same.rec"),
        ("pack same.rec link.rec a.rec", "a.rec"),
        ("grid a.rec link.rec", "a.rec"),
        ("scene grid same.rec a.rec link.rec", "link.rec"),
    ] {
        for force in ["", " --force"] {
            let complaint = format!("compose: {out} is handed in, and is not written to");
            folder.fails(&format!("{words} -o {out}{force}"), 1, &complaint);
        }
        assert_eq!(folder.get("a.rec"), record, "{words}");
    }
    assert_eq!(files(&folder), there);
}

/// What is there is replaced by --force alone, and then whole, by a file that was written beside.
#[test]
fn what_is_there_stays() {
    let folder = Folder::with_picture("there");
    folder.put("old.rec", b"as it was");
    let path = |file: &str| folder.0.join(file);
    fs::hard_link(path("old.rec"), path("kept.rec")).expect("a link");
    std::os::unix::fs::symlink("old.rec", path("link.rec")).expect("a link");
    for out in ["old.rec", "link.rec"] {
        let complaint = format!("compose: {out} is there already; --force replaces it");
        folder.fails(&format!("irot a.rec 1 -o {out}"), 1, &complaint);
    }
    folder.done("irot a.rec 1 -o link.rec --force");
    let turned = irot(&folder.get("a.rec"), 1).expect("a record");
    assert_eq!(folder.get("old.rec"), turned);
    assert!(path("link.rec").is_symlink());
    // The file that it was is as it was: nothing was written into it.
    assert_eq!(folder.get("kept.rec"), b"as it was");
    // Refused, nothing is left beside.
    folder.refuses(
        "crop a.rec 9 9 9 9 -o old.rec --force",
        "",
        Refusal::OUTSIDE,
    );
    assert_eq!(folder.get("old.rec"), turned);
    assert_eq!(files(&folder), ["a.rec", "kept.rec", "link.rec", "old.rec"]);
    // What is no file is written to as it stands.
    folder.done("irot a.rec 1 -o /dev/null");
    folder.fails("irot a.rec 1 -o .", 1, "compose: . is a folder");
}
