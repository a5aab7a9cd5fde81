//! The documents, held to what is there. `docs/DESIGN.md`: every file that it links to has the names
//! that follow the link; every edit that must fail is named, and every edit that is named is there.
//! `README.md`: every command.

use std::collections::BTreeSet;
use std::fs;
use std::path::{Path, PathBuf};
use std::process::Command;

fn docs() -> PathBuf {
    PathBuf::from(concat!(env!("CARGO_MANIFEST_DIR"), "/../../docs"))
}

fn design() -> String {
    fs::read_to_string(docs().join("DESIGN.md")).expect("the map")
}

/// The words of `text` between backticks.
fn names(text: &str) -> impl Iterator<Item = &str> {
    text.split('`').skip(1).step_by(2)
}

/// Every link of `text`, with what follows up to the next link or the end of the cell.
fn links(text: &str) -> Vec<(&str, &str)> {
    let mut links = Vec::new();
    for part in text.split("](").skip(1) {
        let (target, rest) = part.split_once(')').expect("a link that ends");
        let end = rest.find(['[', '|', ':', ';']).unwrap_or(rest.len());
        links.push((target, &rest[..end]));
    }
    links
}

#[test]
fn what_the_map_links_to_is_there() {
    let design = design();
    let links = links(&design);
    assert!(links.len() > 80, "{} links", links.len());
    for (target, after) in links {
        let path = docs().join(target);
        assert!(path.exists(), "{target} is not there");
        if path.is_dir() || path.extension().is_some_and(|end| end == "md") {
            continue;
        }
        let text = fs::read_to_string(&path).expect("a text");
        for name in names(after) {
            let word = |c: char| c.is_whitespace() || "(){};,".contains(c);
            let has = text.split(word).any(|one| one == name);
            assert!(has, "{target} has no {name}");
        }
    }
}

/// The edits of every crate, as `crate/label`.
fn edits(crates: &Path) -> BTreeSet<String> {
    let mut edits = BTreeSet::new();
    for folder in fs::read_dir(crates).expect("the crates").flatten() {
        let of = folder.file_name().into_string().expect("a name");
        let files = fs::read_dir(folder.path().join("must-fail"));
        for file in files.into_iter().flatten().flatten() {
            let path = file.path();
            let label = path.file_stem().expect("a name").to_string_lossy();
            edits.insert(format!("{of}/{label}"));
        }
    }
    edits
}

#[test]
fn the_map_names_every_edit_that_must_fail() {
    let there = edits(&docs().join("../crates"));
    let design = design();
    let crates: BTreeSet<&str> = there
        .iter()
        .filter_map(|edit| edit.split('/').next())
        .collect();
    let named: BTreeSet<String> = names(&design)
        .filter(|name| {
            let parts: Vec<&str> = name.split('/').collect();
            parts.len() == 2 && crates.contains(parts[0])
        })
        .map(String::from)
        .collect();
    assert_eq!(named, there);
}

/// Every crate has its line in the table.
#[test]
fn the_map_names_every_crate() {
    let design = design();
    let list = fs::read_to_string(docs().join("../crates.txt")).expect("the list of crates");
    for line in list.lines().filter(|line| !line.starts_with('#')) {
        let (head, _) = line.split_once(':').expect("a name");
        let name = head.split(' ').next().expect("a name");
        assert!(design.contains(&format!("\n| `{name}` |")), "{name}");
    }
}

#[test]
fn the_first_page_names_every_command() {
    let readme = fs::read_to_string(docs().join("../README.md")).expect("the first page");
    let help = Command::new(env!("CARGO_BIN_EXE_compose"))
        .arg("--help")
        .output()
        .expect("the command starts");
    let help = String::from_utf8(help.stdout).expect("text");
    let listed = help.lines().filter_map(|line| line.strip_prefix("  "));
    let listed = listed.filter(|line| !line.starts_with("compose"));
    let mut count = 0;
    for name in listed.filter_map(|line| line.split_whitespace().next()) {
        assert!(names(&readme).any(|one| one == name), "{name}");
        count += 1;
    }
    assert!(count >= 15, "{count} commands");
}
