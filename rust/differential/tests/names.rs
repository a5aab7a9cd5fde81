//! The names of oxideav-heif's composing part: each is in the crate `compose`, in the module where it
//! was, or on the list of what stays out, which stands where the crate says that only `use` lines
//! change.

use std::collections::BTreeSet;
use std::fs;
use std::path::PathBuf;

/// The modules of oxideav-heif that compose.
const MODULES: [&str; 5] = ["compose", "derived", "error", "image", "props"];

/// The name that a line declares for other crates, if it does.
fn declared(line: &str) -> Option<&str> {
    let line = line.strip_prefix("pub ")?;
    let (_, rest) = ["fn ", "struct ", "enum ", "const ", "type ", "mod "]
        .iter()
        .find_map(|word| Some((word, line.strip_prefix(word)?)))?;
    rest.split(no_word).next()
}

fn no_word(c: char) -> bool {
    !c.is_alphanumeric() && c != '_'
}

/// The type that an inherent `impl` is of.
fn implemented(line: &str) -> Option<&str> {
    let line = line.strip_prefix("impl")?;
    let line = match line.strip_prefix('<') {
        Some(rest) => rest.split_once("> ")?.1,
        None => line.trim_start(),
    };
    let name = line.split(['<', ' ']).next()?;
    (!line.contains(" for ")).then_some(name)
}

/// What a source declares: its items, and the methods and constants of its types as `Type::name`.
fn names(source: &str) -> BTreeSet<String> {
    let mut names = BTreeSet::new();
    let mut of = None;
    for line in source.lines() {
        if let Some(taken) = line.strip_prefix("pub use ") {
            names.extend(taken.split(no_word).map(String::from));
        } else if let Some(name) = declared(line) {
            names.insert(name.to_string());
        } else if line.starts_with("impl") {
            of = implemented(line);
        } else if line == "}" {
            of = None;
        }
        let member = line.strip_prefix("    ").and_then(declared);
        if let (Some(of), Some(member)) = (of, member) {
            names.insert(format!("{of}::{member}"));
        }
    }
    names
}

fn source(path: PathBuf) -> String {
    fs::read_to_string(&path).unwrap_or_else(|error| panic!("{}: {error}", path.display()))
}

/// A file of the crate.
fn ours(file: &str) -> String {
    source(
        PathBuf::from(env!("CARGO_MANIFEST_DIR"))
            .join("../compose/src")
            .join(file),
    )
}

/// The names on the list of what stays out; what it links to is here.
fn left_out() -> BTreeSet<String> {
    let page = ours("lib.rs");
    let (_, list) = page.split_once("//! # What stays out").expect("the list");
    let (list, _) = list.split_once("//! # ").expect("the next part");
    let (_, list) = list.split_once("//! - ").expect("its first line");
    let parts: Vec<&str> = list.split('`').collect();
    let named = parts.as_chunks::<2>().0.iter();
    let out = named.filter(|[before, _]| !before.ends_with('['));
    out.map(|[_, name]| name.to_string()).collect()
}

/// What a module of the crate has: its own file, or for `compose` the names that it takes over.
fn here(module: &str) -> BTreeSet<String> {
    let taken = match module {
        "compose" => vec!["canvas.rs", "composite.rs", "fill.rs", "transform.rs"],
        "error" => vec!["error.rs", "refusal.rs"],
        "derived" => vec!["derived.rs"],
        "image" => vec!["image.rs"],
        _ => vec!["props.rs"],
    };
    let mut here: BTreeSet<String> = taken
        .into_iter()
        .flat_map(|file| names(&ours(file)))
        .collect();
    if module == "compose" {
        let page = ours("lib.rs");
        let (_, taken) = page.split_once("pub mod compose {").expect("the module");
        let taken: BTreeSet<&str> = taken.split(no_word).collect();
        here.retain(|name| taken.contains(name.split("::").next().unwrap_or(name)));
    }
    here
}

#[test]
fn every_name_is_here_or_said_to_be_out() {
    let Some(folder) = oracle::FOLDER else {
        println!("the published Rust is not here");
        return;
    };
    let left_out = left_out();
    let mut used = BTreeSet::new();
    let mut count = 0;
    for module in MODULES {
        let theirs = names(&source(
            PathBuf::from(folder).join(module).with_extension("rs"),
        ));
        let here = here(module);
        for name in theirs {
            count += 1;
            let of = name.split("::").next().expect("a part").to_string();
            if here.contains(&name) {
                continue;
            }
            let out = [&name, &of]
                .into_iter()
                .find(|name| left_out.contains(*name));
            let out =
                out.unwrap_or_else(|| panic!("{module}: {name} is neither here nor left out"));
            used.insert(out.clone());
        }
    }
    assert!(count > 150, "{count} names");
    // Nothing stands on the list that is here, or that there is not. A module's own name may.
    let idle: Vec<&String> = left_out
        .difference(&used)
        .filter(|name| !MODULES.contains(&name.as_str()))
        .collect();
    assert!(idle.is_empty(), "{idle:?}");
}
