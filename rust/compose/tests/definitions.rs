//! What a reader must believe stands apart: nothing that a public promise is built on is defined in a
//! file of `specs/inner/`. A public promise is the contract of a call for C, the page of promises,
//! the table of cases, or the steps program's text.

use std::collections::{BTreeMap, BTreeSet};
use std::fs;
use std::path::{Path, PathBuf};

/// A definition: its crate, its module below `specs`, its name.
type Name = (String, String, String);

/// Names of a file that stand for definitions of other files.
type Uses = BTreeMap<String, Name>;

#[derive(Default)]
struct Definitions {
    texts: BTreeMap<Name, String>,
    /// The data type that a constructor belongs to.
    constructors: BTreeMap<Name, Name>,
    uses: BTreeMap<(String, String), Uses>,
}

fn crates() -> PathBuf {
    PathBuf::from(concat!(env!("CARGO_MANIFEST_DIR"), "/../../crates"))
}

fn files(folder: &Path, end: &str) -> Vec<PathBuf> {
    let mut files = Vec::new();
    for entry in fs::read_dir(folder).into_iter().flatten().flatten() {
        let path = entry.path();
        if path.is_dir() {
            files.extend(self::files(&path, end));
        } else if path.extension().is_some_and(|one| one == end) {
            files.push(path);
        }
    }
    files.sort();
    files
}

/// The words of a text: what stands between blanks, brackets and points.
fn words(text: &str) -> impl Iterator<Item = &str> {
    text.split(|c: char| c.is_whitespace() || "(){}[];,.".contains(c))
        .filter(|word| !word.is_empty())
}

/// `use Rattle.C.specs.M.{a, b as c}`, of definitions alone.
fn uses(text: &str) -> Uses {
    let mut uses = Uses::new();
    for line in text.lines() {
        let line = line.strip_prefix("ghost ").unwrap_or(line);
        let Some(rest) = line.strip_prefix("use Rattle.") else {
            continue;
        };
        let Some((path, names)) = rest.split_once(".{") else {
            continue;
        };
        let Some((of, module)) = path.split_once(".specs.") else {
            continue;
        };
        let names = names.split('}').next().expect("a list of names");
        for name in names.split(',') {
            let (name, here) = name.split_once(" as ").unwrap_or((name, name));
            let full = (of.into(), module.into(), name.trim().into());
            uses.insert(here.trim().into(), full);
        }
    }
    uses
}

/// The name that a line without indent declares, if it declares one.
fn declared(line: &str) -> Option<&str> {
    let (head, _) = line.split_once(" :")?;
    if head.contains('=') || line.starts_with(char::is_whitespace) {
        return None;
    }
    let marks = ["unfoldable", "abbrev", "pub", "record", "data"];
    words(head).find(|word| !marks.contains(word))
}

impl Definitions {
    fn read() -> Self {
        let mut all = Self::default();
        for folder in fs::read_dir(crates()).expect("the crates").flatten() {
            let of = folder.file_name().into_string().expect("a name");
            let specs = folder.path().join("specs");
            for path in files(&specs, "antt") {
                let below = path.strip_prefix(&specs).expect("below specs");
                let module = below.with_extension("").to_string_lossy().replace('/', ".");
                let text = fs::read_to_string(&path).expect("a text");
                all.add(&of, &module, &text);
            }
        }
        all
    }

    fn add(&mut self, of: &str, module: &str, text: &str) {
        let here = |name: &str| (of.to_string(), module.to_string(), name.to_string());
        self.uses.insert((of.into(), module.into()), uses(text));
        let mut now = None;
        let mut data = false;
        for line in text.lines().filter(|line| !line.starts_with("use ")) {
            let line = line.split("--").next().expect("a line");
            if let Some(name) = declared(line) {
                now = Some(here(name));
                data = line.starts_with("pub data ");
            } else if let (true, Some(kind), Some((name, _))) =
                (data, &now, line.trim().split_once(" :"))
            {
                self.constructors.insert(here(name), kind.clone());
            }
            if let Some(name) = &now {
                let text = self.texts.entry(name.clone()).or_default();
                text.push_str(line);
                text.push('\n');
            }
        }
    }

    /// What a word of a file means, where it is a definition.
    fn resolve(&self, of: &str, module: &str, word: &str) -> Option<Name> {
        let file = (of.to_string(), module.to_string());
        let own = (of.to_string(), module.to_string(), word.to_string());
        let used = self.uses.get(&file).and_then(|uses| uses.get(word));
        let means = |name: &Name| {
            let there = self.texts.contains_key(name).then(|| name.clone());
            self.constructors.get(name).cloned().or(there)
        };
        means(&own).or_else(|| used.and_then(means))
    }

    /// All that some definitions are built on, with themselves.
    fn closure(&self, mut left: Vec<Name>) -> BTreeSet<Name> {
        let mut seen = BTreeSet::new();
        while let Some(name) = left.pop() {
            let Some(text) = self.texts.get(&name) else {
                continue;
            };
            if !seen.insert(name.clone()) {
                continue;
            }
            let (of, module, _) = &name;
            left.extend(words(text).filter_map(|word| self.resolve(of, module, word)));
        }
        seen
    }
}

/// What the contracts of the calls for C cite.
fn calls() -> Vec<Name> {
    let mut cited = Vec::new();
    let mut count = 0;
    for path in files(&crates().join("capi_c/src"), "rt") {
        let text = fs::read_to_string(&path).expect("a text");
        let uses = uses(&text);
        for call in text.split("pub extern \"C\" fn ").skip(1) {
            let (head, _) = call.split_once("\n{").expect("a body");
            cited.extend(words(head).filter_map(|word| uses.get(word).cloned()));
            count += 1;
        }
    }
    assert!(count > 25, "{count} calls");
    cited
}

#[test]
fn nothing_that_a_public_promise_is_built_on_is_inner() {
    let all = Definitions::read();
    let mut roots = calls();
    let pages = [("promises", "Promises"), ("cases", "Table")];
    roots.extend(all.texts.keys().cloned().filter(|(of, module, name)| {
        pages.contains(&(of.as_str(), module.as_str()))
            || (of.as_str(), name.as_str()) == ("steps_text", "text_of")
    }));
    let public = all.closure(roots);
    assert!(public.len() > 300, "{} definitions", public.len());
    let inner: Vec<&Name> = public
        .iter()
        .filter(|(_, module, _)| module.starts_with("inner."))
        .collect();
    assert!(inner.is_empty(), "{inner:?}");
    let apart = all
        .texts
        .keys()
        .filter(|(_, module, _)| module.starts_with("inner."));
    assert!(apart.count() > 80, "definitions in inner files");
}
