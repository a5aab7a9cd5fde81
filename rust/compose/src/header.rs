//! `include/compose.h`, held to the source of the library: names, parameters and their types, and
//! the refusals.

use crate::declared::{EXPORT, Function, functions, in_repository};
use crate::refusal::LONGEST_SENTENCE;
use crate::{About, Language, Refusal};
use std::collections::BTreeSet;
use std::fs;
use std::path::{Path, PathBuf};
use std::process::Command;

/// The header without its comments.
fn header() -> String {
    let header = fs::read_to_string(in_repository("include/compose.h")).expect("the header");
    let mut parts = header.split("/*");
    let mut code = parts.next().expect("a part").to_string();
    for part in parts {
        let (_, after) = part.split_once("*/").expect("a comment that ends");
        code.push_str(after);
    }
    code
}

/// A C type.
fn in_c(of: &str) -> String {
    match of {
        "u8" | "u16" | "u32" | "u64" => format!("uint{}_t", &of[1..]),
        "usize" => "size_t".into(),
        other => panic!("{other} has no C type here"),
    }
}

/// A function as the header must have it, on one line.
fn prototype(function: &Function) -> String {
    let parameter = |(name, of): &(String, String)| {
        let slice = |of: &str, before: &str| {
            let item = in_c(of.trim_end_matches(']'));
            format!("{before}{item} *{name}, size_t {name}_len")
        };
        if let Some(of) = of.strip_prefix("&mut [") {
            slice(of, "")
        } else if let Some(of) = of.strip_prefix("&[") {
            slice(of, "const ")
        } else {
            format!("{} {name}", in_c(of))
        }
    };
    let parameters: Vec<String> = function.parameters.iter().map(parameter).collect();
    let parameters = match parameters.is_empty() {
        true => "void".into(),
        false => parameters.join(", "),
    };
    format!("uint64_t {}({parameters});", function.name)
}

/// The prototypes of the header, each on one line.
fn prototypes() -> Vec<String> {
    let header = header();
    let starts = header.match_indices("uint64_t compose_").map(|(at, _)| at);
    let prototype = |at: usize| {
        let end = header[at..].find(';').expect("an end") + 1;
        let words: Vec<&str> = header[at..at + end].split_whitespace().collect();
        words.join(" ")
    };
    starts.map(prototype).collect()
}

#[test]
fn the_header_has_the_calls_of_the_library() {
    let (mut ours, theirs) = (prototypes(), functions());
    let mut theirs: Vec<String> = theirs.iter().map(prototype).collect();
    ours.sort();
    theirs.sort();
    let without = |all: &[String], some: &[String]| -> String {
        let missing = all.iter().filter(|one| !some.contains(one));
        missing.map(|one| format!("\n  {one}")).collect()
    };
    let (lacks, strange) = (without(&theirs, &ours), without(&ours, &theirs));
    assert!(lacks.is_empty(), "include/compose.h lacks{lacks}");
    assert!(
        strange.is_empty(),
        "include/compose.h has what crates/capi_c has not{strange}"
    );
    assert_eq!(ours, theirs);
}

/// The calls in a file of a crate: the names that their clauses are written in, and of each call what
/// stands before its body, with the body.
fn calls(file: &Path) -> (Vec<String>, Vec<(String, String)>) {
    let code = fs::read_to_string(file).expect("a text");
    let names = code.lines().filter(|line| line.starts_with("ghost use "));
    let calls = code.split(EXPORT).skip(1).map(|call| {
        let (head, rest) = call.split_once("\n{\n").expect("a body");
        let (body, _) = rest.split_once("\n}\n").expect("an end");
        (head.to_string(), body.to_string())
    });
    (names.map(str::to_string).collect(), calls.collect())
}

/// What the library exports is `crates/capi`, file by file and call by call: the clauses are the same
/// word for word, and the body is the call.
#[test]
fn the_library_exports_the_calls_of_capi() {
    let files = |of: &str| -> BTreeSet<PathBuf> {
        let files = fs::read_dir(in_repository(of)).expect("the crate is there");
        let files = files.map(|file| PathBuf::from(file.expect("a file").file_name()));
        files.filter(|file| file.as_os_str() != "lib.rt").collect()
    };
    let [ours, theirs] = ["crates/capi_c/src", "crates/capi/src"];
    assert_eq!(files(ours), files(theirs));
    let mut count = 0;
    for file in files(ours) {
        let (names, exports) = calls(&in_repository(ours).join(&file));
        let (theirs, calls) = calls(&in_repository(theirs).join(&file));
        assert_eq!(names, theirs, "{}", file.display());
        assert_eq!(exports.len(), calls.len(), "{}", file.display());
        let module = file.file_stem().expect("a name").to_string_lossy();
        for ((head, body), (clauses, _)) in exports.iter().zip(&calls) {
            assert_eq!(head, clauses);
            let (declaration, _) = head.split_once(" -> u64").expect("a word");
            let Function { name, parameters } = Function::read(declaration);
            let words: Vec<&str> = body.split_whitespace().collect();
            let body = words.join(" ").replace("( ", "(").replace(", )", ")");
            let passed: Vec<&str> = parameters.iter().map(|(name, _)| name.as_str()).collect();
            assert_eq!(
                body,
                format!("capi::{module}::{name}({})", passed.join(", "))
            );
            count += 1;
        }
    }
    assert_eq!(count, functions().len());
}

/// An enum of the header has these constants.
fn hold_enum(name: &str, ours: impl IntoIterator<Item = (String, u8)>) {
    let header = header();
    let (_, rest) = header
        .split_once(&format!("enum compose_{name} {{"))
        .expect("it");
    let (list, _) = rest.split_once('}').expect("an end");
    let theirs: Vec<String> = list.split(',').map(|one| one.trim().to_string()).collect();
    let constant = |(name, number): (String, u8)| format!("COMPOSE_{name} = {number}");
    let ours: Vec<String> = ours.into_iter().map(constant).collect();
    assert_eq!(theirs, ours);
}

#[test]
fn the_header_has_the_refusals() {
    let constant = |refusal: &Refusal| (refusal.name().to_uppercase(), refusal.number());
    hold_enum("refusal", Refusal::ALL.iter().map(constant));
}

#[test]
fn the_header_has_sorts_and_languages() {
    let sorts = About::ALL.map(|about| (format!("{about:?}").to_uppercase(), about as u8));
    hold_enum("sort", [("NO_ITEM".into(), 0)].into_iter().chain(sorts));
    let name = |language: Language| format!("{language:?}").to_uppercase();
    hold_enum(
        "language",
        Language::ALL.map(|language| (name(language), language as u8)),
    );
    let longest = format!("#define COMPOSE_SENTENCE {LONGEST_SENTENCE}\n");
    assert!(header().contains(&longest), "{longest}");
}

/// The header's comments say what the refusals mean in the words that the crate has.
#[test]
fn the_header_says_what_refusals_mean() {
    let header = fs::read_to_string(in_repository("include/compose.h")).expect("the header");
    for (refusal, meaning) in Refusal::ALL.iter().zip(Refusal::MEANINGS) {
        let number = refusal.number();
        let line = header.lines().find(|line| {
            let line = line.replace([',', ' '], "");
            line.contains(&format!("={number}/*"))
        });
        let line = line.unwrap_or_else(|| panic!("a line for {number}"));
        assert!(line.ends_with(&format!("/* {meaning} */")), "{line}");
    }
}

/// The version of the calls is the crate's.
#[test]
fn the_header_has_the_version() {
    let parts: Vec<u32> = env!("CARGO_PKG_VERSION")
        .split('.')
        .map(|part| part.parse().expect("a number"))
        .collect();
    let number = parts.iter().fold(0, |number, part| number * 100 + part);
    let line = format!("#define COMPOSE_API_VERSION {number}\n");
    assert!(header().contains(&line), "{line}");
}

/// The lines of README's steps for C.
fn steps_for_c() -> Vec<String> {
    let readme = fs::read_to_string(in_repository("README.md")).expect("the first page");
    let (_, part) = readme.split_once("\n## From C\n").expect("the part");
    let (part, _) = part.split_once("\n## ").expect("an end");
    let code = part.lines().filter_map(|line| line.strip_prefix("    "));
    code.map(|line| {
        line.split("  #")
            .next()
            .unwrap_or(line)
            .trim_end()
            .to_string()
    })
    .collect()
}

/// The steps of README: the library, and the example over it, here with every warning an error.
#[test]
fn the_example_runs() {
    let [library, example] = &steps_for_c()[..] else {
        panic!("two steps");
    };
    assert_eq!(library, "tools/staticlib");
    let comment = fs::read_to_string(in_repository("include/example.c")).expect("the example");
    assert!(comment.contains(&format!(" *     {example}\n")));
    let words: Vec<&str> = example.split_whitespace().collect();
    let [compiler, words @ .., "-o", made, "&&", run] = &words[..] else {
        panic!("a compiler, its words, what it makes, and its run: {example}");
    };
    assert_eq!(made, run);
    let program = std::env::temp_dir().join(format!("compose-example-{}", std::process::id()));
    let compiled = Command::new(compiler)
        .current_dir(in_repository(""))
        .args(["-std=c99", "-Wall", "-Wextra", "-Werror", "-pedantic"])
        .args(words)
        .arg("-o")
        .arg(&program)
        .output();
    let Ok(compiled) = compiled else {
        println!("no C compiler is here; the example is not run");
        return;
    };
    let complaint = String::from_utf8_lossy(&compiled.stderr);
    assert!(compiled.status.success(), "{complaint}");
    let ran = Command::new(&program).output().expect("the example starts");
    std::fs::remove_file(&program).expect("the example is there");
    assert!(ran.status.success());
    assert_eq!(
        String::from_utf8_lossy(&ran.stdout),
        format!(
            " 6 8\n 5 7\n 2 4\n 1 3\n(0, 0): tile 1 at (1, 0)\n(2, 0): {}\ncut short: {}\n",
            Refusal::POINT,
            Refusal::MALFORMED.of_item(About::Record, 1)
        )
    );
}
