//! The functions that `crates/capi_c` exports for C, read from its source: what the declarations of
//! this crate and of `include/compose.h` are held to.

use std::fs;
use std::path::PathBuf;

/// A file or folder of the repository.
pub fn in_repository(path: &str) -> PathBuf {
    PathBuf::from(concat!(env!("CARGO_MANIFEST_DIR"), "/../..")).join(path)
}

/// What stands before the name of a function that is exported.
pub const EXPORT: &str = "#[unsafe(no_mangle)]\npub extern \"C\" fn ";

/// One function; it answers a word of 64 bits.
#[derive(Clone, Debug, PartialEq, Eq, PartialOrd, Ord)]
pub struct Function {
    pub name: String,
    /// Name and type of each parameter.
    pub parameters: Vec<(String, String)>,
}

/// A text with one blank where it has several, and none where one says nothing.
fn tidy(text: &str) -> String {
    let words: Vec<&str> = text.split_whitespace().collect();
    words.join(" ").replace("& ", "&").replace("[ ", "[")
}

impl Function {
    /// From a name and the parameters behind it in brackets, as Rust and Rattle write them.
    pub fn read(declaration: &str) -> Self {
        let (name, rest) = declaration.split_once('(').expect("a bracket");
        let (parameters, _) = rest.rsplit_once(')').expect("a bracket");
        let parameters = parameters.split(',').filter(|one| !one.trim().is_empty());
        let parameter = |text: &str| {
            let (name, of) = text.split_once(':').expect("a name and a type");
            (tidy(name), tidy(of))
        };
        Self {
            name: tidy(name),
            parameters: parameters.map(parameter).collect(),
        }
    }
}

/// Every function that the source marks for C, by name.
pub fn functions() -> Vec<Function> {
    let mut functions = Vec::new();
    let files = fs::read_dir(in_repository("crates/capi_c/src"));
    for file in files.expect("the crate capi_c is there") {
        let code = fs::read_to_string(file.expect("a file").path()).expect("a text");
        for function in code.split(EXPORT).skip(1) {
            let (declaration, _) = function.split_once(" -> u64").expect("a word");
            functions.push(Function::read(declaration));
        }
    }
    functions.sort();
    functions
}
