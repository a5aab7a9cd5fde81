//! Finds the published Rust: in the folder that `HEIF_SRC` names (from this package's folder, if it
//! is not an absolute path), else in `shared/docs/src` beside the repository. Where it is,
//! `modules.rs` in the build's own folder names its files as modules, the cfg `source_present` is
//! set, and `HEIF_FOLDER` is the folder; where it is not, none of these.

use std::path::{Path, PathBuf};
use std::{env, fs};

/// The files of the source that the composer's counterpart needs.
const FILES: [&str; 8] = [
    "av1c", "boxes", "compose", "derived", "error", "image", "lhvc", "props",
];

fn folder() -> PathBuf {
    let package =
        PathBuf::from(env::var_os("CARGO_MANIFEST_DIR").expect("cargo names the package"));
    match env::var_os("HEIF_SRC") {
        Some(named) => package.join(named),
        None => package.join("../../../shared/docs/src"),
    }
}

/// One module declaration a file. The source is not ours to lint.
fn declarations(folder: &Path) -> String {
    FILES
        .iter()
        .map(|name| {
            let path = folder.join(name).with_extension("rs");
            format!("#[allow(warnings, clippy::all)]\n#[path = {path:?}]\npub mod {name};\n")
        })
        .collect()
}

fn main() {
    println!("cargo::rerun-if-env-changed=HEIF_SRC");
    println!("cargo::rustc-check-cfg=cfg(source_present)");
    // The source has code for a framework that is not built here.
    println!("cargo::rustc-check-cfg=cfg(feature, values(\"registry\"))");
    let folder = folder();
    println!("cargo::rerun-if-changed={}", folder.display());
    let Ok(folder) = folder.canonicalize() else {
        return;
    };
    if !FILES
        .iter()
        .all(|name| folder.join(name).with_extension("rs").is_file())
    {
        return;
    }
    let out = PathBuf::from(env::var_os("OUT_DIR").expect("cargo names the build's folder"));
    fs::write(out.join("modules.rs"), declarations(&folder))
        .expect("the build's folder is writable");
    println!("cargo::rustc-cfg=source_present");
    println!("cargo::rustc-env=HEIF_FOLDER={}", folder.display());
}
