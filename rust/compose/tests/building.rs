//! `build.rs`, compiled by itself and run in a repository that is made here, with `tools/staticlib`
//! and an `rt` that says what the real one says.

use std::fs::{self, File};
use std::os::unix::fs::PermissionsExt;
use std::path::{Path, PathBuf};
use std::process::Command;
use std::time::{Duration, SystemTime};

/// What the real one says of four crates, one of them unchanged, and what it leaves.
const RT: &str = "#!/bin/sh
[ \"$*\" != version ] || exit 0
[ \"$* ${PWD##*/}\" = 'lib --cpu x86-64 capi_c' ] || exit 2
cd ../..
echo again >> ran
echo 'only=0 proved=0'
echo 'rt: chose --jobs 2 for laws'
echo 'fn laws::first: proved'
echo 'crate laws: modules loaded=0 checked=35'
echo 'logic=proved functions=1'
echo 'rt: chose --jobs 4 for capi'
[ ! -e broken ] || { echo 'logic=not-proved'; echo 'rt: the library capi did not build' >&2; exit 1; }
echo 'fn capi::call: proved'
echo 'logic=proved functions=1'
echo 'rt: chose --jobs 2 for capi_c'
sleep 2
echo 'logic=proved functions=1'
mkdir -p crates/capi_c/out && echo new > crates/capi_c/out/libcapi_c.a
";

/// The repository, and the program that `build.rs` is.
struct Repository {
    folder: PathBuf,
    program: PathBuf,
}

fn put(file: &Path, text: &str) {
    fs::create_dir_all(file.parent().expect("a folder")).expect("a folder");
    fs::write(file, text).expect("a file");
}

impl Repository {
    fn new(name: &str) -> Self {
        let folder = PathBuf::from(env!("CARGO_TARGET_TMPDIR")).join(name);
        let _ = fs::remove_dir_all(&folder);
        put(
            &folder.join("crates.txt"),
            "# A line a crate.\nlaws:\nnumbers: laws\ncapi: laws numbers json\ncases: laws capi\n\
             capi_c staticlib: laws capi\n",
        );
        for part in [
            "laws/src",
            "numbers/src",
            "numbers/specs",
            "capi/src",
            "capi_c/src",
            "cases/src",
        ] {
            put(&folder.join("crates").join(part).join("file"), "");
        }
        let maker = concat!(env!("CARGO_MANIFEST_DIR"), "/../../tools/staticlib");
        let maker = fs::read_to_string(maker).expect("what makes the library");
        for (program, text) in [("bin/rt", RT), ("tools/staticlib", &maker)] {
            put(&folder.join(program), text);
            let program =
                fs::set_permissions(folder.join(program), fs::Permissions::from_mode(0o755));
            program.expect("a program");
        }
        fs::create_dir_all(folder.join("rust/compose")).expect("a folder");
        let program = folder.join("build");
        let compiled = Command::new("rustc")
            .args(["--edition", "2024", "-o"])
            .arg(&program)
            .arg(concat!(env!("CARGO_MANIFEST_DIR"), "/build.rs"))
            .output()
            .expect("rustc starts");
        let complaint = String::from_utf8_lossy(&compiled.stderr);
        assert!(compiled.status.success(), "{complaint}");
        Self { folder, program }
    }

    /// Runs it: what it tells cargo, and whether it was content.
    fn build(&self) -> (String, bool) {
        let path = std::env::var("PATH").expect("a path");
        let bin = self.folder.join("bin");
        let ran = Command::new(&self.program)
            .env("PATH", format!("{}:{path}", bin.display()))
            .env("CARGO_MANIFEST_DIR", self.folder.join("rust/compose"))
            .env("COMPOSE_PROGRESS", self.folder.join("progress"))
            .output()
            .expect("the program starts");
        let told = String::from_utf8(ran.stdout).expect("text");
        (told, ran.status.success())
    }

    fn text(&self, file: &str) -> String {
        fs::read_to_string(self.folder.join(file)).unwrap_or_default()
    }

    /// How often rt has been run.
    fn runs(&self) -> usize {
        self.text("ran").lines().count()
    }

    /// A file is changed, later than all that was made.
    fn touch(&self, file: &str, later: u64) {
        let file = File::options().append(true).open(self.folder.join(file));
        let time = SystemTime::now() + Duration::from_secs(later);
        file.and_then(|file| file.set_modified(time))
            .expect("a file");
    }
}

#[test]
fn the_library_is_made_with_a_line_a_crate() {
    let repository = Repository::new("made");
    put(&repository.folder.join("progress"), "");
    let (told, content) = repository.build();
    assert!(content, "{told}");
    assert_eq!(repository.runs(), 1);
    let progress = repository.text("progress");
    let lines: Vec<&str> = progress.lines().collect();
    let [first, laws, numbers, capi, capi_c] = lines[..] else {
        panic!("{progress}");
    };
    assert!(
        first.starts_with("compose: the library is being proved, 4 crates"),
        "{first}"
    );
    assert_eq!(numbers, "2 of 4, numbers, unchanged");
    let seconds = |line: &str, head: &str| -> u64 {
        let seconds = line
            .strip_prefix(head)
            .and_then(|line| line.strip_suffix(" s"));
        let seconds = seconds.unwrap_or_else(|| panic!("{line}"));
        seconds.parse().expect("a number")
    };
    seconds(laws, "1 of 4, laws, ");
    seconds(capi, "3 of 4, capi, ");
    assert!(seconds(capi_c, "4 of 4, capi_c, ") >= 1, "{capi_c}");
    let library = repository.text("target/staticlib/libcapi.a");
    assert_eq!(library, "new\n");
    assert!(
        told.contains("cargo::rustc-link-lib=static=capi\n"),
        "{told}"
    );
}

/// The code and the definitions of the crates that the library is made of, and nothing else.
#[test]
fn what_the_library_is_made_of_is_watched() {
    let repository = Repository::new("watched");
    let (told, _) = repository.build();
    let watched = |part: &str| told.contains(&format!("/{part}\n"));
    for part in [
        "crates.txt",
        "laws/src",
        "numbers/src",
        "numbers/specs",
        "capi/src",
        "capi_c/src",
    ] {
        assert!(watched(part), "{part}: {told}");
    }
    assert!(!told.contains("cases"), "{told}");
    repository.build();
    assert_eq!(repository.runs(), 1);
    repository.touch("crates/cases/src/file", 10);
    repository.build();
    assert_eq!(repository.runs(), 1);
    repository.touch("crates/numbers/specs/file", 20);
    repository.build();
    assert_eq!(repository.runs(), 2);
}

#[test]
fn a_library_that_is_not_proved_is_an_error() {
    let repository = Repository::new("unproved");
    put(&repository.folder.join("broken"), "");
    let (told, content) = repository.build();
    assert!(!content);
    assert!(
        told.contains("cargo::error=tools/staticlib failed\n"),
        "{told}"
    );
}
