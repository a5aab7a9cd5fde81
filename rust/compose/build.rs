//! Links the composer's static library, `target/staticlib/libcapi.a` of the repository, which
//! `tools/staticlib` proves and writes. It is made here where it is missing, and again where what it
//! is made from is newer. `COMPOSE_PROGRESS` may name a file, as a terminal, that a line a crate is
//! written to meanwhile.

use std::fs::{self, File, OpenOptions};
use std::io::{self, BufRead, BufReader, Read, Write};
use std::path::{Path, PathBuf};
use std::process::{Child, Command, ExitCode, Stdio};
use std::time::{Instant, SystemTime};
use std::{env, thread};

const LIBRARY: &str = "target/staticlib/libcapi.a";

/// The name that it is linked by.
const LINKED: &str = "capi";

/// What makes it.
const MAKER: &str = "tools/staticlib";

/// The crate that the library is made of, with those that it stands on.
const CRATE: &str = "capi_c";

/// A crate behind all that it stands on, in the order in which rt comes to them.
fn collect<'a>(name: &'a str, lines: &[(&'a str, &'a str)], crates: &mut Vec<&'a str>) {
    // What the list does not have is the toolchain's.
    let line = lines.iter().find(|(listed, _)| *listed == name);
    if let (Some((_, below)), false) = (line, crates.contains(&name)) {
        for name in below.split_whitespace() {
            collect(name, lines, crates);
        }
        crates.push(name);
    }
}

/// The crates that the library is made of, by the list of crates: all below `CRATE`, and it itself.
fn crates(list: &str) -> Vec<&str> {
    let lines: Vec<(&str, &str)> = list
        .lines()
        .filter(|line| !line.trim_start().starts_with('#'))
        .filter_map(|line| line.split_once(':'))
        .map(|(name, below)| (name.trim().trim_end_matches(" staticlib"), below))
        .collect();
    let mut crates = Vec::new();
    collect(CRATE, &lines, &mut crates);
    crates
}

/// The paths inside a folder; none where there is no folder.
fn inside(folder: &Path) -> Vec<PathBuf> {
    let entries = fs::read_dir(folder).into_iter().flatten().flatten();
    entries.map(|entry| entry.path()).collect()
}

/// What the library is made from: the list of crates, and the code and definitions of its own.
fn sources(repository: &Path, crates: &[&str]) -> Vec<PathBuf> {
    let mut sources = vec![repository.join("crates.txt")];
    for name in crates {
        let parts = ["src", "specs"].map(|part| repository.join("crates").join(name).join(part));
        sources.extend(parts.into_iter().filter(|part| part.is_dir()));
    }
    sources
}

/// When the newest file at or below `path` was changed. A folder changes when a file of it goes.
fn newest(path: &Path) -> Option<SystemTime> {
    let own = fs::metadata(path).and_then(|data| data.modified()).ok();
    let below = inside(path).into_iter().filter_map(|path| newest(&path));
    below.chain(own).max()
}

/// Where progress is shown, and how far it is.
struct Progress<'a> {
    to: Option<File>,
    crates: &'a [&'a str],
    done: usize,
    since: Instant,
}

impl<'a> Progress<'a> {
    fn new(crates: &'a [&'a str]) -> Self {
        let to = env::var_os("COMPOSE_PROGRESS");
        let to = to.and_then(|path| OpenOptions::new().append(true).open(path).ok());
        let mut progress = Self {
            to,
            crates,
            done: 0,
            since: Instant::now(),
        };
        let of = crates.len();
        progress.say(&format!(
            "compose: the library is being proved, {of} crates; the first time takes long"
        ));
        progress
    }

    fn say(&mut self, line: &str) {
        if let Some(to) = &mut self.to {
            // Whoever does not look on need not.
            let _ = writeln!(to, "{line}");
        }
    }

    /// One crate more.
    fn proved(&mut self, how: &str) {
        let (name, of) = (self.crates[self.done], self.crates.len());
        self.done += 1;
        let done = self.done;
        self.say(&format!("{done} of {of}, {name}, {how}"));
    }

    /// What a line of rt's says: that it begins with a crate, those before it being unchanged where it
    /// said nothing of them; or that the crate which it began with is proved.
    fn hear(&mut self, line: &str) {
        if line.starts_with("rt: chose --jobs ") {
            let (_, name) = line.rsplit_once(' ').unwrap_or_default();
            let at = self.crates.iter().position(|one| *one == name);
            while at.is_some_and(|at| self.done < at) {
                self.proved("unchanged");
            }
            self.since = Instant::now();
        } else if line.starts_with("logic=proved ") && self.done < self.crates.len() {
            let seconds = self.since.elapsed().as_secs();
            self.proved(&format!("{seconds} s"));
        }
    }
}

/// What the maker says, line by line as it says it; then its end.
fn follow(mut maker: Child, progress: &mut Progress) -> io::Result<(bool, String)> {
    let mut errors = maker.stderr.take().expect("a pipe");
    let errors = thread::spawn(move || {
        let mut text = String::new();
        let _ = errors.read_to_string(&mut text);
        text
    });
    let mut said = String::new();
    for line in BufReader::new(maker.stdout.take().expect("a pipe")).lines() {
        let line = line?;
        progress.hear(&line);
        said += &format!("{line}\n");
    }
    let ended = maker.wait()?;
    said += &errors.join().unwrap_or_default();
    Ok((ended.success(), said))
}

/// Has the library made. `there`: whether an older one could serve.
fn make(repository: &Path, crates: &[&str], there: bool) -> Result<(), String> {
    let rt = Command::new("rt").arg("version").output();
    if rt.is_err_and(|error| error.kind() == io::ErrorKind::NotFound) {
        if there {
            println!("cargo::warning={LIBRARY} is older than crates/, and rt is not on the path");
            return Ok(());
        }
        return Err(format!(
            "{LIBRARY} is missing, and rt, which makes it, is not on the path"
        ));
    }
    let maker = Command::new(repository.join(MAKER))
        .stdout(Stdio::piped())
        .stderr(Stdio::piped())
        .spawn()
        .map_err(|error| format!("{MAKER} did not start: {error}"))?;
    match follow(maker, &mut Progress::new(crates)) {
        Ok((true, _)) => Ok(()),
        Ok((false, said)) => {
            eprintln!("{said}");
            Err(format!("{MAKER} failed"))
        }
        Err(error) => Err(format!("{MAKER} broke off: {error}")),
    }
}

fn link(repository: &Path) -> Result<(), String> {
    let library = repository.join(LIBRARY);
    let list = fs::read_to_string(repository.join("crates.txt"));
    let list = list.map_err(|error| format!("crates.txt cannot be read: {error}"))?;
    let crates = crates(&list);
    let sources = sources(repository, &crates);
    let made = newest(&library);
    if made.is_none() || sources.iter().any(|source| newest(source) > made) {
        make(repository, &crates, made.is_some())?;
    }
    for path in sources.iter().chain([&library]) {
        println!("cargo::rerun-if-changed={}", path.display());
    }
    let folder = library.parent().expect("the library is in a folder");
    println!("cargo::rustc-link-search=native={}", folder.display());
    println!("cargo::rustc-link-lib=static={LINKED}");
    Ok(())
}

fn main() -> ExitCode {
    println!("cargo::rerun-if-changed=build.rs");
    let package = env::var_os("CARGO_MANIFEST_DIR").expect("cargo names the package");
    match link(&PathBuf::from(package).join("../..")) {
        Ok(()) => ExitCode::SUCCESS,
        Err(complaint) => {
            println!("cargo::error={complaint}");
            ExitCode::FAILURE
        }
    }
}
