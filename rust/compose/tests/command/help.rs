//! What the command says of itself.

use crate::folder::{Folder, program};
use compose::{About, Language, Refusal};
use std::fs;
use std::os::unix::fs::{PermissionsExt, symlink};
use std::path::PathBuf;
use std::process::Command;

const COMMANDS: [&str; 29] = [
    "demo",
    "view",
    "record",
    "tray",
    "descriptor",
    "chain",
    "explain",
    "example",
    "pack",
    "body",
    "entries",
    "fill",
    "resolve",
    "steps",
    "convert",
    "crop",
    "clap",
    "irot",
    "imir",
    "iscl",
    "nearest",
    "depth",
    "attach",
    "grid",
    "overlay",
    "scene",
    "point",
    "man",
    "completions",
];

#[test]
fn the_help_has_every_command() {
    let folder = Folder::new("help");
    let help = folder.done("--help");
    assert_eq!(help, folder.done("help"));
    assert_eq!(help, folder.done("-h"));
    for command in COMMANDS {
        assert!(help.contains(&format!("\n  {command} ")), "{command}");
        let own = folder.done(&format!("help {command}"));
        let usage = format!("usage: compose {command}");
        assert!(own.starts_with(&usage), "{own}");
        // What every command takes.
        assert!(own.contains("\n--german   "), "{own}");
        assert_eq!(own, folder.done(&format!("{command} --help")));
        assert_eq!(own, folder.done(&format!("--help {command}")));
    }
    let lines = help.lines().filter(|line| line.chars().count() > 100);
    assert_eq!(lines.count(), 0);
}

/// The card has a part a refusal, in its order: number and name, then both sentences, in lines of at
/// most 80 characters.
#[test]
fn the_help_has_every_refusal() {
    let folder = Folder::new("refusals");
    let card = folder.done("help refusals");
    assert!(widest(&card) <= 80, "{card}");
    for words in ["help --german refusals", "--german help refusals"] {
        assert_eq!(folder.done(words), card);
    }
    let (parts, items) = card.split_once("\n\n").expect("two parts");
    let mut words = parts.split_whitespace();
    let mut is = |text: &str| {
        for word in text.split_whitespace() {
            assert_eq!(words.next(), Some(word), "{text}");
        }
    };
    for refusal in Refusal::ALL {
        let number = refusal.number().to_string();
        is(&format!("{number} {}", refusal.name()));
        for language in [Language::English, Language::German] {
            let sentence = refusal.sentence(language);
            is(sentence.strip_prefix(&format!("{number}: ")).expect("it"));
        }
    }
    assert_eq!(words.next(), None);
    for (refusal, about) in [
        (Refusal::TILE, About::Record),
        (Refusal::ZERO, About::Entry),
    ] {
        for language in Language::ALL {
            let sentence = refusal.of_item(about, 4).sentence(language);
            assert!(items.contains(&format!("\n  {sentence}\n")), "{sentence}");
        }
    }
    let narrow = folder
        .command("help refusals")
        .env("COLUMNS", "60")
        .output();
    let narrow = String::from_utf8(narrow.expect("the command").stdout).expect("text");
    assert!(
        narrow.contains(" 13  tile ") && narrow.contains(" oder "),
        "{narrow}"
    );
}

/// The lines of the help's first steps are commands that work.
#[test]
fn the_first_steps_of_the_help_work() {
    let folder = Folder::new("first-steps");
    let help = folder.done("--help");
    let steps: Vec<&str> = help
        .lines()
        .filter_map(|line| line.trim().strip_prefix("compose "))
        .filter(|line| line.contains(".rec"))
        .map(|line| line.split("   ").next().unwrap_or(line))
        .collect();
    assert_eq!(steps.len(), 4);
    for step in steps {
        folder.done(step);
    }
    assert!(folder.get("up.ppm").starts_with(b"P6\n32 48\n255\n"));
}

#[test]
fn the_version_is_the_crates() {
    let folder = Folder::new("version");
    let version = format!("compose {}\n", env!("CARGO_PKG_VERSION"));
    assert_eq!(folder.done("--version"), version);
    assert_eq!(folder.done("-V"), version);
}

/// The command on a terminal so many columns wide, with more of its environment set.
fn on_a_terminal(folder: &Folder, words: &str, columns: u32, set: &str) -> Option<String> {
    let compose = env!("CARGO_BIN_EXE_compose");
    let run = format!("stty cols {columns} rows 24; {set} {compose} {words}");
    let terminal = program("script")
        .args(["-qec", &run, "/dev/null"])
        .current_dir(&folder.0)
        .env_remove("NO_COLOR")
        .env_remove("COLORTERM")
        .env("TERM", "xterm-256color")
        .output();
    match terminal {
        Ok(output) => Some(String::from_utf8(output.stdout).expect("text")),
        Err(_) => {
            println!("no program script is here; nothing is shown on a terminal");
            None
        }
    }
}

/// How many characters the longest line has.
fn widest(text: &str) -> usize {
    text.lines()
        .map(|line| line.trim_end().chars().count())
        .max()
        .unwrap_or(0)
}

#[test]
fn terminals_without_colours_and_narrow_ones() {
    let folder = Folder::with_picture("terminals");
    folder.done("example -o slope.rec");
    let shown = |columns, set| on_a_terminal(&folder, "view slope.rec", columns, set);
    let Some(usual) = shown(80, "") else { return };
    assert!(usual.contains("\x1b[38;5;"), "{usual}");
    let all = shown(80, "COLORTERM=truecolor").expect("a terminal");
    assert!(all.contains("\x1b[38;2;"), "{all}");
    // An empty NO_COLOR is one that is not set.
    assert_eq!(shown(80, "NO_COLOR=").as_ref(), Some(&usual));
    for without in ["NO_COLOR=1", "TERM=dumb", "TERM=", "TERM=vt100"] {
        let plain = shown(80, without).expect("a terminal");
        assert!(!plain.contains('\x1b'), "{without}");
    }
    for columns in [20, 7, 1] {
        let narrow = shown(columns, "TERM=dumb").expect("a terminal");
        let picture: Vec<&str> = narrow.lines().filter(|line| !line.contains('×')).collect();
        assert!(widest(&picture.join("\n")) <= columns as usize, "{narrow}");
    }
}

#[test]
fn the_help_fits_a_narrow_terminal() {
    let folder = Folder::new("narrow");
    for words in ["--help", "help overlay", "help demo"] {
        let Some(narrow) = on_a_terminal(&folder, words, 60, "") else {
            return;
        };
        // Lines of commands stay whole.
        let prose: Vec<&str> = narrow
            .lines()
            .filter(|line| !line.contains("compose "))
            .collect();
        assert!(widest(&prose.join("\n")) <= 60, "{narrow}");
    }
}

/// The page for man has every command and option, and groff finds nothing wrong with it.
#[test]
fn the_manual_page_has_all_of_the_help() {
    let folder = Folder::new("man");
    let page = folder.done("man");
    assert!(page.is_ascii());
    let mut plain = page.replace("\\-", "-");
    for letter in "×äöüßÄÖÜ".chars() {
        plain = plain.replace(
            &format!("\\[u{:04X}]", u32::from(letter)),
            &letter.to_string(),
        );
    }
    for command in COMMANDS {
        let help = folder.done(&format!("help {command}"));
        let (usage, rest) = help.split_once('\n').expect("a line");
        let usage = usage.strip_prefix("usage: ").expect("a usage");
        assert!(plain.contains(&format!("\n.SS {usage}\n")), "{usage}");
        let options = rest.lines().filter(|line| line.starts_with('-'));
        for option in options.filter_map(|line| line.split("  ").next()) {
            assert!(plain.contains(&format!("\n.B {option}\n")), "{option}");
        }
    }
    // Once, since every command takes it.
    assert_eq!(plain.matches("\n.B --german\n").count(), 1);
    for refusal in Refusal::ALL {
        let (number, name) = (refusal.number(), refusal.name());
        assert!(plain.contains(&format!("\n{number} ({name})\n")), "{name}");
        for language in Language::ALL {
            let sentence = refusal.sentence(language);
            let reason = sentence.strip_prefix(&format!("{number}: "));
            let reason = reason.expect("the number first");
            assert!(plain.contains(&format!("\n{reason}\n")), "{reason}");
        }
    }
    folder.put("compose.1", page.as_bytes());
    let groff = Command::new("groff")
        .args(["-man", "-ww", "-z", "compose.1"])
        .current_dir(&folder.0)
        .output();
    match groff {
        Ok(said) => assert_eq!(String::from_utf8_lossy(&said.stderr), ""),
        Err(_) => println!("no groff is here; the page is not set"),
    }
}

/// What bash offers behind words, the last of which is being typed.
fn offered(folder: &Folder, words: &str) -> Option<Vec<String>> {
    let words: Vec<&str> = words.split(' ').collect();
    let last = words.len() - 1;
    let script = format!(
        "source <({} completions bash); COMP_WORDS=({}); COMP_CWORD={last}; _compose; \
         printf '%s\\n' \"${{COMPREPLY[@]}}\"",
        env!("CARGO_BIN_EXE_compose"),
        words
            .iter()
            .map(|word| format!("'{word}' "))
            .collect::<String>(),
    );
    let bash = program("bash")
        .args(["--norc", "-c", &script])
        .current_dir(&folder.0)
        .output();
    let Ok(bash) = bash else {
        println!("no bash is here; nothing is completed");
        return None;
    };
    assert_eq!(String::from_utf8_lossy(&bash.stderr), "");
    let offered = String::from_utf8(bash.stdout).expect("text");
    Some(offered.lines().map(String::from).collect())
}

#[test]
fn shells_complete_commands_options_and_files() {
    let folder = Folder::with_picture("completions");
    let Some(commands) = offered(&folder, "compose ") else {
        return;
    };
    for command in COMMANDS {
        assert!(
            commands.iter().any(|offered| offered == command),
            "{command}"
        );
        for shell in ["zsh", "fish"] {
            let script = folder.done(&format!("completions {shell}"));
            assert!(
                script.contains(&format!(" {command}")),
                "{shell}: {command}"
            );
        }
    }
    assert_eq!(offered(&folder, "compose ov"), Some(vec!["overlay".into()]));
    let options = offered(&folder, "compose view --co");
    assert_eq!(options, Some(vec!["--columns".into(), "--colour".into()]));
    for command in COMMANDS {
        let german = offered(&folder, &format!("compose {command} --ger"));
        assert_eq!(german, Some(vec!["--german".into()]), "{command}");
    }
    let sorts = offered(&folder, "compose scene gr");
    assert_eq!(sorts, Some(vec!["grid".into()]));
    let items = offered(&folder, "compose explain 13 re");
    assert_eq!(items, Some(vec!["record".into()]));
    assert_eq!(
        offered(&folder, "compose irot a"),
        Some(vec!["a.rec".into()])
    );
}

fn in_repository(path: &str) -> PathBuf {
    PathBuf::from(concat!(env!("CARGO_MANIFEST_DIR"), "/../..")).join(path)
}

/// The script at the repository's root finds it through links, of which one is beside and one not.
#[test]
fn a_link_to_the_script_serves() {
    let folder = Folder::new("link");
    let path = |file: &str| folder.0.join(file);
    fs::create_dir(path("bin")).expect("a folder");
    let script = in_repository("compose").canonicalize().expect("the script");
    symlink(&script, path("first")).expect("a link");
    symlink("../first", path("bin/second")).expect("a link");
    // A cargo that says what it is asked for.
    folder.put("bin/cargo", b"#!/bin/sh\nprintf '%s\\n' \"$@\"\n");
    fs::set_permissions(path("bin/cargo"), fs::Permissions::from_mode(0o755)).expect("a program");
    let paths = std::env::var("PATH").expect("a path");
    let paths = format!("{}:{paths}", path("bin").display());
    for link in [script.clone(), path("first"), path("bin/second")] {
        let ran = Command::new(&link)
            .args(["view", "a b.rec"])
            .env("PATH", &paths)
            .output()
            .expect("the script starts");
        let asked = String::from_utf8(ran.stdout).expect("text");
        let manifest = script.with_file_name("rust").join("Cargo.toml");
        assert!(
            asked.contains(&format!("\n{}\n", manifest.display())),
            "{asked}"
        );
        assert!(asked.ends_with("\n--\nview\na b.rec\n"), "{asked}");
    }
}

/// README's line installs the command, here into a folder of the test.
#[test]
fn cargo_installs_the_command() {
    let readme = fs::read_to_string(in_repository("README.md")).expect("the first page");
    let line = readme
        .lines()
        .map(str::trim)
        .find(|line| line.starts_with("cargo install "));
    let line = line.expect("a line").split("  #").next().expect("a part");
    let folder = Folder::new("install");
    let installed = Command::new("cargo")
        .args(line.split_whitespace().skip(1))
        .args(["--root", &folder.0.display().to_string()])
        .current_dir(in_repository(""))
        .output()
        .expect("cargo starts");
    let said = String::from_utf8_lossy(&installed.stderr);
    assert!(installed.status.success(), "{said}");
    let ran = Command::new(folder.0.join("bin/compose"))
        .arg("--version")
        .output()
        .expect("the command starts");
    assert!(ran.stdout.starts_with(b"compose "));
}

/// Work that takes long says on a terminal what it is at, and how long it has been.
#[test]
fn long_work_says_how_far_it_is() {
    let folder = Folder::with_picture("progress");
    let compose = env!("CARGO_BIN_EXE_compose");
    let run = format!("(sleep 4; cat a.rec) | {compose} irot - 1 -o b.rec");
    let terminal = program("script")
        .args(["-qec", &run, "/dev/null"])
        .current_dir(&folder.0)
        .output();
    let Ok(terminal) = terminal else {
        println!("no program script is here; nothing is shown on a terminal");
        return;
    };
    let said = String::from_utf8(terminal.stdout).expect("text");
    for line in [
        "compose irot: reading -, 1 s",
        "compose irot: reading -, 2 s",
    ] {
        assert!(said.contains(line), "{said:?}");
    }
    // The line is empty again before the last one is printed.
    assert!(said.contains(" \rb.rec: 4 × 6, "), "{said:?}");
    // Elsewhere nothing is said of it.
    folder.done("irot a.rec 1 -o c.rec");
}
