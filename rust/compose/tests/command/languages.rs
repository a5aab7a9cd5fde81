//! Why something is refused, in German and in English.

use crate::folder::{Folder, complaint, status};
use compose::{About, Language, Refusal};

/// A folder with two tiles of which the second is too small, and a chain whose third entry has a 0 below
/// a fraction.
fn faulty(name: &str) -> Folder {
    let folder = Folder::new(name);
    folder.put(
        "tiles.tray",
        &[2, 2, 2, 0, 8, 0, 2, 4, 1, 2, 3, 4, 1, 1, 0, 8, 0, 1, 1, 5],
    );
    folder.put(
        "one.tray",
        &[1, 4, 2, 0, 8, 0, 4, 8, 1, 2, 3, 4, 5, 6, 7, 8],
    );
    folder.done("body grid 1 2 4 2 -o grid.body");
    folder.done("body grid 1 1 4 2 -o one.body");
    folder.done("entries other irot! 1 clap! 1 0 1 1 0 1 0 1 -o zero.chain");
    folder
}

const GRID: &str = "grid grid.body tiles.tray -o out.rec";

/// What the grid is refused with.
fn second_tile(language: Language) -> String {
    let refusal = Refusal::TILE.of_item(About::Record, 1);
    format!("compose grid: tiles.tray: {}\n", refusal.sentence(language))
}

#[test]
fn an_option_of_every_command() {
    let folder = faulty("german");
    assert_eq!(
        second_tile(Language::English),
        "compose grid: tiles.tray: 13: A tile is not the same size as the first one (record 1).\n"
    );
    assert_eq!(
        second_tile(Language::German),
        "compose grid: tiles.tray: 13: Eine Kachel ist nicht so groß wie die erste (Bild 1).\n"
    );
    folder.fails(GRID, 2, &second_tile(Language::English));
    for words in [
        format!("{GRID} --german"),
        format!("--german {GRID}"),
        format!("--german --german {GRID}"),
        "grid --german grid.body tiles.tray -o out.rec".into(),
        "grid grid.body --german tiles.tray -o out.rec".into(),
    ] {
        folder.fails(&words, 2, &second_tile(Language::German));
    }
    for (words, part, refusal) in [
        ("record grid.body", "grid.body: ", Refusal::DEPTH),
        ("tray grid.body", "grid.body: ", Refusal::MALFORMED),
        ("descriptor grid one.tray", "one.tray: ", Refusal::VERSION),
        ("body grid 1 1 0 1 -o out.rec", "", Refusal::EMPTY),
        ("body grid 257 1 1 1 -o out.rec", "", Refusal::TILING),
        ("body overlay 1 1 0 0 0 0 -o out.rec", "", Refusal::MISSING),
        ("fill 1 2 3 --depth 7", "", Refusal::DEPTH),
        ("resolve iscl 1 1 1 0 1 1", "", Refusal::ZERO),
        (
            "scene grid one.body one.tray zero.chain -o out.rec",
            "zero.chain: ",
            Refusal::ZERO.of_item(About::Entry, 2),
        ),
        (
            "point grid one.body one.tray zero.chain 0 0",
            "zero.chain: ",
            Refusal::ZERO.of_item(About::Entry, 2),
        ),
        ("explain 99", "", Refusal::MALFORMED),
    ] {
        let command = words.split(' ').next().expect("a word");
        let sentence = format!("compose {command}: {part}{}\n", refusal.german());
        folder.fails(&format!("{words} --german"), 2, &sentence);
        folder.refuses(words, part, refusal);
    }
    assert!(!folder.has("out.rec"));
    // It takes no word, is given once behind the name, and is no option behind --.
    folder.fails(
        &format!("{GRID} --german=yes"),
        1,
        "compose: grid: --german takes no word\nusage: ",
    );
    folder.fails(
        &format!("{GRID} --german --german"),
        1,
        "compose: grid: --german is given twice\nusage: ",
    );
    folder.fails(
        "record -- --german",
        1,
        "compose: --german cannot be read: ",
    );
    // What is no refusal stays English.
    folder.fails(
        "record --german",
        1,
        "compose: record: PICTURE is missing\n",
    );
    folder.done("fill 1 2 3 --german");
    assert_eq!(folder.done("--german --version"), folder.done("--version"));
}

/// The first of three variables that is set and not empty decides.
#[test]
fn the_locale_decides_where_no_option_does() {
    let folder = faulty("locale");
    let says = |set: &[(&str, &str)], words: &str, language: Language| {
        let ran = folder.command(words).envs(set.iter().copied()).output();
        let ran = ran.expect("the command starts");
        assert_eq!(status(&ran), 2, "{set:?}");
        assert_eq!(complaint(&ran), second_tile(language), "{set:?}");
    };
    let (de, en) = ("de_DE.UTF-8", "en_GB.UTF-8");
    for name in ["LC_ALL", "LC_MESSAGES", "LANG"] {
        for german in ["de", "de_AT", de] {
            says(&[(name, german)], GRID, Language::German);
        }
        for english in ["", "C", "POSIX", "english", "den", en] {
            says(&[(name, english)], GRID, Language::English);
            let german = format!("{GRID} --german");
            says(&[(name, english)], &german, Language::German);
        }
    }
    for (all, messages, lang, language) in [
        (de, en, en, Language::German),
        (en, de, de, Language::English),
        ("", de, en, Language::German),
        ("", en, de, Language::English),
        ("", "", de, Language::German),
        ("C", de, de, Language::English),
    ] {
        let set = [("LC_ALL", all), ("LC_MESSAGES", messages), ("LANG", lang)];
        says(&set, GRID, language);
    }
}

/// A text that ends in a refusal has its sentence, and so has the complaint, with the entry.
#[test]
fn a_chain_is_refused_in_both_languages() {
    let folder = faulty("chain-languages");
    for (option, language) in [("", Language::English), (" --german", Language::German)] {
        let output = folder.run(&format!("chain zero.chain 4 2{option}"));
        assert_eq!(status(&output), 2);
        let sentence = Refusal::ZERO.sentence(language);
        assert_eq!(
            String::from_utf8_lossy(&output.stdout),
            format!(
                "3 entries\n    0  other: leaves 4 × 2\n    1  irot 1, essential: leaves 2 × 4\n    \
                 2  clap 1 0 1 1 0 1 0 1, essential: {sentence}\n"
            )
        );
        let own = Refusal::ZERO.of_item(About::Entry, 2).sentence(language);
        assert_eq!(
            complaint(&output),
            format!("compose chain: zero.chain: {own}\n")
        );
        // The program's text is the same in every language.
        let output = folder.run(&format!("steps 4 2 zero.chain{option}"));
        assert_eq!(
            String::from_utf8_lossy(&output.stdout),
            "step kind width height\n0 0 4 2\n1 2 2 4\n2 1 refused 7\n"
        );
        assert_eq!(complaint(&output), format!("compose steps: {sentence}\n"));
    }
}

/// What README shows is what is said: two runs on six tiles, of which one is too small.
#[test]
fn the_first_page_shows_what_is_said() {
    let folder = Folder::new("readme-refused");
    folder.done("body grid 2 3 6 4 -o field.body");
    let (tile, small) = ([2, 2, 0, 8, 0, 2, 4, 1, 2, 3, 4], [1, 1, 0, 8, 0, 1, 1, 5]);
    let tiles = [&tile[..], &tile, &tile, &tile, &small, &tile];
    folder.put("tiles.tray", &[&[6], &tiles.concat()[..]].concat());
    let readme = concat!(env!("CARGO_MANIFEST_DIR"), "/../../README.md");
    let readme = std::fs::read_to_string(readme).expect("the first page");
    let mut runs = 0;
    for run in readme.split("\n    $ compose ").skip(1) {
        let [words, says] = [0, 1].map(|line| run.lines().nth(line).expect("a line").trim());
        folder.fails(words, 2, &format!("{says}\n"));
        runs += 1;
    }
    assert_eq!(runs, 2);
}

#[test]
fn refusals_are_explained() {
    let folder = Folder::new("explain");
    for (option, language) in [("", Language::English), (" --german", Language::German)] {
        for refusal in Refusal::ALL {
            let number = refusal.number();
            let says = |words: &str, refusal: Refusal| {
                let sentence = format!("{}\n", refusal.sentence(language));
                assert_eq!(folder.done(&format!("explain {words}{option}")), sentence);
            };
            says(&number.to_string(), *refusal);
            says(&((1 << 63) + u64::from(number)).to_string(), *refusal);
            for (sort, about, word) in [(1, About::Record, "record"), (2, About::Entry, "entry")] {
                let index = 3 * u64::from(number) - 3;
                let own = refusal.of_item(about, index);
                says(&format!("{number} {word} {index}"), own);
                let answer = (1 << 63) + u64::from(number) + (sort << 8) + (index << 16);
                says(&answer.to_string(), own);
            }
        }
    }
    let most = u64::MAX;
    assert_eq!(
        folder.done(&format!("explain 8 entry {most}")),
        format!("8: A size or an edge is not a whole number of pixels (entry {most}).\n")
    );
    for words in [
        "0",
        "20",
        "255",
        "269",
        "4294967309",
        "20 record 4",
        "0 entry 0",
    ] {
        folder.refuses(&format!("explain {words}"), "", Refusal::MALFORMED);
    }
    // No number, no such sort, an index of no item.
    for code in [0, 20, 13 + (3 << 8), 13 + (1 << 16)] {
        let answer: u64 = (1 << 63) + code;
        folder.refuses(&format!("explain {answer}"), "", Refusal::MALFORMED);
    }
    for (words, complaint) in [
        ("", "NUMBER is missing"),
        (
            "tile",
            "NUMBER is a number from 0 to 18446744073709551615, not tile",
        ),
        ("13 4", "it takes record or entry, not 4"),
        ("13 record", "INDEX is missing"),
        (
            "13 record -1",
            "INDEX is a number from 0 to 18446744073709551615, not -1",
        ),
        ("13 record 4 entry 4", "entry is a word too many"),
        ("9223372036854775821 record 4", "record is a word too many"),
    ] {
        let complaint = format!("compose: explain: {complaint}\nusage: compose explain ");
        folder.fails(&format!("explain {words}"), 1, &complaint);
    }
    // The examples of its help.
    let help = folder.done("help explain");
    let examples = help
        .lines()
        .filter_map(|line| line.strip_prefix("  compose "));
    let said: Vec<String> = examples.map(|words| folder.done(words)).collect();
    let own = Refusal::TILE.of_item(About::Record, 4).to_string();
    assert_eq!(said, vec![format!("{own}\n"); 2]);
}
