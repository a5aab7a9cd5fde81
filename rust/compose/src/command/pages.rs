//! What is to be read about the commands, all of it from their table: the help, a page for `man`, and
//! completions for shells.

use super::files::say;
use super::options::{EVERY, Opt};
use super::words::Words;
use super::{Command, FAMILIES, Failure, commands, terminal};
use compose::{About, Language, Refusal};

pub const MAN: Command = Command {
    name: "man",
    takes: "",
    options: &[],
    about: "this help as a manual page",
    more: "\
Prints a page for man, with all that the help says.
  compose man | man -l -
  compose man > ~/.local/share/man/man1/compose.1
",
    run: run_man,
};

pub const COMPLETIONS: Command = Command {
    name: "completions",
    takes: "bash|zsh|fish",
    options: &[],
    about: "completions for a shell",
    more: "\
Prints what a shell takes to complete commands and options:
  source <(compose completions bash)         in ~/.bashrc
  source <(compose completions zsh)          in ~/.zshrc
  compose completions fish | source          in ~/.config/fish/config.fish
",
    run: run_completions,
};

/// The help's beginning. Lines that begin with blanks stay as they are.
const ABOUT: &str = "\
compose: pictures from tiles and marks, by code that is proved

A picture is a record: a file that holds its width, height, chroma, depth and alpha, then its planes
of samples. Wherever a picture is read, a Y4M, PGM, PPM or PAM file serves, too; one that is written is
what its ending or --format says. Several records in one file are a tray. Try:

  compose example -o slope.rec                  a small picture to begin with
  compose view slope.rec                        shows it here
  compose irot slope.rec 1 -o up.rec            turns it a quarter anticlockwise
  compose convert up.rec --matrix 6 -o up.ppm   for an image viewer, by way of matrix 6

";

/// And its end.
const ENDS: &str = "\
A file called - is standard input, or standard output. A file that is read is never written to, and
one that is there is replaced by --force alone. What the composer does not take it refuses, and then
nothing is written: a sentence says why, its number first, in German with --german, which every command
takes, or where the locale is German. A few bytes can ask for a picture of gigabytes: what is above
--max-pixels or --max-bytes is refused before it takes memory. Exit status: 0 done, 1 wrong words or a
file that cannot be read or written, 2 refused.

compose help NAME says more of one command, compose help refusals is the card of all refusals, compose
--version says which version this is.
";

/// How wide the help is where there is no terminal.
const COLUMNS: usize = 100;

/// How wide the help is.
pub fn width() -> usize {
    let columns = terminal::columns().map_or(COLUMNS, |columns| columns as usize);
    columns.clamp(20, COLUMNS)
}

/// The words of a text in lines of at most so many characters.
fn wrapped(text: &str, columns: usize) -> Vec<String> {
    let mut lines = vec![String::new()];
    for word in text.split_whitespace() {
        let line = lines.last_mut().expect("a line");
        if line.is_empty() {
            *line = word.to_string();
        } else if line.chars().count() + 1 + word.chars().count() <= columns {
            *line += &format!(" {word}");
        } else {
            lines.push(word.to_string());
        }
    }
    lines
}

/// A part of a text: lines that are one paragraph, lines that stay as they are, or a blank line.
enum Block<'a> {
    Paragraph(String),
    AsItIs(&'a str),
    Blank,
}

fn blocks(text: &str) -> Vec<Block<'_>> {
    let mut blocks: Vec<Block> = Vec::new();
    for line in text.lines() {
        match (line, blocks.last_mut()) {
            ("", _) => blocks.push(Block::Blank),
            (line, _) if line.starts_with(' ') => blocks.push(Block::AsItIs(line)),
            (line, Some(Block::Paragraph(paragraph))) => *paragraph += &format!(" {line}"),
            (line, _) => blocks.push(Block::Paragraph(line.into())),
        }
    }
    blocks
}

/// A text whose paragraphs are at most so wide.
fn flowed(text: &str, columns: usize) -> String {
    let lines = blocks(text).into_iter().flat_map(|block| match block {
        Block::Paragraph(paragraph) => wrapped(&paragraph, columns),
        Block::AsItIs(line) => vec![line.to_string()],
        Block::Blank => vec![String::new()],
    });
    lines.map(|line| line + "\n").collect()
}

/// Lines of what something is called and what it is, side by side where both have room, else one
/// below the other. Each part of what it is begins a line.
fn listed(called: &str, column: usize, about: &[&str], columns: usize) -> String {
    let lines = |columns: usize| about.iter().flat_map(move |part| wrapped(part, columns));
    if columns < column + 30 {
        let below = lines(columns.saturating_sub(6));
        let below: String = below.map(|line| format!("      {line}\n")).collect();
        return format!("{called}\n{below}");
    }
    let mut called = called;
    let mut text = String::new();
    for line in lines(columns - column - 1) {
        text += &format!("{called:<column$} {line}\n");
        called = "";
    }
    text
}

fn option_lines<'a>(options: impl Iterator<Item = &'a Opt>, columns: usize) -> String {
    let line = |option: &Opt| listed(&option.usage(), 22, &[option.about], columns);
    options.map(line).collect()
}

/// The help of all commands.
pub fn all(columns: usize) -> String {
    let mut text = flowed(ABOUT, columns);
    for family in FAMILIES {
        text += &format!("{}:\n", family.title);
        for command in family.commands {
            let called = format!("  {}", command.takes());
            text += &listed(&called, 45, &[command.about], columns);
        }
        text += "\n";
    }
    text + &flowed(ENDS, columns)
}

/// The help of one command.
pub fn of(command: &Command, columns: usize) -> String {
    let (usage, about) = (command.usage(), command.about);
    let more = flowed(command.more, columns);
    let options = option_lines(command.options(), columns);
    format!("usage: {usage}\n\n{about}\n\n{more}\n{options}")
}

/// The sentences of a refusal, in English and in German.
fn sentences(refusal: Refusal) -> [String; 2] {
    [Language::English, Language::German].map(|language| refusal.sentence(language))
}

/// The same without their number.
fn reasons(refusal: Refusal) -> [String; 2] {
    let number = format!("{}: ", refusal.number());
    sentences(refusal).map(|sentence| sentence.trim_start_matches(&number).into())
}

/// How a sentence names an item.
const ITEMS: &str = "\
Where it is one record of a tray or one entry of a chain that is refused, the sentence names it, counted
from 0:
";

/// The same with examples.
fn of_items() -> String {
    let mut text = ITEMS.to_string();
    for (refusal, about) in [
        (Refusal::TILE, About::Record),
        (Refusal::ZERO, About::Entry),
    ] {
        for sentence in sentences(refusal.of_item(about, 4)) {
            text += &format!("  {sentence}\n");
        }
    }
    text
}

/// How wide the card of refusals is at most.
const CARD: usize = 80;

/// The card of refusals, by number.
pub fn refusals(columns: usize) -> String {
    let columns = columns.min(CARD);
    let lines = |refusal: &Refusal| {
        let called = format!("{:>3}  {}", refusal.number(), refusal.name());
        let reasons = reasons(*refusal);
        listed(
            &called,
            15,
            &reasons.each_ref().map(String::as_str),
            columns,
        )
    };
    let card: String = Refusal::ALL.iter().map(lines).collect();
    format!("{card}\n{}", flowed(&of_items(), columns))
}

/// A text as man takes it: a backslash, a minus and a leading dot stand for themselves, and other
/// letters than ASCII's have their numbers.
fn in_man(text: &str) -> String {
    let text = text.replace('\\', "\\e").replace('-', "\\-");
    let letter = |c: char| match c.is_ascii() {
        true => c.to_string(),
        false => format!("\\[u{:04X}]", u32::from(c)),
    };
    let text: String = text.chars().map(letter).collect();
    match text.starts_with(['.', '\'']) {
        true => format!("\\&{text}"),
        false => text,
    }
}

/// The parts of a text as man takes them.
fn page_part(text: &str) -> String {
    let mut page = String::new();
    for block in blocks(text) {
        page += &match block {
            Block::Paragraph(paragraph) => format!("{}\n", in_man(&paragraph)),
            Block::AsItIs(line) => format!(".nf\n{}\n.fi\n", in_man(line)),
            Block::Blank => ".PP\n".into(),
        };
    }
    page
}

/// An option as man takes it.
fn page_option(option: &Opt) -> String {
    let (usage, about) = (in_man(&option.usage()), in_man(option.about));
    format!(".TP\n.B {usage}\n{about}\n")
}

/// The page for man.
fn manual() -> String {
    let version = env!("CARGO_PKG_VERSION");
    let (title, about) = ABOUT.split_once("\n\n").expect("a title");
    let (name, title) = title.split_once(": ").expect("a name");
    let mut page = format!(".TH COMPOSE 1 \"\" \"compose {version}\"\n");
    page += &format!(".SH NAME\n{name} \\- {}\n", in_man(title));
    page += ".SH SYNOPSIS\n.B compose\nCOMMAND [WORD..] [OPTION..]\n";
    page += &format!(".SH DESCRIPTION\n{}", page_part(about.trim_end()));
    page += ".SH OPTIONS\nEvery command takes:\n";
    page.extend(EVERY.iter().map(page_option));
    for family in FAMILIES {
        page += &format!(".SH {}\n", family.title.to_uppercase());
        for command in family.commands {
            let usage = command.usage();
            page += &format!(".SS {}\n{}.\n.PP\n", in_man(&usage), in_man(command.about));
            page += &page_part(command.more);
            page.extend(command.options.iter().map(page_option));
        }
    }
    page += &format!(".SH NOTES\n{}", page_part(ENDS));
    page += ".SH REFUSALS\n";
    for refusal in Refusal::ALL {
        let (number, name) = (refusal.number(), refusal.name());
        let [english, german] = reasons(*refusal).map(|reason| in_man(&reason));
        page += &format!(".TP\n{number} ({name})\n{english}\n.br\n{german}\n");
    }
    page + ".PP\n" + &page_part(&of_items())
}

fn run_man(words: &mut Words) -> Result<(), Failure> {
    words.end()?;
    say(&manual())
}

/// The names of all commands, and what else may be the first word.
fn first_words() -> Vec<&'static str> {
    let names = commands().map(|command| command.name);
    names.chain(["help", "--help", "--version"]).collect()
}

/// The words of which a command takes one, as `grid|overlay`.
fn choices(command: &Command) -> Vec<&'static str> {
    let mut words = command.takes.split([' ', '[', ']']);
    let choice = words.find(|word| word.contains('|'));
    choice.map_or(Vec::new(), |words| words.split('|').collect())
}

/// What may follow a command's name: its choices and its options.
fn followers(command: &Command) -> Vec<&'static str> {
    let options = command.options().map(|option| option.name);
    choices(command).into_iter().chain(options).collect()
}

/// Words that follow, or else files.
fn for_bash() -> String {
    let mut cases = String::new();
    for command in commands() {
        let words = followers(command).join(" ");
        cases += &format!("        {}) words=\"{words}\" ;;\n", command.name);
    }
    let first = first_words().join(" ");
    format!(
        "_compose() {{\n    \
         local word=${{COMP_WORDS[COMP_CWORD]}} words=\n    \
         if [ \"$COMP_CWORD\" -eq 1 ]; then\n        \
         COMPREPLY=($(compgen -W \"{first}\" -- \"$word\"))\n        \
         return\n    \
         fi\n    \
         case ${{COMP_WORDS[1]}} in\n        \
         help | --help) words=\"{first} refusals\" ;;\n{cases}    \
         esac\n    \
         COMPREPLY=($(compgen -W \"$words\" -- \"$word\") $(compgen -f -- \"$word\"))\n\
         }}\n\
         complete -o filenames -F _compose compose\n"
    )
}

fn for_zsh() -> String {
    format!(
        "autoload -U +X bashcompinit && bashcompinit\n{}",
        for_bash()
    )
}

fn for_fish() -> String {
    let quoted = |text: &str| format!("'{}'", text.replace('\\', "\\\\").replace('\'', "\\'"));
    let mut text = String::new();
    for command in commands() {
        let (name, about) = (command.name, quoted(command.about));
        text += &format!("complete -c compose -n __fish_use_subcommand -a {name} -d {about}\n");
        let seen = format!("'__fish_seen_subcommand_from {name}'");
        for choice in choices(command) {
            text += &format!("complete -c compose -n {seen} -a {choice}\n");
        }
        for option in command.options() {
            let name = match option.name.strip_prefix("--") {
                Some(long) => format!("-l {long}"),
                None => format!("-s {}", option.name.trim_start_matches('-')),
            };
            let value = if option.value.is_empty() { "" } else { " -r" };
            let about = quoted(option.about);
            text += &format!("complete -c compose -n {seen} {name}{value} -d {about}\n");
        }
    }
    text
}

fn run_completions(words: &mut Words) -> Result<(), Failure> {
    let shell = words.next("bash, zsh or fish")?;
    words.end()?;
    match shell.as_str() {
        "bash" => say(&for_bash()),
        "zsh" => say(&for_zsh()),
        "fish" => say(&for_fish()),
        _ => Err(words.wrong(format!("it takes bash, zsh or fish, not {shell}"))),
    }
}
