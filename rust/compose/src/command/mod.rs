//! The commands by name, what they take, and how they end.

mod colour;
mod composing;
mod demo;
mod descriptor;
mod explain;
mod files;
mod fill;
mod language;
mod operation;
mod options;
mod pages;
mod parts;
mod pictures;
mod progress;
mod properties;
mod records;
mod terminal;
mod view;
mod words;

use compose::limits::Ceiling;
use compose::{Language, Refusal};
use options::Opt;
use std::fmt;
use words::Words;

/// One command.
struct Command {
    name: &'static str,
    /// The words after the name, as a usage line has them; options are named apart.
    takes: &'static str,
    /// Those that not every command takes.
    options: &'static [Opt],
    /// One line.
    about: &'static str,
    /// What more a newcomer may want to know.
    more: &'static str,
    run: fn(&mut Words) -> Result<(), Failure>,
}

/// A family of commands, as the help shows them.
struct Family {
    title: &'static str,
    commands: &'static [Command],
}

/// Every command. One that is added is a constant of its family's module, and a name here.
const FAMILIES: &[Family] = &[
    Family {
        title: "Look",
        commands: &[
            demo::DEMO,
            view::VIEW,
            records::RECORD,
            records::TRAY,
            descriptor::DESCRIPTOR,
            properties::CHAIN,
            explain::EXPLAIN,
        ],
    },
    Family {
        title: "Make",
        commands: &[
            records::EXAMPLE,
            records::PACK,
            descriptor::BODY,
            properties::ENTRIES,
            fill::FILL,
        ],
    },
    Family {
        title: "Work out sizes",
        commands: &[properties::RESOLVE, properties::STEPS],
    },
    Family {
        title: "Change one picture",
        commands: &[
            operation::CONVERT,
            operation::CROP,
            operation::CLAP,
            operation::IROT,
            operation::IMIR,
            operation::ISCL,
            operation::NEAREST,
            operation::DEPTH,
            operation::ATTACH,
        ],
    },
    Family {
        title: "Compose several",
        commands: &[
            composing::GRID,
            composing::OVERLAY,
            composing::SCENE,
            composing::POINT,
        ],
    },
    Family {
        title: "Set up",
        commands: &[pages::MAN, pages::COMPLETIONS],
    },
];

/// Why a command did nothing.
pub enum Failure {
    /// The composer refused.
    Refused {
        command: &'static str,
        /// The file or the option that is refused; none where it is other words, or several files.
        part: Option<String>,
        refusal: Refusal,
        language: Language,
    },
    /// The words are not what the command takes.
    Usage { complaint: String, usage: String },
    /// A file could not be read or written.
    File { complaint: String },
}

impl fmt::Display for Failure {
    fn fmt(&self, f: &mut fmt::Formatter<'_>) -> fmt::Result {
        match self {
            Self::Refused {
                command,
                part,
                refusal,
                language,
            } => {
                let part = part.iter().map(|part| format!("{part}: "));
                let part: String = part.collect();
                let mut sentence = refusal.sentence(*language);
                if let Some(excess) = refusal.excess() {
                    let raise = match excess.what {
                        Ceiling::Pixels => options::MAX_PIXELS.usage(),
                        Ceiling::Bytes => options::MAX_BYTES.usage(),
                    };
                    sentence = format!("{} ({raise}).", sentence.trim_end_matches('.'));
                }
                write!(f, "compose {command}: {part}{sentence}")
            }
            Self::Usage { complaint, usage } => write!(f, "compose: {complaint}\n{usage}"),
            Self::File { complaint } => write!(f, "compose: {complaint}"),
        }
    }
}

impl Command {
    /// The words after `compose`, as the help lists them: with the output, without other options.
    fn takes(&self) -> String {
        let mut takes = format!("{} {}", self.name, self.takes);
        if self
            .options
            .iter()
            .any(|one| one.value == options::OUT.value)
        {
            takes += &format!(" {}", options::OUT.usage());
        }
        takes.trim_end().replace("  ", " ")
    }

    fn usage(&self) -> String {
        format!("compose {} [OPTION..]", self.takes())
    }

    /// All that it takes.
    fn options(&self) -> impl Iterator<Item = &'static Opt> {
        self.options.iter().chain(options::EVERY)
    }
}

fn commands() -> impl Iterator<Item = &'static Command> {
    FAMILIES.iter().flat_map(|family| family.commands)
}

/// The help: all commands, one, or the refusals.
fn help(of: Option<&str>) -> Result<String, Failure> {
    let columns = pages::width();
    match of {
        None => Ok(pages::all(columns)),
        Some("refusals") => Ok(pages::refusals(columns)),
        Some(name) => Ok(pages::of(find(name)?, columns)),
    }
}

fn find(name: &str) -> Result<&'static Command, Failure> {
    commands()
        .find(|command| command.name == name)
        .ok_or_else(|| Failure::Usage {
            complaint: format!("{name} is no command"),
            usage: "compose --help lists them".into(),
        })
}

/// Runs what the words ask for. Without a word it is the demonstration. What every command takes may
/// stand before its name, too.
pub fn run(words: &[String]) -> Result<(), Failure> {
    let asks = |word: &String| ["--help", "-h"].contains(&word.as_str());
    let german = |word: &&String| *word == options::GERMAN.name;
    let (before, words) = words.split_at(words.iter().take_while(german).count());
    let language = match before {
        [] => language::usual(),
        _ => Language::German,
    };
    let Some((first, rest)) = words.split_first() else {
        return run_command(&demo::DEMO, &[], language);
    };
    match first.as_str() {
        "help" | "--help" | "-h" => {
            let of = rest.iter().find(|word| !german(word));
            files::say(&help(of.map(String::as_str))?)
        }
        "--version" | "-V" => files::say(concat!("compose ", env!("CARGO_PKG_VERSION"), "\n")),
        name if rest.iter().any(asks) => files::say(&help(Some(name))?),
        name => run_command(find(name)?, rest, language),
    }
}

fn run_command(
    command: &'static Command,
    words: &[String],
    language: Language,
) -> Result<(), Failure> {
    let mut words = Words::new(command, words, language)?;
    let limits = words.limits()?;
    progress::start(command.name);
    let ended = limits.within(|| (command.run)(&mut words));
    progress::clear();
    ended
}
