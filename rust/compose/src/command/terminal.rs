//! What standard output is: a terminal or not, how wide, and with which colours.

use std::env;
use std::fs::File;
use std::io::{IsTerminal, stdout};
use std::process::{Command, Stdio};

/// The colours of a screen.
#[derive(Clone, Copy, Debug, PartialEq, Eq)]
pub enum Colours {
    None,
    /// The 256 of a table, of which 216 are a cube of six levels.
    Table,
    /// Any red, green and blue.
    All,
}

impl Colours {
    /// Those of standard output; none where it is no terminal or where NO_COLOR is set.
    pub fn usual() -> Self {
        match stdout().is_terminal() {
            true => Self::of(|name| env::var(name).unwrap_or_default()),
            false => Self::None,
        }
    }

    /// Those of a terminal, by what the environment says of it; what is not set is empty.
    pub fn of(variable: impl Fn(&str) -> String) -> Self {
        if !variable("NO_COLOR").is_empty() {
            return Self::None;
        }
        if ["truecolor", "24bit"].contains(&variable("COLORTERM").as_str()) {
            return Self::All;
        }
        match variable("TERM").as_str() {
            "" | "dumb" => Self::None,
            term if term.starts_with("vt") || term.ends_with("-mono") => Self::None,
            term if term.ends_with("-direct") => Self::All,
            _ => Self::Table,
        }
    }
}

/// How many characters a line has: COLUMNS where it is set, else what the terminal says; none where
/// there is no terminal.
pub fn columns() -> Option<u32> {
    let set = env::var("COLUMNS").ok().and_then(|text| text.parse().ok());
    set.or_else(asked).filter(|columns| *columns > 0)
}

/// The terminal's own answer.
fn asked() -> Option<u32> {
    if !stdout().is_terminal() {
        return None;
    }
    let terminal = File::open("/dev/tty").ok()?;
    let size = Command::new("stty")
        .arg("size")
        .stdin(terminal)
        .stderr(Stdio::null())
        .output();
    let size = String::from_utf8(size.ok()?.stdout).ok()?;
    size.split_whitespace().nth(1)?.parse().ok()
}

#[cfg(test)]
mod tests {
    use super::Colours;

    #[test]
    fn colours_by_the_environment() {
        let of = |set: &[(&str, &str)]| {
            Colours::of(|name| {
                let found = set.iter().find(|(one, _)| *one == name);
                found.map_or(String::new(), |(_, value)| value.to_string())
            })
        };
        let term = ("TERM", "xterm-256color");
        assert_eq!(of(&[term]), Colours::Table);
        assert_eq!(of(&[term, ("COLORTERM", "truecolor")]), Colours::All);
        // An empty NO_COLOR is one that is not set.
        assert_eq!(of(&[term, ("NO_COLOR", "")]), Colours::Table);
        assert_eq!(of(&[term, ("NO_COLOR", "1")]), Colours::None);
        for without in ["", "dumb", "vt100", "xterm-mono"] {
            assert_eq!(of(&[("TERM", without)]), Colours::None);
        }
    }
}
