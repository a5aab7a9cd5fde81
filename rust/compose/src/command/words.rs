//! The words that a command is given.

use super::files::Output;
use super::{Command, Failure, options};
use compose::props::Clap;
use compose::{Language, Limits, Refusal};
use std::collections::VecDeque;
use std::fmt::Display;
use std::str::FromStr;

/// A number that a word can be.
pub trait Number: FromStr + Display {
    const LEAST: Self;
    const MOST: Self;
}

macro_rules! numbers {
    ($($number:ty)*) => {
        $(impl Number for $number {
            const LEAST: Self = Self::MIN;
            const MOST: Self = Self::MAX;
        })*
    };
}

numbers! { u8 u16 u32 u64 i32 }

/// Whether a word is an option: not a negative number, and not the file called -.
fn is_option(word: &str) -> bool {
    let mut letters = word.chars();
    letters.next() == Some('-') && letters.next().is_some_and(|c| !c.is_ascii_digit())
}

/// The words after a command's name. Options are taken out wherever they stand; behind -- there are
/// none.
pub struct Words {
    command: &'static Command,
    rest: VecDeque<String>,
    options: Vec<(&'static str, String)>,
    /// The files that were taken as words, to be read.
    handed_in: Vec<String>,
    /// The language of refusals.
    language: Language,
}

impl Words {
    /// Refusals are in `language` where the words do not ask for German.
    pub fn new(
        command: &'static Command,
        given: &[String],
        language: Language,
    ) -> Result<Self, Failure> {
        let mut words = Self {
            command,
            rest: VecDeque::new(),
            options: Vec::new(),
            handed_in: Vec::new(),
            language,
        };
        let mut given = given.iter().cloned();
        while let Some(word) = given.next() {
            if word == "--" {
                words.rest.extend(given);
                break;
            }
            match is_option(&word) {
                true => words.take_option(&word, &mut given)?,
                false => words.rest.push_back(word),
            }
        }
        if words.flag(options::GERMAN.name) {
            words.language = Language::German;
        }
        Ok(words)
    }

    /// An option, as `--matrix 6`, `--matrix=6` or `--studio`.
    fn take_option(
        &mut self,
        word: &str,
        given: &mut impl Iterator<Item = String>,
    ) -> Result<(), Failure> {
        let (name, value) = match word.split_once('=') {
            Some((name, value)) if name.starts_with("--") => (name, Some(value.to_string())),
            _ => (word, None),
        };
        let Some(option) = self.command.options().find(|one| one.name == name) else {
            let command = self.command.name;
            return Err(self.wrong(format!("{name} is no option of {command}")));
        };
        if self.options.iter().any(|(given, _)| *given == name) {
            return Err(self.wrong(format!("{name} is given twice")));
        }
        let value = match (option.value.is_empty(), value) {
            (true, None) => String::new(),
            (true, Some(_)) => return Err(self.wrong(format!("{name} takes no word"))),
            (false, value) => value
                .or_else(|| given.next())
                .ok_or_else(|| self.wrong(format!("{name} takes a word")))?,
        };
        self.options.push((option.name, value));
        Ok(())
    }

    /// What is wrong with the words.
    pub fn wrong(&self, complaint: String) -> Failure {
        Failure::Usage {
            complaint: format!("{}: {complaint}", self.command.name),
            usage: format!("usage: {}", self.command.usage()),
        }
    }

    /// A refusal of the composer, of this command.
    pub fn refused(&self, refusal: Refusal) -> Failure {
        self.refused_part(None, refusal)
    }

    /// The same of a file.
    pub fn refused_in(&self, file: &str, refusal: Refusal) -> Failure {
        self.refused_part(Some(file), refusal)
    }

    /// The same, of a file or an option where one is known.
    pub fn refused_part(&self, part: Option<&str>, refusal: Refusal) -> Failure {
        Failure::Refused {
            command: self.command.name,
            part: part.map(String::from),
            refusal,
            language: self.language,
        }
    }

    /// What a refusal says.
    pub fn sentence(&self, refusal: Refusal) -> String {
        refusal.sentence(self.language)
    }

    /// The next word, which is `what`.
    pub fn next(&mut self, what: &str) -> Result<String, Failure> {
        let next = self.rest.pop_front();
        next.ok_or_else(|| self.wrong(format!("{what} is missing")))
    }

    /// The next word, a file that is read.
    pub fn file(&mut self, what: &str) -> Result<String, Failure> {
        let file = self.next(what)?;
        self.handed_in.push(file.clone());
        Ok(file)
    }

    /// The next words, a file for each name.
    pub fn files<const N: usize>(&mut self, names: [&str; N]) -> Result<[String; N], Failure> {
        let mut files = Vec::new();
        for name in names {
            files.push(self.file(name)?);
        }
        Ok(files.try_into().expect("a file for each name"))
    }

    /// All words that are left, files that are read.
    pub fn other_files(&mut self) -> Vec<String> {
        let files: Vec<String> = self.rest.drain(..).collect();
        self.handed_in.extend_from_slice(&files);
        files
    }

    /// How many words are left.
    pub fn len(&self) -> usize {
        self.rest.len()
    }

    /// Whether no word is left.
    pub fn is_empty(&self) -> bool {
        self.rest.is_empty()
    }

    fn parse<T: Number>(&self, what: &str, word: &str) -> Result<T, Failure> {
        word.parse().map_err(|_| {
            let (least, most) = (T::LEAST, T::MOST);
            self.wrong(format!(
                "{what} is a number from {least} to {most}, not {word}"
            ))
        })
    }

    /// The next word as a number.
    pub fn number<T: Number>(&mut self, what: &str) -> Result<T, Failure> {
        let word = self.next(what)?;
        self.parse(what, &word)
    }

    /// The next words as numbers, one for each name.
    pub fn numbers<T: Number, const N: usize>(
        &mut self,
        names: [&str; N],
    ) -> Result<[T; N], Failure> {
        let mut numbers = Vec::new();
        for name in names {
            numbers.push(self.number(name)?);
        }
        let numbers = numbers.try_into().ok();
        Ok(numbers.expect("a number for each name"))
    }

    /// The next eight words as an aperture.
    pub fn clap(&mut self) -> Result<Clap, Failure> {
        let [width_n, width_d, height_n, height_d] = self.numbers(["WN", "WD", "HN", "HD"])?;
        let (x_n, x_d) = (self.number("XN")?, self.number("XD")?);
        let (y_n, y_d) = (self.number("YN")?, self.number("YD")?);
        Ok(Clap::new(
            width_n, width_d, height_n, height_d, x_n, x_d, y_n, y_d,
        ))
    }

    /// Whether an option is given.
    pub fn flag(&self, option: &str) -> bool {
        self.option(option).is_some()
    }

    /// The word behind an option, if the option is given.
    pub fn option(&self, option: &str) -> Option<&str> {
        let given = self.options.iter().find(|(name, _)| *name == option);
        given.map(|(_, value)| value.as_str())
    }

    /// The number behind an option.
    pub fn number_option<T: Number>(&self, option: &str) -> Result<Option<T>, Failure> {
        let word = self.option(option);
        word.map(|word| self.parse(option, word)).transpose()
    }

    /// The ceilings of what is made.
    pub fn limits(&self) -> Result<Limits, Failure> {
        let usual = options::USUAL_LIMITS;
        let pixels = self.number_option(options::MAX_PIXELS.name)?;
        let bytes = self.number_option(options::MAX_BYTES.name)?;
        Ok(usual
            .with_max_pixels(pixels.unwrap_or(usual.max_pixels))
            .with_max_bytes(bytes.unwrap_or(usual.max_bytes)))
    }

    /// No word may be left.
    pub fn end(&self) -> Result<(), Failure> {
        match self.rest.front() {
            Some(word) => Err(self.wrong(format!("{word} is a word too many"))),
            None => Ok(()),
        }
    }

    /// The file to write, which no word is left for: none that is handed in, and none that is there
    /// already unless it may be replaced.
    pub fn output(&self) -> Result<Output, Failure> {
        let Some(file) = self.option(options::OUT.name) else {
            return Err(self.wrong(format!("{} is missing", options::OUT.usage())));
        };
        self.end()?;
        Output::new(file, self.flag(options::FORCE.name), &self.handed_in)
    }
}
