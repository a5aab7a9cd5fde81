//! What a refusal says.

use super::files::say;
use super::words::Words;
use super::{Command, Failure};
use compose::{About, Refusal};

pub const EXPLAIN: Command = Command {
    name: "explain",
    takes: "NUMBER [record|entry INDEX]",
    options: &[],
    about: "the sentence of a refusal",
    more: "\
Prints why something is refused, by the refusal's number and, where it is about one record of a tray or
one entry of a chain, its index, from 0. What a call for C answers serves as the number, too: it holds all
of it. A number that no refusal has is refused (5). compose help refusals has all of them.
  compose explain 13 record 4
  compose explain 9223372036855038221
",
    run,
};

/// An answer of a call for C is a refusal from here on.
const ANSWERED: u64 = 1 << 63;

fn run(words: &mut Words) -> Result<(), Failure> {
    let number = words.number("NUMBER")?;
    let refusal = match (number, words.is_empty()) {
        (ANSWERED.., _) => Refusal::from_answer(number),
        (_, true) => Refusal::from_number(number),
        (_, false) => {
            let (about, index) = item(words)?;
            let plain = Refusal::from_number(number);
            plain.map(|refusal| refusal.of_item(about, index))
        }
    };
    words.end()?;
    let refusal = refusal.ok_or_else(|| words.refused(Refusal::MALFORMED))?;
    say(&format!("{}\n", words.sentence(refusal)))
}

fn item(words: &mut Words) -> Result<(About, u64), Failure> {
    let about = match words.next("record or entry")?.as_str() {
        "record" => About::Record,
        "entry" => About::Entry,
        other => return Err(words.wrong(format!("it takes record or entry, not {other}"))),
    };
    Ok((about, words.number("INDEX")?))
}
