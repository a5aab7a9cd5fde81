//! The sentence of a refusal in German and English (document 02, A2), and what one says.

use crate::refusal::{self, Item, Refusal};
use crate::room::put;
use std::str::FromStr;

/// The reasons by number, from 1: German, English.
const REASONS: [[&str; 2]; 19] = [
    [
        "Die Bildbeschreibung ist leer oder zu kurz",
        "The picture's description is empty or too short",
    ],
    [
        "Die Bildbeschreibung hat eine andere Version als 0",
        "The picture's description has a version other than 0",
    ],
    [
        "Eine Seite des Bildes ist 0 Pixel lang",
        "A side of the picture is 0 pixels long",
    ],
    [
        "Das Bild ist zu groß, oder es sind zu viele Bilder oder Einträge",
        "The picture is too large, or there are too many records or entries",
    ],
    [
        "Die Daten sind beschädigt oder falsch aufgebaut",
        "The data are damaged or badly formed",
    ],
    [
        "Die Farbtiefe ist kleiner als 8 oder größer als 16 Bit",
        "The colour depth is below 8 or above 16 bits",
    ],
    [
        "In einem Bruch steht eine Null, wo keine stehen darf",
        "A fraction has a zero where none may stand",
    ],
    [
        "Eine Größe oder ein Rand ist keine ganze Zahl von Pixeln",
        "A size or an edge is not a whole number of pixels",
    ],
    [
        "Der Ausschnitt ist leer oder ragt über das Bild hinaus, oder seine Ränder stimmen nicht",
        "The crop is empty or reaches beyond the picture, or its margins are wrong",
    ],
    [
        "Eine Seite wäre nach dem Skalieren zu lang",
        "A side would be too long after scaling",
    ],
    [
        "Eine Anzahl stimmt nicht, oder einen Index gibt es nicht",
        "A count is wrong, or an index does not exist",
    ],
    [
        "Die Kacheln decken die Leinwand nicht ganz ab",
        "The tiles do not cover the whole canvas",
    ],
    [
        "Eine Kachel ist nicht so groß wie die erste",
        "A tile is not the same size as the first one",
    ],
    [
        "Das Farbformat oder die Farbtiefe ist anders als beim ersten Bild",
        "The colour format or the colour depth is not that of the first picture",
    ],
    [
        "Es fehlt ein Bild oder eine Kachel",
        "A picture or a tile is missing",
    ],
    [
        "Ein Alphawert liegt über dem höchsten erlaubten Wert",
        "An alpha value is above the highest one allowed",
    ],
    [
        "Ein bereitgestellter Puffer ist zu kurz",
        "A lent buffer is too short",
    ],
    [
        "Zu dieser Stelle lässt sich kein Bildpunkt nennen, weil sie außerhalb liegt oder weil Alpha \
         oder eine Skalierung es verhindert",
        "No spot can be named for this place, because it lies outside or because alpha or scaling \
         prevents it",
    ],
    [
        "Ein Raster hat weniger als 1 oder mehr als 256 Zeilen oder Spalten",
        "A grid has fewer than 1 or more than 256 rows or columns",
    ],
];

/// What an item is called, by its sort, from 1: German, English.
const WORDS: [[&str; 2]; 2] = [["Bild", "record"], ["Eintrag", "entry"]];

/// The sentence of a number, a sort and, where that is not 0, an index, in German (0) or English (1);
/// 5 where a number, a sort or a language is not known.
pub fn sentence(number: u32, sort: u8, index: u64, language: u8) -> Result<String, Refusal> {
    let (number, sort, language) = (number as usize, usize::from(sort), usize::from(language));
    let known = (1..=REASONS.len()).contains(&number) && sort <= WORDS.len() && language < 2;
    if !known {
        return Err(refusal::MALFORMED);
    }
    let item = match sort {
        0 => String::new(),
        _ => format!(" ({} {index})", WORDS[sort - 1][language]),
    };
    Ok(format!(
        "{number}: {}{item}.",
        REASONS[number - 1][language]
    ))
}

/// Writes the sentence to a lent buffer and answers its length: 5 as [`sentence`], then 17.
pub fn write_sentence(
    number: u32,
    sort: u8,
    index: u64,
    language: u8,
    out: &mut [u8],
) -> Result<usize, Refusal> {
    let sentence = sentence(number, sort, index, language)?;
    put(sentence.as_bytes(), out)
}

/// A number in decimal, as it is written: no sign, no zero in front.
fn decimal<T: FromStr + ToString>(digits: &str) -> Option<T> {
    let number = digits.parse::<T>().ok()?;
    (number.to_string() == digits).then_some(number)
}

/// The language and the refusal that a sentence says; none where the bytes are no sentence.
pub fn read_sentence(bytes: &[u8]) -> Option<(u8, Refusal)> {
    let text = str::from_utf8(bytes).ok()?.strip_suffix('.')?;
    let (number, text) = text.split_once(": ")?;
    let number = decimal::<u8>(number)?;
    let (reason, item) = match text.strip_suffix(')') {
        Some(text) => {
            let (reason, item) = text.split_once(" (")?;
            (reason, Some(item.split_once(' ')?))
        }
        None => (text, None),
    };
    let reasons = REASONS.get(usize::from(number).checked_sub(1)?)?;
    let language = reasons.iter().position(|known| *known == reason)?;
    let item = match item {
        Some((word, index)) => {
            let index = decimal(index)?;
            let sort = WORDS.iter().position(|words| words[language] == word)?;
            Item::of_sort(1 + sort as u8, index)
        }
        None => None,
    };
    Some((language as u8, Refusal { number, item }))
}
