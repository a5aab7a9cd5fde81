//! Why a call refuses (document 01, "Refusals in order"; document 02, A4, for 19), and the sentence that
//! says it (document 02, A2).

use crate::limits::{Ceiling, Excess};
use crate::sys::Fresh;
use std::error::Error;
use std::fmt;

/// What a refusal is about: the list that the refused item stands in.
#[derive(Clone, Copy, Debug, PartialEq, Eq, Hash)]
pub enum About {
    /// A record of the tray: a tile or an input, and so a frame of the caller's list.
    Record = 1,
    /// An entry of the chain: a property of the caller's list.
    Entry = 2,
}

impl About {
    /// Every list.
    pub const ALL: [Self; 2] = [Self::Record, Self::Entry];

    /// Its number in an answer and in `compose_sentence`; 0 is there for a refusal of no item.
    fn sort(self) -> u8 {
        self as u8
    }

    fn from_sort(sort: u8) -> Option<Self> {
        Self::ALL.into_iter().find(|about| about.sort() == sort)
    }
}

/// A language of the sentences.
#[derive(Clone, Copy, Debug, PartialEq, Eq, Hash)]
pub enum Language {
    /// German.
    German = 0,
    /// English.
    English = 1,
}

impl Language {
    /// Every language.
    pub const ALL: [Self; 2] = [Self::German, Self::English];
}

/// No sentence of a refusal is longer, in bytes; `include/compose.h` has the same number.
pub(crate) const LONGEST_SENTENCE: usize = 192;

/// The greatest index that an answer has room for.
const LAST_INDEX: u64 = (1 << 40) - 1;

/// Why a call refused: its number, and where it is an item's own refusal, the item.
///
/// Two are equal where all of it is; [`is`](Self::is) compares the numbers alone. It is displayed as
/// its English sentence.
///
/// ```
/// use compose::{About, Language, Refusal};
///
/// // Two tiles side by side, of which the second is too small.
/// let body = [0, 0, 0, 1, 0, 4, 0, 2];
/// let tray = [2, 2, 2, 0, 8, 0, 2, 4, 1, 2, 3, 4, 1, 1, 0, 8, 0, 1, 1, 5];
/// let refusal = compose::composite::grid(&body, &tray).unwrap_err();
/// assert!(refusal.is(Refusal::TILE));
/// assert_eq!((refusal.number(), refusal.name()), (13, "tile"));
/// assert_eq!((refusal.about(), refusal.index()), (Some(About::Record), Some(1)));
///
/// let said = refusal.to_string();
/// assert_eq!(said, "13: A tile is not the same size as the first one (record 1).");
/// assert_eq!(refusal.german(), "13: Eine Kachel ist nicht so groß wie die erste (Bild 1).");
/// assert_eq!(Refusal::from_sentence(&said), Some((refusal, Language::English)));
/// ```
#[derive(Clone, Copy, Debug, PartialEq, Eq, Hash)]
pub struct Refusal {
    number: u8,
    /// The item and its index, from 0.
    item: Option<(About, u64)>,
    /// Where the limit is the caller's own.
    excess: Option<Excess>,
}

/// The refusals by number: the constant, its name in words, and what it means.
macro_rules! refusals {
    ($($number:literal $constant:ident $name:literal $meaning:literal)*) => {
        impl Refusal {
            $(
                #[doc = concat!($number, ": ", $meaning, ".")]
                pub const $constant: Self = Self { number: $number, item: None, excess: None };
            )*

            /// Every refusal, by number.
            pub const ALL: &[Self] = &[$(Self::$constant),*];

            /// The name, one word.
            pub fn name(self) -> &'static str {
                match self.number {
                    $($number => $name,)*
                    number => unreachable!("no refusal has the number {number}"),
                }
            }

            /// What the constants say of themselves, for the header to say it, too.
            #[cfg(test)]
            pub(crate) const MEANINGS: &[&str] = &[$($meaning),*];
        }
    };
}

refusals! {
    1 SHORT "short" "a descriptor body is empty or cut short"
    2 VERSION "version" "a descriptor's version is not 0"
    3 EMPTY "empty" "a side is 0"
    4 LIMIT "limit" "above a limit"
    5 MALFORMED "malformed" "malformed bytes"
    6 DEPTH "depth" "a depth outside 8 to 16"
    7 ZERO "zero" "a zero term of a fraction"
    8 FRACTION "fraction" "a size or an edge that is no whole number"
    9 OUTSIDE "outside" "a rectangle outside its picture, or margins that are not its own"
    10 SCALE "scale" "a scaled side above 2^32 - 1"
    11 COUNT "count" "a count or an index that differs"
    12 COVER "cover" "tiles that do not cover the canvas"
    13 TILE "tile" "a tile of another size"
    14 LAYOUT "layout" "another chroma or depth"
    15 MISSING "missing" "no inputs, nothing placed, or a cell missing"
    16 OPACITY "opacity" "an alpha sample above top"
    17 ROOM "room" "a lent buffer that is too short"
    18 POINT "point" "no point answer"
    19 TILING "tiling" "rows or columns of tiles outside 1 to 256"
}

impl Refusal {
    /// The refusal of a number, if it has one.
    pub fn from_number(number: u64) -> Option<Self> {
        Self::ALL
            .iter()
            .copied()
            .find(|refusal| u64::from(refusal.number) == number)
    }

    /// The refusal that an answer of a call for C is (`include/compose.h`): 2^63, and its number in
    /// bits 0 to 7, the sort of its item in bits 8 to 15, the item's index in bits 16 to 55. None where
    /// it is below 2^63, or what no call answers.
    ///
    /// ```
    /// use compose::{About, Refusal};
    ///
    /// let answer = (1 << 63) + 13 + 256 + 4 * 65_536;
    /// let refusal = Refusal::TILE.of_item(About::Record, 4);
    /// assert_eq!(Refusal::from_answer(answer), Some(refusal));
    /// assert_eq!(Refusal::from_answer(13), None);
    /// ```
    pub fn from_answer(answer: u64) -> Option<Self> {
        let code = answer.checked_sub(1 << 63)?;
        let refusal = Self::from_number(code & 0xff)?;
        match ((code >> 8) as u8, code >> 16) {
            (0, 0) => Some(refusal),
            (sort, index @ 0..=LAST_INDEX) => Some(refusal.of_item(About::from_sort(sort)?, index)),
            _ => None,
        }
    }

    /// Above a ceiling that the caller set.
    pub(crate) fn above(excess: Excess) -> Self {
        Self {
            excess: Some(excess),
            ..Self::LIMIT
        }
    }

    /// What was asked for above a ceiling that the caller set ([`Limits`](crate::Limits)), if that
    /// is why; the number is [`Refusal::LIMIT`]'s then.
    pub fn excess(self) -> Option<Excess> {
        self.excess
    }

    /// The same as the own refusal of an item.
    #[must_use]
    pub fn of_item(self, about: About, index: u64) -> Self {
        Self {
            item: Some((about, index)),
            ..self
        }
    }

    /// What it is about, where it is an item's own refusal.
    pub fn about(self) -> Option<About> {
        self.item.map(|(about, _)| about)
    }

    /// The item's index, from 0, as the caller's list of frames or properties counts.
    pub fn index(self) -> Option<u64> {
        self.item.map(|(_, index)| index)
    }

    /// Whether it has the number of another, whatever both are about.
    pub fn is(self, other: Self) -> bool {
        self.number == other.number
    }

    /// Its number.
    pub fn number(self) -> u8 {
        self.number
    }

    /// The sentence that the library has for it: number, reason, and the item where it is one's own.
    /// Where the limit is the caller's, a second one says what was asked for and what is allowed.
    pub fn sentence(self, language: Language) -> String {
        let item = self.item.map(|(about, index)| (about.sort(), index));
        let (sort, index) = item.unwrap_or((0, 0));
        let (number, language_number) = (self.number.into(), language as u8);
        let sentence =
            Fresh::compose_sentence(number, sort, index, language_number, LONGEST_SENTENCE);
        let sentence = sentence.expect("every refusal has a sentence, and none is longer");
        let mut sentence = String::from_utf8(sentence).expect("a sentence is UTF-8");
        if let Some(excess) = self.excess {
            sentence += &format!(" {}", excess.sentence(language));
        }
        sentence
    }

    /// The sentence in German.
    pub fn german(self) -> String {
        self.sentence(Language::German)
    }

    /// The refusal that a sentence is of, and its language; none where it is no refusal's sentence.
    pub fn from_sentence(sentence: &str) -> Option<(Self, Language)> {
        let digits = sentence.split(|c: char| !c.is_ascii_digit());
        let numbers: Vec<u64> = digits.filter_map(|number| number.parse().ok()).collect();
        let plain = Self::from_number(*numbers.first()?)?;
        // What its last numbers could stand for; the sentence itself tells which it is.
        let mut could_be = vec![plain];
        if let [.., index] = numbers[..] {
            could_be.extend(About::ALL.map(|about| plain.of_item(about, index)));
        }
        if let [.., asked, most] = numbers[..] {
            let excess = |what| Excess { what, asked, most };
            could_be.extend(Ceiling::ALL.map(|what| Self::above(excess(what))));
        }
        let languages = |refusal| Language::ALL.map(|language| (refusal, language));
        let mut could_be = could_be.into_iter().flat_map(languages);
        could_be.find(|(refusal, language)| refusal.sentence(*language) == sentence)
    }
}

impl fmt::Display for Refusal {
    fn fmt(&self, f: &mut fmt::Formatter<'_>) -> fmt::Result {
        f.write_str(&self.sentence(Language::English))
    }
}

impl Error for Refusal {}

#[cfg(test)]
mod tests {
    use super::{About, LONGEST_SENTENCE, Language, Refusal};
    use crate::declared::in_repository;
    use crate::limits::{Ceiling, Excess};
    use crate::sys;
    use std::fs;

    /// The source of the crate `laws`, with one blank where it has several, and without comments.
    fn laws() -> String {
        let laws = in_repository("crates/laws/src/lib.rt");
        let laws = fs::read_to_string(laws).expect("the crate laws is there");
        let lines = laws.lines().filter_map(|line| line.split("//").next());
        let words: Vec<&str> = lines.flat_map(str::split_whitespace).collect();
        words.join(" ")
    }

    /// The variants of an enum of the crate `laws`.
    fn variants(name: &str) -> String {
        let laws = laws();
        let (_, rest) = laws
            .split_once(&format!("pub enum {name} {{ "))
            .expect("the enum is there");
        let (list, _) = rest.split_once(", }").expect("an enum that ends");
        list.to_string()
    }

    /// A word with a capital letter.
    fn capital(word: &str) -> String {
        let (first, rest) = word.split_at(1);
        first.to_uppercase() + rest
    }

    #[test]
    fn refusals_are_those_of_the_composer() {
        let laws = laws();
        let declared = laws.split("pub const ").skip(1);
        let theirs: Vec<&str> = declared
            .map(|rest| &rest[..=rest.find(';').expect("a constant that ends")])
            .collect();
        let constant = |refusal: &Refusal| {
            let name = refusal.name();
            let (constant, reason) = (name.to_uppercase(), capital(name));
            format!("{constant}: Refusal = Refusal {{ reason: Reason::{reason}, item: None, }};")
        };
        let ours: Vec<String> = Refusal::ALL.iter().map(constant).collect();
        assert_eq!(ours, theirs);
        let mut reasons: Vec<String> = Refusal::ALL.iter().map(|r| capital(r.name())).collect();
        let arm = |r: &Refusal| format!("Reason::{} => {}, ", capital(r.name()), r.number());
        let arms: String = Refusal::ALL.iter().map(arm).collect();
        let number = format!("match self {{ {arms}Reason::Other(number) => number, }}");
        assert!(laws.contains(&number));
        reasons.push("Other(u8)".into());
        assert_eq!(reasons.join(", "), variants("Reason"));
        let code = in_repository("crates/words/specs/Code.antt");
        let code = fs::read_to_string(code).expect("the definition of a refusal's code is there");
        let sorts: Vec<&str> = code
            .lines()
            .filter(|line| line.starts_with("sort_of "))
            .collect();
        let sort = |about: About| format!("sort_of (Some ({about:?} i)) = {}", about.sort());
        let mut ours: Vec<String> = About::ALL.iter().copied().map(sort).collect();
        ours.push("sort_of (Some (Other sort i)) = sort".into());
        assert_eq!(sorts[1..], ours);
        assert_eq!(sorts[0], "sort_of None = 0");
        let mut items: Vec<String> = About::ALL.map(|about| format!("{about:?}(u64)")).into();
        items.push("Other(u8, u64)".into());
        assert_eq!(items.join(", "), variants("Item"));
        assert!(laws.contains("pub fn about(self, item: Item) -> Refusal"));
    }

    #[test]
    fn refusals_have_number_and_name() {
        assert_eq!(Refusal::from_number(17), Some(Refusal::ROOM));
        assert_eq!(Refusal::from_number(0), None);
        assert_eq!(Refusal::from_number(20), None);
        assert_eq!(Refusal::from_number(256 + 5), None);
        let malformed = Refusal::MALFORMED;
        assert_eq!((malformed.number(), malformed.name()), (5, "malformed"));
        assert_eq!(
            malformed.to_string(),
            "5: The data are damaged or badly formed."
        );
    }

    #[test]
    fn refusals_are_equal_where_all_of_them_is() {
        let of = |about, index| Refusal::TILE.of_item(about, index);
        let first = of(About::Record, 0);
        for other in [Refusal::TILE, of(About::Record, 1), of(About::Entry, 0)] {
            assert_ne!(first, other);
            assert!(first.is(other) && other.is(first));
        }
        assert_eq!(first, of(About::Record, 0));
        assert!(!first.is(Refusal::LAYOUT.of_item(About::Record, 0)));
        let above = Refusal::above(excess(Ceiling::Bytes));
        assert_ne!(above, Refusal::LIMIT);
        assert_ne!(above, Refusal::above(excess(Ceiling::Pixels)));
        assert!(above.is(Refusal::LIMIT));
    }

    fn excess(what: Ceiling) -> Excess {
        let (asked, most) = (u64::MAX, 0);
        Excess { what, asked, most }
    }

    /// Where a number of an index has a digit more, or no room in an answer.
    const INDEXES: [u64; 8] = [
        0,
        9,
        10,
        1 << 32,
        (1 << 40) - 1,
        1 << 40,
        u64::MAX - 1,
        u64::MAX,
    ];

    /// Every refusal: of no item, of each sort and index, and above a ceiling.
    fn all() -> Vec<Refusal> {
        let mut all = Refusal::ALL.to_vec();
        for refusal in Refusal::ALL {
            for about in About::ALL {
                all.extend(INDEXES.map(|index| refusal.of_item(about, index)));
            }
        }
        all.extend(Ceiling::ALL.map(|what| Refusal::above(excess(what))));
        all
    }

    #[test]
    fn sentences_are_read_back() {
        for refusal in all() {
            for language in Language::ALL {
                let sentence = refusal.sentence(language);
                assert_eq!(
                    Refusal::from_sentence(&sentence),
                    Some((refusal, language)),
                    "{sentence}"
                );
            }
            assert_eq!(refusal.to_string(), refusal.sentence(Language::English));
            assert_eq!(refusal.german(), refusal.sentence(Language::German));
        }
    }

    #[test]
    fn what_is_no_sentence_is_not_read() {
        for text in [
            "",
            "13",
            "13: ",
            "13: A tile is not the same size as the first one",
            "13: A tile is not the same size as the first one. ",
            "14: A tile is not the same size as the first one.",
            "013: A tile is not the same size as the first one.",
            "13: A tile is not the same size as the first one (Bild 4).",
            "13: A tile is not the same size as the first one (record 04).",
            "13: A tile is not the same size as the first one (record 18446744073709551616).",
            "13: A tile is not the same size as the first one (record ).",
            "13: A tile is not the same size as the first one (record -4).",
            "13: A tile is not the same size as the first one (record 4) (entry 4).",
            "20: A tile is not the same size as the first one.",
            "refused 13",
        ] {
            assert_eq!(Refusal::from_sentence(text), None, "{text}");
        }
    }

    /// The call has a sentence for the numbers, sorts and languages that are here, and for no other;
    /// each fits the longest.
    #[test]
    fn sentences_are_those_of_the_call() {
        let mut out = [7; LONGEST_SENTENCE];
        for number in 0..=300 {
            for sort in 0..=4 {
                for language in 0..=3 {
                    let written = sys::compose_sentence(number, sort, u64::MAX, language, &mut out);
                    let known = Refusal::from_number(number.into()).is_some()
                        && (sort == 0 || About::from_sort(sort).is_some())
                        && Language::ALL.iter().any(|one| *one as u8 == language);
                    let refused = (!known).then_some(Refusal::MALFORMED);
                    assert_eq!(written.err(), refused, "{number} {sort} {language}");
                }
            }
        }
        for refusal in Refusal::ALL {
            let (number, sentence) = (refusal.number().into(), refusal.german());
            let (length, language) = (sentence.len(), Language::German as u8);
            let mut out = [7; LONGEST_SENTENCE];
            let mut lent = |room: usize| {
                let written = sys::compose_sentence(number, 0, 9, language, &mut out[..room]);
                (written, out)
            };
            assert_eq!(
                lent(length - 1),
                (Err(Refusal::ROOM), [7; LONGEST_SENTENCE])
            );
            let (written, out) = lent(LONGEST_SENTENCE);
            assert_eq!(written, Ok(length as u64));
            assert_eq!(&out[..length], sentence.as_bytes());
            assert!(out[length..].iter().all(|byte| *byte == 7));
        }
    }
}
