//! The sentences of refusals (document 02, A2): the library's bytes, read back by the model, and what is
//! no sentence.

use differential::ours::{BEFORE, Composer, Linked};
use model::refusal::{MALFORMED, ROOM};
use model::{Item, Refusal, read_sentence};
use std::collections::HashSet;

/// What the library writes.
fn sentence(number: u32, sort: u8, index: u64, language: u8) -> Vec<u8> {
    let mut output = vec![BEFORE; 256];
    let length = Linked.sentence(number, sort, index, language, &mut output);
    output.truncate(length.expect("the call").expect("a sentence"));
    output
}

#[test]
fn sentences_of_the_paper() {
    for (sort, index, language, text) in [
        (
            1,
            4,
            0,
            "13: Eine Kachel ist nicht so groß wie die erste (Bild 4).",
        ),
        (
            1,
            4,
            1,
            "13: A tile is not the same size as the first one (record 4).",
        ),
        (
            2,
            4,
            0,
            "13: Eine Kachel ist nicht so groß wie die erste (Eintrag 4).",
        ),
        (
            2,
            4,
            1,
            "13: A tile is not the same size as the first one (entry 4).",
        ),
        (0, 4, 0, "13: Eine Kachel ist nicht so groß wie die erste."),
        (0, 0, 1, "13: A tile is not the same size as the first one."),
    ] {
        assert_eq!(sentence(13, sort, index, language), text.as_bytes());
    }
}

/// Each sentence says language, number, sort and index, and no two are alike.
#[test]
fn every_sentence_is_read_back() {
    let indexes = [
        0,
        1,
        9,
        10,
        99,
        (1 << 32) - 1,
        1 << 32,
        (1 << 40) - 1,
        1 << 63,
        u64::MAX,
    ];
    let mut all = HashSet::new();
    for (number, language) in (1..=19).flat_map(|number| [(number, 0), (number, 1)]) {
        let alone = sentence(number, 0, 0, language);
        for (sort, index) in indexes
            .iter()
            .flat_map(|index| [0, 1, 2].map(|sort| (sort, *index)))
        {
            let bytes = sentence(number, sort, index, language);
            let said = Refusal {
                number: number as u8,
                item: Item::of_sort(sort, index),
            };
            assert_eq!(read_sentence(&bytes), Some((language, said)));
            // With sort 0 the index is not looked at.
            assert_eq!(bytes == alone, sort == 0);
            all.insert(bytes);
        }
    }
    assert_eq!(all.len(), 19 * 2 * (1 + 2 * indexes.len()));
}

/// 5 before 17, and neither writes; the room that a sentence takes and no less serves.
#[test]
fn refused_sentences_write_nothing() {
    let call = |[number, sort, language]: [u32; 3], room: usize| {
        let mut output = vec![BEFORE; room];
        let answer = Linked.sentence(number, sort as u8, u64::MAX, language as u8, &mut output);
        (answer.expect("the call"), output)
    };
    for unknown in [
        [0, 0, 0],
        [20, 1, 1],
        [255, 2, 0],
        [256 + 5, 0, 0],
        [u32::MAX, 0, 1],
        [5, 3, 0],
        [5, 255, 1],
        [5, 0, 2],
        [5, 2, 255],
    ] {
        for room in [0, 1, 256] {
            let refused = (Err(MALFORMED), vec![BEFORE; room]);
            assert_eq!(call(unknown, room), refused, "{unknown:?}");
        }
    }
    for known in [[1, 0, 0], [18, 2, 0], [18, 1, 1], [19, 0, 0]] {
        let (length, _) = call(known, 256);
        let length = length.expect("a sentence");
        for room in 0..length {
            let refused = (Err(ROOM), vec![BEFORE; room]);
            assert_eq!(call(known, room), refused, "{known:?}");
        }
        let (answer, output) = call(known, length + 5);
        assert_eq!(answer, Ok(length));
        assert_eq!(output[..length], call(known, length).1);
        assert_eq!(output[length..], [BEFORE; 5]);
    }
}

#[test]
fn what_is_no_sentence_says_nothing() {
    let sentence = sentence(13, 1, 40, 1);
    for end in 0..sentence.len() {
        assert_eq!(read_sentence(&sentence[..end]), None, "cut to {end}");
    }
    for text in [
        // Another number's reason, another language's word, a word that is not known.
        "12: A tile is not the same size as the first one (record 4).",
        "0: A tile is not the same size as the first one.",
        "20: A tile is not the same size as the first one.",
        "269: A tile is not the same size as the first one.",
        "13: A tile is not the same size as the first one (Bild 4).",
        "13: Eine Kachel ist nicht so groß wie die erste (entry 4).",
        "13: A tile is not the same size as the first one (tile 4).",
        // Numbers in other forms, and one above 64 bits.
        "013: A tile is not the same size as the first one.",
        "+13: A tile is not the same size as the first one.",
        "13: A tile is not the same size as the first one (record 04).",
        "13: A tile is not the same size as the first one (record +4).",
        "13: A tile is not the same size as the first one (record -4).",
        "13: A tile is not the same size as the first one (record ).",
        "13: A tile is not the same size as the first one (record 18446744073709551616).",
        "13: A tile is not the same size as the first one (record 4)",
        "13: A tile is not the same size as the first one (record 4). ",
    ] {
        assert_eq!(read_sentence(text.as_bytes()), None, "{text}");
    }
    // No UTF-8.
    assert_eq!(
        read_sentence(b"5: Die Daten sind besch\xe4digt oder falsch aufgebaut."),
        None
    );
}
