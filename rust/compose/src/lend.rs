//! Lending an output to a call that writes a picture, and taking the words that one answers.

use crate::plan::Asked;
use crate::{Refusal, Result, limits};

/// What `call` writes to an output that it is lent, of so many bytes as it is told: as many as it
/// asks for. Where that is refused, or is above a ceiling of the caller's, it is told 0, so that
/// nothing is allocated and its own refusals come first.
///
/// Every picture that a call makes passes here, but for a canvas, which asks [`buffer`].
pub(crate) fn written(
    asked: Option<Asked>,
    call: impl Fn(usize) -> Result<Vec<u8>>,
) -> Result<Vec<u8>> {
    let Some(asked) = asked else { return call(0) };
    match limits::judge(asked) {
        Ok(()) => call(asked.bytes),
        Err(above) => Err(call(0)
            .err()
            .filter(|refusal| !refusal.is(Refusal::ROOM))
            .unwrap_or(above)),
    }
}

/// The same for a call that is lent an output and a spare of that length.
pub(crate) fn composed(
    asked: Option<Asked>,
    call: impl Fn(usize) -> Result<Vec<u8>>,
) -> Result<Vec<u8>> {
    let both = asked.map(|asked| Asked {
        bytes: 2 * asked.bytes,
        ..asked
    });
    written(both, |room| call(room / 2))
}

/// A canvas, all zero. Refusal 4: above a ceiling of the caller's.
pub(crate) fn buffer(asked: Asked) -> Result<Vec<u8>> {
    limits::judge(asked)?;
    Ok(vec![0; asked.bytes])
}

/// A word in its own type. The call's contract keeps it in range.
pub(crate) fn narrow<T: TryFrom<u64>>(word: u64) -> T {
    T::try_from(word).unwrap_or_else(|_| panic!("the library answered the word {word}"))
}

#[cfg(test)]
mod tests {
    use super::{composed, written};
    use crate::plan::Asked;
    use crate::{Limits, Refusal};
    use std::cell::RefCell;

    const ASKED: Asked = Asked {
        pixels: 60,
        bytes: 100,
    };

    /// A call that refuses, or is lent too little, or writes `abc`; and what it was lent.
    fn call<'a>(
        refuses: Option<Refusal>,
        lent: &'a RefCell<Vec<usize>>,
    ) -> impl Fn(usize) -> crate::Result<Vec<u8>> + 'a {
        move |room| {
            lent.borrow_mut().push(room);
            match refuses {
                Some(refusal) => Err(refusal),
                None if room < ASKED.bytes => Err(Refusal::ROOM),
                None => Ok(b"abc".to_vec()),
            }
        }
    }

    #[test]
    fn an_output_is_lent_once() {
        let lent = RefCell::default();
        assert_eq!(written(Some(ASKED), call(None, &lent)), Ok(b"abc".to_vec()));
        assert_eq!(
            composed(Some(ASKED), call(None, &lent)),
            Ok(b"abc".to_vec())
        );
        assert_eq!(
            written(None, call(Some(Refusal::OUTSIDE), &lent)),
            Err(Refusal::OUTSIDE)
        );
        assert_eq!(lent.take(), [100, 100, 0]);
    }

    #[test]
    fn above_a_ceiling_nothing_is_lent() {
        let lent = RefCell::default();
        for (limits, pair, text) in [
            (
                Limits::new().with_max_pixels(59),
                false,
                "60 pixels, and at most 59 ",
            ),
            (
                Limits::new().with_max_bytes(99),
                false,
                "100 bytes of memory, and at most 99 ",
            ),
            (
                Limits::new().with_max_bytes(199),
                true,
                "200 bytes of memory, and at most 199 ",
            ),
        ] {
            let lend = |refuses| match pair {
                true => composed(Some(ASKED), call(refuses, &lent)),
                false => written(Some(ASKED), call(refuses, &lent)),
            };
            let above = limits.within(|| lend(None)).unwrap_err();
            assert!(above.to_string().contains(text), "{above}");
            assert_eq!((above.number(), above.about()), (4, None));
            // What document 01 refuses comes first.
            assert_eq!(
                limits.within(|| lend(Some(Refusal::OPACITY))),
                Err(Refusal::OPACITY)
            );
            assert_eq!(lent.take(), [0, 0]);
            assert_eq!(lend(None), Ok(b"abc".to_vec()));
            lent.take();
        }
    }

    #[test]
    fn ceilings_hold_inside_and_end() {
        let (low, high) = (
            Limits::new().with_max_pixels(5),
            Limits::new().with_max_bytes(7),
        );
        low.within(|| {
            high.within(|| assert_eq!(Limits::current(), low.with_max_bytes(7)));
            assert_eq!(Limits::current(), low);
            low.with_max_pixels(9)
                .within(|| assert_eq!(Limits::current(), low));
        });
        let panicked = std::panic::catch_unwind(|| low.within(|| panic!("on purpose")));
        assert!(panicked.is_err());
        assert_eq!(Limits::current(), Limits::new());
    }
}
