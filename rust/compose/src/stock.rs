//! Buffers that are needed only while a call runs: a tray, a frame's record, a spare. A thread keeps a
//! few of them for its next call. An allocator hands memory of that size back to the system when it is
//! freed, and then each page costs far more than the copy that is made into it.

use std::cell::RefCell;

/// Shorter ones are left to the allocator, which keeps them.
const SHORTEST: usize = 1 << 17;
/// Longer ones are not kept.
const LONGEST: usize = 1 << 24;
/// How many are kept: what a call is handed, what it writes, and a spare.
const MOST: usize = 3;

thread_local! {
    static KEPT: RefCell<Vec<Vec<u8>>> = const { RefCell::new(Vec::new()) };
}

/// An empty buffer that holds `room` bytes: one that is kept, where it has little more, or a new one.
pub(crate) fn take(room: usize) -> Vec<u8> {
    let fits = |buffer: &Vec<u8>| (room..=room + room / 8).contains(&buffer.capacity());
    let kept = (SHORTEST..=LONGEST).contains(&room).then(|| {
        KEPT.try_with(|kept| {
            let mut kept = kept.borrow_mut();
            let at = kept.iter().position(fits)?;
            Some(kept.swap_remove(at))
        })
    });
    match kept {
        Some(Ok(Some(buffer))) => buffer,
        _ => Vec::with_capacity(room),
    }
}

/// Keeps a buffer for the thread's next call; what it holds is gone.
pub(crate) fn give(mut buffer: Vec<u8>) {
    if !(SHORTEST..=LONGEST).contains(&buffer.capacity()) {
        return;
    }
    buffer.clear();
    // A thread that ends keeps none.
    let _ = KEPT.try_with(|kept| {
        let mut kept = kept.borrow_mut();
        if kept.len() == MOST {
            kept.remove(0);
        }
        kept.push(buffer);
    });
}

#[cfg(test)]
mod tests {
    use super::{KEPT, LONGEST, MOST, SHORTEST, give, take};

    #[test]
    fn a_buffer_is_found_again() {
        let buffer = take(SHORTEST);
        let place = buffer.as_ptr();
        give(buffer);
        // One that would be left half empty is not taken.
        let other = take(SHORTEST * 2);
        let again = take(SHORTEST);
        let new = take(SHORTEST);
        assert_eq!((again.as_ptr(), again.len()), (place, 0));
        assert!(other.as_ptr() != place && new.as_ptr() != place);
    }

    #[test]
    fn few_are_kept_and_none_that_is_short_or_long() {
        give(Vec::with_capacity(SHORTEST - 1));
        give(Vec::with_capacity(LONGEST + 1));
        let count = || KEPT.with_borrow(Vec::len);
        assert_eq!(count(), 0);
        for more in 0..2 * MOST {
            give(Vec::with_capacity(SHORTEST * (more + 1)));
        }
        assert_eq!(count(), MOST);
        // The last ones.
        assert_eq!(take(SHORTEST * 2 * MOST).capacity(), SHORTEST * 2 * MOST);
        assert_eq!(count(), MOST - 1);
    }
}
