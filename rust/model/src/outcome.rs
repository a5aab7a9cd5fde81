//! How a call of the published Rust ended: done, an error of its own, or a panic.

use std::cell::{Cell, RefCell};
use std::fmt::Display;
use std::panic::{self, AssertUnwindSafe};
use std::sync::Once;

/// How a call ended.
#[derive(Clone, Debug, PartialEq, Eq)]
pub enum Outcome<T> {
    /// The call's answer.
    Done(T),
    /// The call's own error: its class and text as it prints itself.
    Error(String),
    /// The call panicked: the message, then file and line in brackets.
    Panic(String),
}

impl<T> Outcome<T> {
    /// The same outcome with another answer.
    pub fn map<U>(self, change: impl FnOnce(T) -> U) -> Outcome<U> {
        match self {
            Outcome::Done(answer) => Outcome::Done(change(answer)),
            Outcome::Error(text) => Outcome::Error(text),
            Outcome::Panic(text) => Outcome::Panic(text),
        }
    }

    /// The answer, if the call was done.
    pub fn done(self) -> Option<T> {
        match self {
            Outcome::Done(answer) => Some(answer),
            Outcome::Error(_) | Outcome::Panic(_) => None,
        }
    }
}

thread_local! {
    /// Whether this thread is inside [`attempt`], where a panic prints nothing.
    static QUIET: Cell<bool> = const { Cell::new(false) };
    /// File name and line of the last panic inside [`attempt`].
    static PLACE: RefCell<String> = const { RefCell::new(String::new()) };
}

/// Hands panics inside [`attempt`] to [`PLACE`] and every other one to the hook that was there.
fn install_hook() {
    static ONCE: Once = Once::new();
    ONCE.call_once(|| {
        let before = panic::take_hook();
        panic::set_hook(Box::new(move |info| {
            if !QUIET.get() {
                return before(info);
            }
            let place = info.location().map_or(String::new(), |at| {
                let file = at.file().rsplit(['/', '\\']).next().unwrap_or_default();
                format!(" ({file}:{})", at.line())
            });
            PLACE.with_borrow_mut(|last| *last = place);
        }));
    });
}

/// Runs `call` and tells the three ways of ending apart.
pub fn attempt<T, E: Display>(call: impl FnOnce() -> Result<T, E>) -> Outcome<T> {
    install_hook();
    let outer = QUIET.replace(true);
    let ended = panic::catch_unwind(AssertUnwindSafe(call));
    QUIET.set(outer);
    match ended {
        Ok(Ok(answer)) => Outcome::Done(answer),
        Ok(Err(error)) => Outcome::Error(error.to_string()),
        Err(payload) => {
            let message = payload
                .downcast_ref::<String>()
                .map(String::as_str)
                .or_else(|| payload.downcast_ref::<&str>().copied())
                .unwrap_or("a panic without a text");
            Outcome::Panic(format!("{message}{}", PLACE.take()))
        }
    }
}
