//! Ceilings that a caller sets. A few bytes can ask for a picture of 2^30 pixels, which is all that
//! document 01 refuses; a program that takes files from others sets what it can bear.
//!
//! ```
//! use compose::{GridDescriptor, Limits, Scene, scene};
//!
//! // One pixel, scaled to 32,768 × 32,768 by a chain of one iscl.
//! let body = GridDescriptor::new(1, 1, 1, 1).to_bytes();
//! let tray = [1, 1, 1, 0, 8, 0, 1, 1, 7];
//! let chain = [1, 4, 0, 0x80, 0x80, 2, 1, 0x80, 0x80, 2, 1];
//! let limits = Limits::new().with_max_pixels(1 << 24);
//! let refusal = limits.within(|| scene(&Scene::grid(&body, &tray, &chain))).unwrap_err();
//! assert_eq!((refusal.number(), refusal.name()), (4, "limit"));
//! assert_eq!(
//!     refusal.to_string(),
//!     "4: The picture is too large, or there are too many records or entries. \
//!      It would have 1073741824 pixels, and at most 16777216 are allowed."
//! );
//! ```

use crate::image::MAX_FRAME_PIXELS;
use crate::plan::Asked;
use crate::{Language, Refusal, Result};
use std::cell::Cell;
use std::fmt;

/// The most that one call may ask for. It is judged before anything is allocated, and after all
/// that document 01 refuses, in the place of 17.
#[derive(Clone, Copy, Debug, PartialEq, Eq, Hash)]
#[non_exhaustive]
pub struct Limits {
    /// Pixels of a picture that is made, also of one between two properties of a chain.
    pub max_pixels: u64,
    /// Bytes of the buffers that one call is lent for pictures: its output, and the spare of a scene.
    pub max_bytes: u64,
}

thread_local! {
    static SET: Cell<Limits> = const { Cell::new(Limits::new()) };
}

impl Default for Limits {
    fn default() -> Self {
        Self::new()
    }
}

impl Limits {
    /// What holds where nothing is set: document 01's 2^30 pixels, and no ceiling of bytes.
    pub const fn new() -> Self {
        Self {
            max_pixels: MAX_FRAME_PIXELS,
            max_bytes: u64::MAX,
        }
    }

    /// The same with another ceiling of pixels. Above 2^30 there is no picture.
    #[must_use]
    pub const fn with_max_pixels(mut self, pixels: u64) -> Self {
        self.max_pixels = pixels;
        self
    }

    /// The same with another ceiling of bytes.
    #[must_use]
    pub const fn with_max_bytes(mut self, bytes: u64) -> Self {
        self.max_bytes = bytes;
        self
    }

    /// Does `work` under these ceilings, and under those that hold already: they are the calling
    /// thread's until it ends. A thread that it starts sets its own.
    pub fn within<T>(self, work: impl FnOnce() -> T) -> T {
        /// Puts back what held before, after a panic, too.
        struct Before(Limits);
        impl Drop for Before {
            fn drop(&mut self) {
                SET.set(self.0);
            }
        }
        let before = Before(SET.get());
        SET.set(Self {
            max_pixels: self.max_pixels.min(before.0.max_pixels),
            max_bytes: self.max_bytes.min(before.0.max_bytes),
        });
        work()
    }

    /// The ceilings that hold here.
    pub fn current() -> Self {
        SET.get()
    }

    /// Whether a picture of so many pixels, in so many bytes, may be made. Refusal 4, with an
    /// [`Excess`]: it may not.
    pub fn judge(self, pixels: u64, bytes: u64) -> Result<()> {
        let excess = |what, asked, most| Excess { what, asked, most };
        if pixels > self.max_pixels {
            return Err(excess(Ceiling::Pixels, pixels, self.max_pixels).into());
        }
        if bytes > self.max_bytes {
            return Err(excess(Ceiling::Bytes, bytes, self.max_bytes).into());
        }
        Ok(())
    }
}

/// Whether a call may have what it asks for.
pub(crate) fn judge(asked: Asked) -> Result<()> {
    Limits::current().judge(asked.pixels, asked.bytes as u64)
}

/// Which ceiling.
#[derive(Clone, Copy, Debug, PartialEq, Eq, Hash)]
pub enum Ceiling {
    /// [`Limits::max_pixels`].
    Pixels,
    /// [`Limits::max_bytes`].
    Bytes,
}

impl Ceiling {
    /// Every ceiling.
    pub const ALL: [Self; 2] = [Self::Pixels, Self::Bytes];
}

/// What was asked for above a ceiling of the caller's.
#[derive(Clone, Copy, Debug, PartialEq, Eq, Hash)]
pub struct Excess {
    /// The ceiling.
    pub what: Ceiling,
    /// What was asked for.
    pub asked: u64,
    /// What is allowed.
    pub most: u64,
}

impl From<Excess> for Refusal {
    fn from(excess: Excess) -> Self {
        Self::above(excess)
    }
}

impl Excess {
    /// What was asked for and what is allowed, as a refusal says it behind its own sentence.
    pub fn sentence(&self, language: Language) -> String {
        let Self { what, asked, most } = self;
        let has = match (language, what) {
            (Language::German, Ceiling::Pixels) => format!("Es hätte {asked} Pixel"),
            (Language::German, Ceiling::Bytes) => format!("Es bräuchte {asked} Byte Speicher"),
            (Language::English, Ceiling::Pixels) => format!("It would have {asked} pixels"),
            (Language::English, Ceiling::Bytes) => format!("It would take {asked} bytes of memory"),
        };
        match language {
            Language::German => format!("{has}, und höchstens {most} sind erlaubt."),
            Language::English => format!("{has}, and at most {most} are allowed."),
        }
    }
}

/// The English sentence.
impl fmt::Display for Excess {
    fn fmt(&self, f: &mut fmt::Formatter<'_>) -> fmt::Result {
        f.write_str(&self.sentence(Language::English))
    }
}
