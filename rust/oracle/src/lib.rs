//! The published Rust (the crate oxideav-heif, MIT), compiled unchanged, behind [`model::Oracle`].
//!
//! The source is not part of this repository: `build.rs` says where it is looked for. Where it is
//! absent this crate still builds, [`PRESENT`] is false and [`open`] answers `None`.
//!
//! The package `oracle-checked` is this source again, built with overflow checks.

use model::Oracle;

#[cfg(source_present)]
include!(concat!(env!("OUT_DIR"), "/modules.rs"));

#[cfg(source_present)]
mod calls;
#[cfg(source_present)]
mod session;
#[cfg(source_present)]
mod stubs;
#[cfg(source_present)]
use stubs::{avcc, file, hvcc, meta, pixel_transform, vvcc};

/// Items that name the published Rust's own modules (`oracle::compose`, `oracle::image` and so on):
/// they are there where it is, and else left out.
#[cfg(source_present)]
#[macro_export]
macro_rules! where_present {
    ($($item:item)*) => { $($item)* };
}

/// Items that name the published Rust's own modules: left out, as it is absent.
#[cfg(not(source_present))]
#[macro_export]
macro_rules! where_present {
    ($($item:item)*) => {};
}

/// Whether the published Rust was there when this crate was built.
pub const PRESENT: bool = cfg!(source_present);

/// The folder of the published Rust's files, where it is present.
pub const FOLDER: Option<&str> = option_env!("HEIF_FOLDER");

/// The published Rust, where it is present.
pub fn open() -> Option<&'static dyn Oracle> {
    #[cfg(source_present)]
    return Some(&calls::Published);
    #[cfg(not(source_present))]
    None
}
