//! The names of oxideav-heif's module `error`. What went wrong is a [`Refusal`] here, a number
//! with its sentence, in place of a class and a text.

pub use crate::{Refusal, Result};

/// The error of every call.
pub type HeifError = Refusal;

/// The error of every call.
pub type Error = Refusal;
