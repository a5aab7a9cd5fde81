//! The command `compose`: what it prints, what it writes, and how it ends.

mod folder;
mod help;
mod languages;
mod outputs;
mod pictures;
mod refusals;
mod shown;
