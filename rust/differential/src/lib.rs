//! The composer and the published Rust on the same bytes: seeded inputs, what document 01 wants of
//! each call as the oracle works it out, and the comparisons themselves.

mod bodies;
pub mod compare;
pub mod comparisons;
pub mod damage;
pub mod expected;
pub mod generate;
pub mod ours;
pub mod refusals;
pub mod rng;
mod rooms;
pub mod shaped;
mod shrink;
pub mod store;
