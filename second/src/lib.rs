//! A second rack planner, in plain Rust and without dependencies.
//!
//! It is written from the documents in docs/ (RULES, REFUSALS, FORMATS) and from nothing else, in the most
//! straightforward way, so that the proved planner can be compared with it byte for byte.

pub mod blocks;
pub mod check;
pub mod divide;
pub mod generate;
pub mod job;
pub mod machine;
pub mod place;
pub mod plan;
#[cfg(feature = "proved")]
pub mod proved;
pub mod random;
pub mod refusal;
