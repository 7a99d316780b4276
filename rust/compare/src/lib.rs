//! What the comparisons of the proved library with the second program share.
//!
//! The comparisons are the tests of this crate. Each prints how many inputs of
//! each kind it tried and how many differed; `scripts/compare` at the root of
//! the repository runs them, shows that and adds it up.

#![forbid(unsafe_code)]
#![deny(missing_docs)]

pub mod bodies;
pub mod both_sides;
pub mod comparison;
pub mod edges;
pub mod explained;
pub mod generator;
pub mod lines;
pub mod lockstep;
pub mod mavlink;
pub mod mavlink_sides;
pub mod messages;
pub mod programs;
pub mod rooms;
pub mod squawks;
pub mod tally;
pub mod texts;
