//! One route library compared with another, call by call: the number, the answer, and every word of lent memory.
//!
//! [`Checker`] makes each call on both libraries, each with its own copy of the memory, and [`scenarios`] feeds it.
//! The tests and the tool `fuzz` run the same scenarios.

mod checker;
mod lent;
mod library;
pub mod scenarios;
mod seeds;
mod tally;

pub use checker::{Checker, Compared, Difference};
pub use library::{CountedAnnounce, CountedMessage, ImageLookupMany, Library, SegmentsLookupMany, PROVED, REFERENCE};
pub use seeds::{first_seed, on_seeds};
pub use tally::Tally;
