//! The bulk race: millions of addresses looked up in one pass, by a plain trie and by the proved library, in turns.

mod chart;
mod course;
mod race;
mod report;
mod runner;

pub use chart::chart;
pub use course::Course;
pub use race::Measured;
pub use report::{report, table_of};
