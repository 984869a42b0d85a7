//! The rules of the route library in plain Rust: one function for each function of the C boundary.
//!
//! Every function answers the refusal number and the words of the boundary's `answer`, the place first. A refusal
//! writes no lent memory, and a writer leaves lent memory past its output unchanged. Clarity decides over speed.

mod counts;
mod file;
mod image;
mod list;
mod listing;
mod many;
mod message;
pub mod prefix;
pub mod refusal;
mod runs;
mod segments;
mod table;
mod trie;

pub use counts::{counted_announce, counted_message, counted_withdraw, counts_make};
pub use file::{file_read, file_write};
pub use image::{image_build, image_lookup};
pub use list::{list_check, list_scan};
pub use listing::{list_runs, table_runs};
pub use many::{image_lookup_many, segments_lookup_many};
pub use message::message_write;
pub use refusal::Answer;
pub use runs::runs_text;
pub use segments::{segments_build, segments_entries, segments_lookup};
pub use table::{table_build, table_check, table_lookup, table_save};
