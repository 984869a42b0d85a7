//! Every call of the C boundary against the reference: number, answer, and each word of lent memory, guards included.
//!
//! A failure prints its seed, and `MAFTEHON_SEED` sets the first one.

mod answers;
mod counts;
mod files;
mod histories;
mod images;
mod lists;
mod many_lookups;
mod messages;
mod refusals;
mod segments;
mod tables;
