//! Refusals explained: where the place is that the library names, what stands there, and what to do about it.
//!
//! The library decides that something is refused, with which number and at which place. What is done here is for
//! display alone: the bytes are gone through once more, to say which route begins at that place and to show it.

mod around;
mod file;
mod message;
mod written;

pub use file::file;
pub use message::{message, port};
pub use written::{routes_of, Written};

use crate::failure::Failure;
use maftehon::Refusal;
use std::fmt::Write;

/// A refusal in words.
struct Explanation {
    /// What was refused: a file, or a message in one.
    subject: String,
    /// What is wrong with it.
    wrong: String,
    /// What stands there, each with a label.
    details: Vec<(String, String)>,
    /// What to do about it.
    advice: String,
}

impl Explanation {
    fn failure(&self, refusal: Refusal) -> Failure {
        let mut text = format!("{}: {} (refusal {})\n", self.subject, self.wrong, refusal.number());
        let width = self.details.iter().map(|(label, _)| label.len()).max().unwrap_or_default();
        for (label, detail) in &self.details {
            let _ = writeln!(text, "  {label:<width$}  {detail}");
        }
        let _ = writeln!(text, "  {}", self.advice);
        Failure::refused(text)
    }
}
