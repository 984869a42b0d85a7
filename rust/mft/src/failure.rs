//! Why a command has not done what it was asked for.

use std::fmt;

/// The exit status of a refusal.
const REFUSED: u8 = 1;
/// The exit status of wrong usage, and of a file that cannot be read or written. It is not that of a difference, so
/// that a missing file does not look like one.
const NOT_TRIED: u8 = 2;

/// What went wrong, in lines, and the exit status for it.
#[derive(Clone, PartialEq, Eq, Debug)]
pub struct Failure {
    status: u8,
    text: String,
}

impl Failure {
    /// The library has refused what a file, a text or a message says, or a text says nothing.
    pub fn refused(text: impl Into<String>) -> Failure {
        Failure { status: REFUSED, text: text.into() }
    }

    /// The command line is wrong.
    pub fn usage(text: impl Into<String>) -> Failure {
        Failure { status: NOT_TRIED, text: text.into() }
    }

    /// A file cannot be read or written.
    pub fn file(text: impl Into<String>) -> Failure {
        Failure { status: NOT_TRIED, text: text.into() }
    }

    /// The same, with a line more.
    #[must_use]
    pub fn with_line(&self, line: &str) -> Failure {
        Failure { status: self.status, text: format!("{}\n  {line}", self.text.trim_end()) }
    }

    /// The exit status, 1 or 2.
    pub fn status(&self) -> u8 {
        self.status
    }
}

impl fmt::Display for Failure {
    fn fmt(&self, formatter: &mut fmt::Formatter) -> fmt::Result {
        writeln!(formatter, "mft: {}", self.text.trim_end())
    }
}

impl std::error::Error for Failure {}
