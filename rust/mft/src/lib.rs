//! Route files from the command line, for whoever stands at the gateway.
//!
//! All that is said about routes, the proved library `maftehon` is asked: whether a file is valid, which route matches,
//! what a message does, where runs end, how many addresses a port has. This package reads, writes and explains. Where
//! it looks into the bytes of a refused file, that is to show the place which the library has named.
//!
//! A reader starts at [`commands`], which has one file for each command. [`run`] is the whole program but for the
//! streams of its process, so that tests call it as the shell does.

#![warn(missing_docs, clippy::missing_errors_doc)]

pub mod arguments;
pub mod columns;
pub mod commands;
pub mod date;
pub mod explain;
pub mod failure;
pub mod figures;
pub mod input;
pub mod lines;
pub mod messages;
pub mod output;
pub mod page;
pub mod port;
pub mod routes_text;
pub mod sha256;
pub mod shown;
pub mod winner;

use commands::{Asked, Command};
use failure::Failure;
use input::Input;
use output::Outcome;
use std::ffi::OsString;
use std::io::{Read, Write};

/// Standard input, output and error.
pub struct Streams<'a> {
    /// What `-` reads.
    pub input: &'a mut dyn Read,
    /// Where results go.
    pub output: &'a mut dyn Write,
    /// Where errors go.
    pub errors: &'a mut dyn Write,
}

/// Does what the words after the program's name ask for, and gives the exit status: 0 done; 1 refused, or different;
/// 2 wrong usage, or a file that cannot be read or written.
pub fn run(words: &[OsString], streams: &mut Streams) -> u8 {
    let done = outcome(words, streams.input).and_then(|outcome| print(&outcome, streams));
    done.unwrap_or_else(|failure| {
        // Where errors cannot be written, nobody is left to be told so.
        let _ = streams.errors.write_all(failure.to_string().as_bytes());
        failure.status()
    })
}

fn outcome(words: &[OsString], stdin: &mut dyn Read) -> Result<Outcome, Failure> {
    match commands::asked(words)? {
        Asked::Text(text) => Ok(Outcome::said(text)),
        Asked::Command(Command { run, .. }, arguments) => run(&arguments, &mut Input::new(stdin)),
    }
}

/// A reader of the output that has gone away, such as `head`, has all that it wanted.
fn print(outcome: &Outcome, streams: &mut Streams) -> Result<u8, Failure> {
    let _ = streams.errors.write_all(outcome.notes.as_bytes());
    let written = streams.output.write_all(&outcome.output).and_then(|()| streams.output.flush());
    match written {
        Err(error) if error.kind() != std::io::ErrorKind::BrokenPipe => {
            Err(Failure::file(format!("standard output: cannot be written: {error}")))
        }
        _ => Ok(outcome.status),
    }
}
