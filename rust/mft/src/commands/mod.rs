//! The commands, one file each, and the words before them.

mod apply;
mod check;
mod compile;
mod counts;
mod diff;
mod lookup;
mod page;
mod runs;
mod text;

use crate::arguments::{self, Arguments, Form};
use crate::failure::Failure;
use crate::input::Input;
use crate::output::Outcome;
use crate::shown;
use std::ffi::OsString;
use std::fmt::Write;

/// What a command is, says about itself, and does.
pub struct Command {
    /// The word that asks for it.
    pub name: &'static str,
    /// What it does, in a line.
    pub about: &'static str,
    /// The words that it takes.
    pub form: Form,
    /// Its help: a usage line, what it does, its options, an example, and the exit statuses.
    pub help: &'static str,
    /// Does it.
    pub run: fn(&Arguments, &mut Input) -> Result<Outcome, Failure>,
}

/// All commands, in the order of the help.
pub const ALL: [&Command; 9] = [
    &compile::COMMAND,
    &text::COMMAND,
    &check::COMMAND,
    &lookup::COMMAND,
    &runs::COMMAND,
    &counts::COMMAND,
    &diff::COMMAND,
    &apply::COMMAND,
    &page::COMMAND,
];

const USAGE: &str = "usage: mft COMMAND ARGUMENTS...";

/// What a command line asks for.
pub enum Asked {
    /// A text: help, or the version.
    Text(String),
    /// A command, and its words.
    Command(&'static Command, Arguments),
}

/// What the words after the program's name ask for.
///
/// # Errors
///
/// Where they name no command, or are not what it takes.
pub fn asked(words: &[OsString]) -> Result<Asked, Failure> {
    let Some((first, rest)) = words.split_first() else {
        return Err(Failure::usage(format!("a command is missing\n{}", help().trim_end())));
    };
    if arguments::asks_for_help(first) {
        return Ok(Asked::Text(help()));
    }
    if first == "--version" || first == "-V" {
        return Ok(Asked::Text(format!("mft {}\n", env!("CARGO_PKG_VERSION"))));
    }
    if first == "help" {
        return helped(rest).map(Asked::Text);
    }
    let command = named(first)?;
    let sorted_out = arguments::sorted_out(&command.form, rest).map_err(|wrong| command.misused(&wrong))?;
    Ok(sorted_out.map_or_else(|| Asked::Text(command.help.into()), |arguments| Asked::Command(command, arguments)))
}

/// The help of a command, or that of the program.
fn helped(words: &[OsString]) -> Result<String, Failure> {
    match words {
        [] => Ok(help()),
        [word] if arguments::asks_for_help(word) => Ok(help()),
        [command] => named(command).map(|command| command.help.into()),
        [_, extra, ..] => {
            let extra = shown::name(extra);
            Err(Failure::usage(format!("help: {extra} is one argument too many\nusage: mft help [COMMAND]")))
        }
    }
}

fn named(word: &OsString) -> Result<&'static Command, Failure> {
    ALL.into_iter().find(|command| word == command.name).ok_or_else(|| {
        let kind = if word.as_encoded_bytes().starts_with(b"-") { "option" } else { "command" };
        let word = shown::name(word);
        Failure::usage(format!("{word} is no {kind} of this program\n{USAGE}\n`mft --help` lists the commands."))
    })
}

fn help() -> String {
    let mut text = format!("{USAGE}\n\nRoute files, made, read and changed by the proved route library.\n\n");
    for command in ALL {
        let _ = writeln!(text, "  mft {:<8} {}", command.name, command.about);
    }
    text + "\n  mft COMMAND --help says more about a command, and so does mft help COMMAND.\n  \
            mft --version prints the version.\n\n\
            - as a file that is read is standard input; after -o it is standard output.\n\n\
            Exit status: 0 done; 1 refused, or different (diff);\n\
            2 wrong usage, or a file that cannot be read or written.\n"
}

impl Command {
    /// The failure for words that are not what it takes.
    pub fn misused(&self, wrong: &str) -> Failure {
        let (name, usage) = (self.name, self.help.lines().next().unwrap_or_default());
        Failure::usage(format!("{name}: {wrong}\n{usage}\n`mft {name} --help` says more."))
    }
}
