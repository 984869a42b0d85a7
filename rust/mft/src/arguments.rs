//! The words of a command line: options before or after the operands, and `--` before operands that begin with a dash.

use crate::input::STANDARD;
use crate::shown;
use std::ffi::{OsStr, OsString};
use std::os::unix::ffi::OsStrExt;

/// What an operand or the value of an option is.
#[derive(Clone, Copy, PartialEq, Eq, Debug)]
pub enum Kind {
    /// A file that is read, or `-` for standard input.
    Read,
    /// Anything else.
    Plain,
}

/// An operand: a word that belongs to no option.
pub struct Operand {
    /// Its name in the usage line.
    pub name: &'static str,
    /// What it is.
    pub kind: Kind,
    /// Whether more of the same may follow, which only the last can.
    pub many: bool,
}

/// An option, which always has a value.
pub struct Flag {
    /// Its name after two dashes.
    pub long: &'static str,
    /// Its name after one dash, if it has one.
    pub short: Option<&'static str>,
    /// The name of its value in the usage line.
    pub value: &'static str,
    /// What the value is.
    pub kind: Kind,
    /// Whether the command cannot do without.
    pub required: bool,
}

/// Where a command's output goes.
pub const OUTPUT: Flag = Flag { long: "output", short: Some("o"), value: "FILE", kind: Kind::Plain, required: true };

/// The words that a command takes.
pub struct Form {
    /// Operands, in order.
    pub operands: &'static [Operand],
    /// Options, in any order.
    pub flags: &'static [Flag],
}

/// The words of a command, sorted out. All that its form requires is there.
#[derive(Clone, PartialEq, Eq, Debug, Default)]
pub struct Arguments {
    operands: Vec<OsString>,
    values: Vec<(&'static str, OsString)>,
}

impl Arguments {
    /// The operand with this number, from 0, which the form requires.
    pub fn operand(&self, number: usize) -> &OsStr {
        &self.operands[number]
    }

    /// The operands from this number on.
    pub fn operands_from(&self, number: usize) -> &[OsString] {
        &self.operands[number..]
    }

    /// The value of the option with this long name, if it is given.
    pub fn value(&self, long: &str) -> Option<&OsStr> {
        self.values.iter().find(|(name, _)| *name == long).map(|(_, value)| value.as_os_str())
    }

    /// The value of an option that the form requires.
    ///
    /// # Panics
    ///
    /// Where the form does not require it, and it is not given.
    pub fn required(&self, long: &str) -> &OsStr {
        self.value(long).expect("a command line without a required option is not taken")
    }
}

/// Where the value of an option is.
enum Value<'a> {
    /// It is the next word: `--port 9`.
    Next,
    /// It is part of the word: `--port=9`, `-oFILE`.
    Joined(&'a [u8]),
}

/// Sorts the words out; none where they ask for help.
///
/// # Errors
///
/// What is wrong with them, in words.
pub fn sorted_out(form: &Form, words: &[OsString]) -> Result<Option<Arguments>, String> {
    let mut arguments = Arguments::default();
    let mut options_ended = false;
    let mut words = words.iter();
    while let Some(word) = words.next() {
        if options_ended || !is_option(word) {
            arguments.operands.push(word.clone());
        } else if word == "--" {
            options_ended = true;
        } else if asks_for_help(word) {
            return Ok(None);
        } else {
            let (flag, value) = form.flag(word)?;
            let value = match value {
                Value::Joined(value) => OsStr::from_bytes(value).to_os_string(),
                Value::Next => {
                    let next = words.next().filter(|next| form.flag(next).is_err());
                    next.cloned().ok_or_else(|| without(flag))?
                }
            };
            if arguments.value(flag.long).is_some() {
                return Err(format!("--{} is given twice", flag.long));
            }
            arguments.values.push((flag.long, value));
        }
    }
    form.check(&arguments)?;
    Ok(Some(arguments))
}

/// A word that begins with a dash is an option, but a dash alone is not.
fn is_option(word: &OsStr) -> bool {
    word.len() > 1 && word.as_bytes().starts_with(b"-")
}

/// Whether the word is the option that every command has.
pub fn asks_for_help(word: &OsStr) -> bool {
    word == "--help" || word == "-h"
}

fn without(flag: &Flag) -> String {
    format!("--{} has no value after it: {}", flag.long, flag.value)
}

impl Form {
    /// The option that the word names, and where its value is.
    fn flag<'a>(&self, word: &'a OsStr) -> Result<(&Flag, Value<'a>), String> {
        let found = self.flags.iter().find_map(|flag| Some((flag, flag.named_by(word.as_bytes())?)));
        found.ok_or_else(|| format!("{} is no option of this command", shown::name(word)))
    }

    fn check(&self, arguments: &Arguments) -> Result<(), String> {
        let count = arguments.operands.len();
        if let Some(missing) = self.operands.get(count) {
            return Err(format!("{} is missing", missing.name));
        }
        let takes_more = self.operands.last().is_some_and(|last| last.many);
        if let (false, Some(extra)) = (takes_more, arguments.operands.get(self.operands.len())) {
            return Err(format!("{} is one argument too many", shown::name(extra)));
        }
        if let Some(missing) = self.flags.iter().find(|flag| flag.required && arguments.value(flag.long).is_none()) {
            return Err(format!("{} {} is missing", missing.first_name(), missing.value));
        }
        if self.files_read(arguments).filter(|file| *file == STANDARD).count() > 1 {
            return Err("- stands for standard input, which can be read once only".into());
        }
        Ok(())
    }

    /// All words that name a file to be read.
    fn files_read<'a>(&'a self, arguments: &'a Arguments) -> impl Iterator<Item = &'a OsStr> {
        let last = self.operands.len().saturating_sub(1);
        let kind_of = move |number: usize| self.operands.get(number.min(last)).map(|operand| operand.kind);
        let operands = arguments.operands.iter().enumerate();
        let operands = operands.filter(move |(number, _)| kind_of(*number) == Some(Kind::Read));
        let flags = self.flags.iter().filter(|flag| flag.kind == Kind::Read);
        let values = flags.filter_map(|flag| arguments.value(flag.long));
        operands.map(|(_, operand)| operand.as_os_str()).chain(values)
    }
}

impl Flag {
    /// Where the value of this option is, if the word names it.
    fn named_by<'a>(&self, word: &'a [u8]) -> Option<Value<'a>> {
        match word.strip_prefix(b"--") {
            Some(long) => match long.strip_prefix(self.long.as_bytes())? {
                [] => Some(Value::Next),
                [b'=', value @ ..] => Some(Value::Joined(value)),
                _ => None,
            },
            None => match word.strip_prefix(b"-")?.strip_prefix(self.short?.as_bytes())? {
                [] => Some(Value::Next),
                value => Some(Value::Joined(value)),
            },
        }
    }

    /// Its short name if it has one, with the dashes.
    fn first_name(&self) -> String {
        self.short.map_or_else(|| format!("--{}", self.long), |short| format!("-{short}"))
    }
}
