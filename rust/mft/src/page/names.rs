//! Names of ports, as people write them: one a line, `101 Bay 1`, and a comment from `#` on.

use super::CHARACTERS_LAST;
use crate::failure::Failure;
use crate::input::Source;
use crate::lines::{self, Fault, Line, Word};
use crate::port;
use maftehon::ParseError;
use std::collections::btree_map::Entry;
use std::collections::BTreeMap;

/// The name of each port that has one.
#[derive(Clone, PartialEq, Eq, Debug, Default)]
pub struct Names(BTreeMap<u16, String>);

impl Names {
    /// Reads a text of names.
    ///
    /// # Errors
    ///
    /// The lines that name no port, and those that name one again.
    pub fn read(source: &Source) -> Result<Names, Failure> {
        let lines = lines::of(source)?;
        let (said, mut faults) = lines::read(&lines, said_by);
        let mut named: BTreeMap<u16, Said> = BTreeMap::new();
        for said in said {
            match named.entry(said.port) {
                Entry::Vacant(place) => drop(place.insert(said)),
                Entry::Occupied(first) => faults.add(twice(&said, first.get().line)),
            }
        }
        if faults.is_empty() {
            Ok(Names(named.into_iter().map(|(port, said)| (port, said.name)).collect()))
        } else {
            Err(faults.failure(source, &lines))
        }
    }

    /// The name of a port, if it has one.
    pub fn of(&self, port: Option<u16>) -> Option<&str> {
        self.0.get(&port?).map(String::as_str)
    }

    /// Whether no port has a name.
    pub fn is_empty(&self) -> bool {
        self.0.is_empty()
    }
}

/// A name, and the line that says it.
struct Said<'a> {
    port: u16,
    name: String,
    line: &'a Line,
}

/// The port and the name of a line; none where there is only a comment, or nothing.
fn said_by(line: &Line) -> Result<Option<Said<'_>>, Fault> {
    let words = line.words();
    let Some((word, name)) = words.split_first() else { return Ok(None) };
    let port = port_of(line, word)?;
    let [first, ..] = name else {
        let at = word.at.end + 1..word.at.end + 1;
        return Err(line.fault(
            at,
            "there is no name after the port",
            "Write the name after the port, or take the line out.",
        ));
    };
    let at = first.at.start..name.last().map_or(first.at.end, |last| last.at.end);
    if let Some(place) = line.content().find(char::REPLACEMENT_CHARACTER) {
        let mark = place..place + char::REPLACEMENT_CHARACTER.len_utf8();
        return Err(line.fault(mark, "this is no UTF-8 text", "Save the file as UTF-8."));
    }
    let name = name.iter().map(|word| word.text).collect::<Vec<_>>().join(" ");
    if name.chars().count() > CHARACTERS_LAST {
        let wrong = format!("the name has more than {CHARACTERS_LAST} characters");
        return Err(line.fault(at, wrong, "Write a shorter name."));
    }
    Ok(Some(Said { port, name, line }))
}

fn port_of(line: &Line, word: &Word) -> Result<u16, Fault> {
    port::read(word.text).map_err(|error| {
        let wrong = match error {
            ParseError::Refused(refusal) => refusal.to_string(),
            _ => "this is no port number".into(),
        };
        line.fault(word.at.clone(), wrong, "Begin the line with a port, 1 to 4094, and put a # before a comment.")
    })
}

fn twice(said: &Said, first: &Line) -> Fault {
    let at = said.line.words().first().map_or(0..0, |word| word.at.clone());
    let wrong = format!("port {} has a name in line {} already", said.port, first.number);
    said.line.fault(at, wrong, "Keep one of the two lines.").beside(first)
}
