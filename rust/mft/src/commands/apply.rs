//! `mft apply`: UPDATE messages applied to the routes of a file.

use super::Command;
use crate::arguments::{Arguments, Flag, Form, Kind, Operand, OUTPUT};
use crate::explain;
use crate::failure::Failure;
use crate::figures::{bytes, counted, routes};
use crate::input::{Input, Source};
use crate::messages::{self, Message};
use crate::output::Outcome;
use crate::port;
use crate::shown;
use maftehon::{ParseError, Prefix, RouteList, Table, ROUTES_LAST};
use std::collections::BTreeMap;
use std::ffi::OsStr;
use std::fmt::Write;

const PORT: Flag = Flag { long: "port", short: Some("p"), value: "PORT", kind: Kind::Plain, required: true };

/// The command.
pub const COMMAND: Command = Command {
    name: "apply",
    about: "applies BGP UPDATE messages to the routes of a file",
    form: Form {
        operands: &[
            Operand { name: "FILE.routes", kind: Kind::Read, many: false },
            Operand { name: "MESSAGES", kind: Kind::Read, many: true },
        ],
        flags: &[PORT, OUTPUT],
    },
    help: "\
usage: mft apply FILE.routes MESSAGES... --port PORT -o NEW.routes

Applies UPDATE messages of RFC 4271, in order, to a table of the routes of a file, and writes the routes that the table
then holds. Announced prefixes go to PORT. Each message is applied whole or not at all, and what it did is printed: the
routes that came, went or changed their port.

A file of messages is binary, one message after the other, or text, one message a line in hexadecimal digits, which may
be parted by spaces; comments begin with #, and lines that begin with held are skipped.

At the first message that is refused it stops, and writes nothing: what follows a message that is missing would be
applied to the wrong table.

  -p, --port PORT     the writer's port for announced prefixes, 1 to 4094
  -o, --output FILE   the new route file; - is standard output, and what the messages did is printed as errors are
  --help              this text

example: mft apply examples/empty.routes examples/messages/bird.hex --port 9 -o new.routes

Exit status: 0 written; 1 refused; 2 wrong usage, or a file that cannot be read or written.
",
    run,
};

/// Bytes of the message that ends a first transfer, which has nothing in it.
const END_OF_RIB_BYTES: usize = 23;

fn run(arguments: &Arguments, input: &mut Input) -> Result<Outcome, Failure> {
    let port = port_of(arguments.required(PORT.long))?;
    let (_, list) = input.routes(arguments.operand(0))?;
    let sources: Vec<Source> =
        arguments.operands_from(1).iter().map(|file| input.read(file)).collect::<Result<_, _>>()?;
    let mut applied = Applied::to(list);
    let mut said = String::new();
    for source in &sources {
        let messages = messages::of(source)?;
        if messages.is_empty() {
            let _ = writeln!(said, "{}: no message in it", source.name);
        }
        for message in &messages {
            said += &applied.apply(source, message, port)?;
        }
    }
    let (file, target) = (applied.held.write(), arguments.required(OUTPUT.long));
    let after = counted(applied.count, "message", "messages");
    let about = format!("{} in {}, after {after}", routes(applied.held.len()), bytes(file.len()));
    Outcome::written(target, file, &said, &about)
}

fn port_of(word: &OsStr) -> Result<u16, Failure> {
    let text = shown::name(word);
    port::read(&text).map_err(|error| match error {
        ParseError::Refused(refusal) => explain::port(&text, refusal),
        _ => COMMAND.misused(&format!("--port {text} is no number")),
    })
}

/// A table, the routes that it holds, and how many messages it has taken.
struct Applied {
    table: Table,
    held: RouteList,
    count: u64,
}

impl Applied {
    fn to(list: RouteList) -> Applied {
        let table = Table::build(&list, ROUTES_LAST).expect("no list has more routes than the largest table");
        Applied { table, held: list, count: 0 }
    }

    /// Applies a message, and says what it did.
    fn apply(&mut self, source: &Source, message: &Message, port: u16) -> Result<String, Failure> {
        let refused = |refusal| nothing_written(&explain::message(&source.name, message, refusal), self.count);
        self.table.apply(&message.bytes, port).map_err(refused)?;
        let before = std::mem::replace(&mut self.held, self.table.save());
        self.count += 1;
        Ok(format!("{}: {}: {}", source.name, message.place, done(&before, &self.held, message)))
    }
}

fn nothing_written(failure: &Failure, before: u64) -> Failure {
    let applied = match before {
        0 => String::new(),
        1 => " The message before it was not refused.".into(),
        _ => format!(" The {before} messages before it were not refused."),
    };
    failure.with_line(&format!("Nothing is written, since what follows would be applied to the wrong table.{applied}"))
}

/// What a message did, from the routes held before and after it.
fn done(before: &RouteList, after: &RouteList, message: &Message) -> String {
    if before == after {
        let is_end = message.bytes.len() == END_OF_RIB_BYTES;
        return format!("changed nothing{}\n", if is_end { ", with nothing in it (End-of-RIB)" } else { "" });
    }
    let [old, new] = [before, after].map(ports_of);
    let went = old.iter().filter(|(prefix, _)| !new.contains_key(prefix));
    let went: Vec<String> = went.map(|(prefix, port)| format!("  went     {prefix} {port}\n")).collect();
    let (mut came, mut changed) = (Vec::new(), Vec::new());
    for (prefix, port) in &new {
        match old.get(prefix) {
            None => came.push(format!("  came     {prefix} {port}\n")),
            Some(held) if held != port => changed.push(format!("  changed  {prefix} {port}, from port {held}\n")),
            Some(_) => {}
        }
    }
    let counts = [(came.len(), "came"), (went.len(), "went"), (changed.len(), "changed the port")];
    let counts = counts.into_iter().filter(|(count, _)| *count > 0);
    let counts: Vec<String> = counts.map(|(count, what)| format!("{} {what}", routes(count))).collect();
    format!("{}\n{}", counts.join(", "), [came, went, changed].concat().concat())
}

fn ports_of(list: &RouteList) -> BTreeMap<Prefix, u16> {
    list.routes().map(|route| (route.prefix(), route.port())).collect()
}
