//! `mft diff`: the addresses that two files send to different ports.

use super::Command;
use crate::arguments::{Arguments, Form, Kind, Operand};
use crate::columns::{aligned, Side};
use crate::failure::Failure;
use crate::figures::{addresses, counted, grouped, port, routes};
use crate::input::Input;
use crate::output::Outcome;
use maftehon::{Route, RouteList, Run};
use std::collections::HashSet;
use std::net::Ipv4Addr;

/// The command.
pub const COMMAND: Command = Command {
    name: "diff",
    about: "lists every run of addresses whose port changes from one file to another",
    form: Form {
        operands: &[
            Operand { name: "OLD.routes", kind: Kind::Read, many: false },
            Operand { name: "NEW.routes", kind: Kind::Read, many: false },
        ],
        flags: &[],
    },
    help: "\
usage: mft diff OLD.routes NEW.routes

Lists every longest run of addresses that go from one port to another: its first and its last address, the port in OLD
and the port in NEW, and how many addresses it has. Then how many addresses change in all. Files with different routes
may send every address the same way: then no address changes.

  --help              this text

example: mft diff examples/floor.routes examples/line.routes

Exit status: 0 no address changes; 1 some do, or a file is refused; 2 wrong usage, or a file that cannot be read.
",
    run,
};

/// The exit status where an address changes.
const DIFFERENT: u8 = 1;

const COLUMNS: usize = 7;
const SIDES: [Side; COLUMNS] = [Side::Left, Side::Left, Side::Left, Side::Left, Side::Left, Side::Right, Side::Left];

/// A longest run of addresses that go from one port to another.
struct Change {
    first: Ipv4Addr,
    last: Ipv4Addr,
    from: Option<u16>,
    to: Option<u16>,
}

fn run(arguments: &Arguments, input: &mut Input) -> Result<Outcome, Failure> {
    let (_, old) = input.routes(arguments.operand(0))?;
    let (_, new) = input.routes(arguments.operand(1))?;
    let changes = changes(&old.runs(), &new.runs());
    if changes.is_empty() {
        return Ok(Outcome::said(nothing_changes(&old, &new)));
    }
    let total: u64 = changes.iter().map(Change::addresses).sum();
    let rows: Vec<[String; COLUMNS]> = changes.iter().map(Change::row).collect();
    let (lines, runs) = (aligned(SIDES, &rows), counted(changes.len() as u64, "run", "runs"));
    let said = format!("{lines}{runs}: {} of {} change the port\n", grouped(total), addresses(1 << 32));
    Ok(Outcome { status: DIFFERENT, ..Outcome::said(said) })
}

/// The stretches on which two listings of all addresses differ. A new stretch begins where a run of one of them does,
/// so that one of its two ports is another than before: neighbouring stretches are never one change.
fn changes(old: &[Run], new: &[Run]) -> Vec<Change> {
    let mut changes = Vec::new();
    let (mut old, mut new) = (old.iter().peekable(), new.iter().peekable());
    while let (Some(from), Some(to)) = (old.peek(), new.peek()) {
        let (first, last) = (from.first.max(to.first), from.last.min(to.last));
        if from.port != to.port {
            changes.push(Change { first, last, from: from.port, to: to.port });
        }
        // The one that ends here, or both.
        let (old_ends, new_ends) = (from.last == last, to.last == last);
        old.next_if(|_| old_ends);
        new.next_if(|_| new_ends);
    }
    changes
}

fn nothing_changes(old: &RouteList, new: &RouteList) -> String {
    if old == new {
        return format!("no address changes the port: both files have the same {}\n", routes(old.len()));
    }
    let only = |one: &RouteList, other: &RouteList| {
        let other: HashSet<Route> = other.routes().collect();
        routes(one.routes().filter(|route| !other.contains(route)).count())
    };
    let (gone, come) = (only(old, new), only(new, old));
    format!(
        "no address changes the port, though the routes differ: {gone} in the old file alone, {come} in the new one\n"
    )
}

impl Change {
    fn addresses(&self) -> u64 {
        u64::from(u32::from(self.last) - u32::from(self.first)) + 1
    }

    fn row(&self) -> [String; COLUMNS] {
        let (first, last, count) = (self.first.to_string(), self.last.to_string(), self.addresses());
        let noun = if count == 1 { "address" } else { "addresses" };
        [first, last, port(self.from), "to".into(), port(self.to), grouped(count), noun.into()]
    }
}
