//! `mft counts`: how many addresses go to each port.

use super::Command;
use crate::arguments::{Arguments, Form, Kind, Operand};
use crate::columns::{aligned, Side};
use crate::failure::Failure;
use crate::figures::{self, grouped};
use crate::input::Input;
use crate::output::Outcome;
use maftehon::{Route, RouteList, Table, ROUTES_LAST};
use std::collections::BTreeSet;

/// The command.
pub const COMMAND: Command = Command {
    name: "counts",
    about: "says how many addresses go to each port",
    form: Form { operands: &[Operand { name: "FILE.routes", kind: Kind::Read, many: false }], flags: &[] },
    help: "\
usage: mft counts FILE.routes

Says how many of the 4,294,967,296 addresses have no route, and how many go to each port that a route names, in
ascending order. A port has 0 where longer routes take all addresses of its own.

  --help              this text

example: mft counts examples/floor.routes

Exit status: 0 counted; 1 refused; 2 wrong usage, or a file that cannot be read.
",
    run,
};

fn run(arguments: &Arguments, input: &mut Input) -> Result<Outcome, Failure> {
    let (_, list) = input.routes(arguments.operand(0))?;
    let counts = counts_of(&list);
    let total: u64 = counts.iter().map(|(_, count)| count).sum();
    let rows = counts.into_iter().map(|(port, count)| [figures::port(port), grouped(count)]);
    let rows: Vec<[String; 2]> = rows.chain([["total".into(), grouped(total)]]).collect();
    Ok(Outcome::said(aligned([Side::Left, Side::Right], &rows)))
}

/// How many addresses have no route, and how many go to each port of a route.
pub fn counts_of(list: &RouteList) -> Vec<(Option<u16>, u64)> {
    let table = Table::build(list, ROUTES_LAST).expect("no list has more routes than the largest table");
    let ports: BTreeSet<u16> = list.routes().map(Route::port).collect();
    let ports = std::iter::once(None).chain(ports.into_iter().map(Some));
    ports.map(|port| (port, table.addresses(port))).collect()
}
