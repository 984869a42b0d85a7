//! `mft check`: whether a route file is good.

use super::Command;
use crate::arguments::{Arguments, Form, Kind, Operand};
use crate::columns::{aligned, Side};
use crate::explain::{routes_of, Written};
use crate::failure::Failure;
use crate::figures::{bytes, grouped, routes};
use crate::input::{Input, Source};
use crate::output::Outcome;
use maftehon::{Route, RouteList};

/// The command.
pub const COMMAND: Command = Command {
    name: "check",
    about: "says whether a file is good, or what is wrong with it",
    form: Form { operands: &[Operand { name: "FILE.routes", kind: Kind::Read, many: false }], flags: &[] },
    help: "\
usage: mft check FILE.routes

Says that a route file is good, how many routes and bytes it has, and which prefixes have bits set past their length.
Those are no fault: whoever reads the file clears them. A file that is refused is explained: the route and the byte,
what stands there, and what to do about it. Routes are counted from 1, and bytes from 0.

  --help              this text

example: mft check examples/controller.routes

Exit status: 0 good; 1 refused; 2 wrong usage, or a file that cannot be read.
",
    run,
};

fn run(arguments: &Arguments, input: &mut Input) -> Result<Outcome, Failure> {
    let (source, list) = input.routes(arguments.operand(0))?;
    let spare = with_spare_bits(&source, &list);
    let found = format!("{}: good, {} in {}", source.name, routes(list.len()), bytes(source.bytes.len()));
    if spare.is_empty() {
        return Ok(Outcome::said(format!("{found}; no bits are set past the length of a prefix\n")));
    }
    let count = routes(spare.len());
    let rows: Vec<[String; 6]> = spare.iter().map(row).collect();
    let lines = aligned([Side::Left, Side::Right, Side::Right, Side::Left, Side::Left, Side::Left], &rows);
    let head = format!("In {count} bits are set past the length of the prefix, which reading clears:");
    Ok(Outcome::said(format!("{found}\n{head}\n{lines}")))
}

/// The routes whose bytes are not those that the library writes for them.
fn with_spare_bits<'a>(source: &'a Source, list: &RouteList) -> Vec<(Written<'a>, Route)> {
    let cleared = list.write();
    let differs = |route: &Written| !cleared.get(route.place()).is_some_and(|bytes| route.is_written_as(bytes));
    routes_of(&source.bytes).zip(list.routes()).filter(|(written, _)| differs(written)).collect()
}

fn row((written, route): &(Written, Route)) -> [String; 6] {
    let prefix = format!("{}/{}", written.address(), written.length());
    // The first column is empty, and indents the line.
    [
        String::new(),
        format!("route {}", grouped(written.number as u64)),
        format!("byte {}", written.at),
        prefix,
        "is read as".into(),
        route.to_string(),
    ]
}
