//! `mft text`: the routes of a file as text.

use super::Command;
use crate::arguments::{Arguments, Form, Kind, Operand};
use crate::failure::Failure;
use crate::input::Input;
use crate::output::Outcome;
use crate::routes_text;

/// The command.
pub const COMMAND: Command = Command {
    name: "text",
    about: "prints the routes of a file as text",
    form: Form { operands: &[Operand { name: "FILE.routes", kind: Kind::Read, many: false }], flags: &[] },
    help: "\
usage: mft text FILE.routes

Prints the routes of a file, one a line, in list order: a prefix and a port. mft compile makes the same file of it
again, with the bits cleared that were set past the length of a prefix. Of a file without routes it prints nothing.

  --help              this text

example: mft text examples/line.routes > line.txt

Exit status: 0 printed; 1 refused; 2 wrong usage, or a file that cannot be read or written.
",
    run,
};

fn run(arguments: &Arguments, input: &mut Input) -> Result<Outcome, Failure> {
    let (_, list) = input.routes(arguments.operand(0))?;
    Ok(Outcome::said(routes_text::written(&list)))
}
