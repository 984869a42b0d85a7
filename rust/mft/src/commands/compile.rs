//! `mft compile`: a route file made of text.

use super::Command;
use crate::arguments::{Arguments, Form, Kind, Operand, OUTPUT};
use crate::failure::Failure;
use crate::figures::{bytes, routes};
use crate::input::Input;
use crate::output::Outcome;
use crate::routes_text;

/// The command.
pub const COMMAND: Command = Command {
    name: "compile",
    about: "makes a route file of routes written as text",
    form: Form { operands: &[Operand { name: "ROUTES.txt", kind: Kind::Read, many: false }], flags: &[OUTPUT] },
    help: "\
usage: mft compile ROUTES.txt -o FILE.routes

Makes a route file of text, one route a line: a prefix, a port, and a comment from # on.

  10.20.1.0/24 101      # bay 1, whatever has no route of its own
  10.20.1.16/28 1016    # bay 1, radio fixture 1

The lines may stand in any order; the file has the routes in list order. Blank lines are skipped. A line that is at
fault is shown with a mark under the part that is wrong, ten lines at most. Then nothing is written.

  -o, --output FILE   the route file; - is standard output
  --help              this text

example: mft compile examples/line.txt -o line.routes

Exit status: 0 written; 1 refused; 2 wrong usage, or a file that cannot be read or written.
",
    run,
};

fn run(arguments: &Arguments, input: &mut Input) -> Result<Outcome, Failure> {
    let list = routes_text::read(&input.read(arguments.operand(0))?)?;
    let (file, target) = (list.write(), arguments.required(OUTPUT.long));
    let about = format!("{} in {}", routes(list.len()), bytes(file.len()));
    Outcome::written(target, file, "", &about)
}
