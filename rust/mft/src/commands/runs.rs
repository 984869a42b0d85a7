//! `mft runs`: the run listing of a file.

use super::Command;
use crate::arguments::{Arguments, Form, Kind, Operand};
use crate::failure::Failure;
use crate::input::Input;
use crate::output::Outcome;
use std::fmt::Write;

/// The command.
pub const COMMAND: Command = Command {
    name: "runs",
    about: "lists every run of addresses that goes to one port",
    form: Form { operands: &[Operand { name: "FILE.routes", kind: Kind::Read, many: false }], flags: &[] },
    help: "\
usage: mft runs FILE.routes

Lists every longest run of neighbouring addresses that go to one port, in order: a line with the number of runs, then
the first address, the last address and the port of each. Port 0 means that there is no route. It prints what the
program runs prints for every file that program shows, and lists larger files too.

  --help              this text

example: mft runs examples/floor.routes

Exit status: 0 listed; 1 refused; 2 wrong usage, or a file that cannot be read.
",
    run,
};

fn run(arguments: &Arguments, input: &mut Input) -> Result<Outcome, Failure> {
    let (_, list) = input.routes(arguments.operand(0))?;
    let runs = list.runs();
    let mut text = format!("runs {}\n", runs.len());
    for run in runs {
        let _ = writeln!(text, "{run}");
    }
    Ok(Outcome::said(text))
}
