//! `mft page`: the page for the wall.

use super::counts::counts_of;
use super::Command;
use crate::arguments::{Arguments, Flag, Form, Kind, Operand, OUTPUT};
use crate::date::Date;
use crate::failure::Failure;
use crate::figures::counted;
use crate::input::{called, Input, STANDARD};
use crate::output::Outcome;
use crate::page::{Facts, Names, CHARACTERS_LAST};
use crate::sha256;
use crate::shown;
use std::ffi::OsStr;
use std::path::Path;

const NAMES: Flag = Flag { long: "names", short: None, value: "PORTS.txt", kind: Kind::Read, required: false };
const TITLE: Flag = Flag { long: "title", short: None, value: "TEXT", kind: Kind::Plain, required: false };
const DATE: Flag = Flag { long: "date", short: None, value: "YYYY-MM-DD", kind: Kind::Plain, required: false };

/// The command.
pub const COMMAND: Command = Command {
    name: "page",
    about: "makes a page for the wall: which addresses go to which writer",
    form: Form {
        operands: &[Operand { name: "FILE.routes", kind: Kind::Read, many: false }],
        flags: &[OUTPUT, NAMES, TITLE, DATE],
    },
    help: "\
usage: mft page FILE.routes -o PAGE.html [--names PORTS.txt] [--title TEXT] [--date YYYY-MM-DD]

Makes a page to be printed on A4 from any browser: every run of addresses with its port, then how many addresses go to
each port. It has the title, the date, and the name and the SHA-256 of the file, and every sheet says page x of y.

A file of names has a port and its name a line; a comment begins with #, so that no name has one:

  101 Bay 1
  1016 Bay 1, radio fixture 1

  -o, --output FILE   the page; - is standard output
  --names PORTS.txt   the names of ports
  --title TEXT        the title, at most 120 characters; without it, the name of the file
  --date YYYY-MM-DD   the date; without it, today by universal time
  --help              this text

example: mft page examples/line.routes -o line.html --names examples/line.ports --title 'Test line 3'

Exit status: 0 written; 1 refused; 2 wrong usage, or a file that cannot be read or written.
",
    run,
};

fn run(arguments: &Arguments, input: &mut Input) -> Result<Outcome, Failure> {
    let file = arguments.operand(0);
    let title = title(arguments.value(TITLE.long), file)?;
    let date = arguments.value(DATE.long).map_or_else(|| Ok(Date::today()), date)?;
    let (source, list) = input.routes(file)?;
    let names = arguments.value(NAMES.long).map(|names| Names::read(&input.read(names)?)).transpose()?;
    let facts = Facts {
        title,
        date,
        file: file_name(file),
        checksum: sha256::in_groups(&source.bytes),
        routes: list.len(),
        names: names.unwrap_or_default(),
        runs: list.runs(),
        counts: counts_of(&list),
    };
    let page = facts.page();
    let about = counted(page.sheets as u64, "page", "pages");
    Outcome::written(arguments.required(OUTPUT.long), page.html.into_bytes(), "", &about)
}

fn title(given: Option<&OsStr>, file: &OsStr) -> Result<String, Failure> {
    let Some(given) = given else {
        return Ok(format!("Routes of {}", file_name(file)).chars().take(CHARACTERS_LAST).collect());
    };
    let text = given.to_str().map(str::trim).unwrap_or_default();
    if text.is_empty() {
        return Err(COMMAND.misused(&format!("--title {} is no text", shown::name(given))));
    }
    if text.chars().count() > CHARACTERS_LAST {
        return Err(COMMAND.misused(&format!("--title has more than {CHARACTERS_LAST} characters")));
    }
    Ok(text.into())
}

fn date(given: &OsStr) -> Result<Date, Failure> {
    let text = shown::name(given);
    text.parse().map_err(|wrong| COMMAND.misused(&format!("--date {text} is no date: {wrong}")))
}

/// The last part of a path.
fn file_name(file: &OsStr) -> String {
    let name = Path::new(file).file_name().filter(|_| file != STANDARD);
    name.map_or_else(|| called(file), shown::name)
}
