//! `mft lookup`: where addresses go, and by which route.

use super::Command;
use crate::arguments::{Arguments, Form, Kind, Operand};
use crate::columns::{aligned, Side};
use crate::failure::Failure;
use crate::input::Input;
use crate::output::Outcome;
use crate::shown;
use crate::winner::Labelled;
use maftehon::{Image, RouteList, SegmentTables, Stride, Table, ROUTES_LAST};
use std::ffi::OsString;
use std::net::Ipv4Addr;

/// The command.
pub const COMMAND: Command = Command {
    name: "lookup",
    about: "says where addresses go, by which route, and what a lookup reads",
    form: Form {
        operands: &[
            Operand { name: "FILE.routes", kind: Kind::Read, many: false },
            Operand { name: "ADDRESS", kind: Kind::Plain, many: true },
        ],
        flags: &[],
    },
    help: "\
usage: mft lookup FILE.routes ADDRESS...

Prints a line for each address: its port, or no route; the route that decides, which is the longest that matches; and
what a lookup reads in the three structures of the library:

  rows      rows of the table
  nodes 4   nodes of the image at stride 4, and nodes 2 and nodes 1 at strides 2 and 1
  words     words of the segment tables

  --help              this text

example: mft lookup examples/line.routes 10.20.1.17 10.20.1.200 192.0.2.1

Exit status: 0 looked up, with or without a route; 1 the file is refused; 2 wrong usage, or a file that cannot be read.
",
    run,
};

const HEAD: [&str; COLUMNS] = ["address", "port", "route", "rows", "nodes 4", "nodes 2", "nodes 1", "words"];
const COLUMNS: usize = 8;
const SIDES: [Side; COLUMNS] =
    [Side::Left, Side::Left, Side::Left, Side::Right, Side::Right, Side::Right, Side::Right, Side::Right];

/// All that a lookup is made in.
struct Structures {
    labelled: Labelled,
    table: Table,
    images: [Image; 3],
    segments: SegmentTables,
}

fn run(arguments: &Arguments, input: &mut Input) -> Result<Outcome, Failure> {
    let addresses: Vec<Ipv4Addr> = arguments.operands_from(1).iter().map(address).collect::<Result<_, _>>()?;
    let (_, list) = input.routes(arguments.operand(0))?;
    let structures = Structures::of(&list);
    let rows = addresses.into_iter().map(|address| structures.row(address));
    let rows: Vec<[String; COLUMNS]> = std::iter::once(HEAD.map(String::from)).chain(rows).collect();
    Ok(Outcome::said(aligned(SIDES, &rows)))
}

fn address(word: &OsString) -> Result<Ipv4Addr, Failure> {
    let address = word.to_str().and_then(|text| text.parse().ok());
    address.ok_or_else(|| {
        let word = shown::name(word);
        COMMAND.misused(&format!("{word} is no address; one is four numbers from 0 to 255, as in 10.20.1.17"))
    })
}

impl Structures {
    fn of(list: &RouteList) -> Structures {
        Structures {
            labelled: Labelled::of(list),
            table: Table::build(list, ROUTES_LAST).expect("no list has more routes than the largest table"),
            images: [Stride::Four, Stride::Two, Stride::One].map(|stride| Image::build(list, stride)),
            segments: SegmentTables::build(list),
        }
    }

    fn row(&self, address: Ipv4Addr) -> [String; COLUMNS] {
        let [four, two, one] = self.images.each_ref().map(|image| image.lookup(address));
        let port = four.port.map_or("no route".into(), |port| port.to_string());
        let route = self.labelled.winner(address).map_or("none".into(), |route| route.prefix().to_string());
        let read = [self.table.lookup(address).read, four.read, two.read, one.read, self.segments.lookup(address).read];
        let [rows, nodes_4, nodes_2, nodes_1, words] = read.map(|read| read.to_string());
        [address.to_string(), port, route, rows, nodes_4, nodes_2, nodes_1, words]
    }
}
