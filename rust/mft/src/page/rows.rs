//! The two tables of the page, row by row.

use super::html::escaped;
use super::{wrapped, Facts, Names};
use crate::figures::grouped;
use maftehon::Run;

/// The width of a name's line, in digits.
const NAME_DIGITS: usize = 30;

/// A table of the page.
pub struct Table {
    /// What stands above it.
    pub heading: &'static str,
    /// The class of its rows.
    pub class: &'static str,
    /// Its columns.
    pub columns: Vec<Column>,
    /// Its rows.
    pub rows: Vec<Row>,
}

/// A column: its class, and its head.
#[derive(Clone, Copy, PartialEq, Eq, Debug)]
pub struct Column {
    /// How wide it is, and at which side its texts stand.
    pub class: &'static str,
    /// What stands on top of it.
    pub head: &'static str,
}

const FIRST: Column = Column { class: "address", head: "First address" };
const LAST: Column = Column { class: "address", head: "Last address" };
const PORT: Column = Column { class: "port", head: "Port" };
const NAME: Column = Column { class: "name", head: "Name" };
const COUNT: Column = Column { class: "count", head: "Addresses" };

/// A row: its cells in HTML, and how many lines high it is.
pub struct Row {
    /// One for each column.
    pub cells: Vec<String>,
    /// The lines of its highest cell.
    pub lines: usize,
}

/// The runs, and the addresses by port.
pub fn tables(facts: &Facts) -> [Table; 2] {
    let runs = facts.runs.iter().map(|run| run_row(run, &facts.names)).collect();
    let counts = facts.counts.iter().map(|(port, count)| count_row(*port, *count, &facts.names)).collect();
    [
        Table {
            heading: "Where each address goes",
            class: "run",
            columns: columns(&[FIRST, LAST, PORT, NAME, COUNT], &facts.names),
            rows: runs,
        },
        Table {
            heading: "Addresses by port",
            class: "by-port",
            columns: columns(&[PORT, NAME, COUNT], &facts.names),
            rows: counts,
        },
    ]
}

/// Without names there is no column for them.
fn columns(columns: &[Column], names: &Names) -> Vec<Column> {
    columns.iter().copied().filter(|column| *column != NAME || !names.is_empty()).collect()
}

fn run_row(run: &Run, names: &Names) -> Row {
    let addresses = u64::from(u32::from(run.last) - u32::from(run.first)) + 1;
    let before = vec![run.first.to_string(), run.last.to_string()];
    row(before, run.port, addresses, names)
}

fn count_row(port: Option<u16>, addresses: u64, names: &Names) -> Row {
    row(Vec::new(), port, addresses, names)
}

fn row(mut cells: Vec<String>, port: Option<u16>, addresses: u64, names: &Names) -> Row {
    cells.push(port.map_or("no route".into(), |port| port.to_string()));
    let mut lines = 1;
    if !names.is_empty() {
        let name = wrapped(names.of(port).unwrap_or_default(), NAME_DIGITS);
        lines = name.len();
        cells.push(name.iter().map(|line| escaped(line)).collect::<Vec<_>>().join("<br>"));
    }
    cells.push(grouped(addresses));
    Row { cells, lines }
}
