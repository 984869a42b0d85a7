//! `bulk [ROUNDS]`: races lookups at stride 4 and in segment tables with a plain trie, in every set and by every kind of
//! addresses, prints a Markdown table of the medians and ratios, and draws `docs/bulk.svg`.
//!
//! Ends with 1 where two of them give an address different ports. Nothing is asserted about a time.

use std::error::Error;
use tools::bulk::{chart, report, table_of, Course, Measured};
use workload::{Addresses, Kind};

const ROUNDS: usize = 11;
const ADDRESSES: usize = 4_000_000;
const CHART: &str = concat!(env!("CARGO_MANIFEST_DIR"), "/../../docs/bulk.svg");

fn main() -> Result<(), Box<dyn Error>> {
    let rounds = std::env::args().nth(1).and_then(|text| text.parse().ok()).unwrap_or(ROUNDS);
    let all = race_all(rounds)?;
    let first_steps = Course::of_first_steps(ADDRESSES).race(rounds)?;
    println!("{} Medians of {rounds} rounds, 4,000,000 addresses, sets of 4,096 routes.\n", tools::setting());
    println!("{}", report(&all));
    println!("Where the trie leaves at its first step:\n\n{}", table_of(&[first_steps]));
    Ok(std::fs::write(CHART, chart(&all))?)
}

/// Every set with every kind of addresses.
fn race_all(rounds: usize) -> Result<Vec<Measured>, String> {
    let pairs = Kind::ALL.into_iter().flat_map(|kind| Addresses::ALL.map(|drawn| (kind, drawn)));
    pairs.map(|(kind, drawn)| Course::new(kind, drawn, ADDRESSES).race(rounds)).collect()
}
