//! The runs of equal port over the whole address space: rules, "The run listing".

use crate::list::routes_of;
use crate::prefix::{plain_scan, Route};
use crate::refusal::{write_out, Answer, Refusal};
use crate::table::routes_of_table;
use std::collections::BTreeSet;

/// Words of a run: first address, last address, port.
pub(crate) const RUN_WORDS: usize = 3;

/// First address, last address, port.
type Run = [u32; RUN_WORDS];

/// The runs of a list: the list checks, then 9. Answer: place, runs.
pub fn list_runs(list: &[u32], runs: &mut [u32]) -> Answer<2> {
    Answer::of(routes_of(list).and_then(|routes| write_runs(&routes, runs)), [0])
}

/// The runs of a table: 11, then 9. Answer: place, runs.
pub fn table_runs(rows: &[u32], n: u32, runs: &mut [u32]) -> Answer<2> {
    Answer::of(routes_of_table(rows, n).and_then(|routes| write_runs(&routes, runs)), [0])
}

fn write_runs(routes: &[Route], lent: &mut [u32]) -> Result<[u32; 1], Refusal> {
    let runs = runs_of(routes);
    write_out(&runs.concat(), lent)?;
    Ok([runs.len() as u32])
}

/// The runs of routes in list order. From one boundary to the next every address has the same matches, so one plain
/// scan at each boundary is enough.
fn runs_of(routes: &[Route]) -> Vec<Run> {
    let mut runs: Vec<Run> = Vec::new();
    for first in boundaries(routes) {
        // Routes that begin after the address do not match it.
        let begun = routes.partition_point(|route| route.prefix.first_address() <= first);
        let port = plain_scan(&routes[..begun], first);
        match runs.last_mut() {
            // A neighbour with the same port joins the run that is open.
            Some([_, _, open_port]) if *open_port == port => continue,
            Some([_, open_last, _]) => *open_last = first - 1,
            None => {}
        }
        runs.push([first, u32::MAX, port]);
    }
    runs
}

/// Address 0, the first address of each route, and the address after its last one, ascending.
fn boundaries(routes: &[Route]) -> BTreeSet<u32> {
    let firsts = routes.iter().map(|route| route.prefix.first_address());
    // No address comes after the last one of all.
    let afters = routes.iter().filter_map(|route| route.prefix.last_address().checked_add(1));
    firsts.chain(afters).chain([0]).collect()
}
