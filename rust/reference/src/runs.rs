//! What the program `runs` prints: rules, "Bench examples", "Program `runs`".

use crate::file::file_read;
use crate::list::ROUTE_WORDS;
use crate::listing::{list_runs, RUN_WORDS};
use crate::refusal::{DONE, NO_ROOM};
use std::net::Ipv4Addr;

const INPUT_BYTES_LAST: usize = 1797;
const INPUT_ROUTES_LAST: usize = 256;

/// The bytes that `runs` prints for these bytes of standard input.
pub fn runs_text(input: &[u8]) -> Vec<u8> {
    text(input).into_bytes()
}

fn text(input: &[u8]) -> String {
    if input.len() > INPUT_BYTES_LAST {
        return refused(NO_ROOM, 0);
    }
    // Room for 256 routes makes the reader itself refuse 9 at place 0 where a valid file has more.
    let mut list = [0; INPUT_ROUTES_LAST * ROUTE_WORDS];
    let read = file_read(input, &mut list);
    if read.number != DONE {
        return refused(read.number, read.answer[0]);
    }
    let routes = read.answer[1] as usize;
    // n routes have at most 2n+1 runs.
    let mut runs = vec![0; (2 * routes + 1) * RUN_WORDS];
    let listed = list_runs(&list[..routes * ROUTE_WORDS], &mut runs);
    if listed.number != DONE {
        return refused(listed.number, listed.answer[0]);
    }
    let count = listed.answer[1] as usize;
    lines(&runs[..count * RUN_WORDS])
}

fn refused(number: u32, place: u32) -> String {
    format!("refused {number} {place}\n")
}

/// A header with the run count, then a line for each run.
fn lines(runs: &[u32]) -> String {
    let header = format!("runs {}\n", runs.len() / RUN_WORDS);
    let line = |run: &[u32]| format!("{} {} {}\n", Ipv4Addr::from(run[0]), Ipv4Addr::from(run[1]), run[2]);
    header + &runs.chunks(RUN_WORDS).map(line).collect::<String>()
}
