//! How many addresses go to each port, made afresh and kept in step by every update: rules, "Addresses per port".

use crate::message::{apply, update_of};
use crate::prefix::{Prefix, Route, NO_PORT, PORT_LAST, WIDTH};
use crate::refusal::{check_room, refuse, write_out, Answer, Refusal, NOT_IN_ORDER};
use crate::table::{announce, routes_of_table, withdraw};

/// One for each port, and first the one of the addresses without a route. More may be lent, and are none of them.
const COUNTS: usize = PORT_LAST as usize + 1;

/// Makes the counts of a table, whatever stood there: 9 for under 4,095 of them, then 11. Answer: place.
pub fn counts_make(rows: &[u32], n: u32, counts: &mut [u64]) -> Answer<1> {
    Answer::of(make(rows, n, counts), [])
}

/// 9 for under 4,095 counts; 4, 5, 6 on the arguments; 11; then 9 for a new prefix at full capacity. Answer: place, n.
pub fn counted_announce(rows: &mut [u32], n: u32, value: u32, length: u32, port: u32, counts: &mut [u64]) -> Answer<2> {
    let route = Route::checked(value, length, port, 0);
    Answer::of(update(rows, n, counts, route, announce), [n])
}

/// 9 for under 4,095 counts; 4, 5 on the arguments; 11; then 10 for a prefix that is not held. Answer: place, n.
pub fn counted_withdraw(rows: &mut [u32], n: u32, value: u32, length: u32, counts: &mut [u64]) -> Answer<2> {
    let prefix = Prefix::checked(value, length, 0);
    Answer::of(update(rows, n, counts, prefix, withdraw), [n])
}

/// Applies a message, whole or not at all: 9 for under 4,095 counts; 14 at the head's fields; 4, 14 at each prefix;
/// then at place 0: 6, 11, and 9 for more routes in the end than the capacity. Answer: place, n.
pub fn counted_message(message: &[u8], port: u32, rows: &mut [u32], n: u32, counts: &mut [u64]) -> Answer<2> {
    Answer::of(update(rows, n, counts, update_of(message, port), apply), [n])
}

fn make(rows: &[u32], n: u32, counts: &mut [u64]) -> Result<[u32; 0], Refusal> {
    check_room(counts, COUNTS)?;
    write_out(&counts_of(&routes_of_table(rows, n)?), counts)?;
    Ok([])
}

/// The one order of refusals of all updates: the room for counts, the arguments, the table and its counts, and what the
/// table alone refuses the update with.
fn update<A>(
    rows: &mut [u32],
    n: u32,
    counts: &mut [u64],
    arguments: Result<A, Refusal>,
    updated: impl FnOnce(&mut [u32], u32, A) -> Result<[u32; 1], Refusal>,
) -> Result<[u32; 1], Refusal> {
    check_room(counts, COUNTS)?;
    let arguments = arguments?;
    if counts[..COUNTS] != counts_of(&routes_of_table(rows, n)?) {
        return refuse(NOT_IN_ORDER, 0);
    }
    let [n] = updated(rows, n, arguments)?;
    // The count of a port that neither gains nor loses an address is the same number again.
    make(rows, n, counts).expect("an update leaves good order");
    Ok([n])
}

/// The counts of routes in list order. At first no address has a route. Then each route takes all addresses of its
/// prefix from the longest route around it, or, where there is none, from those without a route.
fn counts_of(routes: &[Route]) -> [u64; COUNTS] {
    let mut counts = [0; COUNTS];
    counts[NO_PORT as usize] = 1 << WIDTH;
    let mut around: Vec<Route> = Vec::new();
    for route in routes {
        // In list order the routes around a route stand before it, the longest last.
        while around.last().is_some_and(|outer| !route.prefix.begins_with(outer.prefix)) {
            around.pop();
        }
        let loser = around.last().map_or(NO_PORT, |outer| outer.port);
        let addresses = 1 << (WIDTH - route.prefix.length());
        counts[loser as usize] -= addresses;
        counts[route.port as usize] += addresses;
        around.push(*route);
    }
    counts
}
