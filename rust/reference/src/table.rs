//! The table, its lookup and its updates: rules, "The table (source document 004)".

use crate::list::{list_of, routes_of, ROUTES_LAST};
use crate::prefix::{agree, bit, Prefix, Route, NO_PORT, WIDTH};
use crate::refusal::{refuse, write_out, Answer, Refusal, NOT_HELD, NOT_IN_ORDER, NO_ROOM};
use crate::trie::{add, trie_of, Trie};
use std::collections::{BTreeMap, BTreeSet};

/// Words of a row: value, length, port, left row, right row.
const ROW_WORDS: usize = 5;
/// As a child, 0 means none; as a row, it is the root.
const NO_CHILD: u32 = 0;
const ROOT: u32 = 0;

/// A table in good order: what each place holds, and the row that it has.
struct Table {
    trie: Trie,
    row_of: BTreeMap<Prefix, u32>,
}

/// 11 where the table is not in good order.
pub fn table_check(rows: &[u32], n: u32) -> Answer<1> {
    Answer::of(in_good_order(rows, n).map(|_| []), [])
}

/// The port of the best row and the rows read, on any rows; 11 as the rules' lookup says.
/// Answer: place, port, rows read.
pub fn table_lookup(rows: &[u32], n: u32, address: u32) -> Answer<3> {
    let mut rows_read = 0;
    let port = search(rows, n, address, &mut rows_read);
    Answer::of(port.map(|port| [port, rows_read]), [NO_PORT, rows_read])
}

/// The list checks, then 9 for more routes than the capacity. Answer: place, n.
pub fn table_build(list: &[u32], rows: &mut [u32]) -> Answer<2> {
    Answer::of(routes_of(list).and_then(|routes| build(&routes, rows)), [0])
}

/// Writes the routes as a list: 11, then 9. Answer: place, routes.
pub fn table_save(rows: &[u32], n: u32, list: &mut [u32]) -> Answer<2> {
    Answer::of(save(rows, n, list), [0])
}

/// The routes of a table in good order, in list order; else 11.
pub(crate) fn routes_of_table(rows: &[u32], n: u32) -> Result<Vec<Route>, Refusal> {
    let mut routes: Vec<Route> = in_good_order(rows, n)?.trie.into_values().collect();
    routes.sort_by_key(|route| route.prefix);
    Ok(routes)
}

/// The smaller of 4,096 and the number of whole rows lent.
pub(crate) fn capacity(rows: &[u32]) -> u32 {
    ROUTES_LAST.min(rows.len() / ROW_WORDS) as u32
}

fn row(rows: &[u32], number: u32) -> [u32; ROW_WORDS] {
    let at = number as usize * ROW_WORDS;
    std::array::from_fn(|word| rows[at + word])
}

fn write_row(rows: &mut [u32], number: u32, words: [u32; ROW_WORDS]) {
    let at = number as usize * ROW_WORDS;
    rows[at..at + ROW_WORDS].copy_from_slice(&words);
}

fn search(rows: &[u32], n: u32, address: u32, rows_read: &mut u32) -> Result<u32, Refusal> {
    if n > capacity(rows) {
        return refuse(NOT_IN_ORDER, 0);
    }
    if n == 0 {
        return Ok(NO_PORT);
    }
    let mut best = NO_PORT;
    let mut number = ROOT;
    for depth in 0..=WIDTH {
        // A row that is wrong counts as read.
        *rows_read += 1;
        let words = row(rows, number);
        let route = route_read(words, n, depth, address)?;
        if route.prefix.matches(address) {
            best = route.port;
            // An ordinary match does not end the search: a longer route may lie below it.
            if route.prefix.length() > depth {
                break;
            }
        }
        if depth == WIDTH {
            break;
        }
        number = words[3 + bit(address, depth)];
        if number == NO_CHILD {
            break;
        }
    }
    Ok(best)
}

/// The route of a row read at this depth, or 11 where the lookup finds the row wrong.
fn route_read(words: [u32; ROW_WORDS], n: u32, depth: u32, address: u32) -> Result<Route, Refusal> {
    let [value, length, port, left, right] = words;
    let route = Route::checked(value, length, port, 0);
    match route {
        Ok(route) if left < n && right < n && length >= depth && agree(value, address, depth) => Ok(route),
        _ => refuse(NOT_IN_ORDER, 0),
    }
}

/// The table, if n is at most the capacity, the routes are valid with different prefixes, and the rows reached from
/// row 0 are all the rows below n, each once, and make the trie of these routes; else 11.
fn in_good_order(rows: &[u32], n: u32) -> Result<Table, Refusal> {
    if n > capacity(rows) {
        return refuse(NOT_IN_ORDER, 0);
    }
    let table = valid_routes(rows, n).and_then(|routes| {
        let trie = trie_of(routes);
        places_reached(rows, n, &trie).map(|row_of| Table { trie, row_of })
    });
    // Each place reached is one of the trie's n places, so n of them are the whole trie and all of the rows.
    match table {
        Some(table) if table.row_of.len() == n as usize => Ok(table),
        _ => refuse(NOT_IN_ORDER, 0),
    }
}

/// The routes of rows 0..n-1, if they are valid and their prefixes different.
fn valid_routes(rows: &[u32], n: u32) -> Option<Vec<Route>> {
    let routes: Option<Vec<Route>> = (0..n).map(|number| route_of_row(row(rows, number))).collect();
    let prefixes: BTreeSet<Prefix> = routes.iter().flatten().map(|route| route.prefix).collect();
    routes.filter(|routes| prefixes.len() == routes.len())
}

fn route_of_row([value, length, port, _, _]: [u32; ROW_WORDS]) -> Option<Route> {
    Route::checked(value, length, port, 0).ok()
}

/// The row of each place reached from row 0; none if a row is reached twice, is not below n, or stands at a place
/// where the trie holds another route or nothing.
fn places_reached(rows: &[u32], n: u32, trie: &Trie) -> Option<BTreeMap<Prefix, u32>> {
    let mut row_of = BTreeMap::new();
    let mut reached = BTreeSet::new();
    let mut to_read = Vec::new();
    if n > 0 {
        to_read.push((Prefix::WHOLE, ROOT));
    }
    while let Some((place, number)) = to_read.pop() {
        if number >= n || !reached.insert(number) {
            return None;
        }
        let words = row(rows, number);
        if trie.get(&place).copied() != route_of_row(words) {
            return None;
        }
        row_of.insert(place, number);
        for side in 0..2 {
            let child = words[3 + side];
            if child != NO_CHILD {
                // A child at depth 33 has no place.
                to_read.push((place.halves()?[side], child));
            }
        }
    }
    Some(row_of)
}

/// Writes the row of every place; a child's row is the row of that half of the path.
fn write_table(table: &Table, rows: &mut [u32]) {
    let row_at = |place: Prefix| table.row_of.get(&place).copied().unwrap_or(NO_CHILD);
    for (place, route) in &table.trie {
        let [left, right] = place.halves().map_or([NO_CHILD; 2], |halves| halves.map(row_at));
        let words = [route.prefix.value(), route.prefix.length(), route.port, left, right];
        write_row(rows, table.row_of[place], words);
    }
}

/// Announces into any rows: 11, then 9 for a new prefix at full capacity. Gives n.
pub(crate) fn announce(rows: &mut [u32], n: u32, route: Route) -> Result<[u32; 1], Refusal> {
    let Table { trie, mut row_of } = in_good_order(rows, n)?;
    let mut routes = routes_without(&trie, route.prefix);
    let is_new = routes.len() == trie.len();
    if is_new && n == capacity(rows) {
        return refuse(NO_ROOM, 0);
    }
    routes.push(route);
    let trie = trie_of(routes);
    // Existing places keep their rows; the new place, if there is one, gets row n.
    for place in trie.keys() {
        row_of.entry(*place).or_insert(n);
    }
    write_table(&Table { trie, row_of }, rows);
    Ok([n + u32::from(is_new)])
}

/// Withdraws from any rows: 11, then 10 for a prefix that is not held. Gives n.
pub(crate) fn withdraw(rows: &mut [u32], n: u32, prefix: Prefix) -> Result<[u32; 1], Refusal> {
    let Table { trie: before, mut row_of } = in_good_order(rows, n)?;
    let routes = routes_without(&before, prefix);
    if routes.len() == before.len() {
        return refuse(NOT_HELD, 0);
    }
    let trie = trie_of(routes);
    let last = n - 1;
    let freed = take_fallen(&mut row_of, &trie);
    // Row n-1 moves to the freed number, unless it is the freed one: then no place has it any more.
    for number in row_of.values_mut().filter(|number| **number == last) {
        *number = freed;
    }
    write_table(&Table { trie, row_of }, rows);
    write_row(rows, last, [0; ROW_WORDS]);
    Ok([last])
}

fn routes_without(trie: &Trie, prefix: Prefix) -> Vec<Route> {
    trie.values().copied().filter(|route| route.prefix != prefix).collect()
}

/// Takes out the place that fell away from the trie, and gives the row that it frees.
fn take_fallen(row_of: &mut BTreeMap<Prefix, u32>, trie: &Trie) -> u32 {
    let fallen = row_of.keys().copied().find(|place| !trie.contains_key(place));
    let fallen = fallen.expect("one route less makes one place less");
    row_of.remove(&fallen).expect("the place was found there")
}

/// What announcing the routes in list order into an empty table gives.
fn build(routes: &[Route], rows: &mut [u32]) -> Result<[u32; 1], Refusal> {
    if routes.len() > capacity(rows) as usize {
        return refuse(NO_ROOM, 0);
    }
    let mut table = Table { trie: Trie::new(), row_of: BTreeMap::new() };
    for (n, route) in routes.iter().enumerate() {
        let place = add(&mut table.trie, *route);
        table.row_of.insert(place, n as u32);
    }
    write_table(&table, rows);
    Ok([routes.len() as u32])
}

fn save(rows: &[u32], n: u32, list: &mut [u32]) -> Result<[u32; 1], Refusal> {
    write_out(&list_of(&routes_of_table(rows, n)?), list)?;
    Ok([n])
}
