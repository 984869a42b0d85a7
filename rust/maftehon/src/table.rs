//! The table: a priority trie that takes announcements and withdrawals, one by one or by the message, and the number of
//! addresses that go to each port.

use crate::calls;
use crate::list::{room_for_runs, RouteList, ROUTES_LAST};
use crate::prefix::Prefix;
use crate::refusal::Refusal;
use crate::route::{Found, Route, Run, ROUTE_WORDS, RUN_WORDS};
use std::net::Ipv4Addr;

/// Words of a row: value, length, port, left row, right row.
const ROW_WORDS: usize = 5;
/// The last port of a route.
const PORT_LAST: u16 = 4094;
/// One count for each port, and first the one of the addresses without a route.
const COUNTS: usize = PORT_LAST as usize + 1;
const NO_ROUTE: usize = 0;

/// A table in good order, with room for a fixed number of routes, and how many addresses go to each port.
///
/// To make a table takes some 160 KB of stack, and to update it some 190 KB.
///
/// ```
/// use maftehon::{Refusal, Route, Table};
/// use std::net::Ipv4Addr;
///
/// let mut table = Table::with_capacity(2);
/// let (floor, bay): (Route, Route) = ("10.0.0.0/8 7".parse()?, "10.1.0.0/16 9".parse()?);
/// table.announce(floor)?;
/// table.announce(bay)?;
/// assert_eq!(table.lookup(Ipv4Addr::new(10, 1, 2, 3)).port, Some(9));
/// assert_eq!(table.announce("0.0.0.0/0 1".parse()?), Err(Refusal::NoRoom));
///
/// table.withdraw(bay.prefix())?;
/// assert_eq!(table.lookup(Ipv4Addr::new(10, 1, 2, 3)).port, Some(7));
/// # Ok::<(), Box<dyn std::error::Error>>(())
/// ```
#[derive(Clone, PartialEq, Eq, Debug)]
pub struct Table {
    rows: Vec<u32>,
    n: u32,
    /// Those of the rows, made with them and kept in step by every update.
    counts: Vec<u64>,
}

impl Table {
    /// An empty table with room for that many routes, at most 4,096.
    pub fn with_capacity(routes: usize) -> Table {
        Table::of_rows(room_for_rows(routes), 0)
    }

    /// The table of a list, with room for that many routes, at most 4,096.
    ///
    /// # Errors
    ///
    /// - 9, [`Refusal::NoRoom`]: the list has more routes than that.
    pub fn build(list: &RouteList, capacity: usize) -> Result<Table, Refusal> {
        let mut rows = room_for_rows(capacity);
        let [_, n] = calls::table_build(list.words(), &mut rows).of_list()?;
        Ok(Table::of_rows(rows, n))
    }

    /// The table of rows in good order, its counts made afresh.
    fn of_rows(rows: Vec<u32>, n: u32) -> Table {
        let mut counts = vec![0; COUNTS];
        calls::counts_make(&rows, n, &mut counts).done();
        Table { rows, n, counts }
    }

    /// Adds the route, or gives its prefix the new port.
    ///
    /// # Errors
    ///
    /// - 9, [`Refusal::NoRoom`]: the prefix is new and the table is full.
    pub fn announce(&mut self, route: Route) -> Result<(), Refusal> {
        let [value, length, port] = route.words();
        let [_, n] =
            calls::counted_announce(&mut self.rows, self.n, value, length, port, &mut self.counts).of_whole()?;
        self.n = n;
        Ok(())
    }

    /// Takes the route of the prefix out.
    ///
    /// # Errors
    ///
    /// - 10, [`Refusal::NotHeld`]: the table has no route of this prefix.
    pub fn withdraw(&mut self, prefix: Prefix) -> Result<(), Refusal> {
        let [value, length] = prefix.words();
        let [_, n] = calls::counted_withdraw(&mut self.rows, self.n, value, length, &mut self.counts).of_whole()?;
        self.n = n;
        Ok(())
    }

    /// Applies an UPDATE message of RFC 4271, whole or not at all. What it withdraws and does not announce too is taken
    /// out, where it is held; then what it announces is added or gets the new port, which is one for all. Bits of a
    /// prefix past its length are cleared, and path attributes are passed over. A message with neither prefixes nor
    /// attributes, the End-of-RIB, changes nothing.
    ///
    /// ```
    /// use maftehon::{Place, Refusal, Table};
    /// use std::net::Ipv4Addr;
    ///
    /// let mut table = Table::with_capacity(2);
    /// table.announce("10.0.0.0/8 7".parse()?)?;
    /// // 29 bytes: 10.0.0.0/8 is withdrawn, there are no attributes, and 10.1.0.0/16 and the whole space are announced.
    /// let marker = [255; 16];
    /// let message = [&marker[..], &[0, 29, 2], &[0, 2, 8, 10], &[0, 0], &[16, 10, 1, 0]].concat();
    /// table.apply(&message, 9)?;
    /// let held: Vec<String> = table.save().routes().map(|route| route.to_string()).collect();
    /// assert_eq!(held, ["0.0.0.0/0 9", "10.1.0.0/16 9"]);
    ///
    /// // One byte less: the length, at byte 16, is not that of the message, and nothing changes.
    /// let refusal = table.apply(&message[..28], 9).unwrap_err();
    /// assert_eq!(refusal, Refusal::BadMessage(Place::MessageByte(16)));
    /// assert_eq!(table.lookup(Ipv4Addr::new(10, 2, 3, 4)).port, Some(9));
    /// # Ok::<(), Box<dyn std::error::Error>>(())
    /// ```
    ///
    /// # Errors
    ///
    /// - 14, [`Refusal::BadMessage`]: there are under 23 bytes, the marker is not all ones, the length is below 23, above
    ///   4,096 or not the number of bytes, the type is not 2, or an inner length runs past the end. The place is the
    ///   field.
    ///
    /// Then the first prefix that is wrong, the withdrawn ones before the announced ones, whose first byte is the place:
    ///
    /// - 4, [`Refusal::LongPrefix`]: the length is above 32.
    /// - 14, [`Refusal::BadMessage`]: it runs past the end of its part.
    ///
    /// Then:
    ///
    /// - 6, [`Refusal::WrongPort`]: the port is outside 1..4094, also where nothing is announced.
    /// - 9, [`Refusal::NoRoom`]: the table would hold more routes in the end than it has room for.
    pub fn apply(&mut self, message: &[u8], port: u16) -> Result<(), Refusal> {
        let [_, n] =
            calls::counted_message(message, port.into(), &mut self.rows, self.n, &mut self.counts).of_message()?;
        self.n = n;
        Ok(())
    }

    /// The port of the longest match, and the rows read, at most 33.
    #[inline]
    pub fn lookup(&self, address: Ipv4Addr) -> Found {
        Found::of(calls::table_lookup(&self.rows, self.n, address.into()).done())
    }

    /// How many of the 4,294,967,296 addresses a lookup sends to this port, or, with `None`, to no port. No address
    /// goes to a port outside 1..4094.
    ///
    /// ```
    /// use maftehon::Table;
    ///
    /// let mut table = Table::with_capacity(2);
    /// assert_eq!(table.addresses(None), 1 << 32);
    /// table.announce("10.0.0.0/8 7".parse()?)?;
    /// table.announce("10.1.0.0/16 9".parse()?)?;
    /// // The longer route takes its addresses from the one around it.
    /// assert_eq!(table.addresses(Some(9)), 1 << 16);
    /// assert_eq!(table.addresses(Some(7)), (1 << 24) - (1 << 16));
    /// assert_eq!(table.addresses(None), (1 << 32) - (1 << 24));
    /// assert_eq!(table.addresses(Some(8)), 0);
    /// # Ok::<(), Box<dyn std::error::Error>>(())
    /// ```
    pub fn addresses(&self, port: Option<u16>) -> u64 {
        match port {
            None => self.counts[NO_ROUTE],
            Some(port @ 1..=PORT_LAST) => self.counts[usize::from(port)],
            Some(_) => 0,
        }
    }

    /// The routes held, as a list.
    pub fn save(&self) -> RouteList {
        let mut words = vec![0; self.len() * ROUTE_WORDS];
        calls::table_save(&self.rows, self.n, &mut words).done();
        RouteList::from_words(words).expect("a saved table is a valid list")
    }

    /// The runs of the whole address space, ascending.
    pub fn runs(&self) -> Vec<Run> {
        let mut runs = room_for_runs(self.len());
        let [_, count] = calls::table_runs(&self.rows, self.n, &mut runs).done();
        Run::all_of(&runs[..count as usize * RUN_WORDS])
    }

    /// How many routes are held.
    pub fn len(&self) -> usize {
        self.n as usize
    }

    /// Whether no route is held.
    pub fn is_empty(&self) -> bool {
        self.n == 0
    }

    /// How many routes there is room for.
    pub fn capacity(&self) -> usize {
        self.rows.len() / ROW_WORDS
    }
}

/// Rows for that many routes, at most 4,096.
fn room_for_rows(routes: usize) -> Vec<u32> {
    vec![0; routes.min(ROUTES_LAST) * ROW_WORDS]
}
