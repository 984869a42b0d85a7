//! A table of the proved library, as the races update it.

use super::updates::{Route, Updated};
use maftehon::calls;

const COUNTS: usize = 4095;

/// With room for 4,096 routes, and its counts.
#[derive(Clone)]
pub struct Table {
    pub rows: Vec<u32>,
    pub n: u32,
    pub counts: Vec<u64>,
}

impl Table {
    /// Makes the counts afresh.
    pub fn count(&mut self) {
        let made = calls::counts_make(&self.rows, self.n, &mut self.counts);
        assert_eq!(made.number, 0, "a table in good order is counted");
    }

    pub fn apply(&mut self, message: &[u8], port: u32) {
        let applied = calls::counted_message(message, port, &mut self.rows, self.n, &mut self.counts);
        assert_eq!(applied.number, 0, "the message is applied");
        self.n = applied.answer[1];
    }

    /// As another table of the same room is, without new memory.
    pub fn become_like(&mut self, other: &Table) {
        self.rows.copy_from_slice(&other.rows);
        self.n = other.n;
        self.counts.copy_from_slice(&other.counts);
    }
}

impl Updated for Table {
    fn of(list: &[u32]) -> Table {
        let mut rows = vec![0; 5 * maftehon::ROUTES_LAST];
        let built = calls::table_build(list, &mut rows);
        assert_eq!(built.number, 0, "a valid list is built");
        let mut table = Table { rows, n: built.answer[1], counts: vec![0; COUNTS] };
        table.count();
        table
    }

    fn announce(&mut self, ((value, length), port): &Route) {
        let announced = calls::counted_announce(&mut self.rows, self.n, *value, *length, *port, &mut self.counts);
        assert_eq!(announced.number, 0, "the route is announced");
        self.n = announced.answer[1];
    }

    fn withdraw(&mut self, ((value, length), _): &Route) {
        let withdrawn = calls::counted_withdraw(&mut self.rows, self.n, *value, *length, &mut self.counts);
        assert_eq!(withdrawn.number, 0, "the route is withdrawn");
        self.n = withdrawn.answer[1];
    }
}
