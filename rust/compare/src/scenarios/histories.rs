//! Histories of announcements and withdrawals, and of messages among them, compared word for word after each call.

use super::any_counts;
use crate::checker::{Checker, Compared};
use workload::{Held, Kind, Message, Prefix, Random, COUNTS};

/// A table under updates, with the routes that it holds and the counts that are lent on from one to the next.
#[derive(Clone)]
struct Gateway {
    rows: Vec<u32>,
    n: u32,
    counts: Vec<u64>,
    /// As they were before the last update: where it moved an address they are not the table's any more.
    counts_before: Vec<u64>,
    held: Held,
    /// Where new prefixes are drawn from, twice as many as there is room for.
    pool: Vec<Prefix>,
}

impl Gateway {
    /// Empty, or nearly full, with counts made afresh.
    fn new(checker: &mut Checker, random: &mut Random, capacity: usize) -> Compared<Gateway> {
        // Words that hold anything before a row is used, and some past the whole rows; so too with the counts.
        let words = 5 * capacity + random.index(5);
        let pool = random.pick(&Kind::ALL).routes(random, 2 * capacity);
        let rows = (0..words).map(|_| random.any_size()).collect();
        let counts: Vec<u64> = (0..COUNTS + random.index(5)).map(|_| random.any_size().into()).collect();
        let pool = pool.into_keys().collect();
        let mut gateway = Gateway { rows, n: 0, counts_before: counts.clone(), counts, held: Held::new(), pool };
        if random.below(2) == 0 {
            gateway.fill(checker, random, capacity)?;
        }
        checker.counts_make(&gateway.rows, gateway.n, &mut gateway.counts)?;
        Ok(gateway)
    }

    /// Fills all rows but a few by a build, whose rows are those of the announcements in list order.
    fn fill(&mut self, checker: &mut Checker, random: &mut Random, capacity: usize) -> Compared<()> {
        let count = capacity.saturating_sub(random.index(4));
        let step = self.pool.len() / capacity;
        self.held = self.pool.iter().step_by(step).take(count).map(|prefix| (*prefix, 1)).collect();
        let (built, rows) = checker.table_build(&workload::list_of(&self.held), self.rows.len())?;
        self.rows = rows;
        self.n = built.answer[1];
        Ok(())
    }

    fn announce(&mut self, checker: &mut Checker, prefix: Prefix, port: u32) -> Compared<()> {
        let route = [prefix.0, prefix.1, port];
        let answer = checker.counted_announce(&mut self.rows, self.n, route, &mut self.counts)?;
        if answer.number == 0 {
            self.held.insert(prefix, port);
        }
        self.n = answer.answer[1];
        Ok(())
    }

    fn withdraw(&mut self, checker: &mut Checker, prefix: Prefix) -> Compared<()> {
        let answer = checker.counted_withdraw(&mut self.rows, self.n, prefix, &mut self.counts)?;
        if answer.number == 0 {
            self.held.remove(&prefix);
        }
        self.n = answer.answer[1];
        Ok(())
    }

    /// A message of a few prefixes, held and from where new ones are drawn. Refused 9, it changes nothing.
    fn message(&mut self, checker: &mut Checker, random: &mut Random) -> Compared<()> {
        let mut message = Message::any(random, &self.held, 4);
        message.announced.extend((0..random.below(3)).map(|_| random.pick(&self.pool)));
        let port = 1 + random.below(4094);
        let answer = checker.counted_message(&message.bytes(), port, &mut self.rows, self.n, &mut self.counts)?;
        if answer.number == 0 {
            self.held = message.applied_to(&self.held, port);
        }
        self.n = answer.answer[1];
        checker.table_holds(&self.rows, self.n, &self.held)
    }

    fn held_prefix(&self, random: &mut Random) -> Option<Prefix> {
        self.held.keys().nth(random.index(self.held.len() + 1)).copied()
    }

    /// One update: a new prefix, a held one, or any at all. Announcements prevail, so that the table fills.
    fn update(&mut self, checker: &mut Checker, random: &mut Random) -> Compared<()> {
        let (any, port) = (random.pick(&self.pool), 1 + random.below(4094));
        match (random.below(16), self.held_prefix(random)) {
            (0..=8, _) => self.announce(checker, any, port),
            (9..=10, Some(held)) => self.announce(checker, held, port),
            (11..=14, Some(held)) => self.withdraw(checker, held),
            _ => self.withdraw(checker, any),
        }
    }

    /// An update of this kind, which leaves counts that total all addresses. Now and then one comes before it that is
    /// lent counts from before the last update, or damaged ones, and that the table does not keep.
    fn step(&mut self, checker: &mut Checker, random: &mut Random, update: Update) -> Compared<()> {
        if random.below(4) == 0 {
            let mut not_kept = self.clone();
            not_kept.counts = any_counts(random, &self.counts, &self.counts_before);
            update(&mut not_kept, checker, random)?;
        }
        self.counts_before.copy_from_slice(&self.counts);
        update(self, checker, random)?;
        checker.counts_total(self.n, &self.counts)
    }
}

/// A kind of update of a gateway.
type Update = fn(&mut Gateway, &mut Checker, &mut Random) -> Compared<()>;

/// From an empty table, or from one nearly full, that many updates; then every route is withdrawn if they are few.
pub fn history(checker: &mut Checker, random: &mut Random, capacity: usize, updates: usize) -> Compared<()> {
    let mut gateway = Gateway::new(checker, random, capacity)?;
    for _ in 0..updates {
        gateway.step(checker, random, Gateway::update)?;
    }
    let few = gateway.held.len() <= updates;
    while few && !gateway.held.is_empty() {
        if let Some(prefix) = gateway.held_prefix(random) {
            gateway.withdraw(checker, prefix)?;
        }
    }
    checker.counts_kept(&gateway.rows, gateway.n, &gateway.counts)
}

/// From an empty table, or from one nearly full, that many messages, with two updates after each. What is held is compared
/// after each message too.
pub fn message_history(checker: &mut Checker, random: &mut Random, capacity: usize, messages: usize) -> Compared<()> {
    let mut gateway = Gateway::new(checker, random, capacity)?;
    for _ in 0..messages {
        gateway.step(checker, random, Gateway::message)?;
        (0..2).try_for_each(|_| gateway.step(checker, random, Gateway::update))?;
    }
    checker.counts_kept(&gateway.rows, gateway.n, &gateway.counts)
}
