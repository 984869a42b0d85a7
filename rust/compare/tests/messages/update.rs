//! A message applied to a table, in parts that a library could get wrong one by one.

use reference::Answer;
use std::collections::BTreeSet;
use workload::{first_bits_of, Prefix, COUNTS};

/// What a message says, in its order.
pub struct Update {
    pub withdrawn: Vec<Prefix>,
    pub announced: Vec<Prefix>,
}

impl Update {
    /// The withdrawals that remain: a prefix in both parts counts as announced only.
    pub fn remaining(&self) -> impl Iterator<Item = &Prefix> {
        self.withdrawn.iter().filter(|prefix| !self.announced.contains(prefix))
    }
}

/// A step of a table.
pub enum Call {
    Withdraw(Prefix),
    Announce(Prefix),
}

/// A number and a place.
type Refusal = (u32, usize);

/// The parts. A wrong call is `Apply { part: .., ..RIGHT }`.
pub struct Apply {
    /// The least length that a message may state.
    pub length_least: usize,
    /// The bytes that the withdrawn part is to leave after it.
    pub left_least: usize,
    /// Where the announced part begins, of where the attributes do, their length and that of the message; none where
    /// they run past the end.
    pub announced_at: fn(usize, usize, usize) -> Option<usize>,
    /// Whether the withdrawn prefixes are checked first.
    pub withdrawn_first: bool,
    /// Where a prefix is to end at last, of the ends of its part and of the message.
    pub prefix_end: fn(usize, usize) -> usize,
    /// The place of a prefix whose length byte stands there.
    pub place: fn(usize) -> usize,
    /// What is compared of a value as it is stated, at this length.
    pub value: fn(u32, u32) -> u32,
    /// What becomes of the prefixes that were read.
    pub change: fn(&mut Update),
    /// Whether a message has its port looked at, and its table.
    pub looks_at_port: fn(&Update) -> bool,
    pub looks_at_table: fn(&Update) -> bool,
    /// The routes in the end, of those held before and the message.
    pub count: fn(&BTreeSet<Prefix>, &Update) -> usize,
    /// Whether so many routes go into that capacity.
    pub fits: fn(usize, usize) -> bool,
    /// The steps, in their order.
    pub calls: fn(&Update) -> Vec<Call>,
    /// Whether a step that is refused this ends it all.
    pub ends_at: fn(u32) -> bool,
}

pub const RIGHT: Apply = Apply {
    length_least: 23,
    left_least: 2,
    announced_at: |at, attributes, size| Some(at + attributes).filter(|at| *at <= size),
    withdrawn_first: true,
    prefix_end: |part, _| part,
    place: |at| at,
    value: first_bits_of,
    change: |_| {},
    looks_at_port: |_| true,
    looks_at_table: |_| true,
    count: |held, update| {
        let mut held = held.clone();
        held.retain(|prefix| !update.withdrawn.contains(prefix));
        held.extend(&update.announced);
        held.len()
    },
    fits: |count, capacity| count <= capacity,
    calls: |update| {
        let withdrawals = update.remaining().map(|prefix| Call::Withdraw(*prefix));
        withdrawals.chain(update.announced.iter().map(|prefix| Call::Announce(*prefix))).collect()
    },
    ends_at: |number| number != 10,
};

impl Apply {
    pub fn apply(&self, message: &[u8], port: u32, rows: &mut [u32], n: u32, counts: &mut [u64]) -> Answer<2> {
        match self.applied(message, port, rows, n, counts) {
            Ok(n) => Answer { number: 0, answer: [0, n] },
            Err((number, place)) => Answer { number, answer: [place as u32, n] },
        }
    }

    fn applied(
        &self,
        message: &[u8],
        port: u32,
        rows: &mut [u32],
        mut n: u32,
        counts: &mut [u64],
    ) -> Result<u32, Refusal> {
        if counts.len() < COUNTS {
            return Err((9, 0));
        }
        let mut update = self.read(message)?;
        (self.change)(&mut update);
        if (self.looks_at_port)(&update) && !(1..=4094).contains(&port) {
            return Err((6, 0));
        }
        if (self.looks_at_table)(&update) && !in_step(rows, n, counts) {
            return Err((11, 0));
        }
        if !(self.fits)((self.count)(&held_in(rows, n), &update), 4096.min(rows.len() / 5)) {
            return Err((9, 0));
        }
        for call in (self.calls)(&update) {
            let answer = match call {
                Call::Withdraw((value, length)) => {
                    reference::counted_withdraw(rows, n, first_bits_of(value, length), length, counts)
                }
                Call::Announce((value, length)) => {
                    reference::counted_announce(rows, n, first_bits_of(value, length), length, port, counts)
                }
            };
            if answer.number != 0 && (self.ends_at)(answer.number) {
                return Err((answer.number, 0));
            }
            n = answer.answer[1];
        }
        Ok(n)
    }

    pub fn read(&self, message: &[u8]) -> Result<Update, Refusal> {
        let size = message.len();
        if size < 23 || message[..16].iter().any(|byte| *byte != 255) {
            return Err((14, 0));
        }
        if length_at(message, 16) != size || !(self.length_least..=4096).contains(&size) {
            return Err((14, 16));
        }
        if message[18] != 2 {
            return Err((14, 18));
        }
        let withdrawn_end = 21 + length_at(message, 19);
        if withdrawn_end + self.left_least > size {
            return Err((14, 19));
        }
        let attributes = length_at(message, withdrawn_end);
        let announced_at = (self.announced_at)(withdrawn_end + 2, attributes, size).ok_or((14, withdrawn_end))?;
        let withdrawn = || self.prefixes(message, 21, withdrawn_end);
        let announced = || self.prefixes(message, announced_at, size);
        if self.withdrawn_first {
            withdrawn().and_then(|withdrawn| Ok(Update { withdrawn, announced: announced()? }))
        } else {
            announced().and_then(|announced| Ok(Update { announced, withdrawn: withdrawn()? }))
        }
    }

    fn prefixes(&self, message: &[u8], mut at: usize, end: usize) -> Result<Vec<Prefix>, Refusal> {
        let mut prefixes = Vec::new();
        while at < end {
            let length = u32::from(message[at]);
            if length > 32 {
                return Err((4, (self.place)(at)));
            }
            let next = at + 1 + length.div_ceil(8) as usize;
            if next > (self.prefix_end)(end, message.len()) {
                return Err((14, (self.place)(at)));
            }
            let mut value = [0; 4];
            value[..next - at - 1].copy_from_slice(&message[at + 1..next]);
            prefixes.push(((self.value)(u32::from_be_bytes(value), length), length));
            at = next;
        }
        Ok(prefixes)
    }
}

/// Bytes past the end count as 0.
fn length_at(message: &[u8], at: usize) -> usize {
    let byte = |at: usize| message.get(at).copied().map_or(0, usize::from);
    256 * byte(at) + byte(at + 1)
}

/// Whether the table is in good order, and the counts are its own.
fn in_step(rows: &[u32], n: u32, counts: &[u64]) -> bool {
    let mut made = [0; COUNTS];
    reference::counts_make(rows, n, &mut made).number == 0 && counts[..COUNTS] == made
}

/// None where the table is not in good order.
fn held_in(rows: &[u32], n: u32) -> BTreeSet<Prefix> {
    let mut list = vec![0; rows.len()];
    let routes = reference::table_save(rows, n, &mut list).answer[1] as usize;
    list.chunks(3).take(routes).map(|route| (route[0], route[1])).collect()
}
