//! Rules, "Addresses per port": counts typed from the rules, against every address of a part of the space, against
//! stretches of addresses with the same matches, and in histories that lend them on.

use crate::messages::message_with;
use crate::support::{counts_of, done, first_bits_of, list_of, refused, scan, table_of};
use crate::support::{Held, Prefix, Random, COUNTS, UNTOUCHED, UNTOUCHED_COUNT};
use reference::{counted_announce, counted_message, counted_withdraw, counts_make, table_runs, Answer};
use std::collections::{BTreeMap, BTreeSet};
use workload::{Kind, Message};

/// All addresses.
const SPACE: u64 = 4_294_967_296;

/// The counts that are not 0, by port.
fn nonzero(counts: &[u64]) -> BTreeMap<usize, u64> {
    let used = counts[..COUNTS].iter().copied().enumerate();
    used.filter(|(_, count)| *count != 0).collect()
}

/// The counts of the table of a list that are not 0.
fn made(list: &[u32]) -> BTreeMap<usize, u64> {
    let (rows, n) = table_of(list);
    nonzero(&counts_of(&rows, n))
}

#[test]
fn a_route_for_every_address_has_them_all_and_leaves_none_without_a_route() {
    for port in [1, 7, 4094] {
        assert_eq!(made(&[0, 0, port]), BTreeMap::from([(port as usize, SPACE)]));
    }
}

#[test]
fn without_a_route_no_address_has_one_whatever_the_rows_hold() {
    for rows in [&[][..], &[UNTOUCHED; 3], &[UNTOUCHED; 5000]] {
        assert_eq!(nonzero(&counts_of(rows, 0)), BTreeMap::from([(0, SPACE)]));
    }
}

#[test]
fn a_route_of_32_bits_takes_one_address_from_the_route_of_31_around_it() {
    let pair = [0x0A00_0000, 31, 5];
    assert_eq!(made(&pair), BTreeMap::from([(0, SPACE - 2), (5, 2)]));
    for address in [0x0A00_0000, 0x0A00_0001] {
        assert_eq!(made(&[&pair[..], &[address, 32, 6]].concat()), BTreeMap::from([(0, SPACE - 2), (5, 1), (6, 1)]));
    }
    let both = [&pair[..], &[0x0A00_0000, 32, 6, 0x0A00_0001, 32, 7]].concat();
    assert_eq!(made(&both), BTreeMap::from([(0, SPACE - 2), (6, 1), (7, 1)]));
}

#[test]
fn the_first_and_the_last_address_are_counted() {
    for address in [0, u32::MAX] {
        assert_eq!(made(&[address, 32, 9]), BTreeMap::from([(0, SPACE - 1), (9, 1)]));
        assert_eq!(made(&[0, 0, 4094, address, 32, 9]), BTreeMap::from([(9, 1), (4094, SPACE - 1)]));
    }
}

#[test]
fn a_route_has_what_no_longer_route_inside_it_has() {
    // Port p has the route of p-1 bits, which the next one halves.
    for address in [0, u32::MAX, 0xA5A5_5A5A] {
        let list: Vec<u32> = (0..=32).flat_map(|length| [first_bits_of(address, length), length, length + 1]).collect();
        let halves = (1..=32).map(|port| (port, SPACE >> port));
        assert_eq!(made(&list), halves.chain([(33, 1)]).collect());
    }
    // A route inside one of its own port takes nothing away, and a route between them does.
    let inside = |port| [0x0A00_0000, 8, 7, 0x0A01_0000, 16, port, 0x0A01_0200, 24, 7];
    assert_eq!(made(&inside(7)), BTreeMap::from([(0, SPACE - (1 << 24)), (7, 1 << 24)]));
    assert_eq!(made(&inside(9)), BTreeMap::from([(0, SPACE - (1 << 24)), (7, (1 << 24) - 65_280), (9, 65_280)]));
}

#[test]
fn all_4095_counts_are_made_whatever_stood_there_and_no_more() {
    let (rows, n) = table_of(&[0x0A00_0000, 8, 4094]);
    for before in [0, 1, UNTOUCHED_COUNT, u64::MAX] {
        for room in [4095, 4096, 9000] {
            let mut counts = vec![before; room];
            assert_eq!(counts_make(&rows, n, &mut counts), done([0]));
            assert_eq!(nonzero(&counts), BTreeMap::from([(0, SPACE - (1 << 24)), (4094, 1 << 24)]));
            assert!(counts[COUNTS..].iter().all(|count| *count == before));
        }
    }
}

/// The counts of these addresses, by a plain scan of each, which stands for so many.
fn scanned(held: &Held, addresses: impl Iterator<Item = u32>, weight: u64) -> Vec<u64> {
    let mut counts = vec![0; COUNTS];
    addresses.for_each(|address| counts[scan(held, address) as usize] += weight);
    counts
}

fn assert_made(held: &Held, expected: &[u64], seed: u64) {
    let (rows, n) = table_of(&list_of(held));
    assert!(counts_of(&rows, n)[..COUNTS] == *expected, "seed {seed}: {held:?}");
}

#[test]
fn short_routes_are_counted_as_a_scan_of_every_block_of_12_bits_does() {
    for seed in 0..200 {
        let mut random = Random::new(seed);
        let short = |random: &mut Random| {
            let length = random.below(13);
            ((first_bits_of(random.word(), length), length), random.port())
        };
        let held: Held = (0..random.below(30)).map(|_| short(&mut random)).collect();
        assert_made(&held, &scanned(&held, (0..1 << 12).map(|block| block << 20), 1 << 20), seed);
    }
}

#[test]
fn long_routes_are_counted_as_a_scan_of_every_address_does() {
    for seed in 0..200 {
        let mut random = Random::new(seed);
        // In the first or in the last 4,096 addresses; the others have the port of the whole space, if it has one.
        let first = random.pick(&[0, 0xFFFF_F000]);
        let long = |random: &mut Random| {
            let length = 20 + random.below(13);
            ((first_bits_of(first | random.below(1 << 12), length), length), random.port())
        };
        let mut held: Held = (0..random.below(40)).map(|_| long(&mut random)).collect();
        held.extend((random.below(2) == 0).then_some(((0, 0), 3)));
        let mut expected = scanned(&held, (0..1 << 12).map(|address| first | address), 1);
        expected[scan(&held, 1 << 31) as usize] += SPACE - (1 << 12);
        assert_made(&held, &expected, seed);
    }
}

/// From one end of a route to the next every address has the same matches: a scan at the first of them, for all.
fn by_stretches(held: &Held) -> Vec<u64> {
    let ends = held.keys().flat_map(|(value, length)| {
        let first = u64::from(*value);
        [first, first + (SPACE >> length)]
    });
    let ends: BTreeSet<u64> = ends.chain([0, SPACE]).collect();
    let mut counts = vec![0; COUNTS];
    for (from, to) in ends.iter().zip(ends.iter().skip(1)) {
        counts[scan(held, *from as u32) as usize] += to - from;
    }
    counts
}

/// The runs of a table, each with as many addresses as it has.
fn by_runs(rows: &[u32], n: u32) -> Vec<u64> {
    let mut runs = vec![UNTOUCHED; 3 * (2 * n as usize + 1)];
    let listed = table_runs(rows, n, &mut runs);
    let mut counts = vec![0; COUNTS];
    for run in runs.chunks(3).take(listed.answer[1] as usize) {
        counts[run[2] as usize] += u64::from(run[1]) - u64::from(run[0]) + 1;
    }
    counts
}

#[test]
fn random_sets_are_counted_as_by_their_stretches_and_by_their_runs() {
    for (seed, kind) in (0..240).zip(Kind::ALL.into_iter().cycle()) {
        let mut random = Random::new(seed);
        let count = random.index(60);
        let held = kind.routes(&mut random, count);
        let (rows, n) = table_of(&list_of(&held));
        let counts = &counts_of(&rows, n)[..COUNTS];
        assert!(*counts == by_stretches(&held) && *counts == by_runs(&rows, n), "seed {seed}, {}", kind.name());
    }
}

#[test]
fn sets_of_4096_routes_are_counted_as_by_their_stretches() {
    for kind in Kind::ALL {
        let held = kind.routes(&mut Random::new(1), 4096);
        assert_made(&held, &by_stretches(&held), 1);
    }
}

/// A table of 10.0.0.0/8 to port 7 and both halves of 10.1.0.0/16 to port 8, with room for one route more.
fn gateway() -> (Vec<u32>, u32, Vec<u64>) {
    let (mut rows, n) = table_of(&[0x0A00_0000, 8, 7, 0x0A01_0000, 17, 8, 0x0A01_8000, 17, 8]);
    rows.resize(20, UNTOUCHED);
    let counts = counts_of(&rows, n);
    (rows, n, counts)
}

/// The counts that differ after an update of the gateway that is done, by port: before and after.
fn changed_by(update: impl Fn(&mut [u32], u32, &mut [u64]) -> Answer<2>) -> BTreeMap<usize, (u64, u64)> {
    let (mut rows, n, before) = gateway();
    let mut after = before.clone();
    assert_eq!(update(&mut rows, n, &mut after).number, 0);
    let both = before.into_iter().zip(after).enumerate();
    both.filter(|(_, (before, after))| before != after).collect()
}

#[test]
fn an_announcement_takes_addresses_from_the_route_around_it_and_a_withdrawal_gives_them_back() {
    // 10.2.0.0/16 from the route of port 7; 11.0.0.0/8 from no route; half of port 8's addresses.
    for (prefix, port, changed) in [
        ((0x0A02_0000, 16), 9, [(7, (16_711_680, 16_646_144)), (9, (0, 65_536))]),
        ((0x0B00_0000, 8), 9, [(0, (4_278_190_080, 4_261_412_864)), (9, (0, 16_777_216))]),
        ((0x0A01_8000, 17), 7, [(7, (16_711_680, 16_744_448)), (8, (65_536, 32_768))]),
    ] {
        let announce =
            |rows: &mut [u32], n, counts: &mut [u64]| counted_announce(rows, n, prefix.0, prefix.1, port, counts);
        assert_eq!(changed_by(announce), BTreeMap::from(changed));
    }
    let withdraw = |rows: &mut [u32], n, counts: &mut [u64]| counted_withdraw(rows, n, 0x0A01_8000, 17, counts);
    assert_eq!(changed_by(withdraw), BTreeMap::from([(7, (16_711_680, 16_744_448)), (8, (65_536, 32_768))]));
    // By a message both halves of 10.1.0.0/16 go, and 10.1.0.0/16 itself comes.
    let halves = [17, 10, 1, 0, 17, 10, 1, 128];
    let message = message_with(&halves, &[], &[16, 10, 1]);
    let apply = |rows: &mut [u32], n, counts: &mut [u64]| counted_message(&message, 9, rows, n, counts);
    assert_eq!(changed_by(apply), BTreeMap::from([(8, (65_536, 0)), (9, (0, 65_536))]));
}

#[test]
fn an_update_that_moves_no_address_changes_no_count() {
    let announced = |value: u32, length: u32, port: u32| {
        changed_by(move |rows, n, counts| counted_announce(rows, n, value, length, port, counts))
    };
    // The same port again.
    assert_eq!(announced(0x0A00_0000, 8, 7), BTreeMap::new());
    assert_eq!(announced(0x0A01_8000, 17, 8), BTreeMap::new());
    // Hidden by the two longer routes, with their port and with another.
    assert_eq!(announced(0x0A01_0000, 16, 8), BTreeMap::new());
    assert_eq!(announced(0x0A01_0000, 16, 9), BTreeMap::new());
    // Inside a route of the same port, and taken out again.
    assert_eq!(announced(0x0A02_0000, 16, 7), BTreeMap::new());
    let in_and_out = |rows: &mut [u32], n, counts: &mut [u64]| {
        let n = counted_announce(rows, n, 0x0A02_0000, 16, 9, counts).answer[1];
        counted_withdraw(rows, n, 0x0A02_0000, 16, counts)
    };
    assert_eq!(changed_by(in_and_out), BTreeMap::new());
    // Messages: nothing, a prefix that is not held, and the same port again.
    for (withdrawn, announced, port) in
        [(&[][..], &[][..], 9), (&[8, 77], &[], 9), (&[17, 10, 1, 0], &[17, 10, 1, 0], 8)]
    {
        let message = message_with(withdrawn, &[], announced);
        let apply = |rows: &mut [u32], n, counts: &mut [u64]| counted_message(&message, port, rows, n, counts);
        assert_eq!(changed_by(apply), BTreeMap::new());
    }
}

/// A table and its counts, which every update is lent as the one before left them.
struct History {
    rows: Vec<u32>,
    n: u32,
    counts: Vec<u64>,
    held: Held,
}

impl History {
    /// From any table in good order, with counts made afresh.
    fn from(held: Held, capacity: usize) -> History {
        let (mut rows, n) = table_of(&list_of(&held));
        rows.resize(5 * capacity, UNTOUCHED);
        let counts = counts_of(&rows, n);
        History { rows, n, counts, held }
    }

    /// What an update answers, done or refused; where it is done, the table holds these routes.
    fn take(&mut self, after: Held, update: impl FnOnce(&mut [u32], u32, &mut [u64]) -> Answer<2>) -> u32 {
        let answer = update(&mut self.rows, self.n, &mut self.counts);
        if answer.number == 0 {
            self.held = after;
        }
        self.n = answer.answer[1];
        answer.number
    }

    fn announce(&mut self, prefix: Prefix, port: u32) -> u32 {
        let mut after = self.held.clone();
        after.insert(prefix, port);
        self.take(after, |rows, n, counts| counted_announce(rows, n, prefix.0, prefix.1, port, counts))
    }

    fn withdraw(&mut self, prefix: Prefix) -> u32 {
        let mut after = self.held.clone();
        after.remove(&prefix);
        self.take(after, |rows, n, counts| counted_withdraw(rows, n, prefix.0, prefix.1, counts))
    }

    fn apply(&mut self, message: &Message, port: u32) -> u32 {
        let after = message.applied_to(&self.held, port);
        self.take(after, |rows, n, counts| counted_message(&message.bytes(), port, rows, n, counts))
    }

    /// One update: of a new prefix or a held one, with a length or a port that is wrong now and then, or by a message.
    fn step(&mut self, random: &mut Random) -> u32 {
        let held = self.held.keys().nth(random.index(self.held.len() + 1)).copied();
        let prefix = held.filter(|_| random.below(2) == 0).unwrap_or_else(|| random.prefix());
        match random.below(9) {
            0..=3 => self.announce(prefix, random.port()),
            4..=5 => self.withdraw(prefix),
            6 => self.announce((prefix.0, 33), random.port()),
            7 => self.announce(prefix, 4095),
            _ => {
                let message = Message::any(random, &self.held, 4);
                self.apply(&message, random.port())
            }
        }
    }
}

#[test]
fn counts_stay_in_step_and_total_all_addresses_in_any_history_that_lends_them_on() {
    let mut met = BTreeSet::new();
    for seed in 0..60 {
        let mut random = Random::new(seed);
        let held = random.held(20);
        let mut history = History::from(held, 24);
        for _ in 0..60 {
            met.insert(history.step(&mut random));
            assert!(history.counts[..COUNTS] == by_stretches(&history.held), "seed {seed}");
            assert_eq!(history.counts[..COUNTS].iter().sum::<u64>(), SPACE, "seed {seed}");
            assert_eq!(history.counts[COUNTS..], [UNTOUCHED_COUNT; 2], "seed {seed}");
        }
    }
    // Refused too, but never for the counts.
    assert_eq!(met, BTreeSet::from([0, 4, 6, 9, 10]));
}

#[test]
fn a_history_that_leaves_out_an_update_of_the_counts_ends_in_11() {
    let (mut rows, n, counts) = gateway();
    let mut left_out = counts.clone();
    let answer = counted_announce(&mut rows, n, 0x0B00_0000, 8, 9, &mut left_out);
    assert_eq!(answer, done([0, 4]));
    assert_eq!(counted_withdraw(&mut rows, 4, 0x0B00_0000, 8, &mut counts.clone()), refused(11, [0, 4]));
    assert_eq!(counted_withdraw(&mut rows, 4, 0x0B00_0000, 8, &mut left_out), done([0, 3]));
    assert!(left_out == counts);
}
