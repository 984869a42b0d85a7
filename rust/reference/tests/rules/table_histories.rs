//! Histories of announcements and withdrawals against the set of routes they leave, and the rows that places keep.

use crate::support::{announce, done, list_of, refused, scan, table_of, withdraw, Held, Prefix, Random, UNTOUCHED};
use reference::{table_build, table_check, table_lookup, table_save};
use std::collections::BTreeMap;

/// A table under test, with the routes that it is to hold.
struct Gateway {
    rows: Vec<u32>,
    n: u32,
    held: Held,
    seed: u64,
}

/// The row of each place, a place written as its path's bits.
fn places(rows: &[u32], n: u32) -> BTreeMap<String, u32> {
    let mut places = BTreeMap::new();
    let mut to_read = if n == 0 { vec![] } else { vec![(String::new(), 0)] };
    while let Some((path, row)) = to_read.pop() {
        let at = 5 * row as usize;
        for (side, child) in [("0", rows[at + 3]), ("1", rows[at + 4])] {
            if child != 0 {
                to_read.push((path.clone() + side, child));
            }
        }
        places.insert(path, row);
    }
    places
}

/// What each place holds, whatever its row.
fn trie(rows: &[u32], n: u32) -> BTreeMap<String, [u32; 3]> {
    let route = |row: u32| std::array::from_fn(|word| rows[5 * row as usize + word]);
    places(rows, n).into_iter().map(|(path, row)| (path, route(row))).collect()
}

impl Gateway {
    fn new(capacity: u32, seed: u64) -> Gateway {
        // Two words more than the whole rows: they never belong to the table.
        Gateway { rows: vec![UNTOUCHED; 5 * capacity as usize + 2], n: 0, held: Held::new(), seed }
    }

    fn capacity(&self) -> usize {
        self.rows.len() / 5
    }

    fn announce(&mut self, (value, length): Prefix, port: u32) {
        let (before, n) = (self.rows.clone(), self.n);
        let answer = announce(&mut self.rows, n, value, length, port);
        if !self.held.contains_key(&(value, length)) && self.held.len() == self.capacity() {
            assert_eq!(answer, refused(9, [0, n]), "seed {}", self.seed);
            assert_eq!(self.rows, before, "seed {}", self.seed);
            return;
        }
        let is_new = self.held.insert((value, length), port).is_none();
        assert_eq!(answer, done([0, n + u32::from(is_new)]), "seed {}", self.seed);
        self.n = answer.answer[1];
        let mut expected = places(&before, n);
        for place in places(&self.rows, self.n).into_keys() {
            expected.entry(place).or_insert(n);
        }
        assert_eq!(places(&self.rows, self.n), expected, "seed {}: places keep their rows, a new one is n", self.seed);
        assert_eq!(self.rows[5 * self.n as usize..], before[5 * self.n as usize..], "seed {}", self.seed);
    }

    fn withdraw(&mut self, (value, length): Prefix) {
        let (before, n) = (self.rows.clone(), self.n);
        let answer = withdraw(&mut self.rows, n, value, length);
        if self.held.remove(&(value, length)).is_none() {
            assert_eq!(answer, refused(10, [0, n]), "seed {}", self.seed);
            assert_eq!(self.rows, before, "seed {}", self.seed);
            return;
        }
        assert_eq!(answer, done([0, n - 1]), "seed {}", self.seed);
        self.n = n - 1;
        let after = places(&self.rows, self.n);
        let fallen: Vec<(String, u32)> =
            places(&before, n).into_iter().filter(|(path, _)| !after.contains_key(path)).collect();
        assert_eq!(fallen.len(), 1, "seed {}: one place falls away", self.seed);
        for (place, row) in places(&before, n).into_iter().filter(|(path, _)| *path != fallen[0].0) {
            let expected = if row == n - 1 { fallen[0].1 } else { row };
            assert_eq!(after.get(&place), Some(&expected), "seed {}", self.seed);
        }
        let (freed_at, untouched_at) = (5 * self.n as usize, 5 * n as usize);
        assert_eq!(self.rows[freed_at..untouched_at], [0; 5], "seed {}", self.seed);
        assert_eq!(self.rows[untouched_at..], before[untouched_at..], "seed {}", self.seed);
    }

    fn assert_holds_its_routes(&self, random: &mut Random) {
        assert_eq!(self.n as usize, self.held.len(), "seed {}", self.seed);
        assert_eq!(table_check(&self.rows, self.n), done([0]), "seed {}", self.seed);
        let mut list = vec![UNTOUCHED; 3 * self.held.len()];
        assert_eq!(table_save(&self.rows, self.n, &mut list), done([0, self.n]), "seed {}", self.seed);
        assert_eq!(list, list_of(&self.held), "seed {}", self.seed);
        // The trie depends on the routes alone, and not on the history.
        let (built, n) = table_of(&list);
        assert_eq!(trie(&self.rows, self.n), trie(&built, n), "seed {}", self.seed);
        for _ in 0..3 {
            let address = random.address(&self.held);
            let found = table_lookup(&self.rows, self.n, address);
            assert_eq!((found.number, found.answer[1]), (0, scan(&self.held, address)), "seed {}", self.seed);
        }
    }

    /// One update: a new prefix, a held one, or any at all.
    fn update(&mut self, random: &mut Random) {
        let held = self.held.keys().copied().nth(random.below(self.n + 1) as usize);
        match (random.below(8), held) {
            (0..=2, _) => self.announce(random.prefix(), random.port()),
            (3, Some(prefix)) => self.announce(prefix, random.port()),
            (4..=6, Some(prefix)) => self.withdraw(prefix),
            _ => self.withdraw(random.prefix()),
        }
    }
}

#[test]
fn a_history_leaves_the_routes_that_were_announced_and_not_withdrawn() {
    for seed in 0..30 {
        let mut random = Random::new(seed);
        let mut gateway = Gateway::new(1 + random.below(40), seed);
        for _ in 0..100 {
            gateway.update(&mut random);
            gateway.assert_holds_its_routes(&mut random);
        }
    }
}

#[test]
fn a_long_history_on_a_few_hundred_routes_holds() {
    let seed = 300;
    let mut random = Random::new(seed);
    let mut gateway = Gateway::new(300, seed);
    while gateway.held.len() < 250 {
        gateway.announce(random.prefix(), random.port());
    }
    for _ in 0..100 {
        gateway.update(&mut random);
    }
    gateway.assert_holds_its_routes(&mut random);
}

#[test]
fn withdrawing_every_route_leaves_zeros() {
    for seed in 0..20 {
        let mut random = Random::new(seed);
        let mut gateway = Gateway::new(30, seed);
        (0..30).for_each(|_| gateway.announce(random.prefix(), random.port()));
        let used = 5 * gateway.n as usize;
        while gateway.n > 0 {
            let at = random.below(gateway.n) as usize;
            let prefix = *gateway.held.keys().nth(at).expect("a held prefix");
            gateway.withdraw(prefix);
        }
        assert!(gateway.rows[..used].iter().all(|word| *word == 0), "seed {seed}");
        assert!(gateway.rows[used..].iter().all(|word| *word == UNTOUCHED), "seed {seed}");
    }
}

#[test]
fn building_gives_what_announcing_in_list_order_gives() {
    for seed in 0..60 {
        let list = list_of(&Random::new(seed).held(40));
        let mut built = vec![UNTOUCHED; 5 * 41];
        let mut announced = built.clone();
        let mut n = 0;
        for route in list.chunks(3) {
            n = announce(&mut announced, n, route[0], route[1], route[2]).answer[1];
        }
        assert_eq!(table_build(&list, &mut built), done([0, n]), "seed {seed}");
        assert_eq!(built, announced, "seed {seed}");
    }
}

#[test]
fn the_rule_names_no_order_of_announcements() {
    for seed in 0..60 {
        let mut random = Random::new(seed);
        let held = random.held(30);
        let mut routes: Vec<(Prefix, u32)> = held.iter().map(|(prefix, port)| (*prefix, *port)).collect();
        let mut gateway = Gateway::new(30, seed);
        while !routes.is_empty() {
            let (prefix, port) = routes.swap_remove(random.below(routes.len() as u32) as usize);
            gateway.announce(prefix, port);
        }
        let (built, n) = table_of(&list_of(&held));
        assert_eq!(trie(&gateway.rows, gateway.n), trie(&built, n), "seed {seed}");
    }
}
