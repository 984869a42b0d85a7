//! Histories of announcements and withdrawals, all rows and counts compared after each call.

use compare::{on_seeds, scenarios};

#[test]
fn histories_at_tiny_capacity_agree() {
    on_seeds(1500, |checker, random| {
        let capacity = 1 + random.index(6);
        scenarios::history(checker, random, capacity, 60)
    });
}

#[test]
fn long_histories_at_small_capacity_agree() {
    on_seeds(60, |checker, random| {
        let capacity = 20 + random.index(60);
        scenarios::history(checker, random, capacity, 1000)
    });
}

#[test]
fn long_histories_at_middle_capacity_agree() {
    on_seeds(2, |checker, random| scenarios::history(checker, random, 600, 2000));
}

#[test]
fn histories_at_full_capacity_agree() {
    on_seeds(6, |checker, random| scenarios::history(checker, random, 4096, 600));
}
