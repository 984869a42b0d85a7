//! Damage to counts meets each way in which they can be wrong and pass for right ones, and some that does no harm.

use std::collections::BTreeSet;
use workload::{damage_counts, Random, COUNTS};

const PAST: u64 = 0xDEAD_BEEF;

/// All addresses but 256 have no route, and ports 7 and 4094 have half of those each; two elements follow.
fn counts() -> Vec<u64> {
    let mut counts = vec![0; COUNTS + 2];
    counts[0] = (1 << 32) - 256;
    counts[7] = 128;
    counts[4094] = 128;
    counts[COUNTS..].fill(PAST);
    counts
}

/// What these counts become by one damage, on a row of seeds.
fn damaged(counts: &[u64]) -> Vec<Vec<u64>> {
    let damage = |seed| {
        let mut damaged = counts.to_vec();
        damage_counts(&mut damaged, &mut Random::new(seed));
        damaged
    };
    (0..3000).map(damage).collect()
}

/// Those of them that are as many as they were, with the elements that are not what they were.
fn of_the_same_size(counts: &[u64]) -> Vec<(Vec<u64>, Vec<usize>)> {
    let same_size = damaged(counts).into_iter().filter(|damaged| damaged.len() == counts.len());
    let with_changed = |damaged: Vec<u64>| {
        let changed = (0..counts.len()).filter(|place| damaged[*place] != counts[*place]).collect();
        (damaged, changed)
    };
    same_size.map(with_changed).collect()
}

#[test]
fn each_kind_of_count_is_met_off_by_one_alone() {
    let counts = counts();
    let met = of_the_same_size(&counts);
    let is_met = |place: usize, by: u64| {
        met.iter().any(|(damaged, changed)| *changed == [place] && damaged[place] == counts[place].wrapping_add(by))
    };
    for port in [0, 7, 4094] {
        assert!(is_met(port, 1) && is_met(port, u64::MAX), "port {port}");
    }
    // Of one that is 0, too.
    assert!((0..COUNTS).any(|port| counts[port] == 0 && (is_met(port, 1) || is_met(port, u64::MAX))));
}

#[test]
fn counts_with_the_right_total_are_met() {
    let counts = counts();
    let total = |counts: &[u64]| counts[..COUNTS].iter().fold(0u64, |total, count| total.wrapping_add(*count));
    let same_total = of_the_same_size(&counts).into_iter().filter(|(damaged, _)| total(damaged) == total(&counts));
    let met: BTreeSet<Vec<usize>> = same_total.map(|(_, changed)| changed).collect();
    for pair in [[0, 7], [0, 4094], [7, 4094]] {
        assert!(met.contains(&pair[..]), "{pair:?} in {met:?}");
    }
}

#[test]
fn counts_that_are_right_in_their_lower_half_are_met() {
    let counts = counts();
    let is_right = |damaged: &[u64], place: usize| damaged[place] as u32 == counts[place] as u32;
    let met = of_the_same_size(&counts).into_iter().filter(|(damaged, changed)| match changed[..] {
        [place] => place < COUNTS && is_right(damaged, place),
        _ => false,
    });
    assert!(met.count() > 0);
}

#[test]
fn one_count_too_few_fewer_and_more_are_met() {
    let sizes: BTreeSet<usize> = damaged(&counts()).iter().map(Vec::len).collect();
    assert!(sizes.contains(&(COUNTS - 1)) && sizes.range(..COUNTS - 1).count() > 100);
    assert!((COUNTS + 3..=COUNTS + 6).all(|size| sizes.contains(&size)));
    assert_eq!(sizes.last(), Some(&(COUNTS + 6)));
}

#[test]
fn damage_past_the_counts_alone_is_met() {
    let past_alone = of_the_same_size(&counts()).into_iter().filter(|(_, changed)| match changed[..] {
        [first, ..] => first >= COUNTS,
        [] => false,
    });
    assert!(past_alone.count() > 0);
}

#[test]
fn any_numbers_pass_for_counts() {
    for seed in 0..300 {
        let mut random = Random::new(seed);
        let size = random.pick(&[0, 1, 2, COUNTS - 1, COUNTS, COUNTS + 1]);
        let mut counts: Vec<u64> = (0..size).map(|_| random.any_size().into()).collect();
        (0..5).for_each(|_| damage_counts(&mut counts, &mut random));
    }
}
