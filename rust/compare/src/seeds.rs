//! Scenarios on a row of seeds, for tests: a failure names its seed.

use crate::checker::{Checker, Compared};
use crate::library::{PROVED, REFERENCE};
use workload::Random;

/// The variable that sets the first seed.
const SEED_VARIABLE: &str = "MAFTEHON_SEED";

/// The first seed of every test: 1, or what the variable says.
///
/// # Panics
///
/// Where the variable says no number.
pub fn first_seed() -> u64 {
    let set = std::env::var(SEED_VARIABLE).ok();
    set.map_or(1, |text| text.parse().unwrap_or_else(|_| panic!("{SEED_VARIABLE}={text} is no number")))
}

/// Runs the scenario on that many seeds, the proved library against the reference.
///
/// # Panics
///
/// Where they differ, with the seed and the call.
pub fn on_seeds(count: u64, scenario: impl Fn(&mut Checker, &mut Random) -> Compared<()>) {
    for seed in (0..count).map(|number| first_seed().wrapping_add(number)) {
        let mut checker = Checker::new(&PROVED, &REFERENCE);
        if let Err(difference) = scenario(&mut checker, &mut Random::new(seed)) {
            panic!("seed {seed}: {difference}\nto run it again: {SEED_VARIABLE}={seed}");
        }
    }
}
