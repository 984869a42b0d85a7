//! What is fed to the two libraries: each scenario draws its inputs from the random numbers given, so a seed names it.

mod counts;
mod files;
mod histories;
mod images;
mod lists;
mod messages;
mod segments;
mod tables;

pub use counts::{damaged_counts, valid_counts};
pub use files::{damaged_files, noise_files, spared_files, valid_files};
pub use histories::{history, message_history};
pub use images::{damaged_images, valid_images};
pub use lists::{damaged_lists, valid_lists};
pub use messages::{damaged_messages, noise_messages, valid_messages, written_messages};
pub use segments::{damaged_segments, noise_segments, valid_segments};
pub use tables::{damaged_tables, valid_tables, wrong_arguments};

use crate::checker::{Checker, Compared};
use workload::{damage_counts, Held, Kind, Random};

/// A scenario on sets of at most that many routes.
pub type Scenario = fn(&mut Checker, &mut Random, usize) -> Compared<()>;

/// Every scenario, with its name.
pub const ALL: [(&str, Scenario); 22] = [
    ("valid files", valid_files),
    ("spared files", spared_files),
    ("damaged files", damaged_files),
    ("noise files", noise_files),
    ("valid lists", valid_lists),
    ("damaged lists", damaged_lists),
    ("valid tables", valid_tables),
    ("damaged tables", damaged_tables),
    ("wrong arguments", wrong_arguments),
    ("valid images", valid_images),
    ("damaged images", damaged_images),
    ("valid segments", valid_segments),
    ("damaged segments", damaged_segments),
    ("noise segments", noise_segments),
    ("valid messages", valid_messages),
    ("damaged messages", damaged_messages),
    ("noise messages", noise_messages),
    ("written messages", written_messages),
    ("valid counts", valid_counts),
    ("damaged counts", damaged_counts),
    ("history", |checker, random, most| history(checker, random, 1 + most / 2, 40)),
    ("message history", |checker, random, most| message_history(checker, random, 1 + most / 2, 10)),
];

/// Sizes of sets, small ones more often: they meet more cases in the same time.
const SIZES: [usize; 8] = [3, 3, 10, 10, 30, 30, 200, 4096];

/// One of the scenarios, at one of the sizes.
pub fn any(checker: &mut Checker, random: &mut Random) -> Compared<()> {
    let ((_, scenario), most) = (random.pick(&ALL), random.pick(&SIZES));
    scenario(checker, random, most)
}

/// A set of any shape with at most that many routes; tiny ones are as likely as large ones.
fn any_set(random: &mut Random, most: usize) -> Held {
    let count = match random.below(3) {
        0 => random.index(4).min(most),
        1 => most,
        _ => random.index(most + 1),
    };
    random.pick(&Kind::ALL).routes(random, count)
}

/// Addresses at the ends of routes and anywhere.
fn addresses(random: &mut Random, held: &Held, count: usize) -> Vec<u32> {
    let mut addresses = vec![0, u32::MAX];
    addresses.extend((0..count).map(|_| random.address(held)));
    addresses
}

/// Exactly enough room, one element less, one more, and none.
fn rooms(exact: usize) -> [usize; 4] {
    [exact, exact.saturating_sub(1), exact + 1, 0]
}

/// What is lent for the elements of so many addresses: just enough, one less, one more, none, and far more. Any number
/// stands there, also 65,535, which is then no element.
fn outs(random: &mut Random, addresses: usize) -> [Vec<u16>; 5] {
    let [exact, short, long, none] = rooms(addresses);
    [exact, short, long, none, exact + 1000].map(|room| vec![random.pick(&[0, 1, 4094, 65_534, 65_535]); room])
}

/// All of the addresses as often as not, or none, one or any number of them, and one of what is lent for their elements.
fn in_one_call<'a>(random: &mut Random, addresses: &'a [u32]) -> (&'a [u32], Vec<u16>) {
    let (all, any) = (addresses.len(), random.index(addresses.len() + 1));
    let count = random.pick(&[all, all, all, 0, 1, any]);
    let outs = outs(random, count);
    (&addresses[..count], outs[random.pick(&[0, 0, 0, 0, 1, 2, 3, 4])].clone())
}

/// Damages once, twice or three times.
fn some_damage(random: &mut Random, mut damage: impl FnMut(&mut Random)) {
    (0..=random.below(3)).for_each(|_| damage(random));
}

/// Counts that are right, or those of another table, and now and then damaged.
fn any_counts(random: &mut Random, right: &[u64], other: &[u64]) -> Vec<u64> {
    let mut counts = random.pick(&[right, right, right, other]).to_vec();
    if random.below(3) == 0 {
        some_damage(random, |random| damage_counts(&mut counts, random));
    }
    counts
}
