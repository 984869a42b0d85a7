//! The ratios of proved to plain as a bar chart, one bar a set.

use super::bars::{draw, Group, Scale};
use super::race::Runner;
use super::Measured;

/// The chart of every race that a plain runner took part in.
pub fn chart(all: &[Measured]) -> String {
    let sets: Vec<&str> = all.iter().map(|measured| measured.set).collect();
    let groups: Vec<Group> = (0..all[0].outcomes.len()).filter_map(|race| group_of(all, race)).collect();
    let title = "Time of the proved library as a multiple of plain Rust's or C's (below 1: quicker)";
    draw(title, &sets, &groups, &Scale::powers(&groups))
}

/// Every set has the same races in the same order.
fn group_of(all: &[Measured], race: usize) -> Option<Group> {
    let ratios: Option<Vec<f64>> = all.iter().map(|set| set.outcomes[race].ratio(Runner::Plain)).collect();
    Some(Group { what: all[0].outcomes[race].what.into(), ratios: ratios? })
}
