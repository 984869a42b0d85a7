//! The ratios to the trie as a bar chart, one bar a runner of the proved library.

use super::runner::Runner;
use super::Measured;
use crate::bench::bars::{draw, Group, Scale};

pub fn chart(all: &[Measured]) -> String {
    let group = |measured: &Measured| Group {
        what: format!("{}, {}", measured.set, measured.drawn),
        ratios: Runner::PROVED.map(|runner| measured.ratio(runner)).into(),
    };
    let groups: Vec<Group> = all.iter().map(group).collect();
    let title = "Time of 4,000,000 lookups in 4,096 routes as a multiple of a plain trie's (below 1: quicker)";
    draw(title, &Runner::PROVED.map(Runner::name), &groups, &Scale::quarters(&groups))
}
