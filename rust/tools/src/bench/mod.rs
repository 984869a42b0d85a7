//! Measurement: the proved library, plain Rust or C, and the reference on the same work, in turns, and medians of the
//! rounds.

pub(crate) mod bars;
mod chart;
mod counts;
mod lists;
mod lookups;
mod messages;
pub(crate) mod race;
pub(crate) mod report;
mod segments;
pub(crate) mod subject;
mod svg;
mod table;
mod updates;

pub use chart::chart;
pub use race::Outcome;
pub use report::report;

use subject::Subject;
use workload::Kind;

/// The outcomes of one set of routes.
pub struct Measured {
    pub set: &'static str,
    pub outcomes: Vec<Outcome>,
}

/// Runs every race on the set of this shape.
pub fn measure(kind: Kind, rounds: usize) -> Measured {
    let subject = Subject::of(crate::full_set(kind));
    let mut races = lookups::races(&subject);
    races.extend(lists::races(&subject));
    races.extend(updates::races(&subject));
    races.extend(segments::races(&subject));
    races.extend(messages::races(&subject));
    races.extend(counts::races(&subject));
    Measured { set: kind.name(), outcomes: race::run(races, rounds) }
}
