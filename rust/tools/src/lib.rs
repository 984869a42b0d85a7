//! What the tools `fuzz`, `exhaustive`, `bench` and `bulk` are made of.

pub mod bench;
pub mod bulk;
pub mod exhaustive;
pub mod plain_check;
pub mod plain_segments;
pub mod plain_trie;
pub mod plain_walk;
pub mod progress;
mod setting;

pub use setting::setting;

use workload::{Held, Kind, Random};

/// The shapes that are gone through and measured.
pub const KINDS: [Kind; 3] = [Kind::InternetLike, Kind::NestedChains, Kind::FullLength];

/// The set of 4,096 routes of a shape; always the same one.
pub fn full_set(kind: Kind) -> Held {
    kind.routes(&mut Random::new(kind as u64), maftehon::ROUTES_LAST)
}
