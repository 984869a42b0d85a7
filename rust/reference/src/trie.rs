//! The trie that the rule defines for a set of routes: rules, "The table", first paragraph.

use crate::prefix::{bit, Prefix, Route};
use std::cmp::Reverse;
use std::collections::BTreeMap;

/// The route that each place holds. A place is its path, written as a prefix: d bits are depth d.
pub(crate) type Trie = BTreeMap<Prefix, Route>;

/// The trie of these routes, whose prefixes are different.
pub(crate) fn trie_of(routes: Vec<Route>) -> Trie {
    let mut trie = Trie::new();
    fill(Prefix::WHOLE, routes, &mut trie);
    trie
}

/// "Take a path p of d bits and the set S of routes whose prefix begins with p and that are not placed above."
fn fill(path: Prefix, set: Vec<Route>, trie: &mut Trie) {
    let Some(held) = held_of(path, &set) else { return };
    trie.insert(path, held);
    // At 32 bits the set has one route at most, so nothing is left to split.
    let Some([left, right]) = path.halves() else { return };
    let rest = set.into_iter().filter(|route| route.prefix != held.prefix);
    let (ones, zeros) = rest.partition(|route| bit(route.prefix.value(), path.length()) == 1);
    fill(left, zeros, trie);
    fill(right, ones, trie);
}

/// The prefix p itself if it is in S; otherwise the longest route of S, at equal length the smallest value.
fn held_of(path: Prefix, set: &[Route]) -> Option<Route> {
    let ordinary = set.iter().find(|route| route.prefix == path);
    let priority = || set.iter().max_by_key(|route| (route.prefix.length(), Reverse(route.prefix.value())));
    ordinary.or_else(priority).copied()
}

/// Adds one route with a new prefix, and gives the place that is new.
///
/// Each place holds the first choice of its set, so with one route more it holds the first choice of its holder and
/// that route; the other of the two belongs to the rest and goes on down.
pub(crate) fn add(trie: &mut Trie, route: Route) -> Prefix {
    let mut path = Prefix::WHOLE;
    let mut carried = route;
    while let Some(holder) = trie.get_mut(&path) {
        if held_of(path, &[*holder, carried]) == Some(carried) {
            std::mem::swap(holder, &mut carried);
        }
        let side = bit(carried.prefix.value(), path.length());
        path = path.halves().expect("two different prefixes part before 32 bits")[side];
    }
    trie.insert(path, carried);
    path
}
