//! Sixteen announcements, up to all the routes of a set, and as many withdrawals from there. The plain trie has no
//! counts to keep.

use super::race::{timed, Race, Runner};
use super::subject::Subject;
use super::table::Table;
use crate::plain_trie::PlainTrie;
use std::time::Duration;
use workload::{list_of, Held};

/// Updates of a turn: so many routes go in and come out again.
const UPDATES: usize = 16;

pub type Route = ((u32, u32), u32);

/// What takes updates.
pub trait Updated {
    /// With room for 4,096 routes.
    fn of(list: &[u32]) -> Self;
    fn announce(&mut self, route: &Route);
    fn withdraw(&mut self, route: &Route);
}

struct ReferenceTable(Table);

impl Updated for ReferenceTable {
    fn of(list: &[u32]) -> ReferenceTable {
        ReferenceTable(Table::of(list))
    }

    fn announce(&mut self, ((value, length), port): &Route) {
        let Table { rows, n, counts } = &mut self.0;
        *n = reference::counted_announce(rows, *n, *value, *length, *port, counts).answer[1];
    }

    fn withdraw(&mut self, ((value, length), _): &Route) {
        let Table { rows, n, counts } = &mut self.0;
        *n = reference::counted_withdraw(rows, *n, *value, *length, counts).answer[1];
    }
}

impl Updated for PlainTrie {
    fn of(list: &[u32]) -> PlainTrie {
        PlainTrie::build(list)
    }

    fn announce(&mut self, ((value, length), port): &Route) {
        self.insert(*value, *length, *port);
    }

    fn withdraw(&mut self, ((value, length), _): &Route) {
        self.remove(*value, *length);
    }
}

/// Of the two parts of a turn, the one that counts.
#[derive(Clone, Copy)]
pub enum Part {
    Announcements,
    Withdrawals,
}

/// The routes that go in and come out again, from all over a set, and the list of the others.
pub struct Turn {
    moving: Vec<Route>,
    staying: Vec<u32>,
}

impl Turn {
    pub fn of(held: &Held) -> Turn {
        let step = held.len() / UPDATES;
        let moving: Held = held.iter().step_by(step).map(|(prefix, port)| (*prefix, *port)).collect();
        let staying = held.iter().filter(|(prefix, _)| !moving.contains_key(prefix));
        let staying = list_of(&staying.map(|(prefix, port)| (*prefix, *port)).collect());
        Turn { moving: moving.into_iter().collect(), staying }
    }
}

pub fn races<'a>(subject: &Subject) -> Vec<Race<'a>> {
    let turn = Turn::of(&subject.held);
    vec![
        race("announce at 4,096 routes", &turn, Part::Announcements),
        race("withdraw at 4,096 routes", &turn, Part::Withdrawals),
    ]
}

fn race<'a>(what: &'static str, turn: &Turn, part: Part) -> Race<'a> {
    let race = lane::<Table>(Race::new(what), Runner::Proved, turn, part);
    let race = lane::<PlainTrie>(race, Runner::Plain, turn, part);
    lane::<ReferenceTable>(race, Runner::Reference, turn, part)
}

/// The race with a runner in it that is timed in this part of the turn.
pub fn lane<'a, U: Updated + 'a>(race: Race<'a>, runner: Runner, turn: &Turn, part: Part) -> Race<'a> {
    let (mut table, moving) = (U::of(&turn.staying), turn.moving.clone());
    race.timed_runner(runner, moving.len(), move || {
        // Once untimed, as every other runner.
        in_and_out(&mut table, &moving);
        let [announcing, withdrawing] = in_and_out(&mut table, &moving);
        match part {
            Part::Announcements => announcing,
            Part::Withdrawals => withdrawing,
        }
    })
}

/// The time of the announcements, and that of the withdrawals.
fn in_and_out(table: &mut impl Updated, moving: &[Route]) -> [Duration; 2] {
    let announcing = timed(|| moving.iter().for_each(|route| table.announce(route)));
    let withdrawing = timed(|| moving.iter().for_each(|route| table.withdraw(route)));
    [announcing, withdrawing]
}
