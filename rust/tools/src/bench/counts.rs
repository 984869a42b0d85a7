//! The counts of a table made afresh, and the updates that keep them, against one check of good order of the same
//! table, at few routes and at the most.

use super::race::{Race, Runner};
use super::subject::{some_of, Subject};
use super::table::Table;
use super::updates::{lane, Part, Turn, Updated};
use maftehon::calls;
use workload::{list_of, Held};

/// Quick operations are repeated within a turn.
const REPEATED: usize = 10;

pub fn races<'a>(subject: &Subject) -> Vec<Race<'a>> {
    let (few, most) = (some_of(&subject.held, 256), &subject.held);
    vec![
        made("counts made afresh, at 256 routes", &few),
        update("announce at 256 routes", &few, Part::Announcements),
        update("withdraw at 256 routes", &few, Part::Withdrawals),
        made("counts made afresh, at 4,096 routes", most),
        update("announce at 4,096 routes", most, Part::Announcements),
        update("withdraw at 4,096 routes", most, Part::Withdrawals),
    ]
}

fn made<'a>(what: &'static str, held: &Held) -> Race<'a> {
    let mut table = Table::of(&list_of(held));
    let race = checked(Race::new(what), &table);
    race.runner(Runner::Proved, REPEATED, move |_| table.count())
}

fn update<'a>(what: &'static str, held: &Held, part: Part) -> Race<'a> {
    let race = checked(Race::new(what), &Table::of(&list_of(held)));
    lane::<Table>(race, Runner::Proved, &Turn::of(held), part)
}

/// The race with the check of this table in it.
fn checked<'a>(race: Race<'a>, table: &Table) -> Race<'a> {
    let (rows, n) = (table.rows.clone(), table.n);
    race.runner(Runner::CheckOfCounted, REPEATED, move |_| calls::table_check(&rows, n))
}
