//! UPDATE messages against one check of good order of the same table, which every call on it makes first; and the
//! message that withdraws a list.

use super::race::{timed, Race, Runner};
use super::subject::{some_of, Subject};
use super::table::Table;
use super::updates::Updated;
use maftehon::calls;
use workload::{first_bits_of, list_of, Held, Message, Prefix, Random};

/// Routes of the table.
const ROUTES: usize = 3000;
/// As many prefixes of 24 bits as a message can have: 4,095 bytes with its head.
const PREFIXES: usize = 1018;
const PORT: u32 = 9;
/// Quick operations are repeated within a turn.
const REPEATED: usize = 10;

pub fn races(subject: &Subject) -> Vec<Race<'_>> {
    let before = some_of(&subject.held, ROUTES);
    let prefixes = new_prefixes(&before);
    let announcing = Message { announced: prefixes.clone(), ..Message::default() };
    let withdrawing = Message { withdrawn: prefixes.clone(), ..Message::default() };
    let after = announcing.applied_to(&before, PORT);
    vec![
        apply("message of 1,018 announced /24 at 3,000 routes", &before, announcing),
        apply("message that withdraws them again, at 4,018", &after, withdrawing),
        apply("message with nothing in it, at 3,000 routes", &before, Message::default()),
        write("message written that withdraws 1,018 /24", prefixes),
    ]
}

/// Prefixes of 24 bits that are not held, from all over the space, in no order.
fn new_prefixes(held: &Held) -> Vec<Prefix> {
    let mut random = Random::new(1);
    let mut prefixes = Vec::new();
    while prefixes.len() < PREFIXES {
        let prefix = (first_bits_of(random.word(), 24), 24);
        if !held.contains_key(&prefix) && !prefixes.contains(&prefix) {
            prefixes.push(prefix);
        }
    }
    prefixes
}

fn apply<'a>(what: &'static str, held: &Held, message: Message) -> Race<'a> {
    let (before, message) = (Table::of(&list_of(held)), message.bytes());
    let (checked, mut table) = (before.clone(), before.clone());
    // The table is as it was before each message.
    let mut applied = move || {
        table.become_like(&before);
        timed(|| table.apply(&message, PORT))
    };
    let turn = move || {
        // Once untimed, as every other runner.
        applied();
        (0..REPEATED).map(|_| applied()).sum()
    };
    Race::new(what)
        .timed_runner(Runner::Proved, REPEATED, turn)
        .runner(Runner::Check, REPEATED, move |_| calls::table_check(&checked.rows, checked.n))
}

fn write<'a>(what: &'static str, prefixes: Vec<Prefix>) -> Race<'a> {
    let list = list_of(&prefixes.into_iter().map(|prefix| (prefix, PORT)).collect());
    let other_list = list.clone();
    let (mut message, mut other_message) = ([0; 4096], [0; 4096]);
    Race::new(what).runner(Runner::Proved, REPEATED, move |_| calls::message_write(&list, &mut message)).runner(
        Runner::Reference,
        REPEATED,
        move |_| reference::message_write(&other_list, &mut other_message),
    )
}
