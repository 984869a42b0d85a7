//! The counts of tables: made afresh, kept in step by every update, and refused.

use compare::{on_seeds, scenarios, Checker, Compared, PROVED};
use reference::Answer;
use workload::{full_length_list, list_of, Held, Kind, Message, Prefix, COUNTS};

/// All addresses.
const SPACE: u64 = 1 << 32;
/// What no table has: a word of its rows, and a count.
const ANY_WORD: u32 = 0xDEAD_BEEF;
const ANY_COUNT: u64 = 0xDEAD_BEEF_A5A5_A5A5;

const TEN_8: Prefix = (10 << 24, 8);
const TEN_ONE_16: Prefix = (0x0A01_0000, 16);
const NEW_32: Prefix = (1, 32);

#[test]
fn small_counts_are_made_and_kept_alike() {
    on_seeds(3000, |checker, random| scenarios::valid_counts(checker, random, 12));
    on_seeds(300, |checker, random| scenarios::valid_counts(checker, random, 200));
}

#[test]
fn counts_of_4096_routes_are_made_and_kept_alike() {
    on_seeds(12, |checker, random| scenarios::valid_counts(checker, random, 4096));
}

#[test]
fn damaged_counts_are_treated_alike() {
    on_seeds(4000, |checker, random| scenarios::damaged_counts(checker, random, 12));
    on_seeds(300, |checker, random| scenarios::damaged_counts(checker, random, 200));
    on_seeds(6, |checker, random| scenarios::damaged_counts(checker, random, 4096));
}

/// The rows of a set with room for so many routes.
fn rows_of(checker: &mut Checker, held: &Held, capacity: usize) -> Compared<(Vec<u32>, u32)> {
    let (built, mut rows) = checker.table_build(&list_of(held), 5 * held.len())?;
    rows.resize(5 * capacity, ANY_WORD);
    Ok((rows, built.answer[1]))
}

/// Counts by port, the others 0.
fn counts_with(nonzero: &[(usize, u64)]) -> Vec<u64> {
    let mut counts = vec![0; COUNTS];
    nonzero.iter().for_each(|(port, count)| counts[*port] = *count);
    counts
}

/// A set of routes, and its counts that are not 0.
fn examples() -> Vec<(Held, Vec<(usize, u64)>)> {
    let last = (u32::MAX, 32);
    vec![
        (Held::new(), vec![(0, SPACE)]),
        (Held::from([((0, 0), 1)]), vec![(1, SPACE)]),
        (Held::from([((0, 0), 4094)]), vec![(4094, SPACE)]),
        (Held::from([((0, 1), 5), ((1 << 31, 1), 5)]), vec![(5, SPACE)]),
        (Held::from([((10 << 24, 31), 5), ((10 << 24, 32), 6)]), vec![(0, SPACE - 2), (5, 1), (6, 1)]),
        (Held::from([((10 << 24, 31), 5), ((10 << 24 | 1, 32), 6)]), vec![(0, SPACE - 2), (5, 1), (6, 1)]),
        (Held::from([(last, 9)]), vec![(0, SPACE - 1), (9, 1)]),
        (Held::from([((0, 0), 4094), (last, 9), ((0, 32), 9)]), vec![(9, 2), (4094, SPACE - 2)]),
        (Held::from([(TEN_8, 7), (TEN_ONE_16, 8)]), vec![(0, SPACE - (1 << 24)), (7, 0xFF_0000), (8, 0x1_0000)]),
        (Held::from([(TEN_8, 7), (TEN_ONE_16, 7)]), vec![(0, SPACE - (1 << 24)), (7, 1 << 24)]),
    ]
}

#[test]
fn examples_are_counted() {
    on_seeds(1, |checker, _| {
        for (held, nonzero) in examples() {
            let (rows, n) = rows_of(checker, &held, held.len() + 1)?;
            assert!(checker.counts_of(&rows, n)? == counts_with(&nonzero), "{held:?}");
        }
        Ok(())
    });
}

#[test]
fn a_chain_of_every_length_halves_the_addresses_that_are_left() {
    on_seeds(3, |checker, random| {
        let address = random.word();
        let held = (0..=32).map(|length| ((workload::first_bits_of(address, length), length), length + 1)).collect();
        let (rows, n) = rows_of(checker, &held, 33)?;
        let halves: Vec<(usize, u64)> = (1..=32).map(|port| (port, SPACE >> port)).chain([(33, 1)]).collect();
        assert!(checker.counts_of(&rows, n)? == counts_with(&halves));
        Ok(())
    });
}

#[test]
fn full_tables_are_counted_alike_and_updated_with_their_counts() {
    on_seeds(1, |checker, random| {
        for kind in Kind::ALL {
            let held = kind.routes(random, 4096);
            let (mut rows, n) = rows_of(checker, &held, 4096)?;
            let mut counts = checker.counts_of(&rows, n)?;
            let some: Vec<Prefix> = held.keys().copied().step_by(1000).collect();
            for prefix in some {
                let withdrawn = checker.counted_withdraw(&mut rows, n, prefix, &mut counts)?;
                assert_eq!((withdrawn.number, withdrawn.answer), (0, [0, 4095]), "{}", kind.name());
                let route = [prefix.0, prefix.1, 4094];
                let announced = checker.counted_announce(&mut rows, 4095, route, &mut counts)?;
                assert_eq!((announced.number, announced.answer), (0, [0, 4096]), "{}", kind.name());
            }
            checker.counts_kept(&rows, n, &counts)?;
        }
        Ok(())
    });
}

/// A call that updates a table with its counts.
type Update = fn(&mut Checker, &mut [u32], u32, &mut [u64]) -> Compared<Answer<2>>;

fn withdrawing(prefix: Prefix) -> Vec<u8> {
    Message { withdrawn: vec![prefix], ..Message::default() }.bytes()
}

fn announcing(prefix: Prefix) -> Vec<u8> {
    Message { announced: vec![prefix], ..Message::default() }.bytes()
}

/// On a full table of 10.0.0.0/8 and 10.1.0.0/16 with its counts: the refusal of each, and 0 where it is done.
const UPDATES: [(Update, (u32, u32)); 13] = [
    (|checker, rows, n, counts| checker.counted_announce(rows, n, [10 << 24, 8, 9], counts), (0, 0)),
    (|checker, rows, n, counts| checker.counted_announce(rows, n, [10 << 24, 8, 7], counts), (0, 0)),
    (|checker, rows, n, counts| checker.counted_withdraw(rows, n, TEN_8, counts), (0, 0)),
    (|checker, rows, n, counts| checker.counted_message(&withdrawing(TEN_8), 9, rows, n, counts), (0, 0)),
    (|checker, rows, n, counts| checker.counted_message(&Message::default().bytes(), 9, rows, n, counts), (0, 0)),
    (|checker, rows, n, counts| checker.counted_announce(rows, n, [1, 33, 0], counts), (4, 0)),
    (|checker, rows, n, counts| checker.counted_announce(rows, n, [1, 31, 0], counts), (5, 0)),
    (|checker, rows, n, counts| checker.counted_announce(rows, n, [1, 32, 0], counts), (6, 0)),
    (|checker, rows, n, counts| checker.counted_withdraw(rows, n, (1, 31), counts), (5, 0)),
    (|checker, rows, n, counts| checker.counted_message(&[255; 23], 0, rows, n, counts), (14, 16)),
    (|checker, rows, n, counts| checker.counted_announce(rows, n, [1, 32, 9], counts), (9, 0)),
    (|checker, rows, n, counts| checker.counted_withdraw(rows, n, NEW_32, counts), (10, 0)),
    (|checker, rows, n, counts| checker.counted_message(&announcing(NEW_32), 9, rows, n, counts), (9, 0)),
];

fn full_table(checker: &mut Checker) -> Compared<(Vec<u32>, u32, Vec<u64>)> {
    let (rows, n) = rows_of(checker, &Held::from([(TEN_8, 7), (TEN_ONE_16, 8)]), 2)?;
    let counts = checker.counts_of(&rows, n)?;
    Ok((rows, n, counts))
}

/// Each update with these counts: refused as `expected` says of its refusal with the right counts, with n as it was and
/// nothing written.
fn assert_each_refused(
    checker: &mut Checker,
    (rows, n): (&[u32], u32),
    counts: &[u64],
    expected: fn((u32, u32)) -> (u32, u32),
) -> Compared<()> {
    for (update, refusal) in UPDATES {
        let (mut rows_left, mut counts_left) = (rows.to_vec(), counts.to_vec());
        let answer = update(checker, &mut rows_left, n, &mut counts_left)?;
        let (number, place) = expected(refusal);
        assert_eq!((answer.number, answer.answer), (number, [place, n]), "{refusal:?} with the right counts");
        assert!(rows_left == rows && counts_left == counts, "{refusal:?} with the right counts");
    }
    Ok(())
}

#[test]
fn every_update_is_done_or_refused_with_the_right_counts_as_without_them() {
    on_seeds(1, |checker, _| {
        let (rows, n, counts) = full_table(checker)?;
        for (update, (number, place)) in UPDATES {
            let answer = update(checker, &mut rows.clone(), n, &mut counts.clone())?;
            assert_eq!((answer.number, answer.answer[0]), (number, place));
        }
        Ok(())
    });
}

#[test]
fn fewer_than_4095_counts_are_refused_9_before_everything_else() {
    on_seeds(1, |checker, _| {
        let (rows, n, counts) = full_table(checker)?;
        for room in [0, 1, 4094] {
            // In good order, and not.
            for n in [n, n + 1, u32::MAX] {
                assert_each_refused(checker, (&rows, n), &counts[..room], |_| (9, 0))?;
                let made = checker.counts_make(&rows, n, &mut counts[..room].to_vec())?;
                assert_eq!((made.number, made.answer), (9, [0]));
            }
        }
        Ok(())
    });
}

/// With counts that are not the table's, or a table that is not in good order: the arguments' own refusal, else 11.
fn arguments_first(refusal: (u32, u32)) -> (u32, u32) {
    match refusal.0 {
        4 | 5 | 6 | 14 => refusal,
        _ => (11, 0),
    }
}

#[test]
fn counts_that_are_not_the_tables_are_refused_11_after_the_arguments_and_before_9_and_10() {
    on_seeds(1, |checker, _| {
        let (rows, n, counts) = full_table(checker)?;
        for port in [0, 1, 6, 7, 8, 9, 4093, 4094] {
            for wrong in [counts[port].wrapping_add(1), counts[port].wrapping_sub(1), counts[port] ^ 1 << 32] {
                let mut counts = counts.clone();
                counts[port] = wrong;
                assert_each_refused(checker, (&rows, n), &counts, arguments_first)?;
            }
        }
        // Those of no route, of one route less, two exchanged, and those of no table.
        let (fewer_rows, fewer) = rows_of(checker, &Held::from([(TEN_8, 7)]), 1)?;
        let one_less = checker.counts_of(&fewer_rows, fewer)?;
        let mut exchanged = counts;
        exchanged.swap(7, 8);
        for counts in [checker.counts_of(&[], 0)?, one_less, exchanged, vec![0; COUNTS], vec![ANY_COUNT; COUNTS]] {
            assert_each_refused(checker, (&rows, n), &counts, arguments_first)?;
        }
        Ok(())
    });
}

#[test]
fn any_one_count_that_is_off_by_one_is_refused_11() {
    on_seeds(1, |checker, _| {
        let (mut rows, n, mut counts) = full_table(checker)?;
        for port in 0..COUNTS {
            counts[port] = counts[port].wrapping_add(1);
            let answer = checker.counted_announce(&mut rows, n, [10 << 24, 8, 7], &mut counts)?;
            assert_eq!((answer.number, answer.answer), (11, [0, n]), "port {port}");
            counts[port] = counts[port].wrapping_sub(1);
        }
        Ok(())
    });
}

#[test]
fn tables_that_are_not_in_good_order_are_refused_11_with_any_counts() {
    on_seeds(1, |checker, _| {
        let (rows, n, counts) = full_table(checker)?;
        for (rows, n) in [(&rows[..], n + 1), (&rows, 1), (&rows, u32::MAX), (&rows[..9], n)] {
            assert_each_refused(checker, (rows, n), &counts, arguments_first)?;
            let made = checker.counts_make(rows, n, &mut counts.clone())?;
            assert_eq!((made.number, made.answer), (11, [0]));
        }
        Ok(())
    });
}

#[test]
fn what_stands_past_the_4095_counts_is_neither_read_nor_written() {
    on_seeds(1, |checker, _| {
        let (rows, n, counts) = full_table(checker)?;
        for past in [&[ANY_COUNT][..], &[0, 1, u64::MAX], &vec![ANY_COUNT; 5000]] {
            let mut made = [&vec![ANY_COUNT; COUNTS], past].concat();
            assert_eq!(checker.counts_make(&rows, n, &mut made)?.number, 0);
            assert!(made == [&counts, past].concat());
            for (update, (number, place)) in UPDATES {
                let mut lent = made.clone();
                let answer = update(checker, &mut rows.clone(), n, &mut lent)?;
                assert_eq!((answer.number, answer.answer[0]), (number, place));
                assert!(lent[COUNTS..] == *past);
            }
        }
        Ok(())
    });
}

#[test]
fn updates_that_move_no_address_change_no_count() {
    on_seeds(1, |checker, _| {
        // Both halves of 10.1.0.0/16 are held.
        let halves = [(0x0A01_0000, 17), (0x0A01_8000, 17)].map(|prefix| (prefix, 8));
        let (rows, n) = rows_of(checker, &[(TEN_8, 7)].into_iter().chain(halves).collect(), 4)?;
        let counts = checker.counts_of(&rows, n)?;
        // The same port again, and what the longer routes hide, or what is inside a route of its own port.
        for (route, after) in [([10 << 24, 8, 7], n), ([0x0A01_0000, 16, 9], n + 1), ([0x0A02_0000, 16, 7], n + 1)] {
            let (mut rows, mut left) = (rows.clone(), counts.clone());
            let answer = checker.counted_announce(&mut rows, n, route, &mut left)?;
            assert_eq!((answer.number, answer.answer), (0, [0, after]), "{route:?}");
            assert!(left == counts, "{route:?}");
            checker.counts_kept(&rows, after, &left)?;
        }
        for message in [Message::default().bytes(), withdrawing(NEW_32)] {
            let mut left = counts.clone();
            let answer = checker.counted_message(&message, 9, &mut rows.clone(), n, &mut left)?;
            assert_eq!((answer.number, answer.answer), (0, [0, n]), "{message:02X?}");
            assert!(left == counts, "{message:02X?}");
        }
        Ok(())
    });
}

#[test]
fn a_build_leaves_counts_that_are_refused_until_they_are_made_afresh() {
    on_seeds(1, |checker, _| {
        let (_, _, mut counts) = full_table(checker)?;
        let (mut rows, n) = rows_of(checker, &Held::from([(TEN_8, 9)]), 2)?;
        let refused = checker.counted_withdraw(&mut rows, n, TEN_8, &mut counts)?;
        assert_eq!((refused.number, refused.answer), (11, [0, n]));
        checker.counts_make(&rows, n, &mut counts)?;
        let done = checker.counted_withdraw(&mut rows, n, TEN_8, &mut counts)?;
        assert_eq!((done.number, done.answer, counts[0]), (0, [0, 0], SPACE));
        Ok(())
    });
}

/// The stack that the header says, in KB: of the call that makes counts, and of the updates.
const MAKE_STACK: usize = 160;
const UPDATE_STACK: usize = 190;
/// What a thread takes of its stack for itself, at most.
const THREAD_STACK: usize = 28;

const HEADER: &str = include_str!("../../../../include/maftehon.h");
const TABLE: &str = include_str!("../../src/table.rs");

#[test]
fn the_header_and_the_type_say_how_much_stack_the_calls_on_counts_take() {
    let said = format!("mft_counts_make takes some {MAKE_STACK} KB, and each of the updates some {UPDATE_STACK} KB.");
    assert!(HEADER.contains(&said), "{said}");
    let said = format!("To make a table takes some {MAKE_STACK} KB of stack, and to update it some {UPDATE_STACK} KB.");
    assert!(TABLE.contains(&said), "{said}");
}

/// Runs a call in a thread that has so much stack and little more. Where that is too little all the tests end, with the
/// name of the thread.
fn on_a_stack_of<T: Send + 'static>(kilobytes: usize, call: &str, run: impl FnOnce() -> T + Send + 'static) -> T {
    let name = format!("{call} on {kilobytes} KB of stack");
    let thread = std::thread::Builder::new().name(name).stack_size((kilobytes + THREAD_STACK) << 10);
    thread.spawn(run).expect("a thread can be had").join().expect("the call ends")
}

/// A full table, and memory for its counts.
fn table_of_4096() -> (Vec<u32>, Vec<u64>) {
    let mut rows = vec![0; 5 * 4096];
    assert_eq!((PROVED.table_build)(&full_length_list(4096), &mut rows).number, 0);
    (rows, vec![0; COUNTS])
}

#[test]
fn the_calls_on_counts_take_no_more_stack_than_the_header_says() {
    let (rows, mut counts) = table_of_4096();
    let (mut rows, mut counts) = on_a_stack_of(MAKE_STACK, "counts_make", move || {
        assert_eq!((PROVED.counts_make)(&rows, 4096, &mut counts).number, 0);
        (rows, counts)
    });
    let (mut rows, mut counts) = on_a_stack_of(UPDATE_STACK, "counted_withdraw", move || {
        let withdrawn = (PROVED.counted_withdraw)(&mut rows, 4096, 77, 32, &mut counts);
        assert_eq!((withdrawn.number, withdrawn.answer), (0, [0, 4095]));
        (rows, counts)
    });
    on_a_stack_of(UPDATE_STACK, "counted_announce", move || {
        let announced = (PROVED.counted_announce)(&mut rows, 4095, 77, 32, 9, &mut counts);
        assert_eq!((announced.number, announced.answer), (0, [0, 4096]));
    });
    // The longest message, on a table that has just room for it.
    let of_24_bits = (0..1018).map(|value| (value << 8, 24)).collect();
    let message = Message { announced: of_24_bits, ..Message::default() }.bytes();
    on_a_stack_of(UPDATE_STACK, "counted_message", move || {
        let (mut rows, mut counts) = (vec![0; 5 * 1018], counts_with(&[(0, SPACE)]));
        let applied = (PROVED.counted_message)(&message, 9, &mut rows, 0, &mut counts);
        assert_eq!((applied.number, applied.answer), (0, [0, 1018]));
    });
}
