//! The proved library meets every published refusal, each where the rules have it.

use compare::{first_seed, scenarios, Checker, PROVED, REFERENCE};
use workload::Random;

/// A checker that has made the calls of every scenario on a row of seeds.
fn after_all_scenarios() -> Checker<'static> {
    let mut checker = Checker::new(&PROVED, &REFERENCE);
    for seed in (0..60).map(|number| first_seed().wrapping_add(number)) {
        for (name, scenario) in scenarios::ALL {
            scenario(&mut checker, &mut Random::new(seed), 12)
                .unwrap_or_else(|difference| panic!("seed {seed}, {name}: {difference}"));
        }
    }
    checker
}

#[test]
fn every_refusal_from_1_to_12_and_14_are_met_and_13_is_not() {
    let mut checker = after_all_scenarios();
    checker.list_check(&workload::full_length_list(4097)).expect("no difference");
    for number in 0..=14 {
        assert_eq!(checker.tally.of_number(number) > 0, number != 13, "{number} in\n{}", checker.tally);
    }
}

#[test]
fn lists_and_updates_are_refused_5_and_files_and_messages_never() {
    let tally = after_all_scenarios().tally;
    for call in ["file_read", "counted_message"] {
        assert_eq!(tally.of_call(call, 5), 0, "{call} in\n{tally}");
    }
    let of_lists = [
        "file_write",
        "list_check",
        "list_scan",
        "list_runs",
        "table_build",
        "image_build",
        "segments_build",
        "message_write",
    ];
    let of_updates = ["counted_announce", "counted_withdraw"];
    for call in of_lists.iter().chain(&of_updates) {
        assert!(tally.of_call(call, 5) > 0, "5 was not met by {call} in\n{tally}");
    }
}

#[test]
fn segment_tables_many_lookups_messages_and_counts_are_refused_as_the_rules_say_and_with_no_other_number() {
    let tally = after_all_scenarios().tally;
    // 8 takes more routes than these scenarios have.
    for (call, numbers) in [
        ("segments_build", &[0, 3, 4, 5, 6, 7, 9][..]),
        ("segments_lookup", &[0, 11]),
        ("segments_entries", &[0]),
        ("image_lookup_many", &[0, 9, 12]),
        ("segments_lookup_many", &[0, 9]),
        ("message_write", &[0, 3, 4, 5, 6, 7, 9]),
        ("counts_make", &[0, 9, 11]),
        ("counted_announce", &[0, 4, 5, 6, 9, 11]),
        ("counted_withdraw", &[0, 4, 5, 9, 10, 11]),
        ("counted_message", &[0, 4, 6, 9, 11, 14]),
    ] {
        for number in 0..=14 {
            assert_eq!(tally.of_call(call, number) > 0, numbers.contains(&number), "{call}, {number} in\n{tally}");
        }
    }
}
