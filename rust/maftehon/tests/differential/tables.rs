//! Building, checking, looking up, saving, listing and counting tables.

use compare::{on_seeds, scenarios};

#[test]
fn small_tables_are_built_looked_up_saved_and_listed_alike() {
    on_seeds(4000, |checker, random| scenarios::valid_tables(checker, random, 30));
}

#[test]
fn tables_of_4096_routes_are_built_looked_up_saved_and_listed_alike() {
    on_seeds(30, |checker, random| scenarios::valid_tables(checker, random, 4096));
}

#[test]
fn damaged_tables_are_treated_alike_by_every_call() {
    on_seeds(15_000, |checker, random| scenarios::damaged_tables(checker, random, 10));
    on_seeds(1000, |checker, random| scenarios::damaged_tables(checker, random, 100));
}

#[test]
fn large_damaged_tables_are_treated_alike() {
    on_seeds(30, |checker, random| scenarios::damaged_tables(checker, random, 4096));
}

#[test]
fn wrong_arguments_are_refused_alike() {
    on_seeds(8000, |checker, random| scenarios::wrong_arguments(checker, random, 10));
}

#[test]
fn more_rows_than_4096_are_no_more_capacity() {
    on_seeds(1, |checker, _| {
        let (built, mut rows) = checker.table_build(&workload::full_length_list(4096), 5 * 4100)?;
        let n = built.answer[1];
        assert_eq!(n, 4096);
        let mut counts = checker.counts_of(&rows, n)?;
        assert_eq!(checker.counted_announce(&mut rows, n, [5000, 32, 1], &mut counts)?.number, 9);
        assert_eq!(checker.counted_announce(&mut rows, n, [4095, 32, 2], &mut counts)?.number, 0);
        assert_eq!(checker.table_check(&rows, 4097)?.number, 11);
        Ok(())
    });
}
