//! A sample of what `exhaustive` goes through: next to every end of a run, and through the space.

use tools::exhaustive::{list_and_runs, sample_of, Structure};

#[test]
fn images_table_and_segment_tables_agree_with_the_run_listing_on_a_sample() {
    for kind in tools::KINDS {
        let (list, runs) = list_and_runs(kind);
        let sample = sample_of(&runs, 10_007);
        for structure in Structure::all_of(&list) {
            let difference = structure.difference_in_sample(&runs, &sample);
            assert_eq!(difference, None, "{}, {}", kind.name(), structure.name());
        }
    }
}
