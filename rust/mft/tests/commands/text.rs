//! `mft text`, and the round trips with `mft compile`.

use crate::support::{any_list, example, file_of, mft, mft_reading, seeds};
use workload::{clear_spare_bits, set_spare_bits, Random};

#[test]
fn the_routes_are_printed_in_columns() {
    assert_eq!(mft(&["text", &example("floor.routes")]).done(), "10.0.0.0/8   7\n10.1.0.0/16  9\n10.1.2.0/24  7\n");
    assert_eq!(mft(&["text", &example("empty.routes")]).done(), "");
}

#[test]
fn a_file_is_what_its_text_makes_and_the_text_what_its_file_prints() {
    for seed in seeds(150) {
        let mut random = Random::new(seed);
        let mut file = file_of(&any_list(&mut random));
        set_spare_bits(&mut file, &mut random);
        let text = mft_reading(&file, &["text", "-"]).done();
        let again = mft_reading(text.as_bytes(), &["compile", "-", "-o", "-"]).output;
        assert_eq!(mft_reading(&again, &["text", "-"]).done(), text, "MAFTEHON_SEED={seed}");
        clear_spare_bits(&mut file);
        assert_eq!(again, file, "MAFTEHON_SEED={seed}");
    }
}
