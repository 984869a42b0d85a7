//! `mft runs`: the page of the program `runs`, for every file that it shows, and the listing of larger ones.

use crate::support::{any_list, example, example_bytes, file_of, file_of_many, mft, mft_reading, seeds, GOOD};
use reference::{file_read, list_runs, runs_text};
use std::net::Ipv4Addr;
use workload::{damage_file, set_spare_bits, Random};

/// The listing of a valid list of any size, by the reference.
fn listing(list: &[u32]) -> String {
    let mut words = vec![0; 3 * (2 * list.len() / 3 + 1)];
    let count = list_runs(list, &mut words).answer[1];
    let mut text = format!("runs {count}\n");
    for run in words[..3 * count as usize].chunks(3) {
        text += &format!("{} {} {}\n", Ipv4Addr::from(run[0]), Ipv4Addr::from(run[1]), run[2]);
    }
    text
}

#[test]
fn the_stored_pages_are_printed_byte_for_byte() {
    for name in GOOD {
        let page = mft(&["runs", &example(&format!("{name}.routes"))]);
        assert_eq!(page.done().into_bytes(), example_bytes(&format!("{name}.runs")), "{name}");
    }
}

#[test]
fn every_file_that_the_program_shows_has_its_page_and_every_refused_one_its_number() {
    let (mut shown, mut refused, mut larger) = (0, 0, 0);
    for seed in seeds(1500) {
        let mut random = Random::new(seed);
        let mut file = file_of(&any_list(&mut random));
        match random.below(4) {
            0 => damage_file(&mut file, &mut random),
            1 => set_spare_bits(&mut file, &mut random),
            _ => {}
        }
        let ran = mft_reading(&file, &["runs", "-"]);
        let mut list = vec![0; 3 * 4096];
        let read = file_read(&file, &mut list);
        if read.number != 0 {
            refused += 1;
            let number = format!("(refusal {})", read.number);
            assert!(ran.refused().contains(&number), "MAFTEHON_SEED={seed}: {}", ran.errors);
            continue;
        }
        list.truncate(3 * read.answer[1] as usize);
        let page = String::from_utf8(runs_text(&file)).expect("the page is text");
        if page.starts_with("runs ") {
            shown += 1;
            assert_eq!(ran.done(), page, "MAFTEHON_SEED={seed}");
        } else {
            larger += 1;
            assert_eq!((ran.done(), page.as_str()), (listing(&list), "refused 9 0\n"), "MAFTEHON_SEED={seed}");
        }
    }
    assert!(shown > 500 && refused > 100 && larger > 50, "{shown} shown, {refused} refused, {larger} larger");
}

#[test]
fn a_file_of_4096_routes_is_listed() {
    let text = mft_reading(&file_of_many(4096), &["runs", "-"]).done();
    assert_eq!(text, "runs 3\n0.0.0.0 9.255.255.255 0\n10.0.0.0 10.0.15.255 7\n10.0.16.0 255.255.255.255 0\n");
}
