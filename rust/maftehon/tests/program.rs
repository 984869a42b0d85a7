//! The program `runs` itself, as the proofs built it last, prints the page that the reference says.

use compare::first_seed;
use reference::{file_write, runs_text};
use std::io::Write;
use std::process::{Command, Stdio};
use workload::{damage_file, full_length_list, list_of, set_spare_bits, Kind, Random};

const PROGRAM: &str = concat!(env!("CARGO_MANIFEST_DIR"), "/../../scripts/program");
/// The most bytes of a file that the program shows.
const MOST_BYTES: usize = 1797;

/// What the program prints for these bytes of standard input.
fn printed(input: &[u8]) -> Vec<u8> {
    let piped = Command::new(PROGRAM).stdin(Stdio::piped()).stdout(Stdio::piped()).stderr(Stdio::piped()).spawn();
    let mut program = piped.expect("the script that starts the program is there");
    // A pipe holds more than any input here, so that the program need not read all of it.
    program.stdin.take().expect("it is piped").write_all(input).expect("the program's input can be written");
    let output = program.wait_with_output().expect("the program ends");
    assert!(output.status.success(), "{}: {}", output.status, String::from_utf8_lossy(&output.stderr));
    output.stdout
}

fn assert_page_is_the_references(input: &[u8], what: &str) {
    let [page, expected] = [printed(input), runs_text(input)].map(|page| String::from_utf8_lossy(&page).into_owned());
    assert_eq!(page, expected, "{what}: {input:02X?}");
}

/// The file of a valid list.
fn file_of(list: &[u32]) -> Vec<u8> {
    let mut file = vec![0; 5 + 7 * list.len()];
    let written = file_write(list, &mut file);
    assert_eq!(written.number, 0);
    file.truncate(written.answer[1] as usize);
    file
}

/// A file of some routes of any shape, now and then with about as many as a page shows.
fn any_file(random: &mut Random) -> Vec<u8> {
    let kind = random.pick(&Kind::ALL);
    let count = match random.below(8) {
        0 => 250 + random.index(12),
        1 => random.index(250),
        _ => random.index(12),
    };
    file_of(&list_of(&kind.routes(random, count)))
}

#[test]
fn damaged_files_have_the_page_of_the_reference() {
    for seed in (0..400).map(|number| first_seed().wrapping_add(number)) {
        let mut random = Random::new(seed);
        let mut file = any_file(&mut random);
        (0..=random.below(2)).for_each(|_| damage_file(&mut file, &mut random));
        assert_page_is_the_references(&file, &format!("MAFTEHON_SEED={seed}"));
    }
}

#[test]
fn whole_files_have_the_page_of_the_reference() {
    for seed in (0..100).map(|number| first_seed().wrapping_add(number)) {
        assert_page_is_the_references(&any_file(&mut Random::new(seed)), &format!("MAFTEHON_SEED={seed}"));
    }
}

#[test]
fn files_with_spare_bits_have_the_page_of_the_reference() {
    for seed in (0..100).map(|number| first_seed().wrapping_add(number)) {
        let mut random = Random::new(seed);
        let mut file = any_file(&mut random);
        set_spare_bits(&mut file, &mut random);
        assert_page_is_the_references(&file, &format!("MAFTEHON_SEED={seed}"));
    }
}

#[test]
fn the_last_byte_of_the_longest_file_decides() {
    let mut file = file_of(&full_length_list(256));
    assert_eq!(file.len(), MOST_BYTES);
    assert_eq!(printed(&file), b"runs 2\n0.0.0.0 0.0.0.255 1\n0.0.1.0 255.255.255.255 0\n");
    file.push(0);
    assert_eq!(printed(&file), b"refused 9 0\n");
    assert_eq!(printed(&[0; MOST_BYTES]), b"refused 2 0\n");
    assert_eq!(printed(&[0; 2 * MOST_BYTES]), b"refused 9 0\n");
}
