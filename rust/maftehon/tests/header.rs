//! What Rust calls by is what the C header declares: each function, parameter for parameter, and each refusal, by its
//! name and its number.

use maftehon::{Place, Refusal};
use std::collections::BTreeMap;

const HEADER: &str = include_str!("../../../include/maftehon.h");
const RATTLE_REFUSALS: &str = include_str!("../../../crates/refusals/src/lib.rt");
const REFERENCE_REFUSALS: &str = include_str!("../../reference/src/refusal.rs");
const SYS: &str = include_str!("../../maftehon-sys/src/lib.rs");

/// The parameters of each function, as Rust writes them.
type Declared = BTreeMap<String, Vec<String>>;
/// The number of each refusal, by its name in capitals.
type Numbers = BTreeMap<String, u32>;

/// What stands between the brackets after each name that follows `before`.
fn declared(text: &str, before: &str, parameter: fn(&str) -> String) -> Declared {
    let function = |piece: &str| {
        let (name, rest) = piece.split_once('(').expect("a bracket opens");
        let (inside, _) = rest.split_once(')').expect("a bracket closes");
        let parameters = inside.split(',').map(str::trim).filter(|text| !text.is_empty());
        (name.trim().to_string(), parameters.map(parameter).collect())
    };
    text.split(before).skip(1).map(function).collect()
}

/// `const uint32_t *rows` is `rows: *const u32`; `uint32_t answer[2]` is `answer: *mut u32`.
fn in_rust(c: &str) -> String {
    let (constant, c) = c.strip_prefix("const ").map_or((false, c), |rest| (true, rest));
    let (c_type, name) = c.split_once(' ').expect("a type and a name");
    let number = match c_type {
        "uint8_t" => "u8",
        "uint16_t" => "u16",
        "uint32_t" => "u32",
        "uint64_t" => "u64",
        "size_t" => "usize",
        _ => panic!("the header has no {c_type}"),
    };
    let bare = name.trim_start_matches('*').split('[').next().unwrap_or_default();
    match (name == bare, constant) {
        (true, _) => format!("{bare}: {number}"),
        (false, true) => format!("{bare}: *const {number}"),
        (false, false) => format!("{bare}: *mut {number}"),
    }
}

/// The number that follows each name: `before` NAME `between` NUMBER.
fn numbers(text: &str, before: &str, between: &str) -> Numbers {
    let number = |piece: &str| {
        let (name, rest) = piece.split_once(between)?;
        let digits = rest.split(|character: char| !character.is_ascii_digit()).next()?;
        Some((name.to_string(), digits.parse().ok()?))
    };
    text.split(before).skip(1).filter_map(number).collect()
}

fn numbers_of_the_header() -> Numbers {
    let (_, rest) = HEADER.split_once("enum {").expect("the header has an enum");
    let (inside, _) = rest.split_once('}').expect("a bracket closes");
    numbers(inside, "MFT_", " = ")
}

/// All of them but 0, which means done.
fn refusals_of_the_header() -> Numbers {
    numbers_of_the_header().into_iter().filter(|(_, number)| *number != 0).collect()
}

/// The constants of a file.
fn constants(text: &str) -> Numbers {
    numbers(text, "pub const ", ": u32 = ")
}

/// `ShortFile` is `SHORT_FILE`, and `WrongSize(Whole)` is `WRONG_SIZE`.
fn in_capitals(variant: &str) -> String {
    let name = variant.split('(').next().unwrap_or_default();
    let mut capitals = String::new();
    for letter in name.chars() {
        if letter.is_uppercase() && !capitals.is_empty() {
            capitals.push('_');
        }
        capitals.extend(letter.to_uppercase());
    }
    capitals
}

/// Rattle's refusals are an enum, without one for 0, and the number of each stands in a match.
fn rattle_refusals() -> Numbers {
    let arms = numbers(RATTLE_REFUSALS, "Fault::", " => ").into_iter();
    arms.map(|(fault, number)| (in_capitals(&fault), number)).collect()
}

#[test]
fn the_declarations_are_those_of_the_header() {
    let header = declared(HEADER, "uint32_t mft_", in_rust);
    let rust = declared(SYS, "pub fn mft_", str::to_string);
    assert_eq!(header.len(), 25);
    assert_eq!(rust, header);
    assert_eq!(SYS.matches("-> u32;").count(), rust.len());
}

#[test]
fn the_numbers_are_those_of_the_header_in_every_language() {
    let header = numbers_of_the_header();
    assert_eq!(header.len(), 14);
    assert_eq!(constants(SYS), header);
    assert_eq!(constants(REFERENCE_REFUSALS), header);
    assert_eq!(rattle_refusals(), refusals_of_the_header());
}

#[test]
fn every_refusal_has_its_name_and_number_in_the_header() {
    for (name, number) in refusals_of_the_header() {
        let refusal = Refusal::of(number, Place::Whole).unwrap_or_else(|| panic!("{name} is no refusal"));
        assert_eq!((in_capitals(&format!("{refusal:?}")), refusal.number()), (name, number));
    }
}

#[test]
fn a_number_that_the_header_does_not_have_is_no_refusal() {
    let last = numbers_of_the_header().into_values().max().expect("the header has numbers");
    for number in [0, last + 1, u32::MAX] {
        assert_eq!(Refusal::of(number, Place::Whole), None);
    }
}

#[test]
fn thirteen_stays_unused_in_every_language() {
    for numbers in [numbers_of_the_header(), constants(SYS), constants(REFERENCE_REFUSALS), rattle_refusals()] {
        assert!(!numbers.is_empty());
        assert!(numbers.values().all(|number| *number != 13), "{numbers:?}");
    }
    assert_eq!(Refusal::of(13, Place::Whole), None);
}
