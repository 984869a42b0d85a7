//! Prefixes and routes as text: what is printed is read back, and nothing else is read but for spaces.

use maftehon::{ParseError, Place, Prefix, Refusal, Route};
use std::fmt::{Debug, Display};
use std::str::FromStr;
use workload::{Kind, Random};

const LONG_PREFIX: ParseError = ParseError::Refused(Refusal::LongPrefix(Place::Whole));
const SPARE_BITS: ParseError = ParseError::Refused(Refusal::SpareBits(Place::Whole));
const WRONG_PORT: ParseError = ParseError::Refused(Refusal::WrongPort(Place::Whole));

/// Texts that are no prefix, and no route either with a port after them.
const NO_PREFIX: [(&str, ParseError); 28] = [
    ("", ParseError::NoSlash),
    ("   ", ParseError::NoSlash),
    ("10.20.1.0", ParseError::NoSlash),
    ("10.20.1.0 24", ParseError::NoSlash),
    ("10.20.1.0\\24", ParseError::NoSlash),
    ("/", ParseError::NotAnAddress),
    ("/24", ParseError::NotAnAddress),
    ("10.20.1/24", ParseError::NotAnAddress),
    ("10.20.1.0.0/24", ParseError::NotAnAddress),
    ("10.20.1.256/24", ParseError::NotAnAddress),
    ("10.20.01.0/24", ParseError::NotAnAddress),
    ("\t10.20.1.0/24", ParseError::NotAnAddress),
    ("bay/24", ParseError::NotAnAddress),
    ("::/24", ParseError::NotAnAddress),
    ("10.20.1.0/", ParseError::LengthNotANumber),
    ("10.20.1.0/ 24", ParseError::LengthNotANumber),
    ("10.20.1.0/+24", ParseError::LengthNotANumber),
    ("10.20.1.0/-24", ParseError::LengthNotANumber),
    ("10.20.1.0/024", ParseError::LengthNotANumber),
    ("10.20.1.0/24\n", ParseError::LengthNotANumber),
    ("10.20.1.0/24/24", ParseError::LengthNotANumber),
    ("10.20.1.0/255.255.255.0", ParseError::LengthNotANumber),
    ("10.20.1.0/33", LONG_PREFIX),
    ("10.20.1.0/256", LONG_PREFIX),
    ("10.20.1.0/4294967320", LONG_PREFIX),
    ("10.20.1.0/99999999999999999999", LONG_PREFIX),
    ("10.20.1.0/23", SPARE_BITS),
    ("0.0.0.1/0", SPARE_BITS),
];

/// Texts that are no route, though each begins with a prefix.
const NO_ROUTE: [(&str, ParseError); 14] = [
    ("10.20.1.0/24", ParseError::PortMissing),
    (" 10.20.1.0/24  ", ParseError::PortMissing),
    ("10.20.1.0/24 bay", ParseError::PortNotANumber),
    ("10.20.1.0/24 +101", ParseError::PortNotANumber),
    ("10.20.1.0/24 0101", ParseError::PortNotANumber),
    ("10.20.1.0/24 10 1", ParseError::PortNotANumber),
    ("10.20.1.0/24 101 # bay 1", ParseError::PortNotANumber),
    ("10.20.1.0/24 to port 101", ParseError::PortNotANumber),
    ("10.20.1.0/24 \t101", ParseError::PortNotANumber),
    ("10.20.1.0/24\t101", ParseError::LengthNotANumber),
    ("10.20.1.0/24 0", WRONG_PORT),
    ("10.20.1.0/24 4095", WRONG_PORT),
    ("10.20.1.0/24 65637", WRONG_PORT),
    ("10.20.1.0/24 99999999999999999999", WRONG_PORT),
];

/// Routes of every shape, with each prefix length and with ports small and large.
fn many_routes() -> impl Iterator<Item = Route> {
    let sets = Kind::ALL.into_iter().enumerate().map(|(seed, kind)| kind.routes(&mut Random::new(seed as u64), 2000));
    sets.flatten().map(|((value, length), port)| {
        Route::new(value.into(), length as u8, port as u16).expect("the sets have valid routes")
    })
}

/// The text without the spaces that may stand around it, and with one where several may.
fn with_single_spaces(text: &str) -> String {
    text.split(' ').filter(|word| !word.is_empty()).collect::<Vec<_>>().join(" ")
}

/// The text with one character put in, taken out or made another.
fn damaged(text: &str, random: &mut Random) -> String {
    let mut characters: Vec<char> = text.chars().collect();
    let (at, other) = (random.index(characters.len()), random.pick(&['0', '1', '9', '.', '/', ' ', '+', '\t', '#']));
    match random.below(3) {
        0 => characters.insert(at, other),
        1 => drop(characters.remove(at)),
        _ => characters[at] = other,
    }
    characters.into_iter().collect()
}

/// Where the text is read at all, what is read is printed as it.
fn assert_read_as_printed<T: FromStr<Err = ParseError> + Display>(text: &str) -> Result<(), ParseError> {
    let read: T = text.parse()?;
    assert_eq!(read.to_string(), with_single_spaces(text), "from {text:?}");
    Ok(())
}

fn assert_refused<T: FromStr<Err = ParseError> + Debug>(text: &str, error: ParseError) {
    assert_eq!(text.parse::<T>().expect_err(text), error, "{text:?}");
}

#[test]
fn what_is_printed_is_read_back() {
    for route in many_routes() {
        assert_eq!(route.to_string().parse(), Ok(route));
        assert_eq!(route.prefix().to_string().parse(), Ok(route.prefix()));
    }
}

#[test]
fn what_is_read_is_what_is_printed() {
    for text in ["0.0.0.0/0", "10.20.1.0/24", "128.0.0.0/1", "255.255.255.255/32"] {
        assert_eq!(assert_read_as_printed::<Prefix>(text), Ok(()));
        for port in 1..=4094 {
            assert_eq!(assert_read_as_printed::<Route>(&format!("{text} {port}")), Ok(()));
        }
    }
}

#[test]
fn spaces_around_and_before_the_port_change_nothing() {
    let route: Route = "10.20.1.0/24 101".parse().expect("a route");
    for text in ["  10.20.1.0/24 101", "10.20.1.0/24 101 ", "10.20.1.0/24     101", " 10.20.1.0/24  101  "] {
        assert_eq!(text.parse(), Ok(route), "{text:?}");
    }
    for text in [" 10.20.1.0/24", "10.20.1.0/24  ", "  10.20.1.0/24 "] {
        assert_eq!(text.parse(), Ok(route.prefix()), "{text:?}");
    }
}

#[test]
fn a_damaged_text_is_refused_or_is_another_route() {
    let mut read = 0;
    for (seed, route) in many_routes().enumerate() {
        let random = &mut Random::new(seed as u64);
        let text = damaged(&route.to_string(), random);
        read += usize::from(assert_read_as_printed::<Route>(&text).is_ok());
        let _ = assert_read_as_printed::<Prefix>(&damaged(&route.prefix().to_string(), random));
    }
    assert!(read > 100, "only {read} damaged texts were read");
}

#[test]
fn a_wrong_text_is_refused_for_what_is_wrong() {
    for (text, error) in NO_PREFIX {
        assert_refused::<Prefix>(text, error);
        assert_refused::<Route>(text, error);
        assert_refused::<Route>(&format!("{text} 101"), error);
    }
    for (text, error) in NO_ROUTE {
        assert_refused::<Route>(text, error);
    }
}

#[test]
fn a_space_within_a_prefix_ends_it() {
    assert_refused::<Prefix>("10.20.1.0 /24", ParseError::NotAnAddress);
    assert_refused::<Route>("10.20.1.0 /24 101", ParseError::NoSlash);
    assert_refused::<Route>("10.20.1.0/ 24 101", ParseError::LengthNotANumber);
}

#[test]
fn a_wrong_prefix_is_told_before_a_wrong_port() {
    assert_refused::<Route>("10.20.1.0/33 bay", LONG_PREFIX);
    assert_refused::<Route>("10.20.1.0/23 0", SPARE_BITS);
    assert_refused::<Route>("bay 1", ParseError::NoSlash);
}

#[test]
fn every_error_says_what_is_wrong() {
    let text = |text: &str| text.parse::<Route>().expect_err("no route").to_string();
    assert_eq!(text("bay"), "there is no / between an address and a length");
    assert_eq!(text("bay/24 101"), "what stands before the / is no address");
    assert_eq!(text("10.20.1.0/x 101"), "what follows the / is no number");
    assert_eq!(text("10.20.1.0/24"), "there is no port after the prefix");
    assert_eq!(text("10.20.1.0/24 bay"), "what follows the prefix is no number");
    assert_eq!(text("10.20.1.0/24 4095"), "the port is outside 1 to 4094 (refusal 6)");
}
