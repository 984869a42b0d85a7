//! A route file that the library has refused.

use super::around::around;
use super::written::{routes_of, Written};
use super::Explanation;
use crate::failure::Failure;
use crate::figures::{bytes, grouped};
use crate::input::Source;
use maftehon::{Refusal, Route, ROUTES_LAST};
use std::cmp::Ordering;
use std::ops::Range;

/// Where the version and the stated size stand in a file, and the bytes before its routes.
const VERSION: Range<usize> = 0..1;
const SIZE: Range<usize> = 1..5;
const HEAD_BYTES: usize = 5;

/// The failure that says why a file was refused.
pub fn file(source: &Source, refusal: Refusal) -> Failure {
    let file = &source.bytes[..];
    let explanation = match (refusal, refused_route(file, refusal.place())) {
        (Refusal::ShortFile, _) => short(source),
        (Refusal::WrongVersion, _) => version(source),
        (_, Some((before, route))) => of_route(source, refusal, before, route),
        (Refusal::WrongSize(_), None) => size(source),
        // Routes begin at every place that a file is refused at. Were it otherwise, the refusal's own text would do.
        (_, None) => whole(source, refusal.to_string(), 0..0, "See what the rules say under Refusals.".into()),
    };
    explanation.failure(refusal)
}

/// The route that begins at the place, and the one before it.
fn refused_route(file: &[u8], place: u32) -> Option<(Option<Written<'_>>, Written<'_>)> {
    let mut before = None;
    for route in routes_of(file) {
        if route.at == place as usize {
            return Some((before, route));
        }
        before = Some(route);
    }
    None
}

fn short(source: &Source) -> Explanation {
    let file = &source.bytes;
    let wrong = format!("there are {}, and every route file begins with {HEAD_BYTES}", bytes(file.len()));
    let advice = text_advice(file).unwrap_or_else(|| {
        "Fetch the file again: it is empty or cut off. A list of no routes is a file of five bytes.".into()
    });
    whole(source, wrong, 0..file.len(), advice)
}

fn version(source: &Source) -> Explanation {
    let file = &source.bytes;
    let found = file.first().copied().unwrap_or_default();
    let wrong = format!("this is no route file of version 1: its first byte is {found}");
    let advice =
        text_advice(file).unwrap_or_else(|| "See that it is a route file at all, and one of version 1.".into());
    whole(source, wrong, VERSION, advice)
}

/// The advice for a text where a route file should be.
fn text_advice(file: &[u8]) -> Option<String> {
    let is_text = |byte: &u8| !byte.is_ascii_control() || byte.is_ascii_whitespace();
    let looks_like_text = !file.is_empty() && file.iter().all(is_text);
    looks_like_text
        .then(|| "It looks like text. `mft compile` makes a route file of routes that are written as text.".into())
}

fn size(source: &Source) -> Explanation {
    let file = &source.bytes;
    let stated = file.get(SIZE).map_or(0, |size| size.iter().fold(0, |size, byte| size << 8 | u64::from(*byte)));
    let present = (file.len() - HEAD_BYTES.min(file.len())) as u64;
    let wrong = format!("it states that {} bytes follow its first five, and {} do", grouped(stated), grouped(present));
    let advice = match stated.cmp(&present) {
        Ordering::Greater => "It may be cut off. Fetch it again, as bytes and not as text.",
        _ => "Fetch it again, as bytes and not as text: something may have been added to it.",
    };
    whole(source, wrong, SIZE, advice.into())
}

fn whole(source: &Source, wrong: String, marked: Range<usize>, advice: String) -> Explanation {
    let details = vec![("bytes".into(), around(&source.bytes, marked))];
    Explanation { subject: source.name.clone(), wrong, details, advice }
}

fn of_route(source: &Source, refusal: Refusal, before: Option<Written>, route: Written) -> Explanation {
    let (wrong, advice) = wrong_with(refusal, before, route);
    // What stands before a route is shown where the two are compared.
    let before = before.filter(|_| matches!(refusal, Refusal::NotAbove(_)));
    let mut details: Vec<(String, String)> = before.into_iter().chain([route]).map(label_and_route).collect();
    details.push(("bytes".into(), around(&source.bytes, route.place())));
    let wrong = format!("route {}, at byte {}, {wrong}", grouped(route.number as u64), route.at);
    Explanation { subject: source.name.clone(), wrong, details, advice: advice.into() }
}

fn label_and_route(route: Written) -> (String, String) {
    (format!("route {}", grouped(route.number as u64)), route.to_string())
}

/// What is wrong with a route, and what to do about it.
fn wrong_with(refusal: Refusal, before: Option<Written>, route: Written) -> (String, &'static str) {
    match refusal {
        Refusal::WrongSize(_) => {
            let (present, needed) = route.sizes();
            let wrong = format!("runs past the end of the file: it takes {}, and {present} are left", bytes(needed));
            (wrong, "Fetch the file again: it may be cut off. Else look at the length byte of that route.")
        }
        Refusal::LongPrefix(_) => (
            format!("has a prefix length of {}, and 32 is the longest", route.length()),
            "Correct the route. A byte before it may be lost: then fetch the file again.",
        ),
        Refusal::WrongPort(_) => {
            let port = route.port().unwrap_or_default();
            (format!("has port {port}, which is outside 1 to 4094"), "Give the route a writer's port.")
        }
        Refusal::NotAbove(_) => not_above(before, route),
        Refusal::TooManyRoutes(_) => (
            format!("is one more than the {} that a file may have", grouped(ROUTES_LAST as u64)),
            "Leave routes out, or join neighbours of one port.",
        ),
        // A refusal that no file meets today: its own text says it.
        other => (format!("is refused: {other}"), "See what the rules say under Refusals."),
    }
}

fn not_above(before: Option<Written>, route: Written) -> (String, &'static str) {
    let prefix = |route: Written| route.read_alone().map(Route::prefix);
    let same = before.is_some_and(|before| prefix(before) == prefix(route));
    if same {
        let advice = "Keep one route for each prefix. Write the file again from its text with `mft compile`.";
        ("has the prefix of the one before it".into(), advice)
    } else {
        let advice = "Routes stand by address, then by length. Write the file again from its text with `mft compile`.";
        ("is not above the one before it".into(), advice)
    }
}
