//! Segment tables: lookups against the plain trie, a plain lookup in C with and without its checks, the image at stride 4
//! and the call alone, and many in one call against as many calls; and the build.

use super::lookups::{against_trie, in_one_call};
use super::race::{Race, Runner};
use super::subject::Subject;
use crate::plain_segments;
use maftehon::calls;
use maftehon::RouteList;
use workload::segments::{room_for, Stores};

pub fn races(subject: &Subject) -> Vec<Race<'_>> {
    vec![
        lookup(subject),
        lookup_in_c(subject),
        lookup_in_image(subject),
        call_alone(subject),
        lookup_many(subject),
        build(subject),
    ]
}

/// In one race with the trie also C that checks nothing, to tell what the checks take from what the call and the reads do.
fn lookup(subject: &Subject) -> Race<'_> {
    let Subject { segments: [first, packed, plain, last], addresses, .. } = subject;
    against_trie(
        "segment lookup",
        subject,
        |address| calls::segments_lookup(first, packed, plain, last, address),
        |address| reference::segments_lookup(first, packed, plain, last, address),
    )
    .runner(Runner::Unchecked, addresses.len(), move |number| {
        // SAFETY: the stores are those that the library has built of the set.
        unsafe { plain_segments::lookup_unchecked(first, packed, plain, last, addresses[number]) }.answer[1]
    })
}

/// The proved library's lookup, which is to race another one.
fn proved<'a>(what: &'static str, subject: &'a Subject) -> Race<'a> {
    let Subject { segments: [first, packed, plain, last], addresses, .. } = subject;
    Race::new(what).runner(Runner::Proved, addresses.len(), move |number| {
        calls::segments_lookup(first, packed, plain, last, addresses[number]).answer[1]
    })
}

fn lookup_in_c(subject: &Subject) -> Race<'_> {
    let Subject { segments: [first, packed, plain, last], addresses, .. } = subject;
    proved("segment lookup, against C", subject).runner(Runner::Plain, addresses.len(), move |number| {
        plain_segments::lookup(first, packed, plain, last, addresses[number]).answer[1]
    })
}

fn lookup_in_image(subject: &Subject) -> Race<'_> {
    let Subject { images: [_, _, (nodes, ports)], addresses, .. } = subject;
    proved("lookup", subject).runner(Runner::Image, addresses.len(), move |number| {
        calls::image_lookup_4(nodes, ports, addresses[number]).answer[1]
    })
}

/// With an empty first table the same call is refused before it reads a word: what is left is the call itself.
fn call_alone(subject: &Subject) -> Race<'_> {
    let Subject { segments: [_, packed, plain, last], addresses, .. } = subject;
    proved("lookup, and its call alone", subject).runner(Runner::Refused, addresses.len(), move |number| {
        calls::segments_lookup(&[], packed, plain, last, addresses[number]).answer[1]
    })
}

fn lookup_many(subject: &Subject) -> Race<'_> {
    let [first, packed, plain, last] = &subject.segments;
    in_one_call(
        "many lookups in one call, segment tables",
        subject,
        |addresses, out| calls::segments_lookup_many(first, packed, plain, last, addresses, out),
        |address| calls::segments_lookup(first, packed, plain, last, address),
    )
}

fn build(subject: &Subject) -> Race<'_> {
    let list = &subject.list;
    let room = || -> Stores { room_for(list.len() / 3).map(|size| vec![0; size]) };
    let valid = RouteList::from_words(list.clone()).expect("the list of a set is valid");
    let (mut stores, mut plain_stores, mut other_stores) = (room(), room(), room());
    Race::new("segment build, and a plain one in C")
        .runner(Runner::Proved, 1, move |_| {
            let [first, packed, plain, last] = &mut stores;
            calls::segments_build(list, first, packed, plain, last)
        })
        .runner(Runner::Plain, 1, move |_| plain_segments::build(&valid, &mut plain_stores))
        .runner(Runner::Reference, 1, move |_| {
            let [first, packed, plain, last] = &mut other_stores;
            reference::segments_build(list, first, packed, plain, last)
        })
}
