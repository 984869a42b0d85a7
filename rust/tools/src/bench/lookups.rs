//! Lookups: table and images against the plain trie, and the image at stride 4 against a plain walk of it in C and, many
//! lookups in one call, against as many calls.

use super::race::{Race, Runner};
use super::subject::{Image, Subject};
use crate::plain_walk;
use maftehon::calls::{self, Reply};

const STRIDES: [u32; 3] = [1, 2, 4];

pub fn races(subject: &Subject) -> Vec<Race<'_>> {
    let general_4 = |nodes: &[u32], ports: &[u16], address| calls::image_lookup(4, nodes, ports, address);
    vec![
        image("image lookup, stride 1", subject, 0, calls::image_lookup_1),
        image("image lookup, stride 2", subject, 1, calls::image_lookup_2),
        image("image lookup, stride 4", subject, 2, calls::image_lookup_4),
        general("the same by the general call, stride 1", subject, 0),
        general("the same by the general call, stride 2", subject, 1),
        general("the same by the general call, stride 4", subject, 2),
        table(subject),
        walk("image lookup, stride 4, against a C walk", &subject.images[2], subject, calls::image_lookup_4),
        walk("the same by the general call, against a C walk", &subject.images[2], subject, general_4),
        walk("image of no route, stride 4, against a C walk", &subject.empty_image, subject, calls::image_lookup_4),
        walk("the same of no route, by the general call", &subject.empty_image, subject, general_4),
        many_in_image(subject),
    ]
}

/// A race of lookups of all the addresses, one after the other, which the plain trie takes part in.
pub fn against_trie<'a>(
    what: &'static str,
    subject: &'a Subject,
    proved: impl Fn(u32) -> Reply<3> + 'a,
    reference: impl Fn(u32) -> reference::Answer<3> + 'a,
) -> Race<'a> {
    let addresses = &subject.addresses;
    Race::new(what)
        .runner(Runner::Proved, addresses.len(), move |number| proved(addresses[number]).answer[1])
        .runner(Runner::Plain, addresses.len(), move |number| subject.trie.lookup(addresses[number]))
        .runner(Runner::Reference, addresses.len(), move |number| reference(addresses[number]).answer[1])
}

fn image<'a>(
    what: &'static str,
    subject: &'a Subject,
    index: usize,
    lookup: impl Fn(&[u32], &[u16], u32) -> Reply<3> + 'a,
) -> Race<'a> {
    let (nodes, ports) = &subject.images[index];
    against_trie(
        what,
        subject,
        move |address| lookup(nodes, ports, address),
        move |address| reference::image_lookup(STRIDES[index], nodes, ports, address),
    )
}

fn general<'a>(what: &'static str, subject: &'a Subject, index: usize) -> Race<'a> {
    let lookup =
        move |nodes: &[u32], ports: &[u16], address| calls::image_lookup(STRIDES[index], nodes, ports, address);
    image(what, subject, index, lookup)
}

fn table(subject: &Subject) -> Race<'_> {
    let Subject { rows, n, .. } = subject;
    against_trie(
        "table lookup",
        subject,
        |address| calls::table_lookup(rows, *n, address),
        |address| reference::table_lookup(rows, *n, address),
    )
}

fn walk<'a>(
    what: &'static str,
    (nodes, ports): &'a Image,
    subject: &'a Subject,
    lookup: impl Fn(&[u32], &[u16], u32) -> Reply<3> + 'a,
) -> Race<'a> {
    let addresses = &subject.addresses;
    Race::new(what)
        .runner(Runner::Proved, addresses.len(), move |number| lookup(nodes, ports, addresses[number]).answer[1])
        .runner(Runner::Plain, addresses.len(), move |number| {
            plain_walk::lookup_4(nodes, ports, addresses[number]).answer[1]
        })
}

/// A race of one call for all the addresses with a call for each and with the plain trie.
pub fn in_one_call<'a>(
    what: &'static str,
    subject: &'a Subject,
    many: impl Fn(&[u32], &mut [u16]) -> Reply<2> + 'a,
    single: impl Fn(u32) -> Reply<3> + 'a,
) -> Race<'a> {
    let addresses = &subject.addresses;
    let mut out = vec![0; addresses.len()];
    Race::new(what)
        .whole_runner(Runner::Proved, addresses.len(), move || many(addresses, &mut out))
        .runner(Runner::Single, addresses.len(), move |number| single(addresses[number]).answer[1])
        .runner(Runner::Plain, addresses.len(), move |number| subject.trie.lookup(addresses[number]))
}

fn many_in_image(subject: &Subject) -> Race<'_> {
    let [.., (nodes, ports)] = &subject.images;
    in_one_call(
        "many lookups in one call, stride 4",
        subject,
        |addresses, out| calls::image_lookup_many(4, nodes, ports, addresses, out),
        |address| calls::image_lookup_4(nodes, ports, address),
    )
}
