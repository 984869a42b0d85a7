//! Many lookups in one call, in an image or in segment tables: rules, "Many lookups in one call".

use crate::image::{check_stride, image_lookup};
use crate::refusal::{write_out, Answer, Refusal, DONE};
use crate::segments::segments_lookup;

/// What stands in place of a port where the lookup answers 11: no port is as large.
const UNFOUND: u16 = 65_535;

/// The port of each address in the element of `out` with its number, or 65,535; 12, then 9 for fewer elements than
/// addresses. Answer: place, 1 if some element is 65,535.
pub fn image_lookup_many(stride: u32, nodes: &[u32], ports: &[u16], addresses: &[u32], out: &mut [u16]) -> Answer<2> {
    let lookup = |address| image_lookup(stride, nodes, ports, address);
    Answer::of(check_stride(stride).and_then(|()| look_up_each(addresses, out, lookup)), [0])
}

/// The port of each address in the element of `out` with its number, or 65,535; 9 for fewer elements than addresses.
/// Answer: place, 1 if some element is 65,535.
pub fn segments_lookup_many(
    first: &[u16],
    packed: &[u16],
    plain: &[u16],
    last: &[u16],
    addresses: &[u32],
    out: &mut [u16],
) -> Answer<2> {
    let lookup = |address| segments_lookup(first, packed, plain, last, address);
    Answer::of(look_up_each(addresses, out, lookup), [0])
}

fn look_up_each(addresses: &[u32], out: &mut [u16], lookup: impl Fn(u32) -> Answer<3>) -> Result<[u32; 1], Refusal> {
    let elements: Vec<u16> = addresses.iter().map(|address| element_of(lookup(*address))).collect();
    write_out(&elements, out)?;
    Ok([u32::from(elements.contains(&UNFOUND))])
}

/// A lookup that is refused is so with 11: the stride is looked at before any address.
fn element_of(found: Answer<3>) -> u16 {
    let [_, port, _] = found.answer;
    match found.number {
        DONE => port as u16,
        _ => UNFOUND,
    }
}
