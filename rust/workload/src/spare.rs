//! The spare bits of a route file, on its bytes: those past the length in a route's last prefix byte.

use crate::random::Random;

const HEAD_BYTES: usize = 5;
const PORT_BYTES: usize = 2;
const BYTE_BITS: u8 = 8;

/// Of each route, sets all spare bits, some or none. No other bit changes, so that the file keeps its routes.
pub fn set_spare_bits(file: &mut [u8], random: &mut Random) {
    for (last, spare) in last_bytes(file) {
        let some = random.word() as u8;
        file[last] |= spare & random.pick(&[0, some, u8::MAX]);
    }
}

/// Clears the spare bits of every route.
pub fn clear_spare_bits(file: &mut [u8]) {
    for (last, spare) in last_bytes(file) {
        file[last] &= !spare;
    }
}

/// Makes one prefix shorter in as many bytes, so that bits of it become spare. Without them it may no longer be above
/// the route before it.
pub fn shorten_prefix(file: &mut [u8], random: &mut Random) {
    let places = places(file);
    if places.is_empty() {
        return;
    }
    let place = random.pick(&places);
    let most = file[place].saturating_sub(1) % BYTE_BITS;
    file[place] -= random.below(u32::from(most) + 1) as u8;
}

/// Where the last prefix byte of each route stands, and its spare bits. A route of length 0 has no prefix byte: its
/// length byte stands here, of which no bit is spare.
fn last_bytes(file: &[u8]) -> Vec<(usize, u8)> {
    let last_byte = |place: usize| (place + prefix_bytes(file[place]), spare_bits(file[place]));
    places(file).into_iter().map(last_byte).filter(|(last, _)| *last < file.len()).collect()
}

/// Where each route begins. In a damaged file the last one may run past the end.
fn places(file: &[u8]) -> Vec<usize> {
    let mut places = Vec::new();
    let mut place = HEAD_BYTES;
    while place < file.len() {
        places.push(place);
        place += 1 + prefix_bytes(file[place]) + PORT_BYTES;
    }
    places
}

fn prefix_bytes(length: u8) -> usize {
    usize::from(length.div_ceil(BYTE_BITS))
}

/// The bits of the last prefix byte that the length leaves over: none where it fills the byte.
fn spare_bits(length: u8) -> u8 {
    match length % BYTE_BITS {
        0 => 0,
        used => u8::MAX >> used,
    }
}
