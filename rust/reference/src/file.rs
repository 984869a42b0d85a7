//! The route file, reader and writer: rules, "The route file".

use crate::list::{check_above, list_of, routes_of, ROUTES_LAST};
use crate::prefix::{check_length, cleared, Prefix, Route};
use crate::refusal::{refuse, write_out, Answer, Refusal, SHORT_FILE, TOO_MANY_ROUTES, WRONG_SIZE, WRONG_VERSION};

const VERSION: u8 = 1;
/// The version byte and the four bytes of the stated size.
const HEAD_BYTES: usize = 5;
const PORT_BYTES: usize = 2;

/// Reads a file into a list: 1, 2, 3 at place 0; 8, 4, 3, 6, 7 at the route's first byte; last 9.
/// Answer: place, routes.
pub fn file_read(file: &[u8], list: &mut [u32]) -> Answer<2> {
    Answer::of(read_into(file, list), [0])
}

/// Writes a list as a file: the list checks, then 9. Answer: place, bytes.
pub fn file_write(list: &[u32], file: &mut [u8]) -> Answer<2> {
    Answer::of(write_into(list, file), [0])
}

fn read_into(file: &[u8], list: &mut [u32]) -> Result<[u32; 1], Refusal> {
    let routes = routes_of_file(file)?;
    write_out(&list_of(&routes), list)?;
    Ok([routes.len() as u32])
}

fn write_into(list: &[u32], file: &mut [u8]) -> Result<[u32; 1], Refusal> {
    let bytes = file_of(&routes_of(list)?);
    write_out(&bytes, file)?;
    Ok([bytes.len() as u32])
}

fn routes_of_file(file: &[u8]) -> Result<Vec<Route>, Refusal> {
    check_head(file)?;
    let mut routes = Vec::new();
    let mut at = HEAD_BYTES;
    while at < file.len() {
        if routes.len() == ROUTES_LAST {
            return refuse(TOO_MANY_ROUTES, at as u32);
        }
        let (route, next) = read_route(file, at)?;
        check_above(&routes, route, at as u32)?;
        routes.push(route);
        at = next;
    }
    Ok(routes)
}

fn check_head(file: &[u8]) -> Result<(), Refusal> {
    if file.len() < HEAD_BYTES {
        return refuse(SHORT_FILE, 0);
    }
    if file[0] != VERSION {
        return refuse(WRONG_VERSION, 0);
    }
    let stated = u32::from_be_bytes([file[1], file[2], file[3], file[4]]);
    if u64::from(stated) != (file.len() - HEAD_BYTES) as u64 {
        return refuse(WRONG_SIZE, 0);
    }
    Ok(())
}

/// The route whose first byte is at `at`, and where the next one begins.
fn read_route(file: &[u8], at: usize) -> Result<(Route, usize), Refusal> {
    let place = at as u32;
    let length = u32::from(file[at]);
    // The length comes before the cut: a length above 32 does not say how many bytes follow.
    check_length(length, place)?;
    let port_at = at + 1 + prefix_bytes(length);
    let next = port_at + PORT_BYTES;
    if next > file.len() {
        return refuse(WRONG_SIZE, place);
    }
    let value = value_of(&file[at + 1..port_at], length);
    let port = u16::from_be_bytes([file[port_at], file[port_at + 1]]);
    let route = Route::checked(value, length, u32::from(port), place)?;
    Ok((route, next))
}

/// The fewest bytes that hold that many bits.
pub(crate) fn prefix_bytes(length: u32) -> usize {
    length.div_ceil(8) as usize
}

/// A prefix value whose first bytes are given and whose other bytes are zero. A file may have any bits past the length
/// in the last byte: they say nothing, so they are cleared before the order is looked at, and 5 does not arise. So too
/// in a message.
pub(crate) fn value_of(first: &[u8], length: u32) -> u32 {
    let mut bytes = [0; 4];
    bytes[..first.len()].copy_from_slice(first);
    cleared(u32::from_be_bytes(bytes), length)
}

fn file_of(routes: &[Route]) -> Vec<u8> {
    let body: Vec<u8> = routes.iter().flat_map(|route| bytes_of(*route)).collect();
    let mut file = vec![VERSION];
    file.extend((body.len() as u32).to_be_bytes());
    file.extend(body);
    file
}

fn bytes_of(route: Route) -> Vec<u8> {
    let mut bytes = bytes_of_prefix(route.prefix);
    bytes.extend((route.port as u16).to_be_bytes());
    bytes
}

/// The length, and then the first bytes of the value.
pub(crate) fn bytes_of_prefix(prefix: Prefix) -> Vec<u8> {
    let length = prefix.length();
    let mut bytes = vec![length as u8];
    bytes.extend(&prefix.value().to_be_bytes()[..prefix_bytes(length)]);
    bytes
}
