//! Routes as people write them: one a line, a prefix and a port, and a comment from `#` on.

use crate::columns::{aligned, Side};
use crate::failure::Failure;
use crate::figures::grouped;
use crate::input::Source;
use crate::lines::{self, Fault, Faults, Line, Word};
use maftehon::{ParseError, Prefix, Refusal, Route, RouteList, ROUTES_LAST};
use std::net::Ipv4Addr;
use std::ops::Range;

/// A route and the line that says it.
struct Said<'a> {
    route: Route,
    line: &'a Line,
}

/// The routes of a list, one a line, in list order. [`read`] gives the list again.
pub fn written(list: &RouteList) -> String {
    let row = |route: Route| [route.prefix().to_string(), route.port().to_string()];
    aligned([Side::Left, Side::Right], &list.routes().map(row).collect::<Vec<_>>())
}

/// The list that a text says, whatever the order of its lines.
///
/// # Errors
///
/// The lines that say no route, those that say a prefix again, and the first line too many.
pub fn read(source: &Source) -> Result<RouteList, Failure> {
    if RouteList::read(&source.bytes).is_ok() {
        let advice = "`mft text` prints its routes as text.";
        return Err(Failure::refused(format!(
            "{}: this is a route file already, and no text\n  {advice}",
            source.name
        )));
    }
    let lines = lines::of(source)?;
    let (said, mut faults) = lines::read(&lines, said_by);
    match list_of(said, &mut faults) {
        Some(list) if faults.is_empty() => Ok(list),
        _ => Err(faults.failure(source, &lines)),
    }
}

/// The routes as a list, in list order; none where the library refuses it. Where it refuses one route, the list is
/// tried again without that one, so that all of them are told.
fn list_of(mut said: Vec<Said>, faults: &mut Faults) -> Option<RouteList> {
    let first_too_many = said.get(ROUTES_LAST).map(|said| said.line);
    said.sort_by_key(|said| said.route.prefix());
    loop {
        let routes: Vec<Route> = said.iter().map(|said| said.route).collect();
        match RouteList::from_routes(&routes) {
            Ok(list) => return Some(list),
            Err(Refusal::TooManyRoutes(_)) => {
                faults.add(too_many(first_too_many?));
                return None;
            }
            // Each is a valid route, so that what is refused is its place: the prefix is that of the route before it.
            Err(refusal) => {
                let again = said.remove(refusal.place() as usize);
                let first = said[(refusal.place() as usize).saturating_sub(1)].line;
                faults.add(twice(&again, first, refusal));
            }
        }
    }
}

fn too_many(line: &Line) -> Fault {
    let most = grouped(ROUTES_LAST as u64);
    let wrong = format!("this is one route more than the {most} that a file may have (refusal 8)");
    line.fault(whole(line), wrong, "Leave routes out, or join neighbours of one port.")
}

fn twice(again: &Said, first: &Line, refusal: Refusal) -> Fault {
    let prefix = again.route.prefix();
    let wrong = format!("{prefix} stands in line {} already (refusal {})", first.number, refusal.number());
    let at = again.line.words().first().map_or(0..0, |word| word.at.clone());
    again.line.fault(at, wrong, "Keep one of the two lines: a prefix has one port.").beside(first)
}

/// All of a line before its comment, without the spaces around it.
fn whole(line: &Line) -> Range<usize> {
    match &line.words()[..] {
        [first, .., last] => first.at.start..last.at.end,
        [only] => only.at.clone(),
        [] => 0..0,
    }
}

/// The route of a line; none where there is only a comment, or nothing.
fn said_by(line: &Line) -> Result<Option<Said<'_>>, Fault> {
    if let Some(space) = line.content().char_indices().find(|(_, c)| c.is_whitespace() && !c.is_ascii_whitespace()) {
        return Err(odd_space(line, space));
    }
    let route = match &line.words()[..] {
        [] => return Ok(None),
        [prefix] => route_of(line, prefix, None)?,
        [prefix, port] => route_of(line, prefix, Some(port))?,
        [prefix, port, extra, ..] => {
            route_of(line, prefix, Some(port))?;
            let at = extra.at.start..whole(line).end;
            let advice = "Put a # before it if it is a comment, or take it out.";
            return Err(line.fault(at, "something follows the port", advice));
        }
    };
    Ok(Some(Said { route, line }))
}

/// Pasted text may have spaces that look like others and part no words.
fn odd_space(line: &Line, (at, character): (usize, char)) -> Fault {
    let wrong = format!("this space is no ordinary one, but the character U+{:04X}", u32::from(character));
    line.fault(at..at + character.len_utf8(), wrong, "Type a space or a tab in its place.")
}

/// The library reads the route; the words are looked at again only to mark the part that it has refused.
fn route_of(line: &Line, prefix: &Word, port: Option<&Word>) -> Result<Route, Fault> {
    let text = format!("{} {}", prefix.text, port.map_or("", |port| port.text));
    text.parse().map_err(|error| {
        let at = part_at_fault(error, prefix, port);
        line.fault(at, error.to_string(), advice(error, prefix))
    })
}

fn part_at_fault(error: ParseError, prefix: &Word, port: Option<&Word>) -> Range<usize> {
    let slash = prefix.text.find('/').map_or(prefix.at.end, |slash| prefix.at.start + slash);
    let address = prefix.at.start..slash;
    let length = (slash + 1).min(prefix.at.end)..prefix.at.end;
    match error {
        ParseError::NotAnAddress if address.is_empty() => slash..slash + 1,
        ParseError::NotAnAddress | ParseError::Refused(Refusal::SpareBits(_)) => address,
        ParseError::LengthNotANumber | ParseError::Refused(Refusal::LongPrefix(_)) => length,
        ParseError::PortNotANumber | ParseError::Refused(Refusal::WrongPort(_)) => {
            port.map_or(prefix.at.clone(), |port| port.at.clone())
        }
        ParseError::PortMissing => prefix.at.end + 1..prefix.at.end + 1,
        _ => prefix.at.clone(),
    }
}

fn advice(error: ParseError, prefix: &Word) -> String {
    match error {
        ParseError::NoSlash => "Write a prefix as an address, a / and a length: 10.20.1.0/24.".into(),
        ParseError::NotAnAddress => {
            "Write four numbers from 0 to 255 with dots between them, and no 0 before another digit: 10.20.1.0.".into()
        }
        ParseError::LengthNotANumber => {
            "Write how many bits count, from 0 to 32: 24, where a mask would be 255.255.255.0.".into()
        }
        ParseError::Refused(Refusal::LongPrefix(_)) => "Write a length from 0 to 32.".into(),
        ParseError::Refused(Refusal::SpareBits(_)) => without_spare_bits(prefix.text),
        ParseError::PortMissing => "Write the writer's port after the prefix, 1 to 4094.".into(),
        _ => "Write a writer's port, 1 to 4094.".into(),
    }
}

/// The two ways to mend a prefix with bits set past its length.
fn without_spare_bits(prefix: &str) -> String {
    let parts = prefix
        .split_once('/')
        .and_then(|(address, length)| Some((address.parse::<Ipv4Addr>().ok()?, length.parse::<u8>().ok()?)));
    let mended = parts.and_then(|(address, length)| Some((cleared(address, length)?, lengthened(address, length)?)));
    match mended {
        Some((shorter, longer)) => format!("Write {shorter}, or a longer length: at least {longer}."),
        None => "Clear those bits, or write a longer length.".into(),
    }
}

/// The prefix without those bits, which the library clears where it reads a file.
fn cleared(address: Ipv4Addr, length: u8) -> Option<Prefix> {
    let bytes = &address.octets()[..usize::from(length.div_ceil(8)).min(4)];
    let size = u8::try_from(bytes.len() + 3).ok()?;
    let file = [&[1, 0, 0, 0, size, length], bytes, &[0, 1]].concat();
    RouteList::read(&file).ok()?.routes().next().map(Route::prefix)
}

/// The shortest prefix at which the address has none of those bits.
fn lengthened(address: Ipv4Addr, length: u8) -> Option<Prefix> {
    (length..=32).find_map(|length| Prefix::new(address, length).ok())
}
