//! The route list, its checks and its scan: rules, "Addresses, prefixes, the plain scan", "A route list".

use crate::prefix::{plain_scan, Route};
use crate::refusal::{refuse, Answer, Refusal, NOT_ABOVE, TOO_MANY_ROUTES, WRONG_SIZE};

/// Words of a route in a list: value, length, port.
pub(crate) const ROUTE_WORDS: usize = 3;
pub(crate) const ROUTES_LAST: usize = 4096;

/// Refuses as the list checks do: 3 and 8 at place 0; 4, 5, 6, 7 at the route's number.
pub fn list_check(list: &[u32]) -> Answer<1> {
    Answer::of(routes_of(list).map(|_| []), [])
}

/// The port that the plain scan gives the address, after the list checks. Answer: place, port.
pub fn list_scan(list: &[u32], address: u32) -> Answer<2> {
    Answer::of(routes_of(list).map(|routes| [plain_scan(&routes, address)]), [0])
}

/// The routes of a valid list, or the first refusal in the rules' order.
pub(crate) fn routes_of(list: &[u32]) -> Result<Vec<Route>, Refusal> {
    let words_of_routes = list.chunks_exact(ROUTE_WORDS);
    if !words_of_routes.remainder().is_empty() {
        return refuse(WRONG_SIZE, 0);
    }
    if words_of_routes.len() > ROUTES_LAST {
        return refuse(TOO_MANY_ROUTES, 0);
    }
    let mut routes = Vec::new();
    for (number, words) in words_of_routes.enumerate() {
        let place = number as u32;
        let route = Route::checked(words[0], words[1], words[2], place)?;
        check_above(&routes, route, place)?;
        routes.push(route);
    }
    Ok(routes)
}

/// Refuses 7 where the route is not above the one before it.
pub(crate) fn check_above(before: &[Route], route: Route, place: u32) -> Result<(), Refusal> {
    if before.last().is_some_and(|last| route.prefix <= last.prefix) {
        return refuse(NOT_ABOVE, place);
    }
    Ok(())
}

/// The words of a list that holds these routes.
pub(crate) fn list_of(routes: &[Route]) -> Vec<u32> {
    let words = |route: &Route| [route.prefix.value(), route.prefix.length(), route.port];
    routes.iter().flat_map(words).collect()
}
