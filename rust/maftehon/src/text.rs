//! Prefixes and routes as people write them: `10.20.1.0/24` and `10.20.1.0/24 101`.
//!
//! What is printed is read back as the same value. What is read is what would be printed, but for spaces around it and
//! more than one of them between prefix and port.

use crate::prefix::Prefix;
use crate::refusal::Refusal;
use crate::route::Route;
use std::fmt;
use std::str::FromStr;

/// Why a text is no prefix or no route.
///
/// ```
/// use maftehon::{ParseError, Place, Refusal, Route};
///
/// let error = |text: &str| text.parse::<Route>().unwrap_err();
/// assert_eq!(error("10.20.1.0/24"), ParseError::PortMissing);
/// assert_eq!(error("10.20.1.0/20 101"), ParseError::Refused(Refusal::SpareBits(Place::Whole)));
/// assert_eq!(error("10.20.1/24 101").to_string(), "what stands before the / is no address");
/// ```
#[derive(Clone, Copy, PartialEq, Eq, Debug)]
#[non_exhaustive]
pub enum ParseError {
    /// There is no `/` that parts the address from the length.
    NoSlash,
    /// What stands before the `/` is no address.
    NotAnAddress,
    /// What follows the `/` is no number.
    LengthNotANumber,
    /// Nothing follows the prefix.
    PortMissing,
    /// What follows the prefix is no number.
    PortNotANumber,
    /// The text says a prefix or a route, which the library refuses.
    Refused(Refusal),
}

impl fmt::Display for ParseError {
    fn fmt(&self, formatter: &mut fmt::Formatter) -> fmt::Result {
        formatter.write_str(match self {
            ParseError::NoSlash => "there is no / between an address and a length",
            ParseError::NotAnAddress => "what stands before the / is no address",
            ParseError::LengthNotANumber => "what follows the / is no number",
            ParseError::PortMissing => "there is no port after the prefix",
            ParseError::PortNotANumber => "what follows the prefix is no number",
            ParseError::Refused(refusal) => return refusal.fmt(formatter),
        })
    }
}

impl std::error::Error for ParseError {}

impl From<Refusal> for ParseError {
    fn from(refusal: Refusal) -> ParseError {
        ParseError::Refused(refusal)
    }
}

impl FromStr for Prefix {
    type Err = ParseError;

    /// Reads `ADDRESS/LENGTH`, with spaces around it or none.
    ///
    /// # Errors
    ///
    /// First what is wrong with the text: [`ParseError::NoSlash`], [`ParseError::NotAnAddress`] or
    /// [`ParseError::LengthNotANumber`]. Then [`ParseError::Refused`] with 4 ([`Refusal::LongPrefix`]) for a length
    /// above 32, or 5 ([`Refusal::SpareBits`]) for bits set past the length.
    fn from_str(text: &str) -> Result<Prefix, ParseError> {
        let (address, length) = text.trim_matches(' ').split_once('/').ok_or(ParseError::NoSlash)?;
        let address = address.parse().map_err(|_| ParseError::NotAnAddress)?;
        let length = number(length).ok_or(ParseError::LengthNotANumber)?;
        Ok(Prefix::checked(address, length)?)
    }
}

impl FromStr for Route {
    type Err = ParseError;

    /// Reads `ADDRESS/LENGTH PORT`, with one space or more before the port, and spaces around it all or none.
    ///
    /// # Errors
    ///
    /// First what is wrong with the prefix, as where a [`Prefix`] is read: its text, then 4 ([`Refusal::LongPrefix`])
    /// or 5 ([`Refusal::SpareBits`]). Then [`ParseError::PortMissing`] or [`ParseError::PortNotANumber`], and last
    /// [`ParseError::Refused`] with 6 ([`Refusal::WrongPort`]) for a port outside 1..4094.
    fn from_str(text: &str) -> Result<Route, ParseError> {
        let text = text.trim_matches(' ');
        let (prefix, port) = text.split_once(' ').unwrap_or((text, ""));
        let prefix: Prefix = prefix.parse()?;
        let port = match port.trim_start_matches(' ') {
            "" => return Err(ParseError::PortMissing),
            port => number(port).ok_or(ParseError::PortNotANumber)?,
        };
        Ok(Route::checked(prefix.address(), prefix.length().into(), port)?)
    }
}

/// A number as it is printed: digits, and no 0 before another. Where it has more than 32 bits, the largest that has
/// not, which is refused as it would be.
fn number(text: &str) -> Option<u32> {
    let all_digits = text.bytes().all(|byte| byte.is_ascii_digit());
    let as_printed = text == "0" || !text.is_empty() && !text.starts_with('0');
    (all_digits && as_printed).then(|| text.parse().unwrap_or(u32::MAX))
}

impl fmt::Display for Prefix {
    fn fmt(&self, formatter: &mut fmt::Formatter) -> fmt::Result {
        write!(formatter, "{}/{}", self.address(), self.length())
    }
}

impl fmt::Display for Route {
    fn fmt(&self, formatter: &mut fmt::Formatter) -> fmt::Result {
        write!(formatter, "{} {}", self.prefix(), self.port())
    }
}
