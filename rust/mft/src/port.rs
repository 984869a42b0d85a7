//! A port as people write it.

use maftehon::{ParseError, Route};

/// The port that a text says. The library reads it, as that of a route.
///
/// ```
/// use maftehon::ParseError;
///
/// assert_eq!(mft::port::read("101"), Ok(101));
/// assert_eq!(mft::port::read("0101"), Err(ParseError::PortNotANumber));
/// assert!(matches!(mft::port::read("4095"), Err(ParseError::Refused(refusal)) if refusal.number() == 6));
/// ```
///
/// # Errors
///
/// [`ParseError::PortMissing`], [`ParseError::PortNotANumber`], or [`ParseError::Refused`] with 6 for a port outside
/// 1..4094.
pub fn read(text: &str) -> Result<u16, ParseError> {
    let route: Route = format!("0.0.0.0/0 {text}").parse()?;
    Ok(route.port())
}
