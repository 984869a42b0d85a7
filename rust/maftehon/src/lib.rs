//! The proved route library of the floor gateway, for Rust programs.
//!
//! [`RouteList`], [`Table`], [`Image`] and [`SegmentTables`] own their memory and are always valid, so that most calls
//! cannot be refused; what can be answers a [`Refusal`] and changes nothing. A table takes routes one by one, or by the
//! UPDATE message of RFC 4271, and a list gives the message that withdraws it. A table also knows how many addresses go
//! to each port. Images and segment tables also look many addresses up in one call. A [`Route`] and its [`Prefix`] are
//! read from the text that they print, and a text that is none answers a [`ParseError`]. [`calls`] has the calls of the
//! C boundary one for one, on memory that the caller lends, and [`sys`] the boundary itself, with its numbers by name.
//!
//! ```
//! use maftehon::{Image, RouteList, SegmentTables, Stride, Table};
//! use std::net::Ipv4Addr;
//!
//! let list = RouteList::from_routes(&["10.0.0.0/8 7".parse()?, "10.1.0.0/16 9".parse()?])?;
//! let image = Image::build(&list, Stride::Four);
//! let segments = SegmentTables::build(&list);
//! let table = Table::build(&list, 4096)?;
//! let address = Ipv4Addr::new(10, 1, 2, 3);
//! assert_eq!(image.lookup(address).port, Some(9));
//! assert_eq!(segments.lookup(address).port, Some(9));
//! assert_eq!(table.lookup(address).port, Some(9));
//! assert_eq!(image.lookup_many(&[address.into(), 0]), [9, 0]);
//! assert_eq!(table.addresses(Some(9)), 65_536);
//! assert_eq!(table.runs(), list.runs());
//! # Ok::<(), Box<dyn std::error::Error>>(())
//! ```

#![warn(missing_docs, clippy::missing_errors_doc)]

pub mod calls;
mod image;
mod list;
mod prefix;
mod refusal;
mod route;
mod segments;
mod table;
mod text;

pub use image::{Image, Stride};
pub use list::{RouteList, ROUTES_LAST};
pub use maftehon_sys as sys;
pub use prefix::Prefix;
pub use refusal::{Place, Refusal};
pub use route::{Found, Route, Run};
pub use segments::SegmentTables;
pub use table::Table;
pub use text::ParseError;
