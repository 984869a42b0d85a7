//! The published refusals, with the places that they name and a text for whoever stands at the gateway.

use crate::calls::Reply;
use maftehon_sys as sys;
use std::fmt;

/// Where a refusal points.
#[derive(Clone, Copy, PartialEq, Eq, Debug)]
pub enum Place {
    /// The file, the list, the message or the call as a whole: place 0.
    Whole,
    /// The route with this number, from 0, of a list.
    Route(u32),
    /// The route whose first byte has this offset in a file.
    Byte(u32),
    /// The field or the prefix whose first byte has this offset in a message.
    MessageByte(u32),
}

/// Where the length and the type of a message stand. Refused 14, a later byte asks for more bytes than there are.
const MESSAGE_LENGTH_AT: u32 = 16;
const MESSAGE_TYPE_AT: u32 = 18;

/// Why a call was refused: the published list, in its order. A refused call has changed nothing. No call answers 13, and
/// no other refusal will take the number: it was for more than 8,193 runs, which 4,096 routes cannot have.
///
/// ```
/// use maftehon::{Place, Refusal, RouteList};
///
/// let refusal = RouteList::from_words(vec![0, 33, 1]).unwrap_err();
/// assert_eq!(refusal, Refusal::LongPrefix(Place::Route(0)));
/// assert_eq!((refusal.number(), refusal.place()), (4, 0));
/// assert_eq!(refusal.to_string(), "route 0: the prefix length is above 32 (refusal 4)");
/// ```
#[derive(Clone, Copy, PartialEq, Eq, Debug)]
#[non_exhaustive]
pub enum Refusal {
    /// 1: the file has under 5 bytes.
    ShortFile,
    /// 2: the file's version byte is not 1.
    WrongVersion,
    /// 3: the stated size is not the bytes present, a route runs past the end, or a list is no whole number of routes.
    WrongSize(Place),
    /// 4: a prefix length is above 32.
    LongPrefix(Place),
    /// 5: bits are set past the prefix length. In a file or a message they are cleared, and are no fault.
    SpareBits(Place),
    /// 6: a port is outside 1..4094.
    WrongPort(Place),
    /// 7: a route is not above the one before it.
    NotAbove(Place),
    /// 8: more than 4,096 routes.
    TooManyRoutes(Place),
    /// 9: no room for what is to be written, or for the counts, the table is full, or a message would have over 4,096
    /// bytes.
    NoRoom,
    /// 10: the withdrawn prefix is not held.
    NotHeld,
    /// 11: the table, the image or the segment tables are not in good order, or the counts lent are not the table's.
    NotInOrder,
    /// 12: the stride is not 1, 2 or 4.
    WrongStride,
    /// 14: the bytes are no UPDATE message, or a part or a prefix of it runs past its end.
    BadMessage(Place),
}

impl Refusal {
    /// The refusal with this published number, at this place if it is one that names a place. There is none for 0,
    /// which means done, nor for a number that is not published.
    pub fn of(number: u32, place: Place) -> Option<Refusal> {
        let all = [
            Refusal::ShortFile,
            Refusal::WrongVersion,
            Refusal::WrongSize(place),
            Refusal::LongPrefix(place),
            Refusal::SpareBits(place),
            Refusal::WrongPort(place),
            Refusal::NotAbove(place),
            Refusal::TooManyRoutes(place),
            Refusal::NoRoom,
            Refusal::NotHeld,
            Refusal::NotInOrder,
            Refusal::WrongStride,
            Refusal::BadMessage(place),
        ];
        all.into_iter().find(|refusal| refusal.number() == number)
    }

    /// The published number, 1 to 12 or 14.
    pub fn number(self) -> u32 {
        match self {
            Refusal::ShortFile => sys::SHORT_FILE,
            Refusal::WrongVersion => sys::WRONG_VERSION,
            Refusal::WrongSize(_) => sys::WRONG_SIZE,
            Refusal::LongPrefix(_) => sys::LONG_PREFIX,
            Refusal::SpareBits(_) => sys::SPARE_BITS,
            Refusal::WrongPort(_) => sys::WRONG_PORT,
            Refusal::NotAbove(_) => sys::NOT_ABOVE,
            Refusal::TooManyRoutes(_) => sys::TOO_MANY_ROUTES,
            Refusal::NoRoom => sys::NO_ROOM,
            Refusal::NotHeld => sys::NOT_HELD,
            Refusal::NotInOrder => sys::NOT_IN_ORDER,
            Refusal::WrongStride => sys::WRONG_STRIDE,
            Refusal::BadMessage(_) => sys::BAD_MESSAGE,
        }
    }

    /// The published place: the route's number in a list, its first byte's offset in a file, the offset of a field or a
    /// prefix in a message, otherwise 0.
    pub fn place(self) -> u32 {
        match self.pointed_at() {
            Place::Whole => 0,
            Place::Route(place) | Place::Byte(place) | Place::MessageByte(place) => place,
        }
    }

    fn pointed_at(self) -> Place {
        match self {
            Refusal::WrongSize(place)
            | Refusal::LongPrefix(place)
            | Refusal::SpareBits(place)
            | Refusal::WrongPort(place)
            | Refusal::NotAbove(place)
            | Refusal::TooManyRoutes(place)
            | Refusal::BadMessage(place) => place,
            _ => Place::Whole,
        }
    }

    fn text(self) -> &'static str {
        match self {
            Refusal::ShortFile => "the file is shorter than the 5 bytes that every route file begins with",
            Refusal::WrongVersion => "this is no route file of version 1",
            Refusal::WrongSize(Place::Byte(_)) => "the route runs past the end of the file",
            Refusal::WrongSize(_) => "the size is not the stated one; the file or list may be cut off",
            Refusal::LongPrefix(_) => "the prefix length is above 32",
            Refusal::SpareBits(_) => "the address has bits set past the prefix length",
            Refusal::WrongPort(_) => "the port is outside 1 to 4094",
            Refusal::NotAbove(_) => "the route is not above the one before it; sort by address, then by length",
            Refusal::TooManyRoutes(_) => "there are more than 4096 routes",
            Refusal::NoRoom => "there is no room left",
            Refusal::NotHeld => "the prefix to withdraw is not in the table",
            Refusal::NotInOrder => {
                "the table, its counts, the image or the segment tables are damaged; build them again from the list"
            }
            Refusal::WrongStride => "the stride is not 1, 2 or 4",
            Refusal::BadMessage(Place::MessageByte(MESSAGE_LENGTH_AT)) => {
                "the length is outside 23 to 4096, or not the number of bytes; the message may be cut off"
            }
            Refusal::BadMessage(Place::MessageByte(MESSAGE_TYPE_AT)) => "the type is not 2, which UPDATE has",
            Refusal::BadMessage(Place::MessageByte(_)) => {
                "more bytes are to follow than are left in the message, or in the part of it that this is in"
            }
            Refusal::BadMessage(_) => "this is no UPDATE message: it has under 23 bytes, or no marker of 16 bytes 255",
        }
    }
}

impl fmt::Display for Refusal {
    fn fmt(&self, formatter: &mut fmt::Formatter) -> fmt::Result {
        match self.pointed_at() {
            Place::Whole => {}
            Place::Route(number) => write!(formatter, "route {number}: ")?,
            Place::Byte(offset) => write!(formatter, "route at byte {offset}: ")?,
            Place::MessageByte(offset) => write!(formatter, "byte {offset} of the message: ")?,
        }
        write!(formatter, "{} (refusal {})", self.text(), self.number())
    }
}

impl std::error::Error for Refusal {}

impl<const N: usize> Reply<N> {
    /// The words of `answer`, or the refusal with the place that it names in what was lent.
    fn result(self, place: Place) -> Result<[u32; N], Refusal> {
        match self.number {
            sys::DONE => Ok(self.answer),
            number => Err(Refusal::of(number, place).expect("every number but 0 that is answered is published")),
        }
    }

    /// Of a call on a file: no route begins at offset 0.
    pub(crate) fn of_file(self) -> Result<[u32; N], Refusal> {
        self.result(if self.answer[0] == 0 { Place::Whole } else { Place::Byte(self.answer[0]) })
    }

    /// Of a call on a message: neither a prefix nor a field but the marker stands at offset 0.
    pub(crate) fn of_message(self) -> Result<[u32; N], Refusal> {
        self.result(if self.answer[0] == 0 { Place::Whole } else { Place::MessageByte(self.answer[0]) })
    }

    /// Of a call on a list: only 4 to 7 name a route, which may be number 0.
    pub(crate) fn of_list(self) -> Result<[u32; N], Refusal> {
        let names_a_route = (sys::LONG_PREFIX..=sys::NOT_ABOVE).contains(&self.number);
        self.result(if names_a_route { Place::Route(self.answer[0]) } else { Place::Whole })
    }

    /// Of a call on one route, on a table, or on many addresses.
    pub(crate) fn of_whole(self) -> Result<[u32; N], Refusal> {
        self.result(Place::Whole)
    }

    /// Of a call that has no reason to refuse.
    pub(crate) fn done(self) -> [u32; N] {
        self.of_whole().expect("a valid list, a table in good order and enough room are not refused")
    }
}
