//! The published numbers and the shape of an answer: rules, "Numbers on the refusal lamp".

pub const DONE: u32 = 0;
pub const SHORT_FILE: u32 = 1;
pub const WRONG_VERSION: u32 = 2;
pub const WRONG_SIZE: u32 = 3;
pub const LONG_PREFIX: u32 = 4;
pub const SPARE_BITS: u32 = 5;
pub const WRONG_PORT: u32 = 6;
pub const NOT_ABOVE: u32 = 7;
pub const TOO_MANY_ROUTES: u32 = 8;
pub const NO_ROOM: u32 = 9;
pub const NOT_HELD: u32 = 10;
pub const NOT_IN_ORDER: u32 = 11;
pub const WRONG_STRIDE: u32 = 12;
// 13 is not given, and no other refusal takes the number.
pub const BAD_MESSAGE: u32 = 14;

/// A refusal's number and its place.
#[derive(Clone, Copy, PartialEq, Eq, Debug)]
pub struct Refusal {
    pub number: u32,
    pub place: u32,
}

/// What a function of the C boundary answers: its number, and its array `answer`, the place first.
#[derive(Clone, Copy, PartialEq, Eq, Debug)]
pub struct Answer<const N: usize> {
    pub number: u32,
    pub answer: [u32; N],
}

impl<const N: usize> Answer<N> {
    /// Done, with these results after the place 0; refused, with `kept` after the place.
    ///
    /// `kept` is what a refusal leaves of the results: zeros, but n as it was and what a lookup has read so far.
    pub(crate) fn of<const R: usize>(results: Result<[u32; R], Refusal>, kept: [u32; R]) -> Answer<N> {
        match results {
            Ok(words) => Answer { number: DONE, answer: place_first(0, words) },
            Err(refusal) => Answer { number: refusal.number, answer: place_first(refusal.place, kept) },
        }
    }
}

fn place_first<const R: usize, const N: usize>(place: u32, results: [u32; R]) -> [u32; N] {
    let mut answer = [place; N];
    answer[1..].copy_from_slice(&results);
    answer
}

pub(crate) fn refuse<T>(number: u32, place: u32) -> Result<T, Refusal> {
    Err(Refusal { number, place })
}

/// Refuses 9 where `lent` has no room for `size` elements.
pub(crate) fn check_room<T>(lent: &[T], size: usize) -> Result<(), Refusal> {
    if size > lent.len() {
        return refuse(NO_ROOM, 0);
    }
    Ok(())
}

/// Writes the output to the front of the lent memory, whose rest stays as it was; 9 where it is too short.
pub(crate) fn write_out<T: Copy>(output: &[T], lent: &mut [T]) -> Result<(), Refusal> {
    check_room(lent, output.len())?;
    lent[..output.len()].copy_from_slice(output);
    Ok(())
}
