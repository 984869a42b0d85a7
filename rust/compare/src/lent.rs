//! Lent memory with guards: what is lent is the middle of a larger buffer, whose ends hold a pattern.

use std::fmt::Debug;

/// An odd number, so that no lent memory is aligned to more than its own elements.
const GUARD: usize = 7;

/// What memory holds that a call is not to touch.
pub trait Pattern: Copy + PartialEq + Debug {
    const PATTERN: Self;
}

impl Pattern for u8 {
    const PATTERN: u8 = 0xA5;
}

impl Pattern for u16 {
    const PATTERN: u16 = 0xA5C3;
}

impl Pattern for u32 {
    const PATTERN: u32 = 0xDEAD_BEEF;
}

impl Pattern for u64 {
    const PATTERN: u64 = 0xDEAD_BEEF_A5C3_5A3C;
}

/// One lent stretch of memory, between its guards.
#[derive(Clone)]
pub struct Lent<T>(Vec<T>);

impl<T: Pattern> Lent<T> {
    pub fn of(contents: &[T]) -> Lent<T> {
        let guard = [T::PATTERN; GUARD];
        Lent([&guard, contents, &guard].concat())
    }

    /// Room for an output, filled with the pattern.
    pub fn room(size: usize) -> Lent<T> {
        Lent(vec![T::PATTERN; GUARD + size + GUARD])
    }

    pub fn all(&self) -> &[T] {
        &self.0[GUARD..self.0.len() - GUARD]
    }

    pub fn all_mut(&mut self) -> &mut [T] {
        let end = self.0.len() - GUARD;
        &mut self.0[GUARD..end]
    }
}

/// The memory of a call: one stretch, pairs of them, or rows of them.
pub trait Memory: Clone {
    /// Where the two first differ, the guards included.
    fn difference(&self, other: &Self) -> Option<String>;
}

impl<T: Pattern> Memory for Lent<T> {
    fn difference(&self, other: &Lent<T>) -> Option<String> {
        let at = (0..self.0.len()).find(|at| self.0[*at] != other.0[*at])?;
        let index = at as isize - GUARD as isize;
        let size = self.all().len();
        Some(format!("left {:?} in element {index} of {size} lent, and the reference {:?}", self.0[at], other.0[at]))
    }
}

impl<A: Memory, B: Memory> Memory for (A, B) {
    fn difference(&self, other: &(A, B)) -> Option<String> {
        self.0.difference(&other.0).or_else(|| self.1.difference(&other.1))
    }
}

impl<M: Memory, const N: usize> Memory for [M; N] {
    fn difference(&self, other: &[M; N]) -> Option<String> {
        self.iter().zip(other).find_map(|(own, others)| own.difference(others))
    }
}
