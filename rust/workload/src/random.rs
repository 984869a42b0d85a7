//! Seeded random numbers, and random parts of routes.

use crate::routes::{first_bits_of, Held, Prefix};

/// Splitmix64: small, and the same on every machine.
pub struct Random(u64);

impl Random {
    pub fn new(seed: u64) -> Random {
        Random(seed)
    }

    pub fn word(&mut self) -> u32 {
        self.0 = self.0.wrapping_add(0x9E37_79B9_7F4A_7C15);
        let mixed = (self.0 ^ self.0 >> 30).wrapping_mul(0xBF58_476D_1CE4_E5B9);
        let mixed = (mixed ^ mixed >> 27).wrapping_mul(0x94D0_49BB_1331_11EB);
        (mixed ^ mixed >> 31) as u32
    }

    pub fn below(&mut self, bound: u32) -> u32 {
        self.word() % bound
    }

    /// An index below `size`, which is not 0.
    pub fn index(&mut self, size: usize) -> usize {
        self.below(size as u32) as usize
    }

    pub fn pick<T: Copy>(&mut self, choices: &[T]) -> T {
        choices[self.index(choices.len())]
    }

    /// A number of any size: small ones are as likely as large ones.
    pub fn any_size(&mut self) -> u32 {
        self.word() >> self.below(32)
    }

    /// Mostly short or crowded prefixes, so that many nest and share a path; some of every length.
    pub fn prefix(&mut self) -> Prefix {
        let length = match self.below(4) {
            0 => self.below(33),
            1 => 32 - self.below(3),
            _ => self.below(8),
        };
        let value = match self.below(3) {
            0 => self.word(),
            1 => self.word() & 0xC000_0003,
            _ => 0,
        };
        (first_bits_of(value, length), length)
    }

    /// Few ports, so that neighbours often share one.
    pub fn port(&mut self) -> u32 {
        self.pick(&[1, 2, 3, 4094])
    }

    pub fn held(&mut self, most: u32) -> Held {
        let count = self.below(most + 1);
        (0..count).map(|_| (self.prefix(), self.port())).collect()
    }

    /// An address at or next to an end of a held prefix, or any address.
    pub fn address(&mut self, held: &Held) -> u32 {
        let any = self.word();
        if held.is_empty() || self.below(4) == 0 {
            return any;
        }
        let at = self.index(held.len());
        let (value, length) = *held.keys().nth(at).expect("the index is below the size");
        let inside = value | (any & !first_bits_of(u32::MAX, length));
        let last = value | !first_bits_of(u32::MAX, length);
        self.pick(&[value, last, inside, value.wrapping_sub(1), last.wrapping_add(1)])
    }
}
