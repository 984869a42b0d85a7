//! How many calls of each kind were compared, and which numbers they answered.

use std::collections::BTreeMap;
use std::fmt;

/// Done, and the refusals up to 14, of which 13 is not given.
const NUMBERS: usize = 15;

/// Counts by call and by number answered.
#[derive(Default)]
pub struct Tally {
    calls: BTreeMap<&'static str, [u64; NUMBERS]>,
}

impl Tally {
    pub fn add(&mut self, call: &'static str, number: u32) {
        self.calls.entry(call).or_default()[number as usize] += 1;
    }

    /// How often this number was answered, by any call.
    pub fn of_number(&self, number: usize) -> u64 {
        self.calls.values().map(|numbers| numbers[number]).sum()
    }

    /// How often this number was answered by this call.
    ///
    /// # Panics
    ///
    /// Where the call was never made: then 0 would say nothing.
    pub fn of_call(&self, call: &str, number: usize) -> u64 {
        self.calls[call][number]
    }

    pub fn total(&self) -> u64 {
        (0..NUMBERS).map(|number| self.of_number(number)).sum()
    }
}

/// A line for each call: how many, and how many answered each number that was met.
impl fmt::Display for Tally {
    fn fmt(&self, formatter: &mut fmt::Formatter) -> fmt::Result {
        for (call, numbers) in &self.calls {
            write!(formatter, "{call:<20} {:>10} calls:", numbers.iter().sum::<u64>())?;
            for (number, count) in numbers.iter().enumerate().filter(|(_, count)| **count > 0) {
                match number {
                    0 => write!(formatter, " done {count}")?,
                    _ => write!(formatter, ", refused {number}: {count}")?,
                }
            }
            writeln!(formatter)?;
        }
        Ok(())
    }
}
