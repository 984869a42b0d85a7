//! The turns of a race, each one whole pass over the addresses, and what they gave.

use super::runner::{Runner, REFUSED};
use super::Course;
use crate::bench::race::{median, timed};
use std::time::Duration;

struct Lane {
    runner: Runner,
    /// As the last turn left them.
    ports: Vec<u16>,
    times: Vec<Duration>,
}

impl Lane {
    fn take_turn(&mut self, course: &Course) {
        let Lane { runner, ports, times } = self;
        // What is not written shows, and no runner finds more in the caches than another.
        ports.fill(REFUSED);
        times.push(timed(|| runner.pass(&course.subject, &course.addresses, ports)));
    }
}

impl Course {
    /// Every runner has its turn in each round.
    ///
    /// # Errors
    ///
    /// Where a runner gives an address another port than the trie.
    pub fn race(&self, rounds: usize) -> Result<Measured, String> {
        let count = self.addresses.len();
        let mut lanes = Runner::ALL.map(|runner| Lane { runner, ports: vec![0; count], times: Vec::new() });
        for _ in 0..rounds {
            lanes.iter_mut().for_each(|lane| lane.take_turn(self));
            self.compare(&lanes)?;
        }
        let times = lanes.map(|lane| (lane.runner, lane.times)).into();
        Ok(Measured { set: self.set, drawn: self.drawn, count, times })
    }

    /// Holds all ports of the others to the trie's.
    fn compare(&self, [trie, proved @ ..]: &[Lane; Runner::ALL.len()]) -> Result<(), String> {
        for lane in proved {
            for ((address, right), port) in self.addresses.iter().zip(&trie.ports).zip(&lane.ports) {
                if port != right {
                    let (set, drawn, who) = (self.set, self.drawn, lane.runner.name());
                    return Err(format!(
                        "{set}, {drawn}: address {address} has port {port} by {who}, {right} by the trie"
                    ));
                }
            }
        }
        Ok(())
    }
}

/// How long each runner took in each round.
pub struct Measured {
    pub set: &'static str,
    pub drawn: &'static str,
    /// Lookups of a pass.
    pub count: usize,
    times: Vec<(Runner, Vec<Duration>)>,
}

impl Measured {
    /// Nanoseconds of a pass in the middle one of the rounds.
    pub fn of(&self, runner: Runner) -> f64 {
        median(self.times_of(runner))
    }

    /// How many times as long a runner takes as the trie.
    pub fn ratio(&self, runner: Runner) -> f64 {
        self.of(runner) / self.of(Runner::Trie)
    }

    /// The same in each round.
    pub fn ratios(&self, runner: Runner) -> impl Iterator<Item = f64> + '_ {
        let pairs = self.times_of(runner).iter().zip(self.times_of(Runner::Trie));
        pairs.map(|(time, trie)| time.as_secs_f64() / trie.as_secs_f64())
    }

    fn times_of(&self, runner: Runner) -> &[Duration] {
        let found = self.times.iter().find(|(other, _)| *other == runner);
        found.map_or(&[], |(_, times)| times)
    }
}
