//! A race: several runners at the same work, each timed in every round, so that a busy moment hits them alike.

use std::hint::black_box;
use std::time::{Duration, Instant};

/// Who does the work.
#[derive(Clone, Copy, PartialEq, Eq, Debug)]
pub enum Runner {
    Proved,
    Plain,
    /// Plain C that takes what it is lent to be in good order, and checks nothing.
    Unchecked,
    /// The proved library itself, by an image at stride 4: another structure for the same addresses.
    Image,
    /// The proved library itself, by a call that is refused at once: what a call takes that does nothing.
    Refused,
    /// The proved library itself, by a call for each address, beside one call for all of them.
    Single,
    /// The proved library itself, by a check of the good order of the same table, beside messages.
    Check,
    /// The same check beside the calls that make counts and keep them, which have a table of their own.
    CheckOfCounted,
    Reference,
}

/// A runner that has had this many turns and this much time rests: the reference is slow, and its median is known.
const TURNS_FIRST: usize = 7;
const TIME_LAST: Duration = Duration::from_millis(400);

struct Lane<'a> {
    runner: Runner,
    operations: usize,
    turn: Box<dyn FnMut() -> Duration + 'a>,
    times: Vec<Duration>,
}

impl Lane<'_> {
    fn take_turn(&mut self) {
        let rests = self.times.len() >= TURNS_FIRST && self.times.iter().sum::<Duration>() > TIME_LAST;
        if !rests {
            self.times.push((self.turn)());
        }
    }

    /// Nanoseconds for one operation in the middle one of the turns.
    fn median(&self) -> f64 {
        median(&self.times) / self.operations as f64
    }
}

/// The same work for every lane.
pub struct Race<'a> {
    what: &'static str,
    lanes: Vec<Lane<'a>>,
}

impl<'a> Race<'a> {
    pub fn new(what: &'static str) -> Race<'a> {
        Race { what, lanes: Vec::new() }
    }

    /// A runner whose turn is that many operations.
    pub fn runner<T>(self, runner: Runner, operations: usize, mut operation: impl FnMut(usize) -> T + 'a) -> Race<'a> {
        self.whole_runner(runner, operations, move || {
            for number in 0..operations {
                black_box(operation(number));
            }
        })
    }

    /// A runner that does that many operations in one go, after as many that are not timed, so that what they read is in
    /// the caches whoever had the turn before.
    pub fn whole_runner<T>(self, runner: Runner, operations: usize, mut operate: impl FnMut() -> T + 'a) -> Race<'a> {
        let mut operate = move || {
            black_box(operate());
        };
        let turn = move || {
            operate();
            timed(&mut operate)
        };
        self.timed_runner(runner, operations, turn)
    }

    /// A runner that says itself how long its operations took, because its turn has more to do than them.
    pub fn timed_runner(mut self, runner: Runner, operations: usize, turn: impl FnMut() -> Duration + 'a) -> Race<'a> {
        self.lanes.push(Lane { runner, operations, turn: Box::new(turn), times: Vec::new() });
        self
    }
}

pub fn timed(work: impl FnOnce()) -> Duration {
    let start = Instant::now();
    work();
    start.elapsed()
}

/// The middle one of some times, in nanoseconds.
pub fn median(times: &[Duration]) -> f64 {
    let mut sorted = times.to_vec();
    sorted.sort();
    sorted[sorted.len() / 2].as_nanos() as f64
}

/// What a race gave: nanoseconds for one operation, for each runner that took part.
pub struct Outcome {
    pub what: &'static str,
    medians: Vec<(Runner, f64)>,
}

impl Outcome {
    pub fn of(&self, runner: Runner) -> Option<f64> {
        self.medians.iter().find(|(other, _)| *other == runner).map(|(_, nanoseconds)| *nanoseconds)
    }

    /// How many times as long the proved library takes as this runner.
    pub fn ratio(&self, runner: Runner) -> Option<f64> {
        Some(self.of(Runner::Proved)? / self.of(runner)?)
    }
}

/// Every lane of every race has its turn in each round.
pub fn run(mut races: Vec<Race>, rounds: usize) -> Vec<Outcome> {
    for _ in 0..rounds {
        races.iter_mut().flat_map(|race| &mut race.lanes).for_each(Lane::take_turn);
    }
    let outcome = |race: &Race| Outcome {
        what: race.what,
        medians: race.lanes.iter().map(|lane| (lane.runner, lane.median())).collect(),
    };
    races.iter().map(outcome).collect()
}
