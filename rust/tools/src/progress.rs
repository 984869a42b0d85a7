//! How far a long run is, on standard error: a line now and then, or, on a terminal, one line that is written over.

use std::io::{stderr, IsTerminal, Write};
use std::time::{Duration, Instant};

/// How often a line is written over, and how often one is written where it stays.
const OVER: Duration = Duration::from_millis(500);
const ANOTHER: Duration = Duration::from_secs(10);

pub struct Progress {
    start: Instant,
    told: Instant,
    on_terminal: bool,
}

impl Progress {
    pub fn start() -> Progress {
        let start = Instant::now();
        Progress { start, told: start, on_terminal: stderr().is_terminal() }
    }

    /// Tells what the text says, which is given the seconds so far, if it is time to. Where nobody can be told, the run
    /// goes on.
    pub fn tell(&mut self, text: impl FnOnce(u64) -> String) {
        let every = if self.on_terminal { OVER } else { ANOTHER };
        if self.told.elapsed() < every {
            return;
        }
        self.told = Instant::now();
        let text = text(self.start.elapsed().as_secs());
        let _ = match self.on_terminal {
            true => write!(stderr(), "\r\x1b[K{text}"),
            false => writeln!(stderr(), "{text}"),
        };
    }
}

impl Drop for Progress {
    /// What is printed next begins on a line of its own.
    fn drop(&mut self) {
        if self.on_terminal {
            let _ = write!(stderr(), "\r\x1b[K");
        }
    }
}

/// A number as people read it: 4,294,967,296.
pub fn grouped(number: u64) -> String {
    match number / 1000 {
        0 => number.to_string(),
        thousands => format!("{},{:03}", grouped(thousands), number % 1000),
    }
}

#[cfg(test)]
mod tests {
    use super::grouped;

    #[test]
    fn digits_stand_in_groups_of_three() {
        let texts = [0, 7, 999, 1000, 65_536, 4_294_967_296].map(grouped);
        assert_eq!(texts, ["0", "7", "999", "1,000", "65,536", "4,294,967,296"]);
    }
}
