//! Counts made and kept beside a table, in parts that a library could get wrong one by one.

use reference::Answer;
use workload::COUNTS;

/// What is looked at before the table takes an update.
#[derive(Clone, Copy, PartialEq, Eq)]
pub enum Check {
    /// 9 where too few counts are lent.
    Room,
    /// What the arguments or the message are refused with.
    Arguments,
    /// 11 where the table is not in good order, or the counts are not its own.
    Table,
}

/// The parts. A wrong library is `Kept { part: .., ..RIGHT }`.
pub struct Kept {
    /// The checks, in their order.
    pub checks: [Check; 3],
    /// The fewest counts that are accepted.
    pub room: usize,
    /// The counts of a table in good order.
    pub count: fn(&[u32], u32) -> Vec<u64>,
    /// Whether the counts lent are those of the table.
    pub are_its_own: fn(&[u64], &[u64]) -> bool,
    /// What an update that is done leaves in the counts lent, of those of the table.
    pub leave: fn(&mut [u64], &[u64]),
    /// What an update that is refused leaves in the counts lent, of those of the table.
    pub leave_refused: fn(&mut [u64], &[u64]),
}

pub const RIGHT: Kept = Kept {
    checks: [Check::Room, Check::Arguments, Check::Table],
    room: COUNTS,
    count: |rows, n| {
        let mut counts = vec![0; COUNTS];
        for [first, last, port] in runs_of(rows, n) {
            counts[port as usize] += u64::from(last) - u64::from(first) + 1;
        }
        counts
    },
    // Where fewer are lent, as far as they go.
    are_its_own: |lent, own| lent.iter().zip(own).all(|(lent, own)| lent == own),
    leave: |lent, own| lent.iter_mut().zip(own).for_each(|(lent, own)| *lent = *own),
    leave_refused: |_, _| {},
};

impl Kept {
    pub fn make(&self, rows: &[u32], n: u32, counts: &mut [u64]) -> Answer<1> {
        if counts.len() < self.room {
            return Answer { number: 9, answer: [0] };
        }
        match self.counts_of(rows, n) {
            Some(own) => {
                (self.leave)(counts, &own);
                Answer { number: 0, answer: [0] }
            }
            None => Answer { number: 11, answer: [0] },
        }
    }

    pub fn announce(
        &self,
        rows: &mut [u32],
        n: u32,
        value: u32,
        length: u32,
        port: u32,
        counts: &mut [u64],
    ) -> Answer<2> {
        let announce =
            |rows: &mut [u32], counts: &mut [u64]| reference::counted_announce(rows, n, value, length, port, counts);
        self.update(rows, n, counts, announce)
    }

    pub fn withdraw(&self, rows: &mut [u32], n: u32, value: u32, length: u32, counts: &mut [u64]) -> Answer<2> {
        let withdraw =
            |rows: &mut [u32], counts: &mut [u64]| reference::counted_withdraw(rows, n, value, length, counts);
        self.update(rows, n, counts, withdraw)
    }

    pub fn apply(&self, message: &[u8], port: u32, rows: &mut [u32], n: u32, counts: &mut [u64]) -> Answer<2> {
        let apply = |rows: &mut [u32], counts: &mut [u64]| reference::counted_message(message, port, rows, n, counts);
        self.update(rows, n, counts, apply)
    }

    /// None where the table is not in good order.
    fn counts_of(&self, rows: &[u32], n: u32) -> Option<Vec<u64>> {
        (reference::table_check(rows, n).number == 0).then(|| (self.count)(rows, n))
    }

    /// An update whose rows and refusals are those of the right one, with the counts that it is to have.
    fn update(
        &self,
        rows: &mut [u32],
        n: u32,
        counts: &mut [u64],
        right: impl FnOnce(&mut [u32], &mut [u64]) -> Answer<2>,
    ) -> Answer<2> {
        let (mut rows_left, mut right_counts) = (rows.to_vec(), vec![0; COUNTS]);
        reference::counts_make(rows, n, &mut right_counts);
        let answer = right(&mut rows_left, &mut right_counts);
        let own = self.counts_of(rows, n);
        let refused = self.checks.into_iter().find_map(|check| match check {
            Check::Room => (counts.len() < self.room).then_some(Answer { number: 9, answer: [0, n] }),
            Check::Arguments => [4, 5, 6, 14].contains(&answer.number).then_some(answer),
            Check::Table => {
                let in_step = own.as_ref().is_some_and(|own| (self.are_its_own)(counts, own));
                (!in_step).then_some(Answer { number: 11, answer: [0, n] })
            }
        });
        let answer = refused.unwrap_or(answer);
        if answer.number != 0 {
            own.iter().for_each(|own| (self.leave_refused)(counts, own));
            return answer;
        }
        rows.copy_from_slice(&rows_left);
        let own = self.counts_of(rows, answer.answer[1]).expect("an update leaves good order");
        (self.leave)(counts, &own);
        answer
    }
}

/// The runs of a table in good order: first address, last address, port.
pub fn runs_of(rows: &[u32], n: u32) -> Vec<[u32; 3]> {
    let mut runs = vec![0; 3 * (2 * n as usize + 1)];
    let listed = reference::table_runs(rows, n, &mut runs);
    runs.chunks(3).take(listed.answer[1] as usize).map(|run| [run[0], run[1], run[2]]).collect()
}
