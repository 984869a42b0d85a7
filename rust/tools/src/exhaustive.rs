//! Both tries and the segment tables against the run listing, over the whole address space or a sample of it.

use crate::progress::{grouped, Progress};
use maftehon::calls::{self, Reply};
use std::ops::Range;
use std::sync::atomic::{AtomicU64, Ordering};
use std::sync::Mutex;
use workload::list_of;
use workload::segments::{cut_to, room_for, Stores};

const RUN_WORDS: usize = 3;
const NODE_WORDS: usize = 2;
const SPACE: u64 = 1 << 32;
/// Addresses that a thread takes at a time.
const CHUNK: u64 = 1 << 20;
const THREADS: usize = 2;

/// First address, last address, port.
type Run = [u32; RUN_WORDS];

/// What answers lookups: an image, a table, or segment tables.
pub enum Structure {
    Image { stride: u32, nodes: Vec<u32>, ports: Vec<u16> },
    Table { rows: Vec<u32>, n: u32 },
    Segments(Stores),
}

impl Structure {
    /// The images at strides 1, 2 and 4, the table and the segment tables, all built by the proved library.
    ///
    /// # Panics
    ///
    /// Where the list is not valid.
    pub fn all_of(list: &[u32]) -> Vec<Structure> {
        let mut all: Vec<Structure> = [1, 2, 4].map(|stride| Structure::image(list, stride)).into();
        let mut rows = vec![0; list.len() / 3 * 5];
        let built = calls::table_build(list, &mut rows);
        assert_eq!(built.number, 0, "a valid list is built");
        all.push(Structure::Table { rows, n: built.answer[1] });
        all.push(Structure::segments(list));
        all
    }

    fn image(list: &[u32], stride: u32) -> Structure {
        let nodes_most = 1 + list.len() / 3 * (32 / stride as usize - 1);
        let (mut nodes, mut ports) = (vec![0; NODE_WORDS * nodes_most], vec![0; nodes_most << stride]);
        let built = calls::image_build(stride, list, &mut nodes, &mut ports);
        assert_eq!(built.number, 0, "a valid list is built");
        nodes.truncate(NODE_WORDS * built.answer[1] as usize);
        ports.truncate(built.answer[2] as usize);
        Structure::Image { stride, nodes, ports }
    }

    fn segments(list: &[u32]) -> Structure {
        let mut stores = room_for(list.len() / 3).map(|size| vec![0; size]);
        let [first, packed, plain, last] = &mut stores;
        let built = calls::segments_build(list, first, packed, plain, last);
        assert_eq!(built.number, 0, "a valid list is built");
        let [_, blocks @ ..] = built.answer;
        cut_to(&mut stores, blocks);
        Structure::Segments(stores)
    }

    pub fn name(&self) -> String {
        match self {
            Structure::Image { stride, .. } => format!("image, stride {stride}"),
            Structure::Table { .. } => "table".into(),
            Structure::Segments(_) => "segment tables".into(),
        }
    }

    /// The most nodes, rows or words that a lookup may read.
    fn read_last(&self) -> u32 {
        match self {
            Structure::Image { stride, .. } => 32 / stride,
            Structure::Table { .. } => 33,
            Structure::Segments(_) => 4,
        }
    }

    fn lookup(&self, address: u32) -> Reply<3> {
        match self {
            Structure::Image { stride: 1, nodes, ports } => calls::image_lookup_1(nodes, ports, address),
            Structure::Image { stride: 2, nodes, ports } => calls::image_lookup_2(nodes, ports, address),
            Structure::Image { nodes, ports, .. } => calls::image_lookup_4(nodes, ports, address),
            Structure::Table { rows, n } => calls::table_lookup(rows, *n, address),
            Structure::Segments([first, packed, plain, last]) => {
                calls::segments_lookup(first, packed, plain, last, address)
            }
        }
    }

    /// Whether the lookup is done, finds this port, and reads as much as it may.
    fn finds(&self, address: u32, port: u32) -> bool {
        let Reply { number, answer: [place, found, read] } = self.lookup(address);
        number == 0 && place == 0 && found == port && (1..=self.read_last()).contains(&read)
    }

    /// The first address of the range, by runs in order, whose lookup differs from its run.
    fn difference_in(&self, runs: &[Run], range: Range<u64>) -> Option<u32> {
        let first_run = runs.partition_point(|run| u64::from(run[1]) < range.start);
        for [first, last, port] in &runs[first_run..] {
            let from = range.start.max(u64::from(*first));
            let to = range.end.min(u64::from(*last) + 1);
            if from >= to {
                return None;
            }
            if let Some(address) = (from..to).find(|address| !self.finds(*address as u32, *port)) {
                return Some(address as u32);
            }
        }
        None
    }

    /// An address of the whole space whose lookup differs from its run. Two threads share the chunks, and tell on
    /// standard error how many addresses they have taken, with the name of the set.
    pub fn difference(&self, set: &str, runs: &[Run]) -> Option<u32> {
        let (name, next, progress) = (self.name(), AtomicU64::new(0), Mutex::new(Progress::start()));
        let told = |taken: u64, seconds: u64| {
            format!("{set}, {name}: {} of {} addresses, {seconds} s", grouped(taken), grouped(SPACE))
        };
        let work = || loop {
            let start = next.fetch_add(CHUNK, Ordering::Relaxed);
            if start >= SPACE {
                return None;
            }
            // A thread that finds the other one telling goes on with its work.
            if let Ok(mut progress) = progress.try_lock() {
                progress.tell(|seconds| told(start, seconds));
            }
            if let Some(address) = self.difference_in(runs, start..start + CHUNK) {
                return Some(address);
            }
        };
        std::thread::scope(|scope| {
            let threads = [(); THREADS].map(|()| scope.spawn(work));
            threads.into_iter().find_map(|thread| thread.join().expect("a thread ends"))
        })
    }

    /// As [`Structure::difference`], on the addresses of a sample.
    pub fn difference_in_sample(&self, runs: &[Run], sample: &[u32]) -> Option<u32> {
        let single = |address: u32| self.difference_in(runs, u64::from(address)..u64::from(address) + 1);
        sample.iter().find_map(|address| single(*address))
    }
}

/// The runs of a list by the proved library, which are those of the reference.
///
/// # Panics
///
/// Where they are not.
pub fn runs_of(list: &[u32]) -> Vec<Run> {
    let room = RUN_WORDS * (2 * list.len() / 3 + 1);
    let (mut runs, mut expected) = (vec![0; room], vec![0; room]);
    let listed = calls::list_runs(list, &mut runs);
    let right = reference::list_runs(list, &mut expected);
    assert_eq!((listed.number, listed.answer, &runs), (right.number, right.answer, &expected));
    runs.truncate(RUN_WORDS * listed.answer[1] as usize);
    runs.chunks(RUN_WORDS).map(|run| [run[0], run[1], run[2]]).collect()
}

/// Every address next to an end of a run, and every `step`-th address.
pub fn sample_of(runs: &[Run], step: u32) -> Vec<u32> {
    let near = |end: u32| [end.wrapping_sub(1), end, end.wrapping_add(1)];
    let ends = runs.iter().flat_map(|run| [run[0], run[1]]).flat_map(near);
    ends.chain((0..=u32::MAX).step_by(step as usize)).collect()
}

/// The set of a shape as a list, and its runs.
pub fn list_and_runs(kind: workload::Kind) -> (Vec<u32>, Vec<Run>) {
    let list = list_of(&crate::full_set(kind));
    let runs = runs_of(&list);
    (list, runs)
}
