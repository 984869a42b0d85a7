//! What the races work on: one set of 4,096 routes, everything that is built of it, and the addresses asked for.

use crate::exhaustive::Structure;
use crate::plain_trie::PlainTrie;
use workload::segments::Stores;
use workload::{list_of, Held, Random};

/// How many addresses a turn looks up.
const ADDRESSES: usize = 1 << 14;

/// Nodes and ports.
pub type Image = (Vec<u32>, Vec<u16>);

pub struct Subject {
    pub held: Held,
    pub list: Vec<u32>,
    pub rows: Vec<u32>,
    pub n: u32,
    /// At strides 1, 2 and 4.
    pub images: [Image; 3],
    /// At stride 4, of no route: the root alone, so that a lookup in it is little more than the call.
    pub empty_image: Image,
    pub segments: Stores,
    pub trie: PlainTrie,
    pub addresses: Vec<u32>,
}

impl Subject {
    pub fn of(held: Held) -> Subject {
        let list = list_of(&held);
        let Built { images, rows, n, segments } = Built::of(&list);
        let Built { images: [.., empty_image], .. } = Built::of(&[]);
        let (trie, addresses) = (PlainTrie::build(&list), addresses(&list));
        Subject { held, list, rows, n, images, empty_image, segments, trie, addresses }
    }
}

/// The images at strides 1, 2 and 4, the rows of the table and how many they are, and the segment tables.
struct Built {
    images: [Image; 3],
    rows: Vec<u32>,
    n: u32,
    segments: Stores,
}

impl Built {
    fn of(list: &[u32]) -> Built {
        let (mut images, mut table, mut segments) = (Vec::new(), None, None);
        for structure in Structure::all_of(list) {
            match structure {
                Structure::Image { nodes, ports, .. } => images.push((nodes, ports)),
                Structure::Table { rows, n } => table = Some((rows, n)),
                Structure::Segments(stores) => segments = Some(stores),
            }
        }
        let (rows, n) = table.expect("a table is among the structures");
        Built {
            images: images.try_into().expect("an image for each of three strides"),
            rows,
            n,
            segments: segments.expect("segment tables are among the structures"),
        }
    }
}

/// So many routes of a set, from all over it.
pub fn some_of(held: &Held, count: usize) -> Held {
    let passed = |number: usize| number * count / held.len();
    let some = held.iter().enumerate().filter(|(number, _)| passed(*number) < passed(number + 1));
    some.map(|(_, (prefix, port))| (*prefix, *port)).collect()
}

/// Half of them inside a route, the others anywhere.
fn addresses(list: &[u32]) -> Vec<u32> {
    let mut random = Random::new(1);
    let mut address = |number: usize| {
        let any = random.word();
        let route = 3 * random.index(list.len() / 3);
        let host_bits = u32::MAX.checked_shr(list[route + 1]).unwrap_or(0);
        [list[route] | (any & host_bits), any][number % 2]
    };
    (0..ADDRESSES).map(&mut address).collect()
}
