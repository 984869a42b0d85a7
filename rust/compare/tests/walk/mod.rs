//! A lookup in an image, in parts that a library could get wrong one by one.

use reference::Answer;

/// A node that was read.
pub struct Read {
    pub number: u64,
    /// Where its offset leads: its first child has this number.
    pub next: u64,
    pub slots_before: u64,
    /// Whether the address takes a leaf of it.
    pub at_leaf: bool,
}

/// The parts. A wrong lookup is `Walk { part: .., ..RIGHT }`.
pub struct Walk {
    /// What a node's number and its offset make.
    pub next: fn(u64, u32) -> u64,
    pub has_leaf_base: fn(&Read) -> bool,
    pub leaf_base: fn(&Read) -> u64,
}

pub const RIGHT: Walk = Walk {
    next: |number, offset| number + u64::from(offset),
    has_leaf_base: |read| read.next >= 2 && read.next - 2 <= read.slots_before,
    // Where there is none, a library that reads on would take it for 0.
    leaf_base: |read| read.slots_before.saturating_sub(read.next.saturating_sub(2)),
};

impl Walk {
    pub fn lookup(&self, stride: u32, nodes: &[u32], ports: &[u16], address: u32) -> Answer<3> {
        if ![1, 2, 4].contains(&stride) {
            return Answer { number: 12, answer: [0, 0, 0] };
        }
        let (port, nodes_read) = self.port(stride, nodes, ports, address);
        match port {
            Some(port) => Answer { number: 0, answer: [0, port, nodes_read] },
            None => Answer { number: 11, answer: [0, 0, nodes_read] },
        }
    }

    /// None where the image is not in order.
    fn port(&self, stride: u32, nodes: &[u32], ports: &[u16], address: u32) -> (Option<u32>, u32) {
        let slots = 1 << stride;
        let mut number = 1;
        for nodes_read in 1..=32 / stride {
            let Some(node) = nodes.chunks_exact(2).nth(number as usize - 1) else {
                return (None, nodes_read - 1);
            };
            let bitmap = node[0];
            let slot = address >> (32 - nodes_read * stride) & (slots - 1);
            let leaves_before = (u64::from(bitmap) >> (slots - slot)).count_ones();
            let at_leaf = bitmap >> (slots - 1 - slot) & 1 == 1;
            let next = (self.next)(number, node[1]);
            let read = Read { number, next, slots_before: u64::from(slots) * (number - 1), at_leaf };
            if u64::from(bitmap) >> slots != 0 || !(self.has_leaf_base)(&read) {
                return (None, nodes_read);
            }
            if at_leaf {
                let leaf = (self.leaf_base)(&read) + u64::from(leaves_before);
                let port = ports.get(leaf as usize).copied().filter(|port| *port <= 4094);
                return (port.map(u32::from), nodes_read);
            }
            number = next + u64::from(slot - leaves_before);
        }
        (None, 32 / stride)
    }
}
