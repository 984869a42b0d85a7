//! An ordinary binary trie with child indices, one bit a step, as one would write it by hand: the baseline for speed.

/// As a child, 0 means none: the root is no child.
const NONE: u32 = 0;
const ROOT: usize = 0;
const WIDTH: u32 = 32;

#[derive(Clone, Copy, Default)]
struct Node {
    children: [u32; 2],
    /// 0 where no route ends here.
    port: u32,
}

/// The trie; nodes that fall away are used again.
#[derive(Clone)]
pub struct PlainTrie {
    nodes: Vec<Node>,
    free: Vec<u32>,
}

impl PlainTrie {
    pub fn new() -> PlainTrie {
        PlainTrie { nodes: vec![Node::default()], free: Vec::new() }
    }

    /// The trie of a route list, which is taken to be valid.
    pub fn build(list: &[u32]) -> PlainTrie {
        let mut trie = PlainTrie::new();
        for route in list.chunks_exact(3) {
            trie.insert(route[0], route[1], route[2]);
        }
        trie
    }

    /// The port of the longest match; 0 if none matches.
    pub fn lookup(&self, address: u32) -> u32 {
        let mut node = &self.nodes[ROOT];
        let mut best = node.port;
        for depth in 0..WIDTH {
            let child = node.children[bit(address, depth)];
            if child == NONE {
                break;
            }
            node = &self.nodes[child as usize];
            if node.port != 0 {
                best = node.port;
            }
        }
        best
    }

    pub fn insert(&mut self, value: u32, length: u32, port: u32) {
        let mut at = ROOT;
        for depth in 0..length {
            let side = bit(value, depth);
            if self.nodes[at].children[side] == NONE {
                self.nodes[at].children[side] = self.fresh();
            }
            at = self.nodes[at].children[side] as usize;
        }
        self.nodes[at].port = port;
    }

    /// Whether the prefix was held; nodes without a route or a child below fall away.
    pub fn remove(&mut self, value: u32, length: u32) -> bool {
        let mut path = [ROOT; WIDTH as usize + 1];
        for depth in 0..length {
            let child = self.nodes[path[depth as usize]].children[bit(value, depth)];
            if child == NONE {
                return false;
            }
            path[depth as usize + 1] = child as usize;
        }
        let held = std::mem::take(&mut self.nodes[path[length as usize]].port) != 0;
        for depth in (0..length).rev() {
            let node = self.nodes[path[depth as usize + 1]];
            if node.port != 0 || node.children != [NONE; 2] {
                break;
            }
            self.nodes[path[depth as usize]].children[bit(value, depth)] = NONE;
            self.free.push(path[depth as usize + 1] as u32);
        }
        held
    }

    fn fresh(&mut self) -> u32 {
        if let Some(node) = self.free.pop() {
            return node;
        }
        self.nodes.push(Node::default());
        self.nodes.len() as u32 - 1
    }
}

impl Default for PlainTrie {
    fn default() -> PlainTrie {
        PlainTrie::new()
    }
}

fn bit(address: u32, depth: u32) -> usize {
    (address >> (WIDTH - 1 - depth) & 1) as usize
}
