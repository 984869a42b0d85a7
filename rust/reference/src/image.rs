//! The image, built from a list, and its lookup: rules, "The image (source documents 002 and 000)".

use crate::list::routes_of;
use crate::prefix::{bits_from, plain_scan, Prefix, Route, NO_PORT, PORT_LAST, WIDTH};
use crate::refusal::{check_room, refuse, write_out, Answer, Refusal, NOT_IN_ORDER, WRONG_STRIDE};
use std::collections::VecDeque;

/// Words of a node: bitmap, offset.
const NODE_WORDS: usize = 2;

/// A node's number, from 1. Sums are exact on 64 bits, so that a damaged offset points past the nodes and never wraps.
#[derive(Clone, Copy)]
struct NodeNumber(u64);

/// How far one node's number is from another's.
struct Distance(u64);

/// A leaf's number, from 0: where its port stands.
struct LeafNumber(u64);

impl NodeNumber {
    const ROOT: NodeNumber = NodeNumber(1);

    /// The one sum of these three that the rules allow.
    fn plus(self, distance: Distance) -> NodeNumber {
        NodeNumber(self.0 + distance.0)
    }
}

/// The image of a list, not yet written.
struct Image {
    nodes: Vec<u32>,
    ports: Vec<u16>,
}

/// A node that waits for its turn: its path, and the routes that share an address with it.
struct Waiting {
    path: Prefix,
    routes: Vec<Route>,
}

/// 12, the list checks, then 9 for nodes or ports. Answer: place, nodes, ports.
pub fn image_build(stride: u32, list: &[u32], nodes: &mut [u32], ports: &mut [u16]) -> Answer<3> {
    Answer::of(build_into(stride, list, nodes, ports), [0, 0])
}

/// The port of the leaf that the address reaches; 12, then 11 as the rules' lookup says.
/// Answer: place, port, nodes read.
pub fn image_lookup(stride: u32, nodes: &[u32], ports: &[u16], address: u32) -> Answer<3> {
    let mut nodes_read = 0;
    let port = search(stride, nodes, ports, address, &mut nodes_read);
    Answer::of(port.map(|port| [port, nodes_read]), [NO_PORT, nodes_read])
}

pub(crate) fn check_stride(stride: u32) -> Result<(), Refusal> {
    if ![1, 2, 4].contains(&stride) {
        return refuse(WRONG_STRIDE, 0);
    }
    Ok(())
}

fn build_into(stride: u32, list: &[u32], nodes: &mut [u32], ports: &mut [u16]) -> Result<[u32; 2], Refusal> {
    check_stride(stride)?;
    let image = image_of(stride, routes_of(list)?);
    check_room(ports, image.ports.len())?;
    write_out(&image.nodes, nodes)?;
    write_out(&image.ports, ports)?;
    Ok([(image.nodes.len() / NODE_WORDS) as u32, image.ports.len() as u32])
}

/// The nodes that are no leaf, breadth first and left to right; the root is always one of them.
fn image_of(stride: u32, routes: Vec<Route>) -> Image {
    let mut image = Image { nodes: Vec::new(), ports: Vec::new() };
    let mut waiting = VecDeque::from([Waiting { path: Prefix::WHOLE, routes }]);
    while let Some(node) = waiting.pop_front() {
        add_node(&mut image, &mut waiting, node, stride);
    }
    image
}

/// Adds the node, the ports of its leaves, and its non-leaf children to those that wait.
fn add_node(image: &mut Image, waiting: &mut VecDeque<Waiting>, node: Waiting, stride: u32) {
    // The nodes that wait already are numbered between this node and the next unused number, which its first child
    // takes, if it has one.
    let offset = 1 + waiting.len();
    let mut bitmap = 0;
    for slot in slots(node.path, stride) {
        let leaf = !node.routes.iter().any(|route| is_below(*route, slot));
        bitmap = bitmap << 1 | u32::from(leaf);
        if leaf {
            image.ports.push(plain_scan(&node.routes, slot.first_address()) as u16);
        } else {
            waiting.push_back(Waiting { path: slot, routes: routes_that_meet(&node.routes, slot) });
        }
    }
    image.nodes.extend([bitmap, offset as u32]);
}

/// The 2^stride slots of a node, left to right: the prefixes that are `stride` bits longer.
fn slots(path: Prefix, stride: u32) -> Vec<Prefix> {
    let mut slots = vec![path];
    for _ in 0..stride {
        let halves = |slot: Prefix| slot.halves().expect("strides divide 32, so a slot has at most 32 bits");
        slots = slots.into_iter().flat_map(halves).collect();
    }
    slots
}

/// Whether the route is longer than the slot's bits and begins with them.
fn is_below(route: Route, slot: Prefix) -> bool {
    route.prefix.length() > slot.length() && route.prefix.begins_with(slot)
}

/// No other route matches an address of the slot, so the plain scan there may leave them out.
fn routes_that_meet(routes: &[Route], slot: Prefix) -> Vec<Route> {
    let meets = |route: &Route| route.prefix.begins_with(slot) || slot.begins_with(route.prefix);
    routes.iter().copied().filter(meets).collect()
}

fn search(stride: u32, nodes: &[u32], ports: &[u16], address: u32, nodes_read: &mut u32) -> Result<u32, Refusal> {
    check_stride(stride)?;
    let slot_count = 1 << stride;
    let mut number = NodeNumber::ROOT;
    for depth in (0..WIDTH).step_by(stride as usize) {
        let [bitmap, offset] = node(nodes, number)?;
        // A node that is wrong counts as read.
        *nodes_read += 1;
        if u64::from(bitmap) >= 1 << slot_count {
            return refuse(NOT_IN_ORDER, 0);
        }
        let next_unused = number.plus(Distance(u64::from(offset)));
        // A node that can have no leaf base is wrong, also where the address takes a non-leaf.
        let leaf_base = leaf_base(number, next_unused, slot_count)?;
        let slot = bits_from(address, depth, stride);
        let leaves_before = (0..slot).filter(|before| is_leaf(bitmap, slot_count, *before)).count() as u64;
        if is_leaf(bitmap, slot_count, slot) {
            return port(ports, LeafNumber(leaf_base.0 + leaves_before));
        }
        let non_leaves_before = u64::from(slot) - leaves_before;
        number = next_unused.plus(Distance(non_leaves_before));
    }
    // A non-leaf at depth 32-s.
    refuse(NOT_IN_ORDER, 0)
}

/// The words of a node; 11 for a number of 0 or past the whole nodes lent.
fn node(nodes: &[u32], number: NodeNumber) -> Result<[u32; NODE_WORDS], Refusal> {
    let whole_nodes = (nodes.len() / NODE_WORDS) as u64;
    if number.0 == 0 || number.0 > whole_nodes {
        return refuse(NOT_IN_ORDER, 0);
    }
    let at = (number.0 - 1) as usize * NODE_WORDS;
    Ok([nodes[at], nodes[at + 1]])
}

/// How many leaves all nodes before this one have together: as many as they have slots, but for the slots of their
/// children, which are the nodes from 2 up to the next unused number. 11 where that number is below 2, or where there
/// would be more children than slots.
fn leaf_base(number: NodeNumber, next_unused: NodeNumber, slot_count: u32) -> Result<LeafNumber, Refusal> {
    let slots_before = u64::from(slot_count) * (number.0 - 1);
    let children_before = next_unused.0.checked_sub(2);
    match children_before.and_then(|children| slots_before.checked_sub(children)) {
        Some(leaves) => Ok(LeafNumber(leaves)),
        None => refuse(NOT_IN_ORDER, 0),
    }
}

/// The port of a leaf; 11 for a leaf number past the ports lent, or a port above 4094.
fn port(ports: &[u16], leaf: LeafNumber) -> Result<u32, Refusal> {
    if leaf.0 >= ports.len() as u64 {
        return refuse(NOT_IN_ORDER, 0);
    }
    let port = u32::from(ports[leaf.0 as usize]);
    if port > PORT_LAST {
        return refuse(NOT_IN_ORDER, 0);
    }
    Ok(port)
}

/// Slot 0 is the highest of the bitmap's bits; 1 means leaf.
fn is_leaf(bitmap: u32, slot_count: u32, slot: u32) -> bool {
    bitmap >> (slot_count - 1 - slot) & 1 == 1
}
