//! The plain walk of an image in C (`plain_walk.c`), called as the library is.

use maftehon::calls::Reply;

extern "C" {
    fn plain_walk_4(
        nodes: *const u32,
        node_words: usize,
        ports: *const u16,
        port_count: usize,
        address: u32,
        answer: *mut u32,
    ) -> u32;
}

/// The answer of `calls::image_lookup_4`.
pub fn lookup_4(nodes: &[u32], ports: &[u16], address: u32) -> Reply<3> {
    let mut answer = [0; 3];
    // SAFETY: the pointers are those of slices, with their lengths, and of an array of three words; none is kept.
    let number =
        unsafe { plain_walk_4(nodes.as_ptr(), nodes.len(), ports.as_ptr(), ports.len(), address, answer.as_mut_ptr()) };
    Reply { number, answer }
}
