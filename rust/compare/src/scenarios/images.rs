//! Images: built with every room and looked up, address by address and many in one call; damaged; lent short.

use super::{addresses, any_set, in_one_call, outs, some_damage};
use crate::checker::{Checker, Compared};
use workload::{damage_image, list_of, Held, Random};

const STRIDES: [u32; 3] = [1, 2, 4];
const NODE_WORDS: usize = 2;

struct Image {
    stride: u32,
    nodes: Vec<u32>,
    ports: Vec<u16>,
}

/// The image of a set, cut to what was written.
fn image_of(checker: &mut Checker, stride: u32, held: &Held) -> Compared<Image> {
    let nodes_most = 1 + held.len() * (32 / stride as usize - 1);
    let room = (NODE_WORDS * nodes_most, nodes_most << stride);
    let (built, mut nodes, mut ports) = checker.image_build(stride, &list_of(held), room)?;
    nodes.truncate(NODE_WORDS * built.answer[1] as usize);
    ports.truncate(built.answer[2] as usize);
    Ok(Image { stride, nodes, ports })
}

/// The addresses one by one, and in one call.
fn look_up(
    checker: &mut Checker,
    random: &mut Random,
    stride: u32,
    (nodes, ports): (&[u32], &[u16]),
    addresses: &[u32],
) -> Compared<()> {
    checker.image_lookup(stride, nodes, ports, addresses)?;
    let (addresses, mut out) = in_one_call(random, addresses);
    checker.image_lookup_many(stride, nodes, ports, addresses, &mut out)?;
    Ok(())
}

/// At each stride: built with tight rooms, looked up, looked up where fewer nodes or ports are lent.
pub fn valid_images(checker: &mut Checker, random: &mut Random, most: usize) -> Compared<()> {
    let held = any_set(random, most);
    let list = list_of(&held);
    for stride in STRIDES {
        let Image { nodes, ports, .. } = image_of(checker, stride, &held)?;
        let (words, count) = (nodes.len(), ports.len());
        for room in [(words, count), (words - 1, count), (words, count - 1), (words + 1, count + 1), (0, 0)] {
            checker.image_build(stride, &list, room)?;
        }
        let addresses = addresses(random, &held, 60);
        look_up(checker, random, stride, (&nodes, &ports), &addresses)?;
        few_in_one_call(checker, random, stride, (&nodes, &ports), &addresses)?;
        for other in [0, 1, 2, 3, 4, 5, 8, 32, u32::MAX] {
            look_up(checker, random, other, (&nodes, &ports), &addresses[..4])?;
        }
        let (cut_words, cut_ports) = (random.index(words), random.index(count));
        look_up(checker, random, stride, (&nodes[..cut_words], &ports), &addresses)?;
        look_up(checker, random, stride, (&nodes, &ports[..cut_ports]), &addresses)?;
    }
    wrong_strides(checker, random, &list)
}

/// None of the addresses, one and two, with every room.
fn few_in_one_call(
    checker: &mut Checker,
    random: &mut Random,
    stride: u32,
    (nodes, ports): (&[u32], &[u16]),
    addresses: &[u32],
) -> Compared<()> {
    for count in 0..3 {
        for mut out in outs(random, count) {
            checker.image_lookup_many(stride, nodes, ports, &addresses[..count], &mut out)?;
        }
    }
    Ok(())
}

fn wrong_strides(checker: &mut Checker, random: &mut Random, list: &[u32]) -> Compared<()> {
    let any = random.any_size();
    for stride in [0, 3, 5, 8, 16, 32, any.max(5), u32::MAX] {
        checker.image_build(stride, list, (100, 100))?;
    }
    Ok(())
}

/// Lookups on damaged nodes and ports, which end and stay inside what is lent.
pub fn damaged_images(checker: &mut Checker, random: &mut Random, most: usize) -> Compared<()> {
    let held = any_set(random, most);
    let stride = random.pick(&STRIDES);
    let image = image_of(checker, stride, &held)?;
    for _ in 0..8 {
        let (mut nodes, mut ports) = (image.nodes.clone(), image.ports.clone());
        some_damage(random, |random| damage_image(stride, &mut nodes, &mut ports, random));
        let addresses = addresses(random, &held, 40);
        look_up(checker, random, image.stride, (&nodes, &ports), &addresses)?;
    }
    Ok(())
}
