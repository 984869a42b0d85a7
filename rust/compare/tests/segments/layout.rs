//! A build of segment tables, in parts that a library could get wrong one by one: the reference's tables are taken
//! apart, and laid out again.

use reference::Answer;
use std::collections::BTreeMap;
use workload::segments::{room_for, Stores};

/// What tables say, without their numbers of segments.
pub struct Apart {
    /// 0 where there is a segment.
    pub first: Vec<u16>,
    /// The 256 entries of each segment, by its first sixteen bits.
    pub segments: BTreeMap<u16, Vec<u16>>,
    pub last: Vec<u16>,
}

impl Apart {
    /// # Errors
    ///
    /// The answer to a list that is refused.
    fn of(list: &[u32]) -> Result<Apart, Answer<4>> {
        let mut stores: Stores = room_for(list.len() / 3).map(|size| vec![0; size]);
        let [first, packed, plain, last] = &mut stores;
        let built = reference::segments_build(list, first, packed, plain, last);
        if built.number != 0 {
            return Err(built);
        }
        let mut segments = BTreeMap::new();
        for (first_bits, entry) in (0..=u16::MAX).zip(first.iter_mut()).filter(|(_, entry)| **entry >= 32_768) {
            let number = usize::from(*entry % 16_384);
            let entries = match *entry >= 49_152 {
                true => plain[256 * number..][..256].to_vec(),
                false => unpacked(&packed[96 * number..][..96]),
            };
            segments.insert(first_bits, entries);
            *entry = 0;
        }
        Ok(Apart { first: first.clone(), segments, last: last[..256 * built.answer[3] as usize].to_vec() })
    }
}

/// The entries of a packed segment, from one to the next one that differs.
fn unpacked(block: &[u16]) -> Vec<u16> {
    let (codewords, kept) = block.split_at(32);
    let bit = |i: usize| usize::from(codewords[i / 8] >> (15 - i % 8) & 1);
    let mut ones = 0;
    let entry = |i: usize| {
        ones += bit(i);
        kept[ones - 1]
    };
    (0..256).map(entry).collect()
}

/// The parts. A wrong build is `Layout { part: .., ..RIGHT }`.
pub struct Layout {
    /// What becomes of the tables before they are laid out.
    pub change: fn(&[u32], &mut Apart),
    /// Bit i of a segment's bitmap.
    pub bit: fn(&[u16], usize) -> bool,
    /// The most ones of a packed segment.
    pub packed_last: usize,
    /// Of the whole bitmap, the codeword from this bit on.
    pub codeword: fn(&[bool], usize) -> u16,
    /// What an unused entry of a packed block is made; none where it is left as it was.
    pub unused: Option<u16>,
    /// The number of a packed segment after so many packed ones and so many plain ones, and that of a plain one.
    pub packed_number: fn(usize, usize) -> usize,
    pub plain_number: fn(usize, usize) -> usize,
}

pub const RIGHT: Layout = Layout {
    change: |_, _| {},
    bit: |entries, i| i == 0 || entries[i] != entries[i - 1],
    packed_last: 64,
    codeword: |bitmap, from| {
        let eight = bitmap[from..from + 8].iter().fold(0, |eight, bit| eight << 1 | u16::from(*bit));
        eight << 8 | ones(&bitmap[..from]) as u16
    },
    unused: Some(0),
    packed_number: |packed, _| packed,
    plain_number: |_, plain| plain,
};

pub fn ones(bits: &[bool]) -> usize {
    bits.iter().filter(|bit| **bit).count()
}

impl Layout {
    pub fn build(&self, list: &[u32], stores: [&mut [u16]; 4]) -> Answer<4> {
        let mut apart = match Apart::of(list) {
            Ok(apart) => apart,
            // Its own room is enough, so this is the list's refusal.
            Err(refused) => return refused,
        };
        (self.change)(list, &mut apart);
        let Apart { mut first, segments, last } = apart;
        let (mut packed, mut plain) = (Vec::new(), Vec::new());
        for (first_bits, entries) in segments {
            let bitmap: Vec<bool> = (0..256).map(|i| (self.bit)(&entries, i)).collect();
            let (packed_before, plain_before) = (packed.len() / 96, plain.len() / 256);
            if ones(&bitmap) <= self.packed_last {
                first[usize::from(first_bits)] = 32_768 + (self.packed_number)(packed_before, plain_before) as u16;
                packed.extend(self.packed_block(&entries, &bitmap));
            } else {
                first[usize::from(first_bits)] = 49_152 + (self.plain_number)(packed_before, plain_before) as u16;
                plain.extend(entries);
            }
        }
        let counts = [packed.len() / 96, plain.len() / 256, last.len() / 256].map(|count| count as u32);
        let written = |words: Vec<u16>| words.into_iter().map(Some).collect();
        write([written(first), packed, written(plain), written(last)], counts, stores)
    }

    fn packed_block(&self, entries: &[u16], bitmap: &[bool]) -> Vec<Option<u16>> {
        let mut block: Vec<_> = (0..256).step_by(8).map(|from| Some((self.codeword)(bitmap, from))).collect();
        block.extend((0..256).filter(|i| bitmap[*i]).map(|i| Some(entries[i])));
        block.resize(96, self.unused);
        block
    }
}

/// Words that are none are left as they were.
fn write(words: [Vec<Option<u16>>; 4], counts: [u32; 3], stores: [&mut [u16]; 4]) -> Answer<4> {
    if words.iter().zip(&stores).any(|(words, store)| words.len() > store.len()) {
        return Answer { number: 9, answer: [0; 4] };
    }
    for (words, store) in words.iter().zip(stores) {
        words.iter().zip(store).for_each(|(word, lent)| *lent = word.unwrap_or(*lent));
    }
    let [packed, plain, last] = counts;
    Answer { number: 0, answer: [0, packed, plain, last] }
}
