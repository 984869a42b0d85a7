//! Many lookups in one call, in parts that a library could get wrong one by one.

use reference::Answer;

/// The element of an address whose lookup is refused.
pub const UNFOUND: u16 = 65_535;

/// What is looked at before any address.
#[derive(Clone, Copy)]
pub enum Check {
    /// 12 where the stride is wrong, which segment tables do not have.
    Stride,
    /// 9 where `out` is too short.
    Room,
}

/// The parts. A wrong library is `Each { part: .., ..RIGHT }`.
pub struct Each {
    /// The checks, in their order.
    pub checks: [Check; 2],
    /// Whether there is room for so many addresses in so many elements.
    pub has_room: fn(usize, usize) -> bool,
    /// What a lookup makes of the element of its address.
    pub element: fn(Answer<3>) -> u16,
    /// What a call that is done leaves in `out`, of the elements of all addresses.
    pub leave: fn(&mut [u16], &[u16]),
    /// What a call that is refused leaves in `out`, of the same.
    pub leave_refused: fn(&mut [u16], &[u16]),
    /// What a call that is not refused answers, of what it has left in `out` and of the same.
    pub answer: fn(&[u16], &[u16]) -> Answer<2>,
}

pub const RIGHT: Each = Each {
    checks: [Check::Stride, Check::Room],
    has_room: |addresses, room| addresses <= room,
    element: |found| match found.number {
        0 => found.answer[1] as u16,
        _ => UNFOUND,
    },
    // Where there is no room for all of them, as far as it goes.
    leave: |out, elements| out.iter_mut().zip(elements).for_each(|(lent, element)| *lent = *element),
    leave_refused: |_, _| {},
    answer: |_, elements| Answer { number: 0, answer: [0, u32::from(elements.contains(&UNFOUND))] },
};

impl Each {
    pub fn in_image(&self, stride: u32, nodes: &[u32], ports: &[u16], addresses: &[u32], out: &mut [u16]) -> Answer<2> {
        let lookup = |address| reference::image_lookup(stride, nodes, ports, address);
        self.look_up([1, 2, 4].contains(&stride), addresses, out, lookup)
    }

    pub fn in_segments(
        &self,
        [first, packed, plain, last]: [&[u16]; 4],
        addresses: &[u32],
        out: &mut [u16],
    ) -> Answer<2> {
        let lookup = |address| reference::segments_lookup(first, packed, plain, last, address);
        self.look_up(true, addresses, out, lookup)
    }

    fn look_up(
        &self,
        stride_is_right: bool,
        addresses: &[u32],
        out: &mut [u16],
        lookup: impl Fn(u32) -> Answer<3>,
    ) -> Answer<2> {
        let elements: Vec<u16> = addresses.iter().map(|address| (self.element)(lookup(*address))).collect();
        let refused = self.checks.into_iter().find_map(|check| match check {
            Check::Stride => (!stride_is_right).then_some(12),
            Check::Room => (!(self.has_room)(addresses.len(), out.len())).then_some(9),
        });
        if let Some(number) = refused {
            (self.leave_refused)(out, &elements);
            return Answer { number, answer: [0, 0] };
        }
        (self.leave)(out, &elements);
        (self.answer)(out, &elements)
    }
}
