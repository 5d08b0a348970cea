//! The seeded source of every choice, a splitmix64 generator.
//! It also notes the situations its choices led to, since both travel along the same calls.

use std::collections::BTreeSet;
use std::ops::RangeInclusive;

use crate::tags::Tag;

pub(crate) struct Rng {
    state: u64,
    tags: BTreeSet<Tag>,
}

impl Rng {
    /// `salt` parts the makers from each other, so that equal seeds share no choices.
    pub(crate) fn new(seed: u64, salt: u64) -> Self {
        let mut rng = Self {
            state: seed ^ salt.wrapping_mul(0xd6e8_feb8_6659_fd93),
            tags: BTreeSet::new(),
        };
        rng.state = rng.next();
        rng
    }

    fn next(&mut self) -> u64 {
        self.state = self.state.wrapping_add(0x9e37_79b9_7f4a_7c15);
        let mut mixed = self.state;
        mixed = (mixed ^ (mixed >> 30)).wrapping_mul(0xbf58_476d_1ce4_e5b9);
        mixed = (mixed ^ (mixed >> 27)).wrapping_mul(0x94d0_49bb_1331_11eb);
        mixed ^ (mixed >> 31)
    }

    /// A number under `end`, which is not 0.
    pub(crate) fn below(&mut self, end: usize) -> usize {
        (self.next() % end as u64) as usize
    }

    pub(crate) fn within(&mut self, range: RangeInclusive<usize>) -> usize {
        range.start() + self.below(range.end() - range.start() + 1)
    }

    pub(crate) fn chance(&mut self, percent: usize) -> bool {
        self.below(100) < percent
    }

    pub(crate) fn pick<T: Copy>(&mut self, from: &[T]) -> T {
        from[self.below(from.len())]
    }

    /// One of the choices, each as often as its weight says.
    pub(crate) fn weighted<T: Copy>(&mut self, from: &[(usize, T)]) -> T {
        let mut left = self.below(from.iter().map(|(weight, _)| weight).sum());
        for &(weight, choice) in from {
            if left < weight {
                return choice;
            }
            left -= weight;
        }
        unreachable!("the draw is under the sum of the weights")
    }

    pub(crate) fn byte(&mut self) -> u8 {
        self.next() as u8
    }

    pub(crate) fn number(&mut self) -> u16 {
        self.next() as u16
    }

    pub(crate) fn bytes(&mut self, count: usize) -> Vec<u8> {
        let mut out = Vec::with_capacity(count + 8);
        while out.len() < count {
            out.extend_from_slice(&self.next().to_le_bytes());
        }
        out.truncate(count);
        out
    }

    /// As many bytes as a number from the range says.
    pub(crate) fn some_bytes(&mut self, range: RangeInclusive<usize>) -> Vec<u8> {
        let count = self.within(range);
        self.bytes(count)
    }

    pub(crate) fn note(&mut self, tag: Tag) {
        self.tags.insert(tag);
    }

    pub(crate) fn into_tags(self) -> BTreeSet<Tag> {
        self.tags
    }
}
