//! Numbers from a seed: xorshift64*, good enough to make boards and the same everywhere.

use crate::curves::Digest;
use crate::sets::Set;

pub struct Random {
    state: u64,
}

impl Random {
    pub fn new(seed: u64) -> Random {
        // Spread near seeds apart, and keep the state from 0.
        let mut random = Random { state: seed.wrapping_mul(0x9e37_79b9_7f4a_7c15) ^ 0x5851_f42d_4c95_7f2d | 1 };
        for _ in 0..4 {
            random.next();
        }
        random
    }

    pub fn next(&mut self) -> u64 {
        self.state ^= self.state >> 12;
        self.state ^= self.state << 25;
        self.state ^= self.state >> 27;
        self.state.wrapping_mul(0x2545_f491_4f6c_dd1d)
    }

    pub fn word(&mut self) -> u32 {
        (self.next() >> 32) as u32
    }

    /// A word whose lowest bits, so many, are zero.
    pub fn word_with_zeros(&mut self, zeros: u32) -> u32 {
        self.word() >> zeros << zeros
    }

    pub fn eight(&mut self) -> [u32; 8] {
        std::array::from_fn(|_| self.word())
    }

    pub fn digest(&mut self) -> Digest {
        std::array::from_fn(|_| self.word())
    }

    pub fn words(&mut self, count: usize) -> Vec<u32> {
        (0..count).map(|_| self.word()).collect()
    }

    /// A number below `end`.
    pub fn below(&mut self, end: usize) -> usize {
        (self.next() % end as u64) as usize
    }

    /// A number from `first` to `last`, both included.
    pub fn between(&mut self, first: usize, last: usize) -> usize {
        first + self.below(last - first + 1)
    }

    /// True `percent` times in a hundred.
    pub fn chance(&mut self, percent: usize) -> bool {
        self.below(100) < percent
    }

    pub fn pick<'a, T>(&mut self, from: &'a [T]) -> &'a T {
        &from[self.below(from.len())]
    }

    pub fn shuffle<T>(&mut self, list: &mut [T]) {
        for end in (1..list.len()).rev() {
            list.swap(end, self.below(end + 1));
        }
    }

    /// A set of at least one of the numbers in `set`, which is not empty.
    pub fn subset(&mut self, set: u32) -> u32 {
        assert_ne!(set, 0);
        loop {
            let chosen = self.word() & set;
            if chosen != 0 {
                return chosen;
            }
        }
    }

    /// One of the bits in `set`, which is not empty.
    pub fn bit(&mut self, set: u32) -> u32 {
        let bits: Vec<u32> = (0..32).map(|j| 1u32 << j).filter(|b| set & b != 0).collect();
        *self.pick(&bits)
    }

    /// A set of at least one of the contests in `set`, which is not empty.
    pub fn contests(&mut self, set: Set) -> Set {
        // No words are drawn behind the last that has a contest.
        let words = set.numbers().last().expect("a contest") as usize / 32 + 1;
        loop {
            let chosen = Set::of(&self.words(words)) & set;
            if !chosen.is_empty() {
                return chosen;
            }
        }
    }

    /// One of the contests in `set`, which is not empty.
    pub fn contest(&mut self, set: Set) -> u32 {
        let numbers: Vec<u32> = set.numbers().collect();
        *self.pick(&numbers)
    }
}
