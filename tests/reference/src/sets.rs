//! Sets of contests. Number j is bit j mod 32 of word j div 32; a narrow board's sets have the first word alone.

use crate::format::Width;

/// The words of the longest set.
const MOST: usize = Width::Wide.words();

#[derive(Clone, Copy, PartialEq, Eq, Debug, Default)]
pub struct Set([u32; MOST]);

impl Set {
    pub const EMPTY: Set = Set([0; MOST]);

    /// All numbers that a board of a width can have.
    pub fn all(width: Width) -> Set {
        Set(std::array::from_fn(|at| if at < width.words() { u32::MAX } else { 0 }))
    }

    /// The first and the last number of each word.
    pub fn at_ends() -> Set {
        Set([1 << 31 | 1; MOST])
    }

    /// A set as its words have it.
    pub fn of(words: &[u32]) -> Set {
        let mut set = Set::EMPTY;
        set.0[..words.len()].copy_from_slice(words);
        set
    }

    pub fn one(number: u32) -> Set {
        Set::at(number as usize / 32, number % 32)
    }

    /// The set with one bit of one word.
    pub fn at(word: usize, bit: u32) -> Set {
        let mut set = Set::EMPTY;
        set.0[word] = 1 << bit;
        set
    }

    /// Its words on a board of a width.
    pub fn words(&self, width: Width) -> &[u32] {
        &self.0[..width.words()]
    }

    pub fn is_empty(&self) -> bool {
        self.0 == Set::EMPTY.0
    }

    pub fn count(&self) -> usize {
        self.0.iter().map(|word| word.count_ones() as usize).sum()
    }

    /// Its numbers, rising.
    pub fn numbers(&self) -> impl Iterator<Item = u32> + '_ {
        let of_word = |(at, &word): (usize, &u32)| {
            let bits = (0..32).filter(move |&bit| word >> bit & 1 == 1);
            bits.map(move |bit| 32 * at as u32 + bit)
        };
        self.0.iter().enumerate().filter(|(_, &word)| word != 0).flat_map(of_word)
    }

    /// What it has of the first word, and of the others.
    pub fn first_word(&self) -> Set {
        Set::of(&self.0[..1])
    }
    pub fn later_words(&self) -> Set {
        self.minus(self.first_word())
    }

    pub fn minus(&self, other: Set) -> Set {
        Set(std::array::from_fn(|at| self.0[at] & !other.0[at]))
    }

    pub fn is_within(&self, other: Set) -> bool {
        self.minus(other).is_empty()
    }
}

impl std::ops::BitOr for Set {
    type Output = Set;
    fn bitor(self, other: Set) -> Set {
        Set(std::array::from_fn(|at| self.0[at] | other.0[at]))
    }
}

impl std::ops::BitOrAssign for Set {
    fn bitor_assign(&mut self, other: Set) {
        *self = *self | other;
    }
}

impl std::ops::BitAnd for Set {
    type Output = Set;
    fn bitand(self, other: Set) -> Set {
        Set(std::array::from_fn(|at| self.0[at] & other.0[at]))
    }
}
