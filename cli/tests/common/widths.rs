//! The widths of a board, told from its words by the papers; nothing is taken from the program's own source.
#![allow(dead_code)]

use reference::format::*;
use reference::sha256::sha256;
use reference::sha512::{sha384, sha512};

/// The place of a traits word.
pub const TRAITS_PLACE: usize = 18;

/// The traits word: the last content word of a first item that is a genesis of 18 words.
pub fn traits(board: &[u32]) -> Option<u32> {
    let is_there = board.len() > TRAITS_PLACE && board[0] == 0x1001_0012;
    is_there.then(|| board[TRAITS_PLACE])
}

/// Whether the board begins with a genesis of 17 words, which has no traits word.
pub fn has_no_traits(board: &[u32]) -> bool {
    board.first() == Some(&0x1001_0011)
}

/// The curve of a board by its name and that of its hash, and the words of what goes by the curve or by the traits word.
#[derive(Clone, Copy, PartialEq, Debug)]
pub struct Widths {
    pub curve: &'static str,
    pub hash: &'static str,
    pub address: usize,
    pub signature: usize,
    pub commitment: usize,
    /// The low bits of a commitment's last word that are zero.
    pub zeros: u32,
    pub cryptogram: usize,
    /// A set of contests.
    pub set: usize,
}

/// Without a traits word.
pub const PLAIN: Widths = Widths {
    curve: "secp256r1",
    hash: "SHA-256",
    address: 8,
    signature: 16,
    commitment: 9,
    zeros: 24,
    cryptogram: 17,
    set: 1,
};
const SECP384R1: Widths = Widths {
    curve: "secp384r1",
    hash: "SHA-384",
    address: 12,
    signature: 24,
    commitment: 13,
    zeros: 24,
    cryptogram: 25,
    set: 1,
};
const SECP521R1: Widths = Widths {
    curve: "secp521r1",
    hash: "SHA-512",
    address: 16,
    signature: 33,
    commitment: 17,
    zeros: 8,
    cryptogram: 34,
    set: 1,
};

impl Widths {
    /// By the traits word; none for one that is refused.
    pub fn of_traits(word: u32) -> Option<Widths> {
        let curve = [PLAIN, SECP384R1, SECP521R1].get(word as usize / 2).copied()?;
        Some(Widths { set: if word % 2 == 1 { 8 } else { 1 }, ..curve })
    }

    pub fn of(board: &[u32]) -> Widths {
        traits(board).and_then(Widths::of_traits).unwrap_or(PLAIN)
    }

    pub fn all() -> [Widths; 6] {
        std::array::from_fn(|word| Widths::of_traits(word as u32).expect("a traits word that is not refused"))
    }

    /// The words of an item beside its content, and those of them that are hashed: head, parent, previous, time.
    pub fn frame(&self) -> usize {
        self.hashed_frame() + self.signature + self.address
    }
    pub fn hashed_frame(&self) -> usize {
        1 + 2 * self.address + 2
    }

    /// What an address is.
    pub fn hashed(&self, words: &[u32]) -> Vec<u32> {
        match self.hash {
            "SHA-256" => sha256(words).to_vec(),
            "SHA-384" => sha384(words).to_vec(),
            _ => sha512(words).to_vec(),
        }
    }

    /// Whether a type has so many content words.
    pub fn fits(&self, code: u32, n: usize) -> bool {
        let each = |before: usize, size: usize, most: usize| (1..=most).any(|k| n == before + size * k);
        match code {
            GENESIS => n == 17 || n == 18,
            TEXT => n <= 64,
            CONTEST => (1..=65).contains(&n),
            THRESHOLD => n == 10,
            AUTHORIZER => n == 9,
            ROUND => n == 1 + self.set + 4,
            SESSION => n == 18 + self.set,
            VOTER_COMMITMENT | SERVER_COMMITMENT => n == self.commitment,
            BALLOT => each(self.set, self.cryptogram, 32 * self.set),
            CAST | SPOIL | INTENT | TRACK => n == 0,
            EXTRACTION | VERIFIER => n == 8,
            CONFIRMATION => each(1, 16, 32),
            VOTER_OPENING | SERVER_OPENING => (1..=256).contains(&n),
            _ => false,
        }
    }

    /// Whether a head is listed, and has as many content words as its type.
    pub fn is_readable(&self, head: u32) -> bool {
        kind_of(code(head)) == Some(kind(head)) && self.fits(code(head), count(head))
    }

    /// The words of a set of contests, as they are told.
    pub fn set_words(&self) -> &'static str {
        if self.set == 1 {
            "one word"
        } else {
            "eight words"
        }
    }
}
