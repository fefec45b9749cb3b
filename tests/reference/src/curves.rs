//! The curves that a board can be on, and what is as wide as its curve has it: the address of an item, which is the
//! curve's hash, the signature, a commitment and a cryptogram. Key fingerprints, the fingerprints of sessions and
//! extractions, and a trustee's share are the same on all: `format` has them.

use crate::sha256::sha256;
use crate::sha512::{sha384, sha512};

/// The words of the widest address, and of the widest signature.
pub const WIDEST: usize = 16;
pub const WIDEST_SIGNATURE: usize = 33;

/// A hash of a curve, as an address is. The words behind those that the curve's hash has are zero.
pub type Digest = [u32; WIDEST];

pub const ZEROS: Digest = [0; WIDEST];

/// The low bits of a cryptogram's last word that are zero, on all curves.
pub const CRYPTOGRAM_ZEROS: u32 = 16;

/// In the order of their numbers in the traits word: 0, 1, 2.
#[derive(Clone, Copy, PartialEq, Eq, PartialOrd, Ord, Debug)]
pub enum Curve {
    Secp256r1,
    Secp384r1,
    Secp521r1,
}

pub const CURVES: [Curve; 3] = [Curve::Secp256r1, Curve::Secp384r1, Curve::Secp521r1];

/// What a curve decides. Widths are in words.
pub struct Widths {
    pub name: &'static str,
    /// Of a message of whole words.
    pub hash: fn(&[u32]) -> Digest,
    /// The bytes of a block of that hash.
    pub block: usize,
    pub address: usize,
    pub signature: usize,
    pub commitment: usize,
    /// The low bits of a commitment's last word that are zero.
    pub commitment_zeros: u32,
    pub cryptogram: usize,
}

const TABLE: [Widths; 3] = [
    Widths {
        name: "secp256r1",
        hash: |message| widened(&sha256(message)),
        block: 64,
        address: 8,
        signature: 16,
        commitment: 9,
        commitment_zeros: 24,
        cryptogram: 17,
    },
    Widths {
        name: "secp384r1",
        hash: |message| widened(&sha384(message)),
        block: 128,
        address: 12,
        signature: 24,
        commitment: 13,
        commitment_zeros: 24,
        cryptogram: 25,
    },
    Widths {
        name: "secp521r1",
        hash: |message| widened(&sha512(message)),
        block: 128,
        address: 16,
        signature: 33,
        commitment: 17,
        commitment_zeros: 8,
        cryptogram: 34,
    },
];

impl Curve {
    pub const fn widths(self) -> &'static Widths {
        &TABLE[self as usize]
    }

    /// The curve with this number; none has more than 2.
    pub fn numbered(number: u32) -> Option<Curve> {
        CURVES.get(number as usize).copied()
    }

    pub fn name(self) -> &'static str {
        self.widths().name
    }

    /// The curve's hash.
    pub fn hash(self, message: &[u32]) -> Digest {
        (self.widths().hash)(message)
    }

    /// The words of an item beside its content, and the hashed ones among them: head, parent, previous and time; signature
    /// and address follow.
    pub const fn frame(self) -> usize {
        self.hashed_frame() + self.widths().signature + self.widths().address
    }
    pub const fn hashed_frame(self) -> usize {
        1 + 2 * self.widths().address + 2
    }

    /// The words of a receipt: a signature, then an address.
    pub const fn receipt(self) -> usize {
        self.widths().signature + self.widths().address
    }

    /// The words of a watcher's note: a time of two words, then an address.
    pub const fn note(self) -> usize {
        2 + self.widths().address
    }

    /// The address at a place.
    pub fn address(self, words: &[u32], at: usize) -> Digest {
        widened(&words[at..at + self.widths().address])
    }
}

/// Some words and zeros behind them.
pub fn widened(words: &[u32]) -> Digest {
    let mut address = ZEROS;
    address[..words.len()].copy_from_slice(words);
    address
}
