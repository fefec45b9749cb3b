//! A board before it is words: items that name each other by position. Laying it out fills in
//! the links and hashes, so that an item can be changed and all after it stays right. The roll goes with it.

use crate::audit::Board;
use crate::curves::widened;
use crate::format::*;

/// The parent field. Positions count items from 0. Of words that are given here and below, the field has as many as
/// the board's addresses have.
#[derive(Clone, Debug, PartialEq)]
pub enum Link {
    Zeros,
    Item(usize),
    Words(Digest),
}

/// The previous field: right for the item's kind, or something else.
#[derive(Clone, Debug, PartialEq)]
pub enum Previous {
    Right,
    Item(usize),
    Words(Digest),
}

/// The address field: right, or one of the plausible mistakes.
#[derive(Clone, Debug, PartialEq)]
pub enum Address {
    Right,
    Words(Digest),
    /// The right address with this bit turned over.
    Flipped(usize),
    /// The hash of another curve, cut or with zeros behind it.
    Of(Curve),
    /// So many words of the right address, and zeros.
    First(usize),
    WithSignature,
    WithoutHead,
    WithoutCount,
    WithoutTime,
}

#[derive(Clone, Debug)]
pub struct Spec {
    pub kind: u32,
    pub code: u32,
    /// The count in the head where it is not the content's length.
    pub count: Option<usize>,
    pub content: Vec<u32>,
    pub parent: Link,
    pub previous: Previous,
    pub time: u64,
    /// As many of these words as the board's signatures have.
    pub signature: [u32; WIDEST_SIGNATURE],
    /// The words of the signature where they are not as many.
    pub signature_words: Option<usize>,
    pub address: Address,
    pub verdict: u32,
    pub key: [u32; FINGERPRINT],
}

#[derive(Clone, Debug)]
pub struct Plan {
    pub items: Vec<Spec>,
    /// The words of the roll.
    pub roll: Vec<u32>,
    /// The closing word where it is not the right one; `Some(None)` leaves it out.
    pub closing: Option<Option<u32>>,
    /// Words after the closing word, and after the verdicts.
    pub after: Vec<u32>,
    pub verdicts_after: Vec<u32>,
    /// A word put in place of the head of the item at a position.
    pub head: Option<(usize, u32)>,
    /// The board's words end this many words into the item at a position.
    pub cut: Option<(usize, usize)>,
    /// The verdicts end after so many words.
    pub verdicts_cut: Option<usize>,
    /// The curve by which the words are laid out and hashed, where it is not the one that they tell.
    pub laid_as: Option<Curve>,
}

/// A board as words.
#[derive(Clone, Debug)]
pub struct Laid {
    pub words: Vec<u32>,
    pub verdicts: Vec<u32>,
    pub roll: Vec<u32>,
    /// Where each item's head stands, and its address.
    pub places: Vec<usize>,
    pub addresses: Vec<Digest>,
}

impl Laid {
    pub fn board(&self) -> Board<'_> {
        Board { words: &self.words, verdicts: &self.verdicts, roll: &self.roll }
    }
}

pub const GOOD: u32 = VERDICT << 28 | 1;

impl Plan {
    pub fn new(items: Vec<Spec>, roll: Vec<u32>) -> Plan {
        Plan {
            items,
            roll,
            closing: None,
            after: Vec::new(),
            verdicts_after: Vec::new(),
            head: None,
            cut: None,
            verdicts_cut: None,
            laid_as: None,
        }
    }

    /// How its words are read, as the first of them will tell.
    pub fn layout(&self) -> Layout {
        let first = &self.items[0];
        let count = first.count.unwrap_or(first.content.len());
        Layout::of(&[&[head(first.kind, first.code, count)], &first.content[..]].concat())
    }

    /// Puts an item before the one at `at`; links to later positions follow.
    pub fn insert(&mut self, at: usize, spec: Spec) {
        for item in &mut self.items {
            if let Link::Item(i) = &mut item.parent {
                *i += usize::from(*i >= at);
            }
            if let Previous::Item(i) = &mut item.previous {
                *i += usize::from(*i >= at);
            }
        }
        self.items.insert(at, spec);
    }

    /// Takes an item out; links to it go to `instead`, an earlier position.
    pub fn remove(&mut self, at: usize, instead: usize) {
        self.items.remove(at);
        let moved = |i: usize| if i == at { instead } else { i - usize::from(i > at) };
        for item in &mut self.items {
            if let Link::Item(i) = &mut item.parent {
                *i = moved(*i);
            }
            if let Previous::Item(i) = &mut item.previous {
                *i = moved(*i);
            }
        }
    }

    pub fn lay(&self) -> Laid {
        self.lay_with(Curve::hash)
    }

    /// The same with another hash.
    pub fn lay_with(&self, hash: fn(Curve, &[u32]) -> Digest) -> Laid {
        let curve = self.laid_as.unwrap_or(self.layout().curve);
        let widths = curve.widths();
        let hash = |message: &[u32]| hash(curve, message);
        let mut words = Vec::new();
        let mut verdicts = Vec::new();
        let mut places = Vec::new();
        let mut addresses: Vec<Digest> = Vec::new();
        let mut last_main = ZEROS;
        for spec in &self.items {
            let place = words.len();
            places.push(place);
            let count = spec.count.unwrap_or(spec.content.len());
            words.push(head(spec.kind, spec.code, count));
            words.extend_from_slice(&spec.content);
            // An item further on has no address yet: some words that none has.
            let address_of = |i: usize| addresses.get(i).copied().unwrap_or([0xaaaa_0000 + i as u32; WIDEST]);
            let parent = match spec.parent {
                Link::Zeros => ZEROS,
                Link::Item(i) => address_of(i),
                Link::Words(given) => given,
            };
            let previous = match spec.previous {
                Previous::Right if spec.kind == HIDDEN => parent,
                Previous::Right => last_main,
                Previous::Item(i) => address_of(i),
                Previous::Words(given) => given,
            };
            words.extend_from_slice(&parent[..widths.address]);
            words.extend_from_slice(&previous[..widths.address]);
            words.push((spec.time >> 32) as u32);
            words.push(spec.time as u32);
            let hashed_end = words.len();
            words.extend_from_slice(&spec.signature[..spec.signature_words.unwrap_or(widths.signature)]);
            let hashed = &words[place..hashed_end];
            let address = match spec.address {
                Address::Right => hash(hashed),
                Address::Words(given) => given,
                Address::Flipped(bit) => {
                    let mut flipped = hash(hashed);
                    flipped[bit / 32] ^= 1 << (bit % 32);
                    flipped
                }
                Address::Of(other) => other.hash(hashed),
                Address::First(words) => widened(&hash(hashed)[..words]),
                Address::WithSignature => hash(&words[place..]),
                Address::WithoutHead => hash(&hashed[1..]),
                Address::WithoutCount => {
                    let mut changed = hashed.to_vec();
                    changed[0] &= 0xffff_0000;
                    hash(&changed)
                }
                Address::WithoutTime => hash(&hashed[..hashed.len() - 2]),
            };
            words.extend_from_slice(&address[..widths.address]);
            addresses.push(address);
            if spec.kind != HIDDEN {
                last_main = address;
            }
            verdicts.push(spec.verdict);
            verdicts.extend_from_slice(&spec.key);
        }
        match self.closing {
            None => words.push(CLOSING << 28 | self.items.len() as u32),
            Some(Some(word)) => words.push(word),
            Some(None) => {}
        }
        words.extend_from_slice(&self.after);
        verdicts.extend_from_slice(&self.verdicts_after);
        if let Some((item, word)) = self.head {
            words[places[item]] = word;
        }
        if let Some((item, length)) = self.cut {
            words.truncate(places[item] + length);
        }
        if let Some(length) = self.verdicts_cut {
            verdicts.truncate(length);
        }
        Laid { words, verdicts, roll: self.roll.clone(), places, addresses }
    }
}
