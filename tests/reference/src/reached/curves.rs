//! What there must be boards of on each curve.

use super::widths::accepted_layout;
use crate::audit::Board;
use crate::calls::places;
use crate::format::*;

/// A board on a curve, and what was said of it.
pub struct OnCurve {
    /// The refusal, or 0, and the items.
    number: u32,
    items: usize,
    words: usize,
    curve: Curve,
    /// The types of its items, of which there are none where it is refused.
    codes: Vec<u32>,
    /// The last words of its commitments.
    commitments: Vec<u32>,
    /// Of the item that is refused.
    refused: Option<Refused>,
    /// The curve of a board that it is compared with, and whether that is accepted.
    other: (Curve, bool),
}

struct Refused {
    code: u32,
    count: usize,
    /// The last word of its content.
    last: u32,
}

type ShowsCurve = fn(&OnCurve) -> bool;

/// What there must be boards of on each curve, by a short name.
pub const CURVES_WANTED: [(&str, ShowsCurve); 16] = [
    ("opened, extracted and confirmed", |c| c.has(SERVER_OPENING) && c.has(CONFIRMATION)),
    ("2,048 items", |c| c.accepted() && c.items == MAX_ITEMS),
    ("262,144 words", |c| c.accepted() && c.words == MAX_WORDS),
    ("16,384 words", |c| c.accepted() && c.words == 16_384),
    ("a commitment with the lowest bit that may be set", |c| c.commitments.contains(&(1 << c.zeros()))),
    ("a commitment with all bits that may be set", |c| c.commitments.contains(&(u32::MAX << c.zeros()))),
    ("beside a board on another curve", |c| c.accepted() && c.beside_other(true)),
    ("beside a board on another curve that is refused", |c| c.accepted() && c.beside_other(false)),
    ("refused, beside a board on another curve", |c| !c.accepted() && c.beside_other(true)),
    ("1: an item too many", |c| c.number == 1 && c.items == MAX_ITEMS),
    ("1: a word too many", |c| c.number == 1 && c.words > MAX_WORDS),
    ("6: a commitment of another curve", |c| c.is_misfit(&[VOTER_COMMITMENT, SERVER_COMMITMENT])),
    ("6: a ballot of another curve", |c| c.is_misfit(&[BALLOT])),
    ("13: the highest low bit of a commitment", |c| c.has_low_bits(|bits, zeros| bits == 1 << (zeros - 1))),
    ("13: the lowest bit of a commitment", |c| c.has_low_bits(|bits, _| bits == 1)),
    ("13: all low bits of a commitment", |c| c.has_low_bits(|bits, zeros| bits == (1 << zeros) - 1)),
];

impl OnCurve {
    /// Of a board, what was said of it, and a board that it is compared with.
    pub fn new(words: &[u32], number: u32, items: usize, other: Board) -> OnCurve {
        let curve = Layout::of(words).curve;
        let contents = || places(words).filter_map(|place| words.get(place + 1..=place + count(words[place])));
        let refused = || Some((words[places(words).nth(items)?], contents().nth(items)?));
        let accepted: Vec<(u32, &[u32])> = match number {
            0 => places(words).map(|place| code(words[place])).zip(contents()).collect(),
            _ => Vec::new(),
        };
        let is_commitment = |code: u32| matches!(code, VOTER_COMMITMENT | SERVER_COMMITMENT);
        let last = |content: &[u32]| content.last().copied().unwrap_or(0);
        OnCurve {
            number,
            items,
            words: words.len(),
            curve,
            codes: accepted.iter().map(|&(code, _)| code).collect(),
            commitments: accepted.iter().filter(|item| is_commitment(item.0)).map(|item| last(item.1)).collect(),
            refused: match number {
                0 => None,
                _ => refused().map(|(head, content)| Refused {
                    code: code(head),
                    count: count(head),
                    last: last(content),
                }),
            },
            other: (Layout::of(other.words).curve, accepted_layout(other).is_some()),
        }
    }

    pub fn curve(&self) -> Curve {
        self.curve
    }
    fn accepted(&self) -> bool {
        self.number == 0
    }
    fn has(&self, code: u32) -> bool {
        self.codes.contains(&code)
    }
    fn zeros(&self) -> u32 {
        self.curve.widths().commitment_zeros
    }
    fn beside_other(&self, accepted: bool) -> bool {
        self.other.0 != self.curve && self.other.1 == accepted
    }

    /// Whether an item of these types is refused whose count it has on another curve.
    fn is_misfit(&self, codes: &[u32]) -> bool {
        let fits_other = |r: &Refused| LAYOUTS.iter().any(|layout| layout.count_fits(r.code, r.count));
        self.number == 6 && self.refused.as_ref().is_some_and(|r| codes.contains(&r.code) && fits_other(r))
    }

    /// Whether a commitment is refused with such low bits.
    fn has_low_bits(&self, are: fn(u32, zeros: u32) -> bool) -> bool {
        let zeros = self.zeros();
        self.number == 13
            && self.refused.as_ref().is_some_and(|r| {
                matches!(r.code, VOTER_COMMITMENT | SERVER_COMMITMENT) && are(r.last & ((1 << zeros) - 1), zeros)
            })
    }
}
