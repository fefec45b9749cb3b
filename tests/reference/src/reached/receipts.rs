//! What there must be calls of with receipts, on each curve.

use crate::format::*;
use crate::presented::{Ending, Presented, Sort};

/// Receipts for a board, what the audit says of that, and what was said of both.
pub struct Asked<'a> {
    pub presented: &'a Presented,
    pub board: &'a [u32],
    /// The refusal of the board, or 0, with tables that are long enough.
    pub audited: u32,
    /// The number in the answer.
    pub said: u32,
    /// Whether a table was too short.
    pub short: bool,
}

type ShowsReceipts = fn(&Asked) -> bool;

/// What only a board with today's widths shows.
pub const OF_UNKNOWN_TRAITS: [&str; 2] = ["22: as wide as unknown traits tell", "13: unknown traits of a larger curve"];

/// What there must be calls of, by a short name.
pub const RECEIPTS_WANTED: [(&str, ShowsReceipts); 32] = [
    ("of a cast that counts", |a| a.answers(Sort::Counted)),
    ("of a cast that a later one replaced", |a| a.answers(Sort::Replaced)),
    ("of a spoil", |a| a.answers(Sort::Spoil)),
    ("of another main item", |a| a.answers(Sort::Main)),
    ("of a hidden item", |a| a.answers(Sort::Hidden)),
    ("an address with a bit turned over", |a| a.answers(Sort::AddressChanged)),
    ("a signature with a bit turned over", |a| a.answers(Sort::SignatureChanged)),
    ("the address of a cast with another item's signature", |a| a.answers(Sort::TwoItems)),
    ("an address before its signature", |a| a.answers(Sort::AddressFirst)),
    ("ten or more with one address", |a| a.accepted() && a.presented.one_address),
    ("two equal ones", |a| a.accepted() && a.presented.equal),
    ("items with one signature", |a| a.accepted() && a.presented.has_common_signatures()),
    ("none", |a| a.accepted() && a.words() == 0 && a.presented.buffer > 0),
    ("none, and no word of buffer", |a| a.accepted() && a.words() == 0 && a.presented.buffer == 0),
    ("512", |a| a.accepted() && a.count() == 512),
    ("of another curve's width, whole by accident", |a| a.accepted() && a.ends(Ending::OtherWidth)),
    ("a word of buffer for each", |a| a.accepted() && a.count() > 0 && a.presented.buffer == a.count()),
    ("more words of buffer", |a| a.accepted() && a.presented.buffer > a.count() && a.count() > 0),
    ("more than 512 words of buffer", |a| a.accepted() && a.presented.buffer > 512),
    ("22: 513", |a| a.said == 22 && a.ends(Ending::Whole) && a.count() == 513),
    ("22: words missing", |a| a.said == 22 && a.ends(Ending::Missing)),
    ("22: words too many", |a| a.said == 22 && a.ends(Ending::TooMany)),
    ("22: of another curve's width", |a| a.said == 22 && a.ends(Ending::OtherWidth)),
    ("22: a board of too many words", |a| a.said == 22 && a.is_oversize()),
    ("22: a table that is too short", |a| a.said == 22 && a.short),
    ("22: too few words of buffer", |a| a.said == 22 && a.presented.buffer < a.count()),
    ("2: a word of buffer less", |a| a.is_short_of_buffer() && a.presented.buffer + 1 == a.count()),
    ("2: no word of buffer", |a| a.is_short_of_buffer() && a.presented.buffer == 0),
    ("2: a board of too many words", |a| a.is_short_of_buffer() && a.is_oversize()),
    ("1: a board of too many words", |a| a.said == 1 && a.is_oversize()),
    (OF_UNKNOWN_TRAITS[0], |a| a.said == 22 && a.told_by_unknown() && a.ends(Ending::OtherWidth)),
    (OF_UNKNOWN_TRAITS[1], |a| a.said == 13 && a.told_by_unknown() && a.count() > 0),
];

impl Asked<'_> {
    fn accepted(&self) -> bool {
        self.said == 0
    }
    fn words(&self) -> usize {
        self.presented.receipts.len()
    }
    fn count(&self) -> usize {
        self.words() / Layout::of(self.board).curve.receipt()
    }
    fn ends(&self, ending: Ending) -> bool {
        self.presented.ending == ending
    }
    fn answers(&self, sort: Sort) -> bool {
        self.accepted() && self.presented.sorts.contains(&sort)
    }
    fn is_oversize(&self) -> bool {
        self.board.len() > MAX_WORDS
    }
    fn is_short_of_buffer(&self) -> bool {
        self.said == 2 && self.presented.refusal == Some(2)
    }

    /// Whether the board has traits that are not known, with the bits of a larger curve.
    fn told_by_unknown(&self) -> bool {
        traits(self.board).is_some_and(|traits| Layout::known(traits).is_none() && traits & CURVE_BITS != 0)
    }

    /// What the entry says in the end: what the audit does, 2 for the buffer of answers, or 22.
    pub fn way(&self) -> Option<usize> {
        match self.said {
            22 => Some(2),
            _ if self.is_short_of_buffer() => Some(1),
            said if said == self.audited => Some(0),
            _ => None,
        }
    }
}
