//! What there must be plans of, on each curve.

use crate::calls::places;
use crate::checks::SaidOfPlan;
use crate::format::*;

/// The words of a board, and what was said of it.
pub struct AskedPlan<'a> {
    pub board: &'a [u32],
    pub said: SaidOfPlan,
}

type ShowsPlan = fn(&AskedPlan) -> bool;

/// What only a board with today's widths shows.
pub const PLANS_OF_PLAIN: [&str; 3] =
    ["3: no words", "3: a closing word first", "planned: unknown traits of a larger curve"];

/// What there must be calls of, by a short name.
pub const PLANS_WANTED: [(&str, ShowsPlan); 19] = [
    ("planned", |a| a.is(0)),
    ("planned: a hidden item", |a| a.is(0) && places(a.board).any(|place| kind(a.board[place]) == HIDDEN)),
    ("planned: 2,048 items", |a| a.is(0) && a.items() == 2_048),
    ("planned: 262,144 words", |a| a.is(0) && a.board.len() == 262_144),
    ("planned: a message with room for the padding and no more", |a| a.is(0) && a.leaves(0)),
    ("planned: a message with a word too few for it", |a| a.is(0) && a.leaves(1)),
    ("planned: a message that fills its last block", |a| a.is(0) && a.fills()),
    ("1: too many words", |a| a.is(1) && a.items() == 0),
    ("1: a word behind 2,048 items", |a| a.is(1) && a.items() == 2_048),
    (PLANS_OF_PLAIN[0], |a| a.is(3) && a.board.is_empty()),
    (PLANS_OF_PLAIN[1], |a| a.is(3) && !a.board.is_empty()),
    (PLANS_OF_PLAIN[2], |a| a.is(0) && a.told_by_unknown()),
    ("4: the first item", |a| a.is(4) && a.items() == 0),
    ("4: a later item", |a| a.is(4) && a.items() > 0 && a.end() < a.board.len()),
    ("4: no closing word", |a| a.is(4) && a.items() > 0 && a.end() == a.board.len()),
    ("5: behind items", |a| a.is(5) && a.items() > 0),
    ("6: behind items", |a| a.is(6) && a.items() > 0),
    ("18: another number", |a| a.is(18) && a.end() + 1 == a.board.len()),
    ("18: words behind it", |a| a.is(18) && a.end() + 1 < a.board.len()),
];

impl AskedPlan<'_> {
    fn is(&self, number: u32) -> bool {
        self.said.said.is_some_and(|said| said[0] == number)
    }
    fn items(&self) -> usize {
        self.said.said.map_or(0, |said| said[1] as usize)
    }
    /// Where the items end that passed.
    fn end(&self) -> usize {
        let frame = Layout::of(self.board).curve.frame();
        let last = self.items().checked_sub(1).and_then(|before| places(self.board).nth(before));
        last.map_or(0, |place| place + count(self.board[place]) + frame)
    }
    /// The words that each message has in its last block, and the words of a block.
    fn lasts(&self) -> (impl Iterator<Item = usize> + '_, usize) {
        let curve = Layout::of(self.board).curve;
        let block = curve.widths().block / 4;
        let last = move |place: usize| (count(self.board[place]) + curve.hashed_frame()) % block;
        (places(self.board).map(last), block)
    }
    /// Whether some message ends so many words behind the last place that leaves room for the padding.
    fn leaves(&self, behind: usize) -> bool {
        let (mut lasts, block) = self.lasts();
        lasts.any(|last| last == block - block / 8 - 1 + behind)
    }
    fn fills(&self) -> bool {
        self.lasts().0.any(|last| last == 0)
    }

    /// Whether the board has traits that are not known, with the bits of a larger curve.
    fn told_by_unknown(&self) -> bool {
        traits(self.board).is_some_and(|traits| Layout::known(traits).is_none() && traits & CURVE_BITS != 0)
    }
}
