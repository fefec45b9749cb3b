//! What there must be boards of with regard to traits and the widths of contest sets, on each curve.

use super::Items;
use crate::audit::{audit, Board};
use crate::calls::places;
use crate::format::*;

/// The contests of a round or a session, and those that are defined before it.
struct Named {
    set: Set,
    defined: Set,
}

impl Named {
    /// Whether it leaves out a contest that it could have.
    fn is_part(&self) -> bool {
        self.set != self.defined
    }
}

/// A board's contest sets, and what was said of it.
pub struct Sets {
    /// The refusal, or 0.
    number: u32,
    items: usize,
    words: usize,
    traits: Option<u32>,
    width: Width,
    curve: Curve,
    defined: Set,
    rounds: Vec<Named>,
    sessions: Vec<Named>,
    /// Of each ballot, its contests and those of its rounds that are open then.
    ballots: Vec<(Set, Vec<Set>)>,
    /// The types of its items, of which the last is refused.
    codes: Vec<u32>,
    /// The last head, where the board is refused.
    refused: u32,
    /// Where a ballot is refused with 13, the numbers, from 1, of its cryptograms that have low bits.
    bad_cryptograms: Vec<usize>,
    /// The width of a board that it is compared with, if that is accepted.
    other: Option<Width>,
}

type ShowsSets = fn(&Sets) -> bool;

/// What there must be boards of, by a short name.
pub const SETS_WANTED: [(&str, ShowsSets); 31] = [
    ("no traits word", |s| s.accepted() && s.traits.is_none()),
    ("a traits word of 0, and ballots", |s| s.accepted() && s.traits == Some(0) && !s.ballots.is_empty()),
    ("wide, and ballots", |s| s.is_wide() && !s.ballots.is_empty()),
    ("wide, without a set", |s| s.is_wide() && s.rounds.is_empty()),
    ("wide, 2,048 items", |s| s.is_wide() && s.items == MAX_ITEMS),
    ("wide, 262,144 words", |s| s.is_wide() && s.words == MAX_WORDS),
    ("wide, opened, extracted and confirmed", |s| s.is_wide() && s.has(SERVER_OPENING) && s.has(CONFIRMATION)),
    ("wide, contests in all eight words", |s| s.is_wide() && words_of(s.defined) == 8),
    ("wide, contests 0, 31, 32, 63, 224 and 255", |s| {
        let numbers = [0, 31, 32, 63, 224, 255].map(Set::one);
        s.is_wide() && numbers.iter().all(|number| number.is_within(s.defined))
    }),
    ("wide, 256 contests", |s| s.is_wide() && s.defined.count() == 256),
    ("wide, a round with a part of the contests", |s| s.is_wide() && s.rounds.iter().any(Named::is_part)),
    ("wide, a session with a part of the contests", |s| s.is_wide() && s.sessions.iter().any(Named::is_part)),
    ("wide, a session without a contest below 32", |s| {
        s.is_wide() && s.sessions.iter().any(|named| named.set.first_word().is_empty())
    }),
    ("wide, a ballot of one contest above 31", |s| {
        s.any_ballot(Width::Wide, |set| set.count() == 1 && set.first_word().is_empty())
    }),
    ("wide, a ballot with contests in two words", |s| s.any_ballot(Width::Wide, |set| words_of(set) == 2)),
    ("wide, a ballot with contests in all eight words", |s| s.any_ballot(Width::Wide, |set| words_of(set) == 8)),
    ("wide, a ballot of 33 contests or more", |s| s.any_ballot(Width::Wide, |set| set.count() > 32)),
    ("wide, a ballot of 256 contests", |s| s.any_ballot(Width::Wide, |set| set.count() == 256)),
    ("wide, a ballot that takes two open rounds", |s| s.is_wide() && s.takes_two_rounds()),
    ("narrow, a ballot that takes two open rounds", |s| s.is_narrow() && s.takes_two_rounds()),
    ("narrow, a ballot of 32 contests", |s| s.any_ballot(Width::Narrow, |set| set.count() == 32)),
    ("a narrow board beside a wide one", |s| s.is_narrow() && s.other == Some(Width::Wide)),
    ("a wide board beside a narrow one", |s| s.is_wide() && s.other == Some(Width::Narrow)),
    ("two wide boards", |s| s.is_wide() && s.other == Some(Width::Wide)),
    ("13: unknown traits, bit 0 clear", |s| s.number == 13 && s.has_unknown_traits() && !s.bit_0_is_set()),
    ("13: unknown traits, bit 0 set", |s| s.number == 13 && s.has_unknown_traits() && s.bit_0_is_set()),
    ("6: a narrow set on a wide board", |s| s.is_misfit(Width::Wide)),
    ("6: a wide set on a narrow board", |s| s.is_misfit(Width::Narrow)),
    ("12: a later genesis with a traits word", |s| s.number == 12 && s.refused == TRAITS_HEAD),
    ("13: a wide ballot", |s| s.number == 13 && s.width == Width::Wide && code(s.refused) == BALLOT),
    ("13: bits of cryptogram 256", |s| s.bad_cryptograms == [256]),
];

/// What only boards that are read as on secp256r1 show.
pub const ON_SECP256R1: [&str; 4] = [
    "no traits word",
    "a traits word of 0, and ballots",
    "13: unknown traits, bit 0 clear",
    "13: unknown traits, bit 0 set",
];

/// In how many words a set has contests.
fn words_of(set: Set) -> usize {
    set.words(Width::Wide).iter().filter(|&&word| word != 0).count()
}

impl Sets {
    /// Of a board, what was said of it, and a board that it is compared with.
    pub fn new(words: &[u32], number: u32, items: usize, other: Board) -> Sets {
        let layout = Layout::of(words);
        let refused = places(words).nth(items);
        let mut sets = Sets {
            number,
            items,
            words: words.len(),
            traits: traits(words),
            width: layout.sets,
            curve: layout.curve,
            defined: Set::EMPTY,
            rounds: Vec::new(),
            sessions: Vec::new(),
            ballots: Vec::new(),
            codes: Vec::new(),
            refused: refused.map_or(0, |place| words[place]),
            bad_cryptograms: match refused {
                Some(place) if number == 13 => bad_cryptograms(layout, &words[place..]),
                _ => Vec::new(),
            },
            other: if number == 0 { accepted_layout(other).map(|layout| layout.sets) } else { None },
        };
        if number == 0 {
            sets.read(words);
        }
        sets
    }

    /// The sets of an accepted board.
    fn read(&mut self, words: &[u32]) {
        let mut standing: Vec<Option<&[u32]>> = vec![None; 16];
        for place in places(words) {
            let content = &words[place + 1..place + 1 + count(words[place])];
            let code = code(words[place]);
            self.codes.push(code);
            let named = |code: u32| Named { set: self.width.set(code, content), defined: self.defined };
            match code {
                CONTEST => self.defined |= Set::one(content[0]),
                ROUND => {
                    self.rounds.push(named(ROUND));
                    standing[content[0] as usize] = Some(content);
                }
                SESSION => self.sessions.push(named(SESSION)),
                BALLOT => {
                    let time = Items::time_at(words, place);
                    let is_open = |round: &&[u32]| {
                        let (start, end) = self.width.round_times(round);
                        start <= time && time < end
                    };
                    let open = standing.iter().copied().flatten().filter(is_open);
                    let enabled = open.map(|round| self.width.set(ROUND, round)).collect();
                    self.ballots.push((self.width.set(BALLOT, content), enabled));
                }
                _ => {}
            }
        }
    }

    fn accepted(&self) -> bool {
        self.number == 0
    }
    fn has_unknown_traits(&self) -> bool {
        self.traits.is_some_and(|traits| traits > 5)
    }
    fn bit_0_is_set(&self) -> bool {
        self.traits.is_some_and(|traits| traits % 2 == 1)
    }
    fn is_wide(&self) -> bool {
        self.accepted() && self.width == Width::Wide
    }
    fn is_narrow(&self) -> bool {
        self.accepted() && self.width == Width::Narrow
    }
    fn has(&self, code: u32) -> bool {
        self.codes.contains(&code)
    }
    fn any_ballot(&self, width: Width, is: fn(Set) -> bool) -> bool {
        self.accepted() && self.width == width && self.ballots.iter().any(|&(set, _)| is(set))
    }

    /// Whether some ballot is enabled by its open rounds together, and by none alone.
    fn takes_two_rounds(&self) -> bool {
        self.ballots.iter().any(|(set, open)| !open.iter().any(|&round| set.is_within(round)))
    }

    /// Whether a board of this width is refused for an item with a set of the other width.
    fn is_misfit(&self, width: Width) -> bool {
        let other = if width == Width::Wide { Width::Narrow } else { Width::Wide };
        let (code, n) = (code(self.refused), count(self.refused));
        let has_set = matches!(code, ROUND | SESSION | BALLOT);
        let fits_other = Layout { sets: other, curve: self.curve }.count_fits(code, n);
        self.number == 6 && self.width == width && has_set && fits_other
    }
}

/// The numbers of the cryptograms that have low bits in the item that these words begin with, if it is a ballot.
fn bad_cryptograms(layout: Layout, words: &[u32]) -> Vec<usize> {
    if code(words[0]) != BALLOT {
        return Vec::new();
    }
    let numbered = (1..).zip(layout.cryptograms(&words[1..1 + count(words[0])]));
    let has_low_bits = |words: &[u32]| words.last().is_some_and(|last| last & 0xffff != 0);
    numbered.filter(|(_, words)| has_low_bits(words)).map(|(number, _)| number).collect()
}

/// The layout of a board, if it is accepted.
pub fn accepted_layout(board: Board) -> Option<Layout> {
    let (mut index, mut ballots) = (vec![0; INDEX_NEED], vec![0; BALLOTS_NEED]);
    let report = audit(board.words, board.verdicts, board.roll, &mut index, &mut ballots);
    (report.number == 0).then(|| Layout::of(board.words))
}
