//! The words of a board: heads, the table of types, the layout that a board's traits choose, the limits.

pub use crate::curves::{Curve, Digest, CRYPTOGRAM_ZEROS, CURVES, WIDEST, WIDEST_SIGNATURE, ZEROS};
pub use crate::sets::Set;

pub const MAX_WORDS: usize = 262_144;
pub const MAX_ITEMS: usize = 2_048;
pub const INDEX_ROW: usize = 5;
pub const BALLOT_ROW: usize = 3;
pub const ROLL_ROW: usize = 2;

/// The columns of an index row.
pub mod index_row {
    pub const PLACE: usize = 0;
    pub const PARENT: usize = 1;
    pub const SESSION: usize = 2;
    pub const MAINS_BEFORE: usize = 3;
    pub const CLOSED_BY: usize = 4;
}

/// The columns of a ballot row.
pub mod ballot_row {
    /// The main number of the ballot.
    pub const BALLOT: usize = 0;
    pub const VOTER: usize = 1;
    pub const WEIGHT: usize = 2;
}

/// The columns of a pair of the roll.
pub mod roll_row {
    pub const VOTER: usize = 0;
    pub const WEIGHT: usize = 1;
}

/// The most pairs of a roll, and their words.
pub const MAX_VOTERS: usize = 2_048;
pub const ROLL_MOST: usize = ROLL_ROW * MAX_VOTERS;

/// The most ballots that a board can count. Each has five items of its own: session, two
/// commitments, ballot, cast. Five of the config stand before the first session: genesis, contest,
/// threshold, authorizer, round. That leaves (2,048 - 5) / 5.
pub const MAX_BALLOTS: usize = 408;
/// The words that the index table, the ballot table and the list of an ancestry need.
pub const INDEX_NEED: usize = INDEX_ROW * MAX_ITEMS;
pub const BALLOTS_NEED: usize = BALLOT_ROW * MAX_BALLOTS;
pub const LIST_NEED: usize = 2_048;
/// No item's number, in an index row: the session of an item that has none; the cast or spoil under an
/// open ballot, or under an item that is no ballot.
pub const NO_ITEM: u32 = u32::MAX;

/// The most receipts that are answered at once, and the answer to one that has no cast.
pub const MAX_RECEIPTS: usize = 512;
pub const NO_CAST: u32 = u32::MAX;

/// The most notes of a watcher that are held against a board at once.
pub const MAX_NOTES: usize = 1_024;

const _: () = assert!(MAX_BALLOTS == (MAX_ITEMS - 5) / 5 && BALLOTS_NEED == 1_224);
const _: () = assert!(INDEX_NEED == 10_240);
const _: () = assert!(ROLL_MOST == 4_096);

pub const MAIN: u32 = 1;
pub const HIDDEN: u32 = 2;
pub const VERDICT: u32 = 3;
pub const CLOSING: u32 = 15;

/// The words of a key fingerprint, and of the fingerprint of ballots: SHA-256 on every curve.
pub const FINGERPRINT: usize = 8;
pub const VERDICT_WORDS: usize = 1 + FINGERPRINT;
pub const NO_KEY: [u32; FINGERPRINT] = [0; FINGERPRINT];

pub const GENESIS: u32 = 1;
pub const TEXT: u32 = 2;
pub const CONTEST: u32 = 3;
pub const THRESHOLD: u32 = 4;
pub const AUTHORIZER: u32 = 5;
pub const ROUND: u32 = 6;
pub const SESSION: u32 = 16;
pub const VOTER_COMMITMENT: u32 = 17;
pub const SERVER_COMMITMENT: u32 = 18;
pub const BALLOT: u32 = 19;
pub const CAST: u32 = 20;
pub const SPOIL: u32 = 21;
pub const INTENT: u32 = 32;
pub const EXTRACTION: u32 = 33;
pub const CONFIRMATION: u32 = 34;
pub const TRACK: u32 = 48;
pub const VERIFIER: u32 = 49;
pub const VOTER_OPENING: u32 = 50;
pub const SERVER_OPENING: u32 = 51;

/// Every type code, in the table's order.
pub const CODES: [u32; 19] = [1, 2, 3, 4, 5, 6, 16, 17, 18, 19, 20, 21, 32, 33, 34, 48, 49, 50, 51];

/// The words of one trustee in a confirmation.
pub const TRUSTEE: usize = 16;

pub fn kind(head: u32) -> u32 {
    head >> 28
}
pub fn code(head: u32) -> u32 {
    (head >> 16) & 0xfff
}
pub fn count(head: u32) -> usize {
    (head & 0xffff) as usize
}
pub fn head(kind: u32, code: u32, count: usize) -> u32 {
    kind << 28 | code << 16 | count as u32
}

/// The kind under which a type is listed.
pub fn kind_of(code: u32) -> Option<u32> {
    match code {
        1..=6 | 16..=21 | 32..=34 => Some(MAIN),
        48..=51 => Some(HIDDEN),
        _ => None,
    }
}

// ---- the layout of a board ----

/// The head of a first item that carries a traits word, and the place of that word on the board.
pub const TRAITS_HEAD: u32 = 0x1001_0012;
pub const TRAITS_PLACE: usize = 18;
/// The content words of a genesis without it, which are then its place in the content.
pub const PLAIN_GENESIS: usize = 17;
/// The traits that are known. Bit 0: contest sets of eight words. Bits 1 and 2 are the number of the curve.
pub const WIDE_SETS: u32 = 1;
pub const CURVE_SHIFT: u32 = 1;
pub const CURVE_BITS: u32 = 3 << CURVE_SHIFT;

/// Where the contest set stands in a round's and in a session's content; in a ballot's it is first.
pub const ROUND_SET: usize = 1;
pub const SESSION_SET: usize = 18;

/// How wide a board's contest sets are.
#[derive(Clone, Copy, PartialEq, Eq, PartialOrd, Ord, Debug)]
pub enum Width {
    Narrow,
    Wide,
}

/// A board's traits word, where it has one. That of a later genesis is none.
pub fn traits(board: &[u32]) -> Option<u32> {
    match board.first() {
        Some(&TRAITS_HEAD) => board.get(TRAITS_PLACE).copied(),
        _ => None,
    }
}

impl Width {
    /// The words of a contest set.
    pub const fn words(self) -> usize {
        match self {
            Width::Narrow => 1,
            Width::Wide => 8,
        }
    }

    /// How many contest numbers there are, from 0 on; so many cryptograms can be in a ballot.
    pub const fn contests(self) -> u32 {
        32 * self.words() as u32
    }

    /// Where the contest set stands in the content of a round, a session or a ballot.
    pub fn set_place(self, code: u32) -> std::ops::Range<usize> {
        let first = match code {
            ROUND => ROUND_SET,
            SESSION => SESSION_SET,
            BALLOT => 0,
            _ => panic!("type {code} has no contest set"),
        };
        first..first + self.words()
    }

    /// The contest set of a round, a session or a ballot.
    pub fn set(self, code: u32, content: &[u32]) -> Set {
        Set::of(&content[self.set_place(code)])
    }

    /// The start and the end of a round, which stand behind its set.
    pub fn round_times(self, content: &[u32]) -> (u64, u64) {
        let start = self.set_place(ROUND).end;
        (time(content, start), time(content, start + 2))
    }
}

/// How a board's words are laid out: by its curve, and by the width of its contest sets.
#[derive(Clone, Copy, PartialEq, Eq, PartialOrd, Ord, Debug)]
pub struct Layout {
    pub curve: Curve,
    pub sets: Width,
}

/// All of them, in the order of their traits words: 0 to 5.
pub const LAYOUTS: [Layout; 6] = [
    Layout { curve: Curve::Secp256r1, sets: Width::Narrow },
    Layout { curve: Curve::Secp256r1, sets: Width::Wide },
    Layout { curve: Curve::Secp384r1, sets: Width::Narrow },
    Layout { curve: Curve::Secp384r1, sets: Width::Wide },
    Layout { curve: Curve::Secp521r1, sets: Width::Narrow },
    Layout { curve: Curve::Secp521r1, sets: Width::Wide },
];

impl Layout {
    /// That of a board without a traits word.
    pub const PLAIN: Layout = Layout { curve: Curve::Secp256r1, sets: Width::Narrow };

    /// As the board's own words have it. A board whose traits are not known has the plain one until it is refused.
    pub fn of(board: &[u32]) -> Layout {
        traits(board).and_then(Layout::known).unwrap_or(Layout::PLAIN)
    }

    /// The one that a traits word chooses, where all its traits are known.
    pub fn known(traits: u32) -> Option<Layout> {
        let others = traits & !(WIDE_SETS | CURVE_BITS);
        let curve = Curve::numbered((traits & CURVE_BITS) >> CURVE_SHIFT)?;
        let sets = if traits & WIDE_SETS == 0 { Width::Narrow } else { Width::Wide };
        (others == 0).then_some(Layout { curve, sets })
    }

    /// The traits word that chooses it.
    pub const fn traits(self) -> u32 {
        (self.curve as u32) << CURVE_SHIFT | self.sets as u32 * WIDE_SETS
    }

    /// Whether the table has this content count for the type.
    pub fn count_fits(self, code: u32, n: usize) -> bool {
        let (set, widths) = (self.sets.words(), self.curve.widths());
        match code {
            GENESIS => n == PLAIN_GENESIS || n == PLAIN_GENESIS + 1,
            TEXT => n <= 64,
            CONTEST => (1..=65).contains(&n),
            THRESHOLD => n == 10,
            AUTHORIZER => n == 9,
            ROUND => n == 5 + set,
            SESSION => n == 18 + set,
            VOTER_COMMITMENT | SERVER_COMMITMENT => n == widths.commitment,
            BALLOT => (1..=self.sets.contests() as usize).any(|k| n == set + widths.cryptogram * k),
            CAST | SPOIL | INTENT | TRACK => n == 0,
            EXTRACTION | VERIFIER => n == FINGERPRINT,
            CONFIRMATION => (1..=32).any(|k| n == 1 + TRUSTEE * k),
            VOTER_OPENING | SERVER_OPENING => (1..=256).contains(&n),
            _ => false,
        }
    }

    /// The cryptograms in a ballot's content, which stand behind its set.
    pub fn cryptograms(self, ballot: &[u32]) -> std::slice::ChunksExact<'_, u32> {
        ballot[self.sets.words()..].chunks_exact(self.curve.widths().cryptogram)
    }
}

/// The content of a round.
pub fn round_content(width: Width, number: u32, contests: Set, start: u64, end: u64) -> Vec<u32> {
    let mut content = vec![number];
    content.extend(contests.words(width));
    content.extend([(start >> 32) as u32, start as u32, (end >> 32) as u32, end as u32]);
    content
}

/// What the table lists as a type's parent.
#[derive(Clone, Copy, PartialEq, Eq, Debug)]
pub enum Parent {
    Zeros,
    LatestConfig,
    Type(u32),
}

pub fn parent_of(code: u32) -> Parent {
    match code {
        GENESIS => Parent::Zeros,
        TEXT..=ROUND | SESSION | INTENT => Parent::LatestConfig,
        VOTER_COMMITMENT => Parent::Type(SESSION),
        SERVER_COMMITMENT => Parent::Type(VOTER_COMMITMENT),
        BALLOT => Parent::Type(SERVER_COMMITMENT),
        CAST | SPOIL | TRACK => Parent::Type(BALLOT),
        EXTRACTION => Parent::Type(INTENT),
        CONFIRMATION => Parent::Type(EXTRACTION),
        VERIFIER => Parent::Type(TRACK),
        VOTER_OPENING => Parent::Type(VERIFIER),
        SERVER_OPENING => Parent::Type(VOTER_OPENING),
        _ => panic!("type {code} is not in the table"),
    }
}

/// Whose key an item is signed with.
#[derive(Clone, Copy, PartialEq, Eq, Debug)]
pub enum Writer {
    Administrator,
    BallotBox,
    Authorizer,
    Voter,
    Verifier,
}

pub fn writer_of(code: u32) -> Writer {
    match code {
        GENESIS..=ROUND | INTENT | CONFIRMATION => Writer::Administrator,
        SESSION => Writer::Authorizer,
        VOTER_COMMITMENT | BALLOT | CAST | SPOIL | VOTER_OPENING => Writer::Voter,
        SERVER_COMMITMENT | EXTRACTION | TRACK | SERVER_OPENING => Writer::BallotBox,
        VERIFIER => Writer::Verifier,
        _ => panic!("type {code} is not in the table"),
    }
}

/// The config is types 1 to 6.
pub fn is_config(code: u32) -> bool {
    (GENESIS..=ROUND).contains(&code)
}

/// Types 16 to 21.
pub fn is_voting(code: u32) -> bool {
    (SESSION..=SPOIL).contains(&code)
}

/// The key fingerprint at a place.
pub fn eight(words: &[u32], at: usize) -> [u32; FINGERPRINT] {
    words[at..at + FINGERPRINT].try_into().expect("eight words")
}

/// A time of two words, high first.
pub fn time(words: &[u32], at: usize) -> u64 {
    u64::from(words[at]) << 32 | u64::from(words[at + 1])
}
