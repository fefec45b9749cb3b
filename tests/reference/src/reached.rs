//! What there must be boards of. Sound boards are to show ballots, who closed them and who opened them, as known
//! from their making; all boards together, the ways in which a roll is good, bad, or lacks a voter, each in all six
//! layouts. Of the widths of contest sets see `widths`, of the curves `curves`, of receipts `receipts`, of notes `notes`.

use crate::calls::places;
use crate::format::*;
use crate::sound::Expected;

mod curves;
mod notes;
mod plans;
mod receipts;
mod widths;
pub use curves::{OnCurve, CURVES_WANTED};
pub use notes::{AskedNotes, NOTES_OF_UNKNOWN_TRAITS, NOTES_WANTED};
pub use plans::{AskedPlan, PLANS_OF_PLAIN, PLANS_WANTED};
pub use receipts::{Asked, OF_UNKNOWN_TRAITS, RECEIPTS_WANTED};
pub use widths::{Sets, ON_SECP256R1, SETS_WANTED};

/// A ballot, the cast or spoil under it, and how far its track goes.
struct Ballot {
    /// Item number of its session, and the voter there.
    session: u32,
    voter: u32,
    closer: Option<Closer>,
    verified: bool,
    opening: Option<Opening>,
}

struct Closer {
    code: u32,
    number: u32,
    main_number: u32,
    time: u64,
}

/// A voter opening.
struct Opening {
    number: u32,
    time: u64,
    /// Whether an intent to extract stands before it, and a newer session of its voter.
    after_intent: bool,
    overwritten: bool,
    /// Whether the server opened as well.
    answered: bool,
}

/// A board's ballots in order.
pub struct Ballots(Vec<Ballot>);

/// The most closed ballots and the most ballots of one board. Five items of the config and a session
/// stand before them; with two commitments each, a closed ballot takes four items, an open one three.
const MOST_CLOSED: usize = 510;
const MOST_BALLOTS: usize = 680;
/// The most opened ballots: with a spoil and three items of its track, each takes seven items.
const MOST_OPENED: usize = 291;
/// The number of a board's last item where there are as many as there may be.
const LAST_ITEM: u32 = 2_048;

type Shows = fn(&Ballots) -> bool;

/// What there must be boards of, by a short name.
pub const WANTED: [(&str, Shows); 19] = [
    ("cast, spoiled and two open", |b| b.any(Ballot::cast) && b.any(Ballot::spoiled) && b.open() >= 2),
    ("closed behind hidden items", |b| b.behind_hidden(CAST) && b.behind_hidden(SPOIL)),
    ("spoiled, then a new session's", |b| b.then_in_later_session(Ballot::spoiled, |_| true)),
    ("cast, and cast in a later session", |b| b.then_in_later_session(Ballot::cast, Ballot::cast)),
    ("open in an overwritten session", |b| b.then_in_later_session(Ballot::open, |_| true)),
    ("closed by item 2,048", |b| b.any(|ballot| ballot.closer.as_ref().is_some_and(|c| c.number == LAST_ITEM))),
    ("510 closed", |b| b.0.len() - b.open() == MOST_CLOSED),
    ("680 open", |b| b.open() == MOST_BALLOTS),
    ("cast, with a verifier", |b| b.any(|ballot| ballot.cast() && ballot.verified)),
    ("left open, with a verifier", |b| b.any(|ballot| ballot.open() && ballot.verified)),
    ("spoiled, with a verifier, not opened", |b| {
        b.any(|ballot| ballot.spoiled() && ballot.verified && !ballot.opened())
    }),
    ("opened just behind the spoil", |b| b.any_opened(|opening, spoil| opening.number == spoil.number + 1)),
    ("opened 50 items behind the spoil, or more", |b| {
        b.any_opened(|opening, spoil| opening.number >= spoil.number + 50)
    }),
    ("opened after the intent to extract", |b| b.any_opened(|opening, _| opening.after_intent)),
    ("opened in an overwritten session", |b| b.any_opened(|opening, _| opening.overwritten)),
    ("opened at an earlier time than the spoil's", |b| b.any_opened(|opening, spoil| opening.time < spoil.time)),
    ("opened by the voter and the server", |b| b.any_opened(|opening, _| opening.answered)),
    ("opened beside another of the session, cast", Ballots::opened_beside_cast),
    ("291 opened", |b| b.0.iter().filter(|ballot| ballot.opened()).count() == MOST_OPENED),
];

impl Ballot {
    fn cast(&self) -> bool {
        self.closer.as_ref().is_some_and(|c| c.code == CAST)
    }
    fn spoiled(&self) -> bool {
        self.closer.as_ref().is_some_and(|c| c.code == SPOIL)
    }
    fn open(&self) -> bool {
        self.closer.is_none()
    }
    fn opened(&self) -> bool {
        self.opening.is_some()
    }
}

impl Ballots {
    /// The ballots of a sound board, from its words and what is expected of them.
    pub fn new(words: &[u32], places: &[usize], expected: &Expected) -> Ballots {
        let items = Items { words, places, expected };
        let all = 1..=places.len() as u32;
        Ballots(all.filter(|&number| items.code(number) == BALLOT).map(|number| items.ballot(number)).collect())
    }

    fn any(&self, is: impl Fn(&Ballot) -> bool) -> bool {
        self.0.iter().any(is)
    }

    fn open(&self) -> usize {
        self.0.iter().filter(|ballot| ballot.open()).count()
    }

    /// Whether a closing item of this type stands behind hidden ones: its two numbers differ.
    fn behind_hidden(&self, code: u32) -> bool {
        self.any(|ballot| ballot.closer.as_ref().is_some_and(|c| c.code == code && c.number != c.main_number))
    }

    /// Whether there is such an opening, with such a spoil under its ballot.
    fn any_opened(&self, is: fn(&Opening, &Closer) -> bool) -> bool {
        self.any(|ballot| match (&ballot.opening, &ballot.closer) {
            (Some(opening), Some(spoil)) => is(opening, spoil),
            _ => false,
        })
    }

    fn opened_beside_cast(&self) -> bool {
        self.any(|a| a.opened() && self.any(|b| b.session == a.session && b.cast()))
    }

    /// Whether there are two such ballots of one voter, the second in a later session.
    fn then_in_later_session(&self, first: fn(&Ballot) -> bool, second: fn(&Ballot) -> bool) -> bool {
        self.any(|a| first(a) && self.any(|b| b.voter == a.voter && b.session > a.session && second(b)))
    }
}

/// A sound board's items by number.
struct Items<'a> {
    words: &'a [u32],
    places: &'a [usize],
    expected: &'a Expected,
}

impl Items<'_> {
    fn place(&self, number: u32) -> usize {
        self.places[number as usize - 1]
    }
    fn code(&self, number: u32) -> u32 {
        code(self.words[self.place(number)])
    }
    fn time(&self, number: u32) -> u64 {
        Items::time_at(self.words, self.place(number))
    }
    /// Of the item whose head stands there.
    fn time_at(words: &[u32], place: usize) -> u64 {
        // The time is the last of the hashed words.
        time(words, place + count(words[place]) + Layout::of(words).curve.hashed_frame() - 2)
    }
    fn voter(&self, session: u32) -> u32 {
        self.words[self.place(session) + 1]
    }

    /// The one item of a type under another, if there is one.
    fn under(&self, parent: u32, code: u32) -> Option<u32> {
        (parent + 1..=self.places.len() as u32)
            .find(|&number| self.expected.rows[number as usize - 1].parent == parent && self.code(number) == code)
    }

    fn ballot(&self, number: u32) -> Ballot {
        let row = &self.expected.rows[number as usize - 1];
        let verifier = self.under(number, TRACK).and_then(|track| self.under(track, VERIFIER));
        let opening = verifier.and_then(|verifier| self.under(verifier, VOTER_OPENING));
        Ballot {
            session: row.session,
            voter: self.voter(row.session),
            closer: row.closer().map(|position| self.closer(position as u32 + 1)),
            verified: verifier.is_some(),
            opening: opening.map(|opening| self.opening(opening, row.session)),
        }
    }

    fn closer(&self, number: u32) -> Closer {
        let main_number = self.expected.rows[number as usize - 1].mains_before + 1;
        Closer { code: self.code(number), number, main_number, time: self.time(number) }
    }

    fn opening(&self, number: u32, session: u32) -> Opening {
        let before = |wanted: u32| (1..number).filter(move |&earlier| self.code(earlier) == wanted);
        let newer = |other: u32| other > session && self.voter(other) == self.voter(session);
        Opening {
            number,
            time: self.time(number),
            after_intent: before(INTENT).next().is_some(),
            overwritten: before(SESSION).any(newer),
            answered: self.under(number, SERVER_OPENING).is_some(),
        }
    }
}

// ---- rolls ----

/// A roll, what was said of it and its board, and where it has the voters of the sessions.
pub struct Roll {
    /// The refusal, or 0.
    number: u32,
    words: Vec<u32>,
    /// Of each session in order.
    sessions: Vec<Session>,
    blank: bool,
}

struct Session {
    voter: u32,
    weight: u32,
    /// The place of the voter's pair on the roll, from 0.
    place: Option<usize>,
}

type ShowsRoll = fn(&Roll) -> bool;

/// What only a board of the plain layout shows: without words there are no traits.
pub const BLANK: &str = "20: a blank board";

/// What there must be rolls of, by a short name.
pub const ROLLS_WANTED: [(&str, ShowsRoll); 28] = [
    ("accepted with no roll words", |r| r.accepted() && r.words.is_empty()),
    ("accepted with one pair", |r| r.accepted() && r.pairs() == 1),
    ("accepted with two pairs", |r| r.accepted() && r.pairs() == 2),
    ("accepted with three pairs or more, an odd number", |r| r.accepted() && r.pairs() >= 3 && r.pairs() % 2 == 1),
    ("accepted with 2,048 pairs", |r| r.accepted() && r.is_full()),
    ("a voter at the first place", |r| r.accepted() && r.pairs() > 2 && r.is_used(0)),
    ("a voter at a middle place", |r| r.accepted() && (1..r.pairs().saturating_sub(1)).any(|at| r.is_used(at))),
    ("a voter at the last place", |r| r.accepted() && r.pairs() > 2 && r.is_used(r.pairs() - 1)),
    ("voters at both ends of 2,048 pairs", |r| {
        r.accepted() && r.is_full() && r.is_used(0) && r.is_used(MAX_VOTERS - 1)
    }),
    ("a session of voter 0", |r| r.accepted() && r.sessions.iter().any(|s| s.voter == 0)),
    ("a session of voter 4,294,967,295", |r| r.accepted() && r.sessions.iter().any(|s| s.voter == u32::MAX)),
    ("several sessions of a voter", |r| r.accepted() && r.sessions.iter().any(|s| r.of_voter(s.voter) > 1)),
    ("a pair of weight 0", |r| r.accepted() && r.any_pair(|_, weight| weight == 0)),
    ("weights that fall", |r| r.accepted() && r.pairs() > 3 && r.neighbours().all(|[a, b]| r.weight(a) > r.weight(b))),
    ("20: one word", |r| r.number == 20 && r.words.len() == 1),
    ("20: an odd number of words", |r| r.number == 20 && r.words.len() % ROLL_ROW == 1 && r.words.len() > ROLL_ROW),
    ("20: 4,097 words", |r| r.number == 20 && r.words.len() == ROLL_MOST + 1),
    ("20: 2,049 pairs that rise", |r| r.number == 20 && r.words.len() == ROLL_MOST + ROLL_ROW && r.rises()),
    ("20: equal neighbours", |r| r.is_uneven(|a, b| a == b)),
    ("20: falling neighbours", |r| r.is_uneven(|a, b| a > b)),
    (BLANK, |r| r.number == 20 && r.blank),
    ("21: an empty roll", |r| r.number == 21 && r.words.is_empty()),
    ("21: a voter below all", |r| r.is_missing(|voter, pairs| pairs.iter().all(|&other| voter < other))),
    ("21: a voter between two", |r| {
        r.is_missing(|voter, pairs| pairs[0] < voter && pairs.last().is_some_and(|&last| voter < last))
    }),
    ("21: a voter above all", |r| r.is_missing(|voter, pairs| pairs.iter().all(|&other| voter > other))),
    ("21: a greater weight than the roll's", |r| r.has_other_weight(|weight, on_roll| weight > on_roll)),
    ("21: a smaller weight than the roll's", |r| r.has_other_weight(|weight, on_roll| weight < on_roll)),
    ("21: a voter's second session", |r| {
        r.number == 21 && r.refused().is_some_and(|(at, s)| r.sessions[..at].iter().any(|t| t.voter == s.voter))
    }),
];

impl Roll {
    pub fn new(words: &[u32], roll: &[u32], number: u32) -> Roll {
        let is_session = |&place: &usize| code(words[place]) == SESSION && place + 2 < words.len();
        let session = |place: usize| Session {
            voter: words[place + 1],
            weight: words[place + 2],
            place: roll.chunks_exact(ROLL_ROW).position(|pair| pair[roll_row::VOTER] == words[place + 1]),
        };
        // Of other boards some other word may look like a session.
        let sessions = match number {
            0 | 21 => places(words).filter(is_session).map(session).collect(),
            _ => Vec::new(),
        };
        let blank = words.is_empty() || kind(words[0]) == CLOSING;
        Roll { number, words: roll.to_vec(), sessions, blank }
    }

    fn accepted(&self) -> bool {
        self.number == 0
    }
    fn pairs(&self) -> usize {
        self.words.len() / ROLL_ROW
    }
    fn is_full(&self) -> bool {
        self.pairs() == MAX_VOTERS
    }
    fn voter(&self, place: usize) -> u32 {
        self.words[ROLL_ROW * place + roll_row::VOTER]
    }
    fn weight(&self, place: usize) -> u32 {
        self.words[ROLL_ROW * place + roll_row::WEIGHT]
    }
    fn is_used(&self, place: usize) -> bool {
        self.sessions.iter().any(|s| s.place == Some(place))
    }
    fn of_voter(&self, voter: u32) -> usize {
        self.sessions.iter().filter(|s| s.voter == voter).count()
    }
    fn any_pair(&self, is: fn(u32, u32) -> bool) -> bool {
        (0..self.pairs()).any(|at| is(self.voter(at), self.weight(at)))
    }

    /// The places of any two pairs, one behind the other.
    fn neighbours(&self) -> impl Iterator<Item = [usize; 2]> {
        (1..self.pairs()).map(|at| [at - 1, at])
    }

    fn rises(&self) -> bool {
        self.neighbours().all(|[a, b]| self.voter(a) < self.voter(b))
    }

    /// Whether it is bad for two neighbours alone.
    fn is_uneven(&self, are: fn(u32, u32) -> bool) -> bool {
        let may_be_good = self.words.len() % ROLL_ROW == 0 && self.pairs() <= MAX_VOTERS;
        let uneven = || self.neighbours().any(|[a, b]| are(self.voter(a), self.voter(b)));
        self.number == 20 && may_be_good && uneven()
    }

    /// The session that is refused, and its place among the sessions.
    fn refused(&self) -> Option<(usize, &Session)> {
        let is_wrong = |s: &Session| s.place.is_none_or(|place| self.weight(place) != s.weight);
        self.sessions.iter().enumerate().find(|(_, s)| is_wrong(s))
    }

    /// Whether a session is refused whose voter is not on the roll, and stands so to the voters of it.
    fn is_missing(&self, stands: fn(u32, &[u32]) -> bool) -> bool {
        let pairs: Vec<u32> = (0..self.pairs()).map(|at| self.voter(at)).collect();
        let missing = self.refused().filter(|(_, s)| s.place.is_none());
        self.number == 21 && !pairs.is_empty() && missing.is_some_and(|(_, s)| stands(s.voter, &pairs))
    }

    /// Whether a session is refused whose voter is on the roll, with another weight.
    fn has_other_weight(&self, is: fn(u32, u32) -> bool) -> bool {
        let weights = self.refused().and_then(|(_, s)| Some((s.weight, self.weight(s.place?))));
        self.number == 21 && weights.is_some_and(|(weight, on_roll)| is(weight, on_roll))
    }
}
