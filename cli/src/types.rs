//! The item types by name, for people. tests/types.rs holds kinds, codes and counts to the library.

use crate::format::{By, Format, Members};

/// How many content words an item of a type has.
#[derive(Clone, Copy, Debug)]
pub enum Counts {
    Between(usize, usize),
    /// So many words, and a set of contests.
    AndContests(usize),
    Commitment,
    /// A set, then a cryptogram or a share for each of its members, of which there is one at least.
    SetAndEach(Members),
}

impl Counts {
    pub fn fit(self, format: Format, count: usize) -> bool {
        match self {
            Counts::Between(least, most) => (least..=most).contains(&count),
            Counts::AndContests(others) => count == others + format.words(Members::Contests),
            Counts::Commitment => count == format.curve.commitment,
            Counts::SetAndEach(members) => {
                (1..=format.numbers(members)).any(|k| count == format.words(members) + k * format.each(members))
            }
        }
    }

    pub fn in_words(self, format: Format) -> String {
        match self {
            Counts::Between(least, most) if least == most => least.to_string(),
            Counts::Between(least, most) if least + 1 == most => format!("{least} or {most}"),
            Counts::Between(least, most) => format!("{least} to {most}"),
            Counts::AndContests(others) => (others + format.words(Members::Contests)).to_string(),
            Counts::Commitment => format.curve.commitment.to_string(),
            Counts::SetAndEach(members) => {
                let [set, each] = [format.words(members), format.each(members)];
                format!("{set} + {each} k, with k from 1 to {}", format.numbers(members))
            }
        }
    }

    /// What of the board's format they go by, if anything.
    pub fn go_by(self) -> Option<By> {
        match self {
            Counts::Between(..) | Counts::SetAndEach(Members::Trustees) => None,
            Counts::AndContests(_) => Some(By::Sets),
            Counts::Commitment => Some(By::Curve),
            Counts::SetAndEach(Members::Contests) => Some(By::Both),
        }
    }
}

/// A row of the table of item types.
#[derive(Clone, Copy, Debug)]
pub struct Type {
    pub code: u32,
    pub name: &'static str,
    /// Whether it stands on a hidden track, with kind 2; else on the main board, with kind 1.
    pub hidden: bool,
    /// Who writes it.
    pub writer: Writer,
    pub parent: Parent,
    pub counts: Counts,
}

#[derive(Clone, Copy, Debug, PartialEq, Eq)]
pub enum Writer {
    Administrator,
    BallotBox,
    Authorizer,
    Voter,
    Verifier,
}

/// What an item's parent must be.
#[derive(Clone, Copy, Debug, PartialEq, Eq)]
pub enum Parent {
    Zeros,
    LatestConfig,
    OfType(u32),
}

/// The codes of the types.
pub mod code {
    pub const GENESIS: u32 = 1;
    pub const TEXT: u32 = 2;
    pub const CONTEST: u32 = 3;
    pub const THRESHOLD: u32 = 4;
    pub const AUTHORIZER: u32 = 5;
    pub const ROUND: u32 = 6;
    pub const SESSION: u32 = 16;
    pub const VOTER_COMMITMENT: u32 = 17;
    pub const SERVER_COMMITMENT: u32 = 18;
    pub const BALLOT: u32 = 19;
    pub const CAST: u32 = 20;
    pub const SPOIL: u32 = 21;
    pub const INTENT: u32 = 32;
    pub const EXTRACTION: u32 = 33;
    pub const CONFIRMATION: u32 = 34;
    pub const TRACK: u32 = 48;
    pub const VERIFIER: u32 = 49;
    pub const VOTER_OPENING: u32 = 50;
    pub const SERVER_OPENING: u32 = 51;
}

use code::*;
use Counts::{AndContests, Between, Commitment, SetAndEach};
use Members::{Contests, Trustees};
use Parent::{LatestConfig, OfType, Zeros};
use Writer::{Administrator, Authorizer, BallotBox, Verifier, Voter};

const fn row(code: u32, name: &'static str, writer: Writer, parent: Parent, counts: Counts) -> Type {
    Type { code, name, hidden: code >= TRACK, writer, parent, counts }
}

pub const TYPES: [Type; 19] = [
    row(GENESIS, "genesis", Administrator, Zeros, Between(17, 18)),
    row(TEXT, "election text", Administrator, LatestConfig, Between(0, 64)),
    row(CONTEST, "contest", Administrator, LatestConfig, Between(1, 65)),
    row(THRESHOLD, "threshold", Administrator, LatestConfig, Between(10, 10)),
    row(AUTHORIZER, "authorizer", Administrator, LatestConfig, Between(9, 9)),
    row(ROUND, "round", Administrator, LatestConfig, AndContests(5)),
    row(SESSION, "session", Authorizer, LatestConfig, AndContests(18)),
    row(VOTER_COMMITMENT, "voter commitment", Voter, OfType(SESSION), Commitment),
    row(SERVER_COMMITMENT, "server commitment", BallotBox, OfType(VOTER_COMMITMENT), Commitment),
    row(BALLOT, "ballot", Voter, OfType(SERVER_COMMITMENT), SetAndEach(Contests)),
    row(CAST, "cast", Voter, OfType(BALLOT), Between(0, 0)),
    row(SPOIL, "spoil", Voter, OfType(BALLOT), Between(0, 0)),
    row(INTENT, "extraction intent", Administrator, LatestConfig, Between(0, 0)),
    row(EXTRACTION, "extraction data", BallotBox, OfType(INTENT), Between(8, 8)),
    row(CONFIRMATION, "confirmation", Administrator, OfType(EXTRACTION), SetAndEach(Trustees)),
    row(TRACK, "track start", BallotBox, OfType(BALLOT), Between(0, 0)),
    row(VERIFIER, "verifier", Verifier, OfType(TRACK), Between(8, 8)),
    row(VOTER_OPENING, "voter opening", Voter, OfType(VERIFIER), Between(1, 256)),
    row(SERVER_OPENING, "server opening", BallotBox, OfType(VOTER_OPENING), Between(1, 256)),
];

/// The type of a code, whatever the kind.
pub fn of_code(code: u32) -> Option<&'static Type> {
    TYPES.iter().find(|row| row.code == code)
}

/// A type's name, or its code where it has none.
pub fn name(code: u32) -> String {
    of_code(code).map_or_else(|| format!("type {code}"), |row| row.name.to_string())
}
