//! The fields in the contents of items, by the table of types. The items have as many content words as their types ask for.

use super::refused::{Numbered, Refused};
use crate::board::{pair, Item};
use crate::format::{Format, Members};
use crate::types::code::ROUND;

/// The words of a key fingerprint.
pub const KEY: usize = 8;

/// Where the fields stand in a content.
pub mod genesis {
    pub const ADMINISTRATOR: usize = 1;
    pub const BALLOT_BOX: usize = 9;
    /// Where there are so many words.
    pub const TRAITS: usize = 17;
}
pub mod contest {
    pub const NUMBER: usize = 0;
}
pub mod threshold {
    pub const TRUSTEES: usize = 0;
    pub const NEEDED: usize = 1;
    pub const KEY: usize = 2;
}
pub mod authorizer {
    pub const MODE: usize = 0;
    pub const KEY: usize = 1;
}
pub mod round {
    pub const NUMBER: usize = 0;
    pub const CONTESTS: usize = 1;
}
pub mod session {
    pub const VOTER: usize = 0;
    pub const WEIGHT: usize = 1;
    pub const KEY: usize = 2;
    pub const CONTESTS: usize = 18;
}
pub mod verifier {
    pub const KEY: usize = 0;
}
/// The set that a ballot, a confirmation begins with.
pub const SET: usize = 0;

/// Where the start and the end of a round stand: behind its set of contests.
pub fn times_of_round(format: Format) -> [usize; 2] {
    let start = round::CONTESTS + format.words(Members::Contests);
    [start, start + 2]
}

pub fn time(item: &Item, field: usize) -> u64 {
    pair(&item.content()[field..])
}

pub fn key<'a>(item: &Item<'a>, field: usize) -> &'a [u32] {
    &item.content()[field..field + KEY]
}

pub fn round_number(round: &Item) -> u32 {
    round.content()[round::NUMBER]
}

/// The rounds in force: of each number the latest round item before the refused one.
pub fn rounds<'a>(refused: &Refused<'a>) -> Vec<Numbered<'a>> {
    let mut rounds: Vec<Numbered> = Vec::new();
    for new in refused.earlier().filter(|earlier| earlier.item.code() == ROUND) {
        rounds.retain(|old| round_number(&old.item) != round_number(&new.item));
        rounds.push(new);
    }
    rounds
}

/// When a round starts and ends.
pub fn start_and_end(round: &Item) -> [u64; 2] {
    times_of_round(round.format).map(|field| time(round, field))
}

pub fn is_open(round: &Item, at: u64) -> bool {
    let [start, end] = start_and_end(round);
    start <= at && at < end
}
