//! Contests: of what a set may have, told number by number.

use crate::format::{BALLOT, CONTEST, ROUND, SESSION};
use crate::told::Told;
use std::collections::{BTreeMap, BTreeSet};

/// The numbers of a set: bit j of a word is the word's place times 32, and j.
fn numbers(words: &[u32]) -> BTreeSet<u32> {
    let mut numbers = BTreeSet::new();
    for (at, word) in (0..).zip(words) {
        let mut rest = *word;
        for bit in 0..32 {
            if rest % 2 == 1 {
                numbers.insert(32 * at + bit);
            }
            rest /= 2;
        }
    }
    numbers
}

/// The contests of an item that has a set: a round's stand behind its number, a session's are its last words, a
/// ballot's its first.
fn contests(told: &Told, number: usize) -> BTreeSet<u32> {
    let (content, words) = (told.contents[number - 1], told.fields.set);
    numbers(match told.codes[number - 1] {
        ROUND => &content[1..1 + words],
        SESSION => &content[content.len() - words..],
        _ => &content[..words],
    })
}

/// The start and end of a round, its last four words.
fn times(round: &[u32]) -> (u64, u64) {
    let [high, low, end_high, end_low] = round[round.len() - 4..] else { panic!("four words") };
    (u64::from(high) << 32 | u64::from(low), u64::from(end_high) << 32 | u64::from(end_low))
}

/// The number of an item's session: two commitments stand between a ballot and it.
fn session(told: &Told, ballot: usize) -> usize {
    told.parent(told.parent(told.parent(ballot)))
}

/// Each round, session and ballot has a contest.
pub fn each_set_has_a_contest(told: &Told) -> Result<(), String> {
    match told.of(&[ROUND, SESSION, BALLOT]).find(|&number| contests(told, number).is_empty()) {
        Some(number) => Err(format!("item {number} has no contest")),
        None => Ok(()),
    }
}

/// Each of its contests is the number of a contest item before it.
pub fn each_contest_is_defined_before(told: &Told) -> Result<(), String> {
    let mut defined = BTreeSet::new();
    for number in told.of(&[CONTEST, ROUND, SESSION, BALLOT]) {
        if told.codes[number - 1] == CONTEST {
            defined.insert(told.contents[number - 1][0]);
        } else if let Some(contest) = contests(told, number).difference(&defined).next() {
            return Err(format!("item {number} has contest {contest}, which no item before it defines"));
        }
    }
    Ok(())
}

/// A ballot has a cryptogram, as wide as the board's are, for each of its contests, and no other words.
pub fn each_contest_has_a_cryptogram(told: &Told) -> Result<(), String> {
    for number in told.of(&[BALLOT]) {
        let (words, count) = (told.contents[number - 1].len(), contests(told, number).len());
        if words != told.fields.set + told.fields.cryptogram * count {
            return Err(format!("ballot {number} has {count} contests, and {words} words"));
        }
    }
    Ok(())
}

/// Its contests are its session's.
pub fn each_ballot_is_within_its_session(told: &Told) -> Result<(), String> {
    for number in told.of(&[BALLOT]) {
        let of_session = contests(told, session(told, number));
        if let Some(contest) = contests(told, number).difference(&of_session).next() {
            return Err(format!("ballot {number} has contest {contest}, which its session has not"));
        }
    }
    Ok(())
}

/// Each of them is in a round that is open at the ballot's time.
pub fn each_ballot_is_enabled(told: &Told) -> Result<(), String> {
    // The item that stands for each round number so far.
    let mut standing = BTreeMap::new();
    for number in told.of(&[ROUND, BALLOT]) {
        if told.codes[number - 1] == ROUND {
            standing.insert(told.contents[number - 1][0], number);
            continue;
        }
        let time = told.times[number - 1];
        let mut not_enabled = contests(told, number);
        for &round in standing.values() {
            let (start, end) = times(told.contents[round - 1]);
            if (start..end).contains(&time) {
                let enabled = contests(told, round);
                not_enabled.retain(|contest| !enabled.contains(contest));
            }
        }
        if let Some(contest) = not_enabled.first() {
            return Err(format!("ballot {number} has contest {contest}, which no round enables that is open then"));
        }
    }
    Ok(())
}
