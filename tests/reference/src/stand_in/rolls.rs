//! Mistakes about the roll: wrong tests of it, wrong searches on it, and tests in a wrong order.

use super::{made, Mistake};
use crate::audit::{is_enrolled, is_good_roll, is_on_roll, Board, RULES};
use crate::calls::places;
use crate::format::*;
use std::slice::from_raw_parts;

/// A roll as an entry takes it: with the pair behind it where that is the mistake.
pub unsafe fn taken<'a>(roll: *const u32, len: usize) -> &'a [u32] {
    match made() {
        Some(Mistake::BehindRoll) => from_raw_parts(roll, len + ROLL_ROW),
        _ => from_raw_parts(roll, len),
    }
}

fn voters(roll: &[u32]) -> Vec<u32> {
    roll.chunks_exact(ROLL_ROW).map(|pair| pair[roll_row::VOTER]).collect()
}

/// Whether it is of a length that a roll may have.
fn is_fit(roll: &[u32]) -> bool {
    roll.len() % ROLL_ROW == 0 && roll.len() <= ROLL_MOST
}

/// The test of the roll.
pub fn roll_test() -> fn(&[u32]) -> bool {
    match made() {
        Some(Mistake::RollNotTested) => |_| true,
        Some(Mistake::EqualVoters) => |roll| is_fit(roll) && voters(roll).windows(2).all(|two| two[0] <= two[1]),
        Some(Mistake::FirstVoterAlone) => {
            |roll| is_fit(roll) && voters(roll).iter().skip(1).all(|&voter| voter > roll[roll_row::VOTER])
        }
        Some(Mistake::SignedVoters) => {
            |roll| is_fit(roll) && voters(roll).windows(2).all(|two| (two[0] as i32) < two[1] as i32)
        }
        Some(Mistake::LastVoterUnseen) => {
            |roll| is_fit(roll) && is_good_roll(&roll[..roll.len().saturating_sub(ROLL_ROW)])
        }
        Some(Mistake::OddRoll) => |roll| roll.len() <= ROLL_MOST && is_good_roll(&roll[..roll.len() / 2 * 2]),
        Some(Mistake::LongRoll) => |roll| {
            let more = roll.len() == ROLL_MOST + ROLL_ROW;
            is_good_roll(if more { &roll[ROLL_ROW..] } else { roll })
        },
        // The pair behind it is not a part of it.
        Some(Mistake::BehindRoll) => |roll| is_good_roll(&roll[..roll.len() - ROLL_ROW]),
        _ => RULES.is_good_roll,
    }
}

/// The search for an item's voter.
pub fn roll_search() -> fn(&[u32], u32, &[u32]) -> bool {
    match made() {
        Some(Mistake::RollNotAsked) => |_, _, _| true,
        Some(Mistake::WeightNotCompared) => |roll, code, content| code != SESSION || voters(roll).contains(&content[0]),
        Some(Mistake::VoterNotCompared) => {
            |roll, code, content| code != SESSION || any_pair(roll, |_, weight| weight == content[1])
        }
        Some(Mistake::LessWeight) => {
            |roll, code, content| code != SESSION || any_pair(roll, |v, weight| v == content[0] && weight >= content[1])
        }
        Some(Mistake::AcrossPairs) => {
            |roll, code, content| code != SESSION || roll.windows(2).any(|w| *w == content[..2])
        }
        Some(Mistake::FirstPairUnseen) => {
            |roll, code, content| is_enrolled(roll.get(ROLL_ROW..).unwrap_or(&[]), code, content)
        }
        Some(Mistake::LastPairUnseen) => {
            |roll, code, content| is_enrolled(&roll[..roll.len().saturating_sub(ROLL_ROW)], code, content)
        }
        Some(Mistake::HalvingLeavesOne) => |roll, code, content| code != SESSION || is_found_by_halving(roll, content),
        Some(Mistake::BallotOnRoll) => {
            |roll, code, content| !matches!(code, SESSION | BALLOT) || is_on_roll(roll, content[0], content[1])
        }
        _ => RULES.is_enrolled,
    }
}

fn any_pair(roll: &[u32], is: impl Fn(u32, u32) -> bool) -> bool {
    roll.chunks_exact(ROLL_ROW).any(|pair| is(pair[roll_row::VOTER], pair[roll_row::WEIGHT]))
}

/// A search by halving that ends too soon: where one pair is left, it is not looked at.
fn is_found_by_halving(roll: &[u32], content: &[u32]) -> bool {
    let pairs: Vec<&[u32]> = roll.chunks_exact(ROLL_ROW).collect();
    let (mut low, mut high) = (0, pairs.len());
    while low + 1 < high {
        let middle = (low + high) / 2;
        if pairs[middle][roll_row::VOTER] == content[0] {
            return pairs[middle][roll_row::WEIGHT] == content[1];
        }
        if pairs[middle][roll_row::VOTER] < content[0] {
            low = middle + 1;
        } else {
            high = middle;
        }
    }
    false
}

/// The refusal that tests in a wrong order give in place of this one.
pub fn in_wrong_order(board: Board, number: u32, items: u32) -> u32 {
    let blank = board.words.is_empty() || kind(board.words[0]) == CLOSING;
    let before_reading = number == 2 || number == 1 && board.words.len() > MAX_WORDS;
    match (made(), number) {
        (Some(Mistake::RollAfterBlank), 20) if blank => 3,
        (Some(Mistake::RollBeforeLengths), _) if before_reading && !is_good_roll(board.roll) => 20,
        (Some(Mistake::RollBeforeContent), 13) if !is_session_on_roll(board, items as usize) => 21,
        (Some(Mistake::RollAfterVerdict), 21) if !has_verdict(board, items as usize) => 14,
        _ => number,
    }
}

/// Whether the item behind so many is on the roll, or no session.
fn is_session_on_roll(board: Board, items: usize) -> bool {
    let place = places(board.words).nth(items).expect("the item that is refused");
    let head = board.words[place];
    is_enrolled(board.roll, code(head), &board.words[place + 1..place + 1 + count(head)])
}

/// Whether the item behind so many has nine verdict words, the first well formed.
pub fn has_verdict(board: Board, items: usize) -> bool {
    let verdict = board.verdicts.get(VERDICT_WORDS * items..VERDICT_WORDS * (items + 1));
    verdict.is_some_and(|words| words[0] & !1 == VERDICT << 28)
}
