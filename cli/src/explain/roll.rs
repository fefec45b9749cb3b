//! Refusals 20 and 21: the roll, and a session that is not on it.

use super::fields::session;
use super::refused::Refused;
use super::sizes::words_of;
use super::text::{count, place, ROLL};
use crate::files::Files;
use crate::library::header::{TIRFOLMA_ROLL_ROW_WORDS, TIRFOLMA_ROLL_VOTER, TIRFOLMA_ROLL_WEIGHT, TIRFOLMA_ROLL_WORDS};
use crate::types::code::SESSION;

/// A pair of the roll, and the place of its first word.
struct Pair {
    place: usize,
    voter: u32,
    weight: u32,
}

fn pairs(roll: &[u32]) -> impl Iterator<Item = Pair> + '_ {
    let rows = roll.chunks_exact(TIRFOLMA_ROLL_ROW_WORDS).enumerate();
    rows.map(|(row, pair)| Pair {
        place: TIRFOLMA_ROLL_ROW_WORDS * row,
        voter: pair[TIRFOLMA_ROLL_VOTER],
        weight: pair[TIRFOLMA_ROLL_WEIGHT],
    })
}

/// 20: an odd number of words, too many pairs, voter numbers that don't rise.
pub fn bad(files: &Files) -> Option<String> {
    let (words, row) = (words_of(&files.roll), TIRFOLMA_ROLL_ROW_WORDS as u64);
    if words % row != 0 {
        let wrong = format!("{ROLL} has {}, an odd number, but a roll has two for each voter", count(words, "word"));
        return Some(format!("{wrong}. Look at how it was written"));
    }
    if words > TIRFOLMA_ROLL_WORDS as u64 {
        let most = TIRFOLMA_ROLL_WORDS / TIRFOLMA_ROLL_ROW_WORDS;
        return Some(format!(
            "{ROLL} has {} pairs of voter and weight, and a roll has at most {most}. Look at its size",
            words / row
        ));
    }
    let roll = &files.roll.words;
    let (a, b) = pairs(roll).zip(pairs(roll).skip(1)).find(|(a, b)| a.voter >= b.voter)?;
    let again = if a.voter == b.voter { " again" } else { "" };
    Some(format!(
        "{ROLL} is not sorted by voter number, each voter once: voter {} at {} is followed by voter {}{again} at {}. \
         Look at these words",
        a.voter,
        place(a.place),
        b.voter,
        place(b.place)
    ))
}

/// 21: a session whose voter the roll does not have, or has with another weight.
pub fn not_on_roll(refused: &Refused, files: &Files) -> Option<String> {
    if refused.code() != SESSION {
        return None;
    }
    let [voter, weight] = [session::VOTER, session::WEIGHT].map(|field| refused.item.content()[field]);
    let given = format!("is a session of voter {voter} with weight {weight}");
    let at = place(refused.item.content_place());
    let look = format!("Look at its first two content words, at {at}, and at {ROLL}");
    if files.roll.words.is_empty() {
        return Some(format!("{given}, but {ROLL} is empty. {look}"));
    }
    match pairs(&files.roll.words).find(|pair| pair.voter == voter) {
        None => Some(format!("{given}, but {ROLL} does not have that voter. {look}")),
        Some(pair) if pair.weight != weight => Some(format!(
            "{given}, but {ROLL} has that voter with weight {}. {look}, {}",
            pair.weight,
            place(pair.place)
        )),
        Some(_) => None,
    }
}
