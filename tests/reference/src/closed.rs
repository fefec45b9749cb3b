//! Who closed a ballot: what holds of the index table's fifth column.

use crate::format::*;
use crate::told::Told;
use std::collections::HashMap;

/// The types that close a ballot.
const CLOSERS: [u32; 2] = [CAST, SPOIL];

/// The numbers of each cast and spoil, and of its ballot.
fn closers<'a>(told: &'a Told<'a>) -> impl Iterator<Item = (usize, usize)> + 'a {
    told.of(&CLOSERS).map(|number| (number, told.parent(number)))
}

/// Any two rows with a fifth word in use have different ones.
pub fn any_two_differ(told: &Told) -> Result<(), String> {
    let mut used: Vec<u32> = told.in_use().map(|(_, word)| word).collect();
    used.sort_unstable();
    match used.windows(2).find(|two| two[0] == two[1]) {
        Some(two) => Err(format!("two index rows have {} as their fifth word", two[0])),
        None => Ok(()),
    }
}

/// Each cast and each spoil is named by exactly one row, that of its ballot.
pub fn each_closer_is_named_once(told: &Told) -> Result<(), String> {
    let mut named_by: HashMap<u32, Vec<usize>> = HashMap::new();
    for (number, word) in told.in_use() {
        named_by.entry(word).or_default().push(number);
    }
    for (closer, ballot) in closers(told) {
        let rows = named_by.remove(&(closer as u32)).unwrap_or_default();
        if rows != [ballot] {
            return Err(format!("item {closer} closes ballot {ballot}, and is named by the index rows {rows:?}"));
        }
    }
    Ok(())
}

/// The row of an item that is no ballot has no fifth word in use.
pub fn only_ballots_have_one(told: &Told) -> Result<(), String> {
    match told.in_use().find(|&(number, _)| told.code(number) != Some(BALLOT)) {
        Some((number, word)) => Err(format!("item {number} is no ballot, and its fifth index word is {word}")),
        None => Ok(()),
    }
}

/// Nor has that of a ballot with no cast and no spoil under it.
pub fn open_ballots_have_none(told: &Told) -> Result<(), String> {
    let mut open: Vec<bool> = told.codes.iter().map(|&code| code == BALLOT).collect();
    for (_, ballot) in closers(told) {
        open[ballot - 1] = false;
    }
    match told.in_use().find(|&(number, _)| open[number - 1]) {
        Some((number, word)) => Err(format!("ballot {number} is open, and its fifth index word is {word}")),
        None => Ok(()),
    }
}

/// A fifth word in use is a later item, a cast or spoil, with the row's item as its parent.
pub fn each_is_under_its_row(told: &Told) -> Result<(), String> {
    for (number, word) in told.in_use() {
        let closer = word as usize;
        let closes = told.code(closer).is_some_and(|code| CLOSERS.contains(&code));
        if closer <= number || !closes || told.parent(closer) != number {
            return Err(format!("the fifth index word of item {number} is {word}, no cast or spoil under it"));
        }
    }
    Ok(())
}
