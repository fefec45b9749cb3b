//! Rolls for boards: the voters of a board with their weights, by themselves or among others.

use crate::format::*;
use crate::plan::Spec;
use crate::random::Random;
use std::collections::BTreeMap;

/// Weights by voter number, which so rise.
pub type Pairs = BTreeMap<u32, u32>;

/// The voters of some items' sessions, each with the weight in the first.
pub fn voters_of(items: &[Spec]) -> Pairs {
    let mut pairs = Pairs::new();
    for session in items.iter().filter(|s| s.code == SESSION) {
        pairs.entry(session.content[0]).or_insert(session.content[1]);
    }
    pairs
}

/// The pairs of a roll that is not bad.
pub fn pairs_of(roll: &[u32]) -> Pairs {
    roll.chunks_exact(ROLL_ROW).map(|pair| (pair[0], pair[1])).collect()
}

/// A roll of these pairs, in the order given.
pub fn roll_of(pairs: impl IntoIterator<Item = (u32, u32)>) -> Vec<u32> {
    pairs.into_iter().flat_map(|(voter, weight)| [voter, weight]).collect()
}

/// A roll with these voters: no others, some around them, or as many as there may be.
pub fn any_roll(voters: &Pairs, random: &mut Random) -> Vec<u32> {
    let mut pairs = voters.clone();
    match random.below(8) {
        0..=2 => {}
        3 => add_neighbours(&mut pairs, random),
        4 => add_ends(&mut pairs, random),
        5 => {
            let more = random.between(1, 30);
            add_others(&mut pairs, voters.len() + more, random);
        }
        6 => add_others(&mut pairs, MAX_VOTERS, random),
        _ => return full_around(voters, random),
    }
    roll_of(pairs)
}

/// A weight for a voter who has no session: none, the greatest, another voter's, any.
pub fn any_weight(pairs: &Pairs, random: &mut Random) -> u32 {
    match random.below(5) {
        0 => 0,
        1 => u32::MAX,
        2 => pairs.values().next().copied().unwrap_or(1),
        3 => random.between(1, 9) as u32,
        _ => random.word(),
    }
}

/// Adds a voter, unless the number is taken or the roll is full.
pub fn add_other(pairs: &mut Pairs, voter: u32, random: &mut Random) {
    if pairs.len() < MAX_VOTERS && !pairs.contains_key(&voter) {
        let weight = any_weight(pairs, random);
        pairs.insert(voter, weight);
    }
}

/// Adds voters just before and just behind some of those that are there.
fn add_neighbours(pairs: &mut Pairs, random: &mut Random) {
    for voter in pairs.keys().copied().collect::<Vec<u32>>() {
        for near in [voter.checked_sub(1), voter.checked_add(1)].into_iter().flatten() {
            if random.chance(60) {
                add_other(pairs, near, random);
            }
        }
    }
}

/// Adds the least and the greatest voter number, and those where the sign of a word changes.
fn add_ends(pairs: &mut Pairs, random: &mut Random) {
    for voter in [0, u32::MAX, 0x7fff_ffff, 0x8000_0000] {
        if random.chance(80) {
            add_other(pairs, voter, random);
        }
    }
}

/// Adds voters up to so many pairs: any, or those from some number on.
pub fn add_others(pairs: &mut Pairs, count: usize, random: &mut Random) {
    let dense = random.chance(50);
    let mut next = random.word();
    while pairs.len() < count.min(MAX_VOTERS) {
        next = if dense { next.wrapping_add(1) } else { random.word() };
        add_other(pairs, next, random);
    }
}

/// A full roll over which these voters are spread: others stand before and behind each of them, as far as there
/// is room.
pub fn full_around(voters: &Pairs, random: &mut Random) -> Vec<u32> {
    let mut pairs = voters.clone();
    let mut step = 1;
    while pairs.len() < MAX_VOTERS && !voters.is_empty() && step < MAX_VOTERS as u32 {
        for voter in voters.keys() {
            add_other(&mut pairs, voter.saturating_sub(step), random);
            add_other(&mut pairs, voter.saturating_add(step), random);
        }
        step += 1;
    }
    add_others(&mut pairs, MAX_VOTERS, random);
    roll_of(pairs)
}
