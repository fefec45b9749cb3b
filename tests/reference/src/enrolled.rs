//! Voters on the roll: every session and every counted ballot is that of a pair of it.

use crate::told::{Pair, Told};
use std::collections::HashMap;

/// Each session has the voter and the weight of a pair of the roll.
pub fn each_session_is_on_the_roll(told: &Told) -> Result<(), String> {
    each_is_on_the_roll("session", &told.sessions, &told.roll)
}

/// All sessions of a voter have one weight.
pub fn each_voter_has_one_weight(told: &Told) -> Result<(), String> {
    let mut weights = HashMap::new();
    for &Pair { voter, weight } in &told.sessions {
        let first = *weights.entry(voter).or_insert(weight);
        if first != weight {
            return Err(format!("the sessions of voter {voter} have the weights {first} and {weight}"));
        }
    }
    Ok(())
}

/// Each ballot row has the voter and the weight of a pair of the roll.
pub fn each_row_is_on_the_roll(told: &Told) -> Result<(), String> {
    each_is_on_the_roll("ballot row", &told.rows, &told.roll)
}

fn each_is_on_the_roll(what: &str, pairs: &[Pair], roll: &[Pair]) -> Result<(), String> {
    match pairs.iter().find(|pair| !roll.contains(pair)) {
        Some(Pair { voter, weight }) => {
            Err(format!("there is a {what} of voter {voter} with weight {weight}, and no such pair of the roll"))
        }
        None => Ok(()),
    }
}

/// The weight of all counted ballots is at most that of all voters of the roll.
pub fn weight_is_at_most_the_rolls(told: &Told) -> Result<(), String> {
    let sum = |pairs: &[Pair]| pairs.iter().map(|pair| u64::from(pair.weight)).sum::<u64>();
    let (counted, most) = (sum(&told.rows), sum(&told.roll));
    match counted <= most {
        true => Ok(()),
        false => Err(format!("the counted ballots weigh {counted}, all voters of the roll {most}")),
    }
}
