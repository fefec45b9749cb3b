//! Sound boards on each curve with sets of either width, and what must be said of them.
#![allow(dead_code)]

use reference::random::Random;
use reference::sound::{any_shape, make_with, Made, Traits};

/// A board of at most so many items. Of one seed those of all traits have the same shape.
pub fn made(seed: u64, most: usize, traits: Traits) -> Made {
    let random = &mut Random::new(seed);
    let shape = any_shape(random, most);
    make_with(random, shape, traits)
}

/// What `audit --rows` prints behind the name of such a board.
pub fn answer(made: &Made) -> String {
    let (items, mains, ballots) = (made.plan.items.len(), made.expected.mains, &made.expected.ballots);
    let weight: u64 = ballots.iter().map(|row| u64::from(row[2])).sum();
    let mut text = format!("accepted {items} {mains} {} {weight}\n", ballots.len());
    for [ballot, voter, weight] in ballots {
        text += &format!("{ballot} {voter} {weight}\n");
    }
    text
}
