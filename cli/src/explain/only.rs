//! Refusal 12: the item that stands already where only one may.

use super::refused::Refused;
use super::text::one;
use crate::types::code::*;

pub fn second(refused: &Refused) -> Option<String> {
    match refused.code() {
        GENESIS | THRESHOLD => on_board(refused),
        CAST | SPOIL => under_ballot(refused),
        SERVER_COMMITMENT | BALLOT | EXTRACTION | CONFIRMATION | TRACK..=SERVER_OPENING => under_parent(refused),
        _ => None,
    }
}

fn on_board(refused: &Refused) -> Option<String> {
    let (first, name) = (refused.first(refused.code())?, refused.row.name);
    Some(format!(
        "is a second {name}: item {} is the board's {name} already, and a board has one only. Look at both",
        first.number
    ))
}

fn under_parent(refused: &Refused) -> Option<String> {
    let parent = refused.parent()?;
    let is_sibling = |number| refused.passed.parent(number) == parent.number;
    let mut same_type = refused.earlier().filter(|earlier| earlier.item.code() == refused.code());
    let first = same_type.find(|earlier| is_sibling(earlier.number))?;
    Some(format!(
        "is one too many: item {} is already {} under the same parent, {}. Look at both",
        first.number,
        one(refused.code()),
        parent.name()
    ))
}

fn under_ballot(refused: &Refused) -> Option<String> {
    let ballot = refused.parent()?.number;
    let closer = refused.at(refused.passed.closer(ballot)?);
    let done = if closer.item.code() == CAST { "cast" } else { "spoiled" };
    Some(format!("is one too many: ballot item {ballot} was already {done} by item {}. Look at both", closer.number))
}
