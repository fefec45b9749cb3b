//! Rules that go by the format of a board: by its curve, by the width of its sets of contests, or by both. The board's first item tells
//! them: where an item breaks such a rule, but would be right with another format, that first item may be what is wrong.

use super::text::{hex, in_words, item, list, one, place};
use crate::board::{Head, CLOSING};
use crate::format::{
    bits_without_meaning, curve_number, has_no_traits, traits, By, Format, Members, CURVES, TRAITS_PLACE,
};
use crate::types::code::GENESIS;
use std::fmt::Display;

/// As many bits are listed.
const LISTED: usize = 3;

/// A rule with what it goes by.
pub fn on_board(format: Format, by: By, rule: &str) -> String {
    let (curve, sets) = (format.curve.name, set_words(format));
    let which = match by {
        By::Curve => format!("which is on {curve}"),
        By::Sets => format!("whose sets of contests have {sets}"),
        By::Both => format!("which is on {curve} and whose sets of contests have {sets}"),
    };
    format!("on this board, {which}, {rule}")
}

/// Behind such a rule: that the number would do with other formats.
pub fn would_fit(number: impl Display, format: Format, others: &[Format]) -> String {
    let others: Vec<String> = others.iter().map(|other| difference(format, *other)).collect();
    format!("; {number} would fit {}", others.join(", or "))
}

/// Another format, by what is other.
fn difference(format: Format, other: Format) -> String {
    let (curve, sets) = (other.curve.name, set_words(other));
    match (other.curve == format.curve, sets == set_words(format)) {
        (true, _) => format!("sets of {sets}"),
        (_, true) => curve.to_string(),
        _ => format!("{curve} with sets of {sets}"),
    }
}

/// Behind what is to be looked at: what tells the format. Nothing where the board does not begin with a genesis.
pub fn look(board: &[u32], by: By) -> String {
    let plain = match by {
        By::Curve => format!("the board is on {}", Format::PLAIN.curve.name),
        By::Sets => format!("sets have {}", set_words(Format::PLAIN)),
        By::Both => format!("the board is on {} and sets have {}", Format::PLAIN.curve.name, set_words(Format::PLAIN)),
    };
    match traits(board) {
        Some(word) => {
            let look = format!(", and at the traits word, {} at {}", hex(word), place(TRAITS_PLACE));
            let read = Format::PLAIN.curve.name;
            let wrong = wrong_traits(word).map(|wrong| format!(": {wrong}, so that the board is read as on {read}"));
            look + &wrong.unwrap_or_default()
        }
        None if has_no_traits(board) => {
            format!(", and at {}, which has no traits word, so that {plain}", item(1, GENESIS))
        }
        None => String::new(),
    }
}

/// What is wrong with a traits word; none where nothing is.
pub fn wrong_traits(word: u32) -> Option<String> {
    let bits: Vec<String> = bits_without_meaning(word).map(|bit| bit.to_string()).collect();
    let without_meaning = match &bits[..] {
        [] => None,
        [bit] => Some(format!("bit {bit} has no meaning")),
        bits => Some(format!("bits {} have no meaning", list(bits, LISTED))),
    };
    let number = curve_number(word);
    let no_curve =
        (number as usize >= CURVES.len()).then(|| format!("bits 1 and 2 give the number {number}, which no curve has"));
    let wrong: Vec<String> = without_meaning.into_iter().chain(no_curve).collect();
    (!wrong.is_empty()).then(|| wrong.join(", and "))
}

/// Of the item at a place, where nothing that may follow it does, though something would with the widths of another curve: what, and what
/// tells the curve. The latter also of a first item whose traits word is wrong. Nothing of any other item.
pub fn of_frame(board: &[u32], at: usize) -> (String, String) {
    let fit = other_follower(board, at);
    let look = match (&fit, at) {
        (Some(_), 0) if has_no_traits(board) => {
            let plain = Format::PLAIN.curve.name;
            format!(", and at whether its traits word is missing: without one the board is on {plain}")
        }
        (None, 0) if traits(board).and_then(wrong_traits).is_some() => look(board, By::Curve),
        (Some(_), _) => look(board, By::Curve),
        (None, _) => String::new(),
    };
    (fit.unwrap_or_default(), look)
}

/// What would follow the item at a place with the widths of another curve; none where something does with its own.
fn other_follower(board: &[u32], at: usize) -> Option<String> {
    let own = Format::of(board);
    if follower(board, at, own).is_some() {
        return None;
    }
    let mut others = own.others(By::Both).into_iter().filter(|other| other.curve != own.curve);
    let found = others.find_map(|other| Some((other.curve.name, follower(board, at, other)?)));
    found.map(|(curve, (what, behind))| {
        format!("; with the widths of {curve} {what} would follow it, at {}", place(behind))
    })
}

/// What follows the item at a place on a board of a format, and where; none where nothing does that may.
fn follower(board: &[u32], at: usize, format: Format) -> Option<(String, usize)> {
    let behind = at + Head(*board.get(at)?).count() + format.frame();
    let head = Head(*board.get(behind)?);
    let is_last = behind + 1 == board.len();
    let what = match head.kind() {
        CLOSING => is_last.then(|| "the closing word".to_string()),
        _ => head.fitting(format).map(|row| one(row.code)),
    };
    Some((what?, behind))
}

/// The words of a set of contests.
pub fn set_words(format: Format) -> String {
    match format.words(Members::Contests) {
        1 => "one word".to_string(),
        words => format!("{} words", in_words(words)),
    }
}
