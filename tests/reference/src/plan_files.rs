//! Plans stored in a file, for boards of which the heads alone are told. A case has two lines: its name and what is expected,
//! number, items, index words and blocks; then, behind two spaces, the board.
//!
//!   genesis and 2,047 casts: 0 2048 10240 4097
//!     10010011 +59 2047*(10140000 +42) f0000800
//!
//! A word has eight hexadecimal digits, +59 stands for 59 words that tell nothing, and 2047*(..) for the same words 2,047
//! times; a board of no words is `none`. Lines that begin with # are left out.

use crate::calls::{call_plan, Tally};
use crate::interface::{Interface, PLAN_ANSWER};
use crate::random::Random;
use crate::stand_in::stand_in;
use std::fs;
use std::path::Path;

/// What stands in the place of the words that tell nothing: a word of another kind, closing words, and the head of a cast.
const FILLERS: [u32; 4] = [0x3c3c_3c3c, 0xf000_0000, 0xf000_0001, 0x1014_0000];

/// Checks every plan in a file: the reference, and the library where it has the entry. Gives how many there are.
pub fn check_plan_files(file: &Path, library: Option<Interface>) -> Result<usize, String> {
    let text = fs::read_to_string(file).map_err(|e| format!("{}: {e}", file.display()))?;
    let lines: Vec<&str> = text.lines().filter(|line| !line.starts_with('#')).collect();
    for case in lines.chunks(2) {
        check_case(case, library).map_err(|message| format!("{}, {}: {message}", file.display(), case[0]))?;
    }
    Ok(lines.len() / 2)
}

/// With each filler; with the first, answers of 0 to 8 words.
fn check_case(case: &[&str], library: Option<Interface>) -> Result<(), String> {
    let [title, board] = case else { return Err("a board is missing".to_string()) };
    let right = expected(title).ok_or("what is expected cannot be read")?;
    let board = board.strip_prefix("  ").ok_or("the board is not behind two spaces")?;
    for (filler, lengths) in FILLERS.into_iter().zip([0..9, 4..5, 4..5, 4..5]) {
        let words = words(board, filler).ok_or("the board cannot be read")?;
        lengths.into_iter().try_for_each(|length| check_words(&words, length, right, library))?;
    }
    Ok(())
}

fn check_words(words: &[u32], length: usize, right: [u32; 4], library: Option<Interface>) -> Result<(), String> {
    for (side, with) in [("reference", Some(stand_in())), ("library", library)] {
        let (random, tally) = (&mut Random::new(length as u64), &mut Tally::default());
        let call = with.and_then(|with| call_plan(&with, words, length, random, tally));
        let held = call.map_or(Ok(()), |call| call.hold_said(right).and_then(|()| call.hold()));
        held.map_err(|message| format!("{side}, {message}"))?;
    }
    Ok(())
}

/// The four numbers behind the name.
fn expected(title: &str) -> Option<[u32; PLAN_ANSWER]> {
    let numbers: Option<Vec<u32>> = title.rsplit_once(": ")?.1.split(' ').map(|number| number.parse().ok()).collect();
    numbers?.try_into().ok()
}

/// The words of a board.
fn words(board: &str, filler: u32) -> Option<Vec<u32>> {
    let mut words = Vec::new();
    let mut rest = if board == "none" { "" } else { board };
    while !rest.is_empty() {
        let part = rest.split_once(' ').map_or(rest, |(part, _)| part);
        let length = if let Some((times, _)) = part.split_once("*(") {
            let inside = &rest[times.len() + 2..rest.find(')')?];
            words.extend(self::words(inside, filler)?.repeat(times.parse().ok()?));
            times.len() + 2 + inside.len() + 1
        } else if let Some(count) = part.strip_prefix('+') {
            words.resize(words.len() + count.parse::<usize>().ok()?, filler);
            part.len()
        } else {
            words.push(u32::from_str_radix(part, 16).ok().filter(|_| part.len() == 8)?);
            part.len()
        };
        rest = rest[length..].trim_start();
    }
    Some(words)
}
