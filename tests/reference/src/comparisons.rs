//! Comparisons stored in folders: the files of both boards, with kept- and later- before their names, and expected: the
//! main number that is asked for, and the answer.
//!
//!   number 12
//!   answer apart                     or same, collision A B, refused kept N ITEMS, refused later N ITEMS

use crate::calls::{call_compare_at, Tally};
use crate::checks::{Case, Known};
use crate::compare::{Comparison, Side};
use crate::format::{BALLOTS_NEED, INDEX_NEED};
use crate::interface::{compare_words, Interface, COMPARE_ANSWER};
use crate::plan::Laid;
use crate::program::words;
use crate::random::Random;
use crate::stand_in::stand_in;
use crate::stored::{folders, read};
use std::fs;
use std::path::Path;

/// Checks every folder in a folder, in name order: the reference, and the library where it has the entry. Gives how many
/// there are.
pub fn check_comparisons(folder: &Path, library: Option<Interface>) -> Result<usize, String> {
    let paths = folders(folder)?;
    for path in &paths {
        check_comparison(path, library).map_err(|message| format!("{}: {message}", path.display()))?;
    }
    Ok(paths.len())
}

fn check_comparison(path: &Path, library: Option<Interface>) -> Result<(), String> {
    let text = fs::read_to_string(path.join("expected")).map_err(|e| e.to_string())?;
    let (number, expected) = expected(&text).ok_or("what is expected cannot be read")?;
    let board = |which: &str| {
        ["board", "verdicts", "roll"].map(|file| words(&read(&path.join(format!("{which}-{file}.words")))))
    };
    let [words, verdicts, roll] = board("later");
    let other = Laid { words, verdicts, roll, places: Vec::new(), addresses: Vec::new() };
    let [words, verdicts, roll] = board("kept");
    let case = Case { name: String::new(), words, verdicts, roll, known: Known::Nothing, other, kept: true };
    let lengths = [INDEX_NEED, BALLOTS_NEED, INDEX_NEED, BALLOTS_NEED, COMPARE_ANSWER];
    for (side, with) in [("reference", Some(stand_in())), ("library", library)] {
        let (random, tally) = (&mut Random::new(0), &mut Tally::default());
        let call = with.and_then(|with| call_compare_at(&with, &case, number, lengths, random, tally));
        if let Some(call) = call {
            let given = call.answer();
            if given != compare_words(&expected) {
                return Err(format!("{side}: the answer is {given:?}, expected is {expected:?}"));
            }
            call.hold().map_err(|message| format!("{side}, {message}"))?;
        }
    }
    Ok(())
}

/// The main number, and the answer.
fn expected(text: &str) -> Option<(usize, Comparison)> {
    let (number, answer) = text.strip_prefix("number ")?.split_once("\nanswer ")?;
    let words: Vec<&str> = answer.strip_suffix('\n')?.split(' ').collect();
    let comparison = match words[..] {
        ["apart"] => Comparison::Apart,
        ["same"] => Comparison::Same,
        ["collision", kept, later] => Comparison::Collision { kept: kept.parse().ok()?, later: later.parse().ok()? },
        ["refused", board, number, items] => Comparison::Refused {
            side: match board {
                "kept" => Side::Kept,
                "later" => Side::Later,
                _ => return None,
            },
            number: number.parse().ok()?,
            items: items.parse().ok()?,
        },
        _ => return None,
    };
    Some((number.parse().ok()?, comparison))
}
