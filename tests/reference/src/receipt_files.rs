//! Receipts stored in folders: the files of a board, receipts.words, and expected: the words of the buffer for answers,
//! the number and the items in the answer, and the words of the buffer up to the last that is not zero, or that they are
//! as they were.
//!
//!   buffer 10
//!   answer 0 72
//!   answers 18 4294967295 18         or answers unchanged

use crate::audit::Board;
use crate::calls::{call_receipts, Tally};
use crate::format::{BALLOTS_NEED, INDEX_NEED};
use crate::interface::{Interface, AUDIT_ANSWER};
use crate::program::words;
use crate::random::Random;
use crate::stand_in::stand_in;
use crate::stored::{folders, read};
use std::fs;
use std::path::Path;

/// Checks every folder in a folder, in name order: the reference, and the library where it has the entry. Gives how many
/// there are.
pub fn check_receipt_files(folder: &Path, library: Option<Interface>) -> Result<usize, String> {
    let paths = folders(folder)?;
    for path in &paths {
        check_files(path, library).map_err(|message| format!("{}: {message}", path.display()))?;
    }
    Ok(paths.len())
}

/// What is expected: the words of the buffer, number and items, and the words in the buffer.
struct Expected {
    buffer: usize,
    number: u32,
    items: u32,
    answers: Option<Vec<u32>>,
}

fn check_files(path: &Path, library: Option<Interface>) -> Result<(), String> {
    let text = fs::read_to_string(path.join("expected")).map_err(|e| e.to_string())?;
    let expected = expected(&text).ok_or("what is expected cannot be read")?;
    let file = |name: &str| words(&read(&path.join(format!("{name}.words"))));
    let [board, verdicts, roll, receipts] = ["board", "verdicts", "roll", "receipts"].map(file);
    let board = Board { words: &board, verdicts: &verdicts, roll: &roll };
    let lengths = [INDEX_NEED, BALLOTS_NEED, expected.buffer, AUDIT_ANSWER];
    for (side, with) in [("reference", Some(stand_in())), ("library", library)] {
        let (random, tally) = (&mut Random::new(0), &mut Tally::default());
        let call = with.and_then(|with| call_receipts(&with, board, &receipts, lengths, random, tally));
        if let Some(call) = call {
            let held = call.hold_said(expected.number, expected.items);
            let held = held.and_then(|()| call.hold_answers(expected.answers.as_deref()));
            held.and_then(|()| call.hold()).map_err(|message| format!("{side}, {message}"))?;
        }
    }
    Ok(())
}

fn expected(text: &str) -> Option<Expected> {
    let mut lines = text.strip_suffix('\n')?.split('\n');
    let buffer = lines.next()?.strip_prefix("buffer ")?.parse().ok()?;
    let (number, items) = lines.next()?.strip_prefix("answer ")?.split_once(' ')?;
    let (number, items) = (number.parse().ok()?, items.parse().ok()?);
    let answers = match lines.next()?.strip_prefix("answers")? {
        " unchanged" => None,
        words => Some(words.split_whitespace().map(str::parse).collect::<Result<Vec<u32>, _>>().ok()?),
    };
    let fits = answers.as_ref().is_none_or(|words| words.len() <= buffer && words.last() != Some(&0));
    (fits && lines.next().is_none()).then_some(Expected { buffer, number, items, answers })
}
