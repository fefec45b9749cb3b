//! Notes stored in folders: the files of a board, notes.words, and expected: the number and the items in the answer, and
//! whether the notes agree, or which disagrees first and why.
//!
//!   answer 0 72
//!   notes all agree        or notes 3 no main item, notes 3 out of order, notes 3 too early, notes not held

use crate::audit::Board;
use crate::calls::{call_notes, Tally};
use crate::format::{BALLOTS_NEED, INDEX_NEED};
use crate::interface::{Interface, NOTES_ANSWER};
use crate::notes::{Agreement, Reason};
use crate::program::words;
use crate::random::Random;
use crate::stand_in::stand_in;
use crate::stored::{folders, read};
use std::fs;
use std::path::Path;

/// Checks every folder in a folder, in name order: the reference, and the library where it has the entry. Gives how many
/// there are.
pub fn check_note_files(folder: &Path, library: Option<Interface>) -> Result<usize, String> {
    let paths = folders(folder)?;
    for path in &paths {
        check_files(path, library).map_err(|message| format!("{}: {message}", path.display()))?;
    }
    Ok(paths.len())
}

fn check_files(path: &Path, library: Option<Interface>) -> Result<(), String> {
    let text = fs::read_to_string(path.join("expected")).map_err(|e| e.to_string())?;
    let (number, items, agreement) = expected(&text).ok_or("what is expected cannot be read")?;
    let file = |name: &str| words(&read(&path.join(format!("{name}.words"))));
    let [board, verdicts, roll, notes] = ["board", "verdicts", "roll", "notes"].map(file);
    let board = Board { words: &board, verdicts: &verdicts, roll: &roll };
    let lengths = [INDEX_NEED, BALLOTS_NEED, NOTES_ANSWER];
    for (side, with) in [("reference", Some(stand_in())), ("library", library)] {
        let (random, tally) = (&mut Random::new(0), &mut Tally::default());
        let call = with.and_then(|with| call_notes(&with, board, &notes, lengths, random, tally));
        if let Some(call) = call {
            let held = call.hold_said(number, items).and_then(|()| call.hold_agreement(agreement));
            held.and_then(|()| call.hold()).map_err(|message| format!("{side}, {message}"))?;
        }
    }
    Ok(())
}

/// The number, the items, and the agreement.
fn expected(text: &str) -> Option<(u32, u32, Agreement)> {
    let (answer, notes) = text.strip_suffix('\n')?.strip_prefix("answer ")?.split_once("\nnotes ")?;
    let (number, items) = answer.split_once(' ')?;
    let (number, items) = (number.parse().ok()?, items.parse().ok()?);
    let agreement = match notes {
        "not held" => Agreement::NotHeld,
        "all agree" => Agreement::AllAgree,
        disagrees => {
            let (note, reason) = disagrees.split_once(' ')?;
            let reason = match reason {
                "no main item" => Reason::NoMainItem,
                "out of order" => Reason::OutOfOrder,
                "too early" => Reason::TooEarly,
                _ => return None,
            };
            Agreement::Disagrees(note.parse().ok()?, reason)
        }
    };
    // Only of an accepted board notes are held.
    ((number == 0) == (agreement != Agreement::NotHeld)).then_some((number, items, agreement))
}
