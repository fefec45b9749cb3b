//! Answers to receipts on the cuts of a board: its first items, so many, a closing word with their number and nine
//! verdict words for each. Told from the words alone: a receipt gets its answer with the item that it is of, as the last
//! main item there is, and keeps it on every longer cut.

use crate::audit::Board;
use crate::calls::{call_receipts, places, Call, Tally};
use crate::checks::Case;
use crate::format::*;
use crate::interface::*;
use crate::presented::Presented;
use crate::random::Random;

/// What the cuts of boards have shown.
#[derive(Default)]
pub struct Seen {
    pub cuts: usize,
    /// Answers that were found, and that were kept on the next cut.
    pub found: usize,
    pub kept: usize,
}

/// The tables are long enough, and so is the buffer.
fn lengths(buffer: usize) -> [usize; 4] {
    [INDEX_NEED, BALLOTS_NEED, buffer, AUDIT_ANSWER]
}

/// Asks every cut of a sound board for the receipts of all its items, and for one of them alone. With `whole`, every word
/// is held to the reference, too.
pub fn check_cuts(with: &Interface, case: &Case, whole: bool, seen: &mut Seen) -> Result<(), String> {
    let random = &mut Random::new(case.words.len() as u64);
    let presented = Presented::of_all_items(&case.words);
    let width = Layout::of(&case.words).curve.receipt();
    let heads: Vec<usize> = places(&case.words).collect();
    let (mut before, mut mains) = (vec![NO_CAST; presented.buffer], 0);
    for items in 1..=heads.len() {
        let end = heads.get(items).copied().unwrap_or(case.words.len() - 1);
        let words = [&case.words[..end], &[CLOSING << 28 | items as u32]].concat();
        let cut = Board { words: &words, verdicts: &case.verdicts[..VERDICT_WORDS * items], roll: &case.roll };
        let asked = &presented.receipts[..];
        let answers = answers_of(with, cut, items, asked, whole, random)?;
        mains += u32::from(kind(words[heads[items - 1]]) == MAIN);
        for (number, (&earlier, &answer)) in (1..).zip(before.iter().zip(&answers)) {
            let fits = if earlier == NO_CAST { answer == NO_CAST || answer == mains } else { answer == earlier };
            if !fits {
                return Err(format!(
                    "receipt {number} is answered {answer} by the first {items} items, {earlier} before"
                ));
            }
            seen.found += usize::from(answer != NO_CAST && earlier == NO_CAST);
            seen.kept += usize::from(earlier != NO_CAST);
        }
        let one = random.below(presented.buffer);
        let alone = answers_of(with, cut, items, &asked[one * width..(one + 1) * width], whole, random)?;
        if alone != [answers[one]] {
            return Err(format!("receipt {} alone is answered {alone:?} by the first {items} items", one + 1));
        }
        seen.cuts += 1;
        before = answers;
    }
    Ok(())
}

/// The answers of a cut, which is accepted.
fn answers_of(
    with: &Interface,
    cut: Board,
    items: usize,
    asked: &[u32],
    whole: bool,
    random: &mut Random,
) -> Result<Vec<u32>, String> {
    let buffer = asked.len() / Layout::of(cut.words).curve.receipt();
    let call: Call =
        call_receipts(with, cut, asked, lengths(buffer), random, &mut Tally::default()).expect("the entry");
    call.hold_said(0, items as u32)?;
    if whole {
        call.hold()?;
    }
    Ok(call.given_answers().to_vec())
}
