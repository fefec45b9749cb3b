//! The ancestry of an item: its number, its parent's, and so on up to genesis.

use crate::audit::{audit_with, Board, History, Rules, RULES};
use crate::format::{LIST_NEED, MAX_WORDS};

/// The answer: 0 and how many numbers were written, or a refusal and the items passed.
#[derive(Clone, Copy, PartialEq, Eq, Debug)]
pub struct Ancestry {
    pub number: u32,
    pub count: u32,
}

pub fn ancestry(
    board: &[u32],
    verdicts: &[u32],
    roll: &[u32],
    item_number: usize,
    index: &mut [u32],
    ballots: &mut [u32],
    list: &mut [u32],
) -> Ancestry {
    ancestry_with(RULES, Board { words: board, verdicts, roll }, item_number, index, ballots, list)
}

pub fn ancestry_with(
    rules: Rules,
    board: Board,
    item_number: usize,
    index: &mut [u32],
    ballots: &mut [u32],
    list: &mut [u32],
) -> Ancestry {
    // The word limit comes before a short table, whichever table it is.
    if list.len() < LIST_NEED && board.words.len() <= MAX_WORDS {
        return Ancestry { number: 2, count: 0 };
    }
    let (report, history) = audit_with(rules, board, index, ballots);
    let before_reading = board.words.len() > MAX_WORDS || report.number == 2;
    if before_reading {
        return Ancestry { number: report.number, count: 0 };
    }
    list.fill(0);
    let Some(history) = history else {
        return Ancestry { number: report.number, count: report.items };
    };
    if item_number == 0 || item_number > history.items() {
        return Ancestry { number: 19, count: report.items };
    }
    let count = write_from(&history, item_number, list, 0);
    Ancestry { number: 0, count: count as u32 }
}

/// Writes the number and its ancestors from `at` on; gives how many stand there then.
fn write_from(history: &History, number: usize, list: &mut [u32], at: usize) -> usize {
    list[at] = number as u32;
    let parent = history.item(number).parent;
    if parent == number {
        return at + 1;
    }
    write_from(history, parent, list, at + 1)
}
