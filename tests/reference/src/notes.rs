//! A watcher's notes: the first whose address is no main item, whose main item is earlier than that of the note before, or
//! whose time is less than that item's. Each address is sought alone, over all main items.

use crate::audit::{audit_with, refused, Board, History, Report, Rules, RULES};
use crate::compare::Tables;
use crate::curves::widened;
use crate::format::*;

/// Why a note disagrees. Of two reasons the one that stands first here.
#[derive(Clone, Copy, PartialEq, Eq, Debug)]
pub enum Reason {
    /// Its address is no main item's.
    NoMainItem,
    /// Its main item is earlier than that of the note before.
    OutOfOrder,
    /// Its time is less than that of its main item.
    TooEarly,
}

#[derive(Clone, Copy, PartialEq, Eq, Debug)]
pub enum Agreement {
    /// The notes or the board are refused.
    NotHeld,
    AllAgree,
    /// The number of the first note that disagrees, from 1, and the reason.
    Disagrees(u32, Reason),
}

/// Holds notes against a board. The report is the audit's, or that of bad notes, which leave the tables as they were.
pub fn notes(board: Board, notes: &[u32], tables: Tables) -> (Report, Agreement) {
    notes_with(RULES, board, notes, tables)
}

/// The same by any rules.
pub fn notes_with(rules: Rules, board: Board, notes: &[u32], tables: Tables) -> (Report, Agreement) {
    // The board's first words tell how wide a note is, whatever else is wrong with it.
    let width = (rules.layout.of)(board.words).curve.note();
    // 23: whole notes, and no more than there may be.
    if notes.len() % width != 0 || notes.len() / width > MAX_NOTES {
        return (refused(23, 0), Agreement::NotHeld);
    }
    match audit_with(rules, board, tables.index, tables.ballots) {
        (report, Some(history)) => (report, agreement(&history, notes)),
        (report, None) => (report, Agreement::NotHeld),
    }
}

/// The first note that disagrees with an accepted board.
fn agreement(history: &History, notes: &[u32]) -> Agreement {
    // Of the note before; there is none before the first.
    let mut before = 0;
    for (number, note) in (1..).zip(notes.chunks_exact(history.layout().curve.note())) {
        let Some(main) = first_main(history, &note[2..]) else {
            return Agreement::Disagrees(number, Reason::NoMainItem);
        };
        if main < before {
            return Agreement::Disagrees(number, Reason::OutOfOrder);
        }
        if time(note, 0) < history.main(main).time {
            return Agreement::Disagrees(number, Reason::TooEarly);
        }
        before = main;
    }
    Agreement::AllAgree
}

/// The main number of the first main item with an address.
fn first_main(history: &History, address: &[u32]) -> Option<usize> {
    let address = widened(address);
    (1..=history.mains()).find(|&number| history.main(number).address == address)
}
