//! Receipts: for each the main number of the first cast with its address and its signature. Each is sought alone, over
//! all main items.

use crate::audit::{audit_with, refused, Board, History, Item, Report, Rules, RULES};
use crate::compare::Tables;
use crate::format::*;

/// Answers receipts. The report is the audit's, or that of a refusal before it; any refusal leaves the answers as they
/// were.
pub fn receipts(board: Board, receipts: &[u32], tables: Tables, answers: &mut [u32]) -> Report {
    receipts_with(RULES, board, receipts, tables, answers)
}

/// The same by any rules.
pub fn receipts_with(rules: Rules, board: Board, receipts: &[u32], tables: Tables, answers: &mut [u32]) -> Report {
    // The board's first words tell how wide a receipt is, whatever else is wrong with it.
    let width = (rules.layout.of)(board.words).curve.receipt();
    // 22: whole receipts, and no more than there may be.
    if receipts.len() % width != 0 || receipts.len() / width > MAX_RECEIPTS {
        return refused(22, 0);
    }
    // 2: a word for each.
    if answers.len() < receipts.len() / width {
        return refused(2, 0);
    }
    let (report, history) = audit_with(rules, board, tables.index, tables.ballots);
    if let Some(history) = history {
        answers.fill(0);
        for (answer, receipt) in answers.iter_mut().zip(receipts.chunks_exact(width)) {
            *answer = first_cast(board.words, &history, receipt);
        }
    }
    report
}

/// The main number of the first cast with a receipt's address and signature.
fn first_cast(board: &[u32], history: &History, receipt: &[u32]) -> u32 {
    let curve = history.layout().curve;
    let (signature, address) = receipt.split_at(curve.widths().signature);
    for number in 1..=history.mains() {
        let item = history.main(number);
        if item.code != CAST {
            continue;
        }
        let (item_signature, item_address) = signed(board, curve, item);
        if item_address == address && item_signature == signature {
            return number as u32;
        }
    }
    NO_CAST
}

/// The signature and the address of an item on its board.
fn signed<'a>(board: &'a [u32], curve: Curve, item: &Item) -> (&'a [u32], &'a [u32]) {
    let at = item.place + item.count + curve.hashed_frame();
    board[at..at + curve.receipt()].split_at(curve.widths().signature)
}
