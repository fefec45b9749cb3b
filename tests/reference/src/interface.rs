//! The auditor's C interface.
//!
//! A slice passes as a pointer and a length. An entry gives false and writes nothing at all
//! where the answer's buffer is too short.

use crate::ancestry::Ancestry;
use crate::audit::Report;
use crate::compare::{Comparison, Side};
use crate::format::MAX_WORDS;
use crate::notes::{Agreement, Reason};
use crate::planning::Planned;

/// The words of an end address: those of the board, then zeros.
pub const END_WORDS: usize = 16;
pub const AUDIT_ANSWER: usize = 22;
pub const COMPARE_ANSWER: usize = 6;
pub const ANCESTRY_ANSWER: usize = 2;
/// The audit's answer, and two words more.
pub const NOTES_ANSWER: usize = 24;
pub const PLAN_ANSWER: usize = 4;
/// The audit's answer, and one word more.
pub const EXPORT_ANSWER: usize = 23;
/// Bytes of a text buffer for the export of any board.
pub const EXPORT_BYTES: usize = 8 * MAX_WORDS;

/// Where the words of the audit's answer stand.
pub mod audit_answer {
    pub const NUMBER: usize = 0;
    pub const ITEMS: usize = 1;
    pub const MAINS: usize = 2;
    pub const BALLOTS: usize = 3;
    pub const WEIGHT_HIGH: usize = 4;
    pub const WEIGHT_LOW: usize = 5;
    /// Sixteen words, the last of the answer.
    pub const END: usize = 6;
}

/// Where the words of the comparison's answer stand.
pub mod compare_answer {
    pub const KIND: usize = 0;
    /// 0 is the kept board, 1 the later one.
    pub const BOARD: usize = 1;
    pub const NUMBER: usize = 2;
    pub const ITEMS: usize = 3;
    pub const KEPT_MAIN: usize = 4;
    pub const LATER_MAIN: usize = 5;
}

/// The kinds of the comparison's answer.
pub mod compare_kind {
    pub const REFUSED: u32 = 0;
    pub const APART: u32 = 1;
    pub const SAME: u32 = 2;
    pub const COLLISION: u32 = 3;
}

/// Where the words of the ancestry's answer stand.
pub mod ancestry_answer {
    pub const NUMBER: usize = 0;
    pub const COUNT: usize = 1;
}

/// Where the two words of the answer to notes stand that the audit's does not have.
pub mod notes_answer {
    pub const AGREEMENT: usize = 22;
    /// The number, from 1, of the first note that disagrees; else 0.
    pub const NOTE: usize = 23;
}

/// Where the words of the answer to a plan stand.
pub mod plan_answer {
    pub const NUMBER: usize = 0;
    pub const ITEMS: usize = 1;
    pub const INDEX_WORDS: usize = 2;
    pub const BLOCKS: usize = 3;
}

/// Where the word of the answer to an export stands that the audit's does not have.
pub mod export_answer {
    pub const LENGTH: usize = 22;
}

/// Whether notes agree, and why the first that does not disagrees.
pub mod agreement {
    pub const NOT_HELD: u32 = 0;
    pub const ALL_AGREE: u32 = 1;
    pub const NO_MAIN_ITEM: u32 = 2;
    pub const OUT_OF_ORDER: u32 = 3;
    pub const TOO_EARLY: u32 = 4;
}

#[rustfmt::skip]
pub type AuditEntry = unsafe extern "C" fn(
    *const u32, usize, *const u32, usize, *const u32, usize,
    *mut u32, usize, *mut u32, usize, *mut u32, usize) -> bool;
#[rustfmt::skip]
pub type CompareEntry = unsafe extern "C" fn(
    *const u32, usize, *const u32, usize, *const u32, usize,
    *const u32, usize, *const u32, usize, *const u32, usize, usize,
    *mut u32, usize, *mut u32, usize, *mut u32, usize, *mut u32, usize, *mut u32, usize) -> bool;
#[rustfmt::skip]
pub type AncestryEntry = unsafe extern "C" fn(
    *const u32, usize, *const u32, usize, *const u32, usize, usize,
    *mut u32, usize, *mut u32, usize, *mut u32, usize, *mut u32, usize) -> bool;
#[rustfmt::skip]
pub type ReceiptsEntry = unsafe extern "C" fn(
    *const u32, usize, *const u32, usize, *const u32, usize, *const u32, usize,
    *mut u32, usize, *mut u32, usize, *mut u32, usize, *mut u32, usize) -> bool;
#[rustfmt::skip]
pub type NotesEntry = unsafe extern "C" fn(
    *const u32, usize, *const u32, usize, *const u32, usize, *const u32, usize,
    *mut u32, usize, *mut u32, usize, *mut u32, usize) -> bool;
/// A board, and the answer.
pub type PlanEntry = unsafe extern "C" fn(*const u32, usize, *mut u32, usize) -> bool;

#[derive(Clone, Copy)]
pub struct Interface {
    pub audit: AuditEntry,
    /// None where the library has no such entry.
    pub compare: Option<CompareEntry>,
    pub ancestry: Option<AncestryEntry>,
    pub receipts: Option<ReceiptsEntry>,
    pub notes: Option<NotesEntry>,
    pub plan: Option<PlanEntry>,
}

pub fn audit_words(report: &Report) -> [u32; AUDIT_ANSWER] {
    use audit_answer::*;
    let mut words = [0; AUDIT_ANSWER];
    words[NUMBER] = report.number;
    words[ITEMS] = report.items;
    words[MAINS] = report.mains;
    words[BALLOTS] = report.ballots;
    words[WEIGHT_HIGH] = (report.weight >> 32) as u32;
    words[WEIGHT_LOW] = report.weight as u32;
    words[END..END + END_WORDS].copy_from_slice(&report.end);
    words
}

/// The audit's words, and whether the notes agree.
pub fn notes_words(report: &Report, agreement: Agreement) -> [u32; NOTES_ANSWER] {
    let mut words = [0; NOTES_ANSWER];
    words[..AUDIT_ANSWER].copy_from_slice(&audit_words(report));
    words[AUDIT_ANSWER..].copy_from_slice(&agreement_words(agreement));
    words
}

pub fn agreement_words(agreement: Agreement) -> [u32; 2] {
    match agreement {
        Agreement::NotHeld => [agreement::NOT_HELD, 0],
        Agreement::AllAgree => [agreement::ALL_AGREE, 0],
        Agreement::Disagrees(note, Reason::NoMainItem) => [agreement::NO_MAIN_ITEM, note],
        Agreement::Disagrees(note, Reason::OutOfOrder) => [agreement::OUT_OF_ORDER, note],
        Agreement::Disagrees(note, Reason::TooEarly) => [agreement::TOO_EARLY, note],
    }
}

pub fn plan_words(planned: &Planned) -> [u32; PLAN_ANSWER] {
    let mut words = [0; PLAN_ANSWER];
    words[plan_answer::NUMBER] = planned.number;
    words[plan_answer::ITEMS] = planned.items;
    words[plan_answer::INDEX_WORDS] = planned.index_words;
    words[plan_answer::BLOCKS] = planned.blocks;
    words
}

/// The words that a kind does not use are 0.
pub fn compare_words(comparison: &Comparison) -> [u32; COMPARE_ANSWER] {
    use compare_answer::*;
    let mut words = [0; COMPARE_ANSWER];
    match *comparison {
        Comparison::Refused { side, number, items } => {
            words[KIND] = compare_kind::REFUSED;
            words[BOARD] = u32::from(side == Side::Later);
            words[NUMBER] = number;
            words[ITEMS] = items;
        }
        Comparison::Apart => words[KIND] = compare_kind::APART,
        Comparison::Same => words[KIND] = compare_kind::SAME,
        Comparison::Collision { kept, later } => {
            words[KIND] = compare_kind::COLLISION;
            words[KEPT_MAIN] = kept;
            words[LATER_MAIN] = later;
        }
    }
    words
}

pub fn ancestry_words(ancestry: &Ancestry) -> [u32; ANCESTRY_ANSWER] {
    let mut words = [0; ANCESTRY_ANSWER];
    words[ancestry_answer::NUMBER] = ancestry.number;
    words[ancestry_answer::COUNT] = ancestry.count;
    words
}

/// The static library's entries, where it is linked. `build.rs` sees which it has.
#[cfg(feature = "library")]
pub fn library() -> Option<Interface> {
    #[rustfmt::skip]
    extern "C" {
        fn tirfolma_audit(
            board: *const u32, board_len: usize, verdicts: *const u32, verdicts_len: usize,
            roll: *const u32, roll_len: usize,
            index: *mut u32, index_len: usize, ballots: *mut u32, ballots_len: usize,
            answer: *mut u32, answer_len: usize) -> bool;
        #[cfg(has_compare)]
        fn tirfolma_compare(
            kept: *const u32, kept_len: usize, kept_verdicts: *const u32, kept_verdicts_len: usize,
            kept_roll: *const u32, kept_roll_len: usize,
            later: *const u32, later_len: usize, later_verdicts: *const u32, later_verdicts_len: usize,
            later_roll: *const u32, later_roll_len: usize,
            main_number: usize,
            kept_index: *mut u32, kept_index_len: usize, kept_ballots: *mut u32, kept_ballots_len: usize,
            later_index: *mut u32, later_index_len: usize, later_ballots: *mut u32, later_ballots_len: usize,
            answer: *mut u32, answer_len: usize) -> bool;
        #[cfg(has_ancestry)]
        fn tirfolma_ancestry(
            board: *const u32, board_len: usize, verdicts: *const u32, verdicts_len: usize,
            roll: *const u32, roll_len: usize,
            item_number: usize,
            index: *mut u32, index_len: usize, ballots: *mut u32, ballots_len: usize,
            list: *mut u32, list_len: usize, answer: *mut u32, answer_len: usize) -> bool;
        #[cfg(has_receipts)]
        fn tirfolma_receipts(
            board: *const u32, board_len: usize, verdicts: *const u32, verdicts_len: usize,
            roll: *const u32, roll_len: usize, receipts: *const u32, receipts_len: usize,
            index: *mut u32, index_len: usize, ballots: *mut u32, ballots_len: usize,
            answers: *mut u32, answers_len: usize, answer: *mut u32, answer_len: usize) -> bool;
        #[cfg(has_notes)]
        fn tirfolma_notes(
            board: *const u32, board_len: usize, verdicts: *const u32, verdicts_len: usize,
            roll: *const u32, roll_len: usize, notes: *const u32, notes_len: usize,
            index: *mut u32, index_len: usize, ballots: *mut u32, ballots_len: usize,
            answer: *mut u32, answer_len: usize) -> bool;
        #[cfg(has_plan)]
        fn tirfolma_plan(board: *const u32, board_len: usize, answer: *mut u32, answer_len: usize) -> bool;
    }
    #[cfg(has_compare)]
    let compare: Option<CompareEntry> = Some(tirfolma_compare);
    #[cfg(not(has_compare))]
    let compare: Option<CompareEntry> = None;
    #[cfg(has_ancestry)]
    let ancestry: Option<AncestryEntry> = Some(tirfolma_ancestry);
    #[cfg(not(has_ancestry))]
    let ancestry: Option<AncestryEntry> = None;
    #[cfg(has_receipts)]
    let receipts: Option<ReceiptsEntry> = Some(tirfolma_receipts);
    #[cfg(not(has_receipts))]
    let receipts: Option<ReceiptsEntry> = None;
    #[cfg(has_notes)]
    let notes: Option<NotesEntry> = Some(tirfolma_notes);
    #[cfg(not(has_notes))]
    let notes: Option<NotesEntry> = None;
    #[cfg(has_plan)]
    let plan: Option<PlanEntry> = Some(tirfolma_plan);
    #[cfg(not(has_plan))]
    let plan: Option<PlanEntry> = None;
    Some(Interface { audit: tirfolma_audit, compare, ancestry, receipts, notes, plan })
}

#[cfg(not(feature = "library"))]
pub fn library() -> Option<Interface> {
    None
}
