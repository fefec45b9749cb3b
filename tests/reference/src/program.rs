//! What the auditing program prints for the bytes of its three files.

use crate::audit::audit;
use crate::format::{ballot_row, BALLOTS_NEED, BALLOT_ROW, INDEX_NEED};

/// The words of a board that the program takes.
pub const PROGRAM_WORDS: usize = 16_384;

/// A file that cannot be opened counts as empty: give no bytes for it.
pub fn program(board: &[u8], verdicts: &[u8], roll: &[u8]) -> String {
    if [board, verdicts, roll].iter().any(|file| file.len() % 4 != 0) {
        return "refused 4 at 0\n".to_string();
    }
    if board.len() / 4 > PROGRAM_WORDS {
        return "refused 1 at 0\n".to_string();
    }
    let mut index = vec![0; INDEX_NEED];
    let mut ballots = vec![0; BALLOTS_NEED];
    let report = audit(&words(board), &words(verdicts), &words(roll), &mut index, &mut ballots);
    if report.number != 0 {
        return format!("refused {} at {}\n", report.number, report.items);
    }
    let mut text = format!("accepted {} {} {} {}\n", report.items, report.mains, report.ballots, report.weight);
    for row in ballots.chunks(BALLOT_ROW).take(report.ballots as usize) {
        let [ballot, voter, weight] = [ballot_row::BALLOT, ballot_row::VOTER, ballot_row::WEIGHT].map(|at| row[at]);
        text += &format!("{ballot} {voter} {weight}\n");
    }
    text
}

/// Whole words, high byte first.
pub fn words(bytes: &[u8]) -> Vec<u32> {
    bytes.chunks_exact(4).map(|b| u32::from_be_bytes(b.try_into().expect("four bytes"))).collect()
}

pub fn bytes(words: &[u32]) -> Vec<u8> {
    words.iter().flat_map(|w| w.to_be_bytes()).collect()
}
