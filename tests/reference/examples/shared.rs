//! The reference as a shared library, for tests that are not in Rust: boards from a seed, and the audit behind the
//! C interface.

use reference::crowded::crowded_with;
use reference::random::Random;
use reference::sound::{make_with, Shape, Traits};
use reference::stand_in::stand_in;
use std::slice::from_raw_parts_mut;

/// As tirfolma_audit.
///
/// # Safety
///
/// As the header has it.
#[rustfmt::skip]
#[no_mangle]
pub unsafe extern "C" fn reference_audit(
    board: *const u32, board_words: usize, verdicts: *const u32, verdict_words: usize,
    roll: *const u32, roll_words: usize,
    index: *mut u32, index_words: usize, ballots: *mut u32, ballot_words: usize,
    answer: *mut u32, answer_words: usize,
) -> bool {
    (stand_in().audit)(
        board, board_words, verdicts, verdict_words, roll, roll_words, index, index_words, ballots, ballot_words,
        answer, answer_words)
}

/// Makes a sound board of so many items and voters, with the traits of this number in `Traits::ALL`. A crowded one has
/// two voters or more, and at the least five items for each and eight others. Its words, verdict words and roll words
/// go to `out`, one behind the other, and how many there are of each to `counts`. False: `out` has fewer words, and
/// nothing is written.
///
/// # Safety
///
/// `out` has `out_words` words, `counts` three.
#[no_mangle]
pub unsafe extern "C" fn reference_board(
    seed: u64,
    traits: usize,
    crowded: bool,
    items: usize,
    voters: usize,
    out: *mut u32,
    out_words: usize,
    counts: *mut usize,
) -> bool {
    let random = &mut Random::new(seed);
    let shape = Shape { items, words: None, long: *random.pick(&[0, 5]), voters, extraction: true };
    let make = if crowded { crowded_with } else { make_with };
    let laid = make(random, shape, Traits::ALL[traits]).plan.lay();
    let parts = [&laid.words, &laid.verdicts, &laid.roll];
    let all = parts.map(|part| &part[..]).concat();
    if all.len() > out_words {
        return false;
    }
    from_raw_parts_mut(out, all.len()).copy_from_slice(&all);
    from_raw_parts_mut(counts, 3).copy_from_slice(&parts.map(|part| part.len()));
    true
}
