//! Plans: what holds of the answer to one beside an audit of the same board, whoever gave them, told from the two answers,
//! the index table and the words of the board alone.

use crate::told::Fields;

/// The words of an index row, where the place of a head stands in it, and the numbers that a plan can have. Written out, not
/// taken from `format`, so that a wrong one there is noticed.
const ROW: usize = 5;
const PLACE: usize = 0;
const NUMBERS: [u32; 7] = [0, 1, 3, 4, 5, 6, 18];

/// A plan and an audit of one board.
pub struct Beside<'a> {
    pub words: &'a [u32],
    /// The number and the items in the audit's answer.
    pub audited: [u32; 2],
    /// The index table that it left.
    pub index: &'a [u32],
    /// Number, items, index words, blocks.
    pub planned: [u32; 4],
}

/// Says what is wrong where it does not hold.
type Property = fn(&Beside) -> Result<(), String>;

/// What holds of the answer.
pub const OF_PLANS: [Property; 8] = [
    a_plan_has_no_other_number,
    a_refusal_tells_no_sums,
    each_item_has_a_row,
    an_accepted_board_is_planned,
    the_blocks_are_those_of_padded_messages,
    what_heads_show_is_refused_alike,
    a_wrong_close_comes_after_as_many_items,
    a_refused_item_with_a_right_head_is_passed,
];

/// Holds a plan to all of them.
pub fn check_beside(beside: &Beside) -> Result<(), String> {
    OF_PLANS
        .iter()
        .try_for_each(|property| property(beside))
        .map_err(|message| format!("a plan {:?} beside an audit with {:?}: {message}", beside.planned, beside.audited))
}

/// Which of them a plan breaks.
pub fn broken_beside(beside: &Beside) -> [bool; OF_PLANS.len()] {
    OF_PLANS.map(|property| property(beside).is_err())
}

fn holds(is_so: bool, what: &str) -> Result<(), String> {
    if is_so {
        Ok(())
    } else {
        Err(what.to_string())
    }
}

fn a_plan_has_no_other_number(beside: &Beside) -> Result<(), String> {
    holds(NUMBERS.contains(&beside.planned[0]), "no plan has this number")
}

fn a_refusal_tells_no_sums(beside: &Beside) -> Result<(), String> {
    let [number, _, index_words, blocks] = beside.planned;
    holds(number == 0 || [index_words, blocks] == [0, 0], "a refusal has index words or blocks")
}

fn each_item_has_a_row(beside: &Beside) -> Result<(), String> {
    let [number, items, index_words, _] = beside.planned;
    holds(number != 0 || u64::from(index_words) == 5 * u64::from(items), "the index words are not five for each item")
}

fn an_accepted_board_is_planned(beside: &Beside) -> Result<(), String> {
    let [number, items] = beside.audited;
    holds(number != 0 || beside.planned[..2] == [0, items], "an accepted board is not planned with its items")
}

/// Each message of an accepted board, padded as the standard has it.
fn the_blocks_are_those_of_padded_messages(beside: &Beside) -> Result<(), String> {
    let [number, items] = beside.audited;
    if number != 0 || beside.planned[0] != 0 {
        return Ok(());
    }
    let fields = Fields::of(beside.words);
    // SHA-256 has addresses of eight words.
    let (block, length) = if fields.address == 8 { (64, 8) } else { (128, 16) };
    let blocks: usize = beside
        .index
        .chunks(ROW)
        .take(items as usize)
        .map(|row| {
            let content = beside.words[row[PLACE] as usize] % 0x1_0000;
            let hashed = 1 + content as usize + 2 * fields.address + 2;
            let zeros = (2 * block - (4 * hashed + 1 + length) % block) % block;
            let padded = 4 * hashed + 1 + zeros + length;
            assert_eq!(padded % block, 0, "whole blocks");
            padded / block
        })
        .sum();
    holds(blocks == beside.planned[3] as usize, &format!("the padded messages have {blocks} blocks"))
}

fn what_heads_show_is_refused_alike(beside: &Beside) -> Result<(), String> {
    let [number, items] = beside.audited;
    let by_heads = matches!(number, 1 | 3..=6);
    holds(!by_heads || beside.planned == [number, items, 0, 0], "a refusal that the heads show is not the same")
}

/// Or the audit has words of verdicts left over.
fn a_wrong_close_comes_after_as_many_items(beside: &Beside) -> Result<(), String> {
    let [number, items] = beside.audited;
    let alike = matches!(beside.planned[0], 0 | 18) && beside.planned[1] == items;
    holds(number != 18 || alike, "a wrong close is seen elsewhere")
}

fn a_refused_item_with_a_right_head_is_passed(beside: &Beside) -> Result<(), String> {
    let [number, items] = beside.audited;
    let by_item = matches!(number, 7..=16 | 21);
    holds(!by_item || beside.planned[1] > items, "an item that the heads do not refuse is not passed")
}
