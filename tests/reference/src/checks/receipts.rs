//! The entry for receipts against the reference, and against what is known of the receipts from their making.

use super::{answer_length, buffer_length, table_lengths, Case, Known};
use crate::answered::OF_ANSWERS;
use crate::calls::{call_receipts, Call, Said, Tally};
use crate::format::*;
use crate::interface::*;
use crate::presented::{Ending, Presented};
use crate::random::Random;
use crate::sound::{make_with, Shape, Traits};

/// Any receipts, with tables of any length; where they may be refused before the audit, also those of all items.
pub fn check_receipts(with: &Interface, case: &Case, random: &mut Random, tally: &mut Tally) -> Result<(), String> {
    let presented = Presented::new(case, random);
    check_presented(with, case, &presented, random, tally)?;
    if presented.refusal.is_some() || presented.ending == Ending::OtherWidth {
        check_presented(with, case, &Presented::of_all_items(&case.words), random, tally)?;
    }
    Ok(())
}

/// These receipts, with tables of any length. Gives the number in the answer, where there is one, and whether a table is
/// too short.
pub fn check_presented(
    with: &Interface,
    case: &Case,
    presented: &Presented,
    random: &mut Random,
    tally: &mut Tally,
) -> Result<Option<(u32, bool)>, String> {
    let (index, ballots) = (buffer_length(INDEX_NEED, random), buffer_length(BALLOTS_NEED, random));
    let lengths = [index, ballots, presented.buffer, answer_length(AUDIT_ANSWER, random)];
    let board = presented.board(case);
    let Some(call) = call_receipts(with, board, &presented.receipts, lengths, random, tally) else { return Ok(None) };
    call.hold()?;
    hold_made(&call, presented)?;
    let short = index < INDEX_NEED || ballots < BALLOTS_NEED;
    Ok(call.said().map(|said| (said.number, short)))
}

/// Holds a call to what is known of the receipts from their making, the reference left aside.
fn hold_made(call: &Call, presented: &Presented) -> Result<(), String> {
    if let (Some(number), true) = (presented.refusal, call.said().is_some()) {
        call.hold_said(number, 0)?;
    }
    match (call.said(), &presented.answers) {
        (Some(Said { number: 0, .. }), None) => Ok(()),
        (Some(Said { number: 0, .. }), Some(answers)) => call.hold_answers(Some(answers)),
        // Any refusal leaves them as they were, and so does an answer that is too short.
        _ => call.hold_answers(None),
    }
}

/// The receipts of all items, with tables of just the words they need, of too few, and of more.
pub fn check_receipts_full(
    with: &Interface,
    case: &Case,
    random: &mut Random,
    tally: &mut Tally,
) -> Result<(), String> {
    let presented = Presented::of_all_items(&case.words);
    for [index, ballots] in table_lengths(random) {
        let lengths = [index, ballots, presented.buffer, AUDIT_ANSWER];
        let call = call_receipts(with, case.board(), &presented.receipts, lengths, random, tally);
        call.map_or(Ok(()), |call| call.hold())?;
    }
    Ok(())
}

/// Any receipts, the tables and the answers held to the board and the receipts alone.
pub fn check_receipts_told(
    with: &Interface,
    case: &Case,
    random: &mut Random,
    tally: &mut Tally,
) -> Result<(), String> {
    let presented = Presented::new(case, random);
    let lengths = [INDEX_NEED, BALLOTS_NEED, presented.buffer, AUDIT_ANSWER];
    let call = call_receipts(with, presented.board(case), &presented.receipts, lengths, random, tally);
    call.map_or(Ok(()), |call| call.hold_told())
}

/// Which properties the answers to any receipts break.
pub fn broken_by_answers(with: &Interface, case: &Case, seed: u64) -> [bool; OF_ANSWERS.len()] {
    let (random, tally) = (&mut Random::new(seed), &mut Tally::default());
    let presented = Presented::new(case, random);
    let lengths = [INDEX_NEED, BALLOTS_NEED, presented.buffer, AUDIT_ANSWER];
    let call = call_receipts(with, presented.board(case), &presented.receipts, lengths, random, tally);
    call.map_or([false; OF_ANSWERS.len()], |call| call.broken_answers())
}

/// On each curve a small board and receipts of its items, again and again, more of them than there may be.
fn small_boards() -> Vec<(Case, Vec<u32>)> {
    let random = &mut Random::new(512);
    let shape = Shape { items: 40, words: None, long: 0, voters: 3, extraction: true };
    let mut boards = Vec::new();
    for curve in CURVES {
        let traits = Traits::Said(Layout { curve, sets: Width::Narrow });
        let made = loop {
            let made = make_with(random, shape, traits);
            if made.plan.items.iter().filter(|s| s.code == CAST).count() > 2 {
                break made;
            }
        };
        let case = super::sound_case(curve.name().to_string(), &made, random);
        let of_items = Presented::of_all_items(&case.words).receipts;
        let words = (MAX_RECEIPTS + 3) * curve.receipt();
        boards.push((case, of_items.into_iter().cycle().take(words).collect()));
    }
    boards
}

/// Receipts in every number, from none to more than there may be, with no word more, with one, and with one less. Gives
/// how many lengths were tried, and how often each number was answered.
pub fn receipts_of_each_length(with: &Interface) -> Result<(usize, Tally), String> {
    let (random, mut tally, mut lengths) = (&mut Random::new(3), Tally::default(), 0);
    for (case, receipts) in small_boards() {
        let width = Layout::of(&case.words).curve.receipt();
        let Known::Sound(expected, ..) = &case.known else { panic!("a sound board") };
        let codes: Vec<u32> = crate::calls::places(&case.words).map(|place| code(case.words[place])).collect();
        let answer_to = |number: usize| match codes[number % codes.len()] {
            CAST => expected.rows[number % codes.len()].mains_before + 1,
            _ => NO_CAST,
        };
        for count in 0..=MAX_RECEIPTS + 2 {
            for words in [(count * width).saturating_sub(1), count * width, count * width + 1] {
                let whole = words % width == 0 && words / width <= MAX_RECEIPTS;
                let buffer = [INDEX_NEED, BALLOTS_NEED, words / width, AUDIT_ANSWER];
                let call = call_receipts(with, case.board(), &receipts[..words], buffer, random, &mut tally);
                let Some(call) = call else { return Ok((0, tally)) };
                let answers: Vec<u32> = (0..words / width).map(answer_to).collect();
                let held = call
                    .hold()
                    .and_then(|()| {
                        call.hold_said(if whole { 0 } else { 22 }, if whole { codes.len() as u32 } else { 0 })
                    })
                    .and_then(|()| call.hold_answers(whole.then_some(&answers[..])));
                held.map_err(|message| format!("{} with {words} words of receipts: {message}", case.name))?;
                lengths += 1;
            }
        }
    }
    Ok((lengths, tally))
}
