//! The entry for notes against the reference, and against what is known of the notes from their making.

use super::{buffer_length, sound_case, table_lengths, Case, Known};
use crate::calls::{call_notes, Call, Tally};
use crate::format::*;
use crate::held::OF_NOTES;
use crate::interface::*;
use crate::noted::Noted;
use crate::notes::{Agreement, Reason};
use crate::presented::Ending;
use crate::random::Random;
use crate::sound::{make_with, Shape, Traits};

/// Any notes, with tables of any length; where they may be refused before the audit, also those of all main items.
pub fn check_notes(with: &Interface, case: &Case, random: &mut Random, tally: &mut Tally) -> Result<(), String> {
    let noted = Noted::new(case, random);
    check_noted(with, case, &noted, random, tally)?;
    if noted.refusal.is_some() || noted.ending == Ending::OtherWidth {
        check_noted(with, case, &Noted::of_all_mains(&case.words), random, tally)?;
    }
    Ok(())
}

/// What an answer to notes says: the number, the agreement, and whether a table was too short.
pub struct SaidOfNotes {
    pub number: u32,
    pub agreement: [u32; 2],
    pub short: bool,
}

/// These notes, with tables of any length. Gives what the answer says, where there is one.
pub fn check_noted(
    with: &Interface,
    case: &Case,
    noted: &Noted,
    random: &mut Random,
    tally: &mut Tally,
) -> Result<Option<SaidOfNotes>, String> {
    let (index, ballots) = (buffer_length(INDEX_NEED, random), buffer_length(BALLOTS_NEED, random));
    let lengths = [index, ballots, answer_length(random)];
    let Some(call) = call_notes(with, case.board(), &noted.notes, lengths, random, tally) else { return Ok(None) };
    call.hold()?;
    hold_made(&call, noted)?;
    let short = index < INDEX_NEED || ballots < BALLOTS_NEED;
    let agreement = || call.given_agreement();
    Ok(call.said().map(|said| SaidOfNotes { number: said.number, agreement: agreement(), short }))
}

/// The words of an answer: mostly enough, at times more, at times an audit's, one less or any that are too few.
fn answer_length(random: &mut Random) -> usize {
    match random.below(60) {
        0 => random.below(NOTES_ANSWER),
        1 => NOTES_ANSWER - 1,
        2 => AUDIT_ANSWER,
        3..=5 => NOTES_ANSWER + random.between(1, 5),
        _ => NOTES_ANSWER,
    }
}

/// Holds a call to what is known of the notes from their making, the reference left aside.
fn hold_made(call: &Call, noted: &Noted) -> Result<(), String> {
    let Some(said) = call.said() else { return Ok(()) };
    if let Some(number) = noted.refusal {
        call.hold_said(number, 0)?;
    }
    match (said.number, noted.agreement) {
        (0, Some(agreement)) => call.hold_agreement(agreement),
        (0, None) => Ok(()),
        _ => call.hold_agreement(Agreement::NotHeld),
    }
}

/// The notes of all main items, with tables of just the words they need, of too few, and of more.
pub fn check_notes_full(with: &Interface, case: &Case, random: &mut Random, tally: &mut Tally) -> Result<(), String> {
    let noted = Noted::of_all_mains(&case.words);
    for [index, ballots] in table_lengths(random) {
        let lengths = [index, ballots, NOTES_ANSWER];
        let call = call_notes(with, case.board(), &noted.notes, lengths, random, tally);
        call.map_or(Ok(()), |call| call.hold())?;
    }
    Ok(())
}

/// The least lengths that are allowed.
const LEAST: [usize; 3] = [INDEX_NEED, BALLOTS_NEED, NOTES_ANSWER];

/// Any notes, the tables and the answer held to the board and the notes alone.
pub fn check_notes_told(with: &Interface, case: &Case, random: &mut Random, tally: &mut Tally) -> Result<(), String> {
    let noted = Noted::new(case, random);
    let call = call_notes(with, case.board(), &noted.notes, LEAST, random, tally);
    call.map_or(Ok(()), |call| call.hold_told())
}

/// Which properties the answer to any notes breaks.
pub fn broken_by_notes(with: &Interface, case: &Case, seed: u64) -> [bool; OF_NOTES.len()] {
    let (random, tally) = (&mut Random::new(seed), &mut Tally::default());
    let noted = Noted::new(case, random);
    let call = call_notes(with, case.board(), &noted.notes, LEAST, random, tally);
    call.map_or([false; OF_NOTES.len()], |call| call.broken_held())
}

/// On each curve a small board, and the notes of its main items.
fn noted_boards() -> Vec<(Case, Vec<u32>)> {
    let random = &mut Random::new(1_024);
    let shape = Shape { items: 30, words: None, long: 0, voters: 3, extraction: true };
    let mut boards = Vec::new();
    for curve in CURVES {
        let traits = Traits::Said(Layout { curve, sets: Width::Narrow });
        // Genesis is noted with a time that can be less.
        let made = loop {
            let made = make_with(random, shape, traits);
            if made.plan.items[0].time > 1 << 32 {
                break made;
            }
        };
        let case = sound_case(curve.name().to_string(), &made, random);
        let notes = Noted::of_all_mains(&case.words).notes;
        boards.push((case, notes));
    }
    boards
}

/// Notes in every number, from none to more than there may be, with no word more, with one, and with one less; and every
/// number of words up to two notes, and from 1,023 notes to 1,025. Gives how many lengths were tried, and how often each
/// answer was given.
pub fn notes_of_each_length(with: &Interface) -> Result<(usize, Tally), String> {
    let (random, mut tally, mut lengths) = (&mut Random::new(5), Tally::default(), 0);
    for (case, notes) in noted_boards() {
        let width = Layout::of(&case.words).curve.note();
        // The last main item again and again.
        let last = &notes[notes.len() - width..];
        let many = [&notes[..], &last.repeat(MAX_NOTES + 3)].concat();
        let near = (0..MAX_NOTES + 3).map(|count| count * width);
        let near = near.flat_map(|words| [words.saturating_sub(1), words, words + 1]);
        for words in near.chain(0..2 * width).chain(1_023 * width..1_025 * width) {
            let whole = words % width == 0 && words / width <= 1_024;
            let right = if whole { Agreement::AllAgree } else { Agreement::NotHeld };
            hold_notes(with, &case, &many[..words], right, random, &mut tally)?;
            lengths += 1;
        }
    }
    Ok((lengths, tally))
}

/// The notes of all main items with a bit of one word turned over: each word of the first note, of one in the middle and
/// of the last. Gives how many words were tried.
pub fn notes_of_each_word(with: &Interface) -> Result<usize, String> {
    let (random, tally, mut words) = (&mut Random::new(6), &mut Tally::default(), 0);
    for (case, notes) in noted_boards() {
        let width = Layout::of(&case.words).curve.note();
        let count = notes.len() / width;
        for (at, word) in [0, count / 2, count - 1].into_iter().flat_map(|at| (0..width).map(move |word| (at, word))) {
            let (mut changed, place) = (notes.clone(), at * width + word);
            // Of a time a bit that it has goes, so that it is less than the item's.
            let lowest = changed[place] & changed[place].wrapping_neg();
            changed[place] ^= if word < 2 { lowest } else { 1 << random.below(32) };
            let right = match word {
                0 | 1 if lowest == 0 => Agreement::AllAgree,
                0 | 1 => Agreement::Disagrees(at as u32 + 1, Reason::TooEarly),
                _ => Agreement::Disagrees(at as u32 + 1, Reason::NoMainItem),
            };
            hold_notes(with, &case, &changed, right, random, tally)?;
            words += 1;
        }
    }
    Ok(words)
}

/// Holds notes for a sound board to this agreement; where they are not held, they are bad. Without the entry nothing is
/// held.
fn hold_notes(
    with: &Interface,
    case: &Case,
    notes: &[u32],
    right: Agreement,
    random: &mut Random,
    tally: &mut Tally,
) -> Result<(), String> {
    let Known::Sound(expected, ..) = &case.known else { panic!("a sound board") };
    let (number, items) = match right {
        Agreement::NotHeld => (23, 0),
        _ => (0, expected.rows.len() as u32),
    };
    let Some(call) = call_notes(with, case.board(), notes, LEAST, random, tally) else { return Ok(()) };
    let held = call.hold().and_then(|()| call.hold_said(number, items)).and_then(|()| call.hold_agreement(right));
    held.map_err(|message| format!("{} with {} words of notes: {message}", case.name, notes.len()))
}
