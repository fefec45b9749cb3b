//! Where all notes agree, the board cut at each noted item: the items up to there in file order, a closing word with their
//! number and nine verdict words for each. With the same roll it is accepted, the noted address is its end, and it compares
//! as same with the whole board at that main number.

use crate::calls::{call_audit, call_compare_at, call_notes, places, Tally};
use crate::checks::{Case, Known};
use crate::compare::Comparison;
use crate::format::*;
use crate::interface::*;
use crate::noted::Noted;
use crate::plan::Laid;
use crate::random::Random;

/// So many sets of notes of all sorts for a board.
const SETS: usize = 12;

/// What cuts have shown, by curve.
#[derive(Default)]
pub struct Seen {
    pub cuts: [usize; CURVES.len()],
    /// Notes of all sorts that all agree.
    pub agreed: [usize; CURVES.len()],
}

/// Cuts a sound board at each of its main items, or at so many of them, and by notes of all sorts that are said to agree.
/// With `whole`, every word is held to the reference, too.
pub fn check_noted_cuts(
    with: &Interface,
    case: &Case,
    most: usize,
    whole: bool,
    seen: &mut Seen,
) -> Result<(), String> {
    let random = &mut Random::new(case.words.len() as u64);
    let curve = Layout::of(&case.words).curve as usize;
    let all = Noted::of_all_mains(&case.words);
    if !all_agree(with, case, &all.notes, random)? {
        return Err("the notes of all main items do not agree".to_string());
    }
    seen.cuts[curve] += check_each(with, case, &all.notes, most, whole, random)?;
    for _ in 0..SETS {
        let noted = Noted::new(case, random);
        if all_agree(with, case, &noted.notes, random)? {
            seen.agreed[curve] += 1;
            seen.cuts[curve] += check_each(with, case, &noted.notes, 2, whole, random)?;
        }
    }
    // The last address with another word, each by turns: it is no item's.
    for back in 1..=Layout::of(&case.words).curve.widths().address {
        let mut notes = all.notes.clone();
        let at = notes.len() - back;
        notes[at] ^= 1 << random.below(32);
        if all_agree(with, case, &notes, random)? {
            check_each(with, case, &notes, 1, whole, random)?;
        }
    }
    Ok(())
}

/// Whether the entry says that these notes all agree.
fn all_agree(with: &Interface, case: &Case, notes: &[u32], random: &mut Random) -> Result<bool, String> {
    let lengths = [INDEX_NEED, BALLOTS_NEED, NOTES_ANSWER];
    let call = call_notes(with, case.board(), notes, lengths, random, &mut Tally::default());
    let call = call.ok_or("there is no entry for notes")?;
    Ok(call.given_agreement()[0] == agreement::ALL_AGREE)
}

/// Cuts at noted items, at most so many, among them the last. Gives how many there were.
fn check_each(
    with: &Interface,
    case: &Case,
    notes: &[u32],
    most: usize,
    whole: bool,
    random: &mut Random,
) -> Result<usize, String> {
    let mut notes: Vec<&[u32]> = notes.chunks_exact(Layout::of(&case.words).curve.note()).collect();
    if notes.iter().any(|note| first_main(&case.words, &note[2..]).is_none()) {
        return Err("a note agrees, and has no main item".to_string());
    }
    if notes.len() > most {
        let last = notes.pop().expect("a note");
        random.shuffle(&mut notes);
        notes.truncate(most - 1);
        notes.push(last);
    }
    for note in &notes {
        check_cut(with, case, &note[2..], whole, random)?;
    }
    Ok(notes.len())
}

/// The board cut at the first main item with an address.
fn check_cut(with: &Interface, case: &Case, address: &[u32], whole: bool, random: &mut Random) -> Result<(), String> {
    let (items, main_number, end) = first_main(&case.words, address).expect("a main item");
    let words = [&case.words[..end], &[CLOSING << 28 | items as u32]].concat();
    let (verdicts, roll) = (case.verdicts[..VERDICT_WORDS * items].to_vec(), case.roll.clone());
    let [all_words, all_verdicts, all_roll] = [&case.words, &case.verdicts, &case.roll].map(Vec::clone);
    let other =
        Laid { words: all_words, verdicts: all_verdicts, roll: all_roll, places: Vec::new(), addresses: Vec::new() };
    let name = format!("main item {main_number}");
    let cut = Case { name, words, verdicts, roll, known: Known::Nothing, other, kept: true };
    let tally = &mut Tally::default();
    let audited = call_audit(with, &cut, [INDEX_NEED, BALLOTS_NEED, AUDIT_ANSWER], random, tally);
    audited.hold_said(0, items as u32)?;
    let (given, zeros) = audited.answer()[audit_answer::END..AUDIT_ANSWER].split_at(address.len());
    if given != address || zeros.iter().any(|&word| word != 0) {
        return Err(format!("the board cut at main item {main_number} has another end than the note"));
    }
    let lengths = [INDEX_NEED, BALLOTS_NEED, INDEX_NEED, BALLOTS_NEED, COMPARE_ANSWER];
    let compared = call_compare_at(with, &cut, main_number, lengths, random, tally);
    let compared = compared.ok_or("there is no entry for comparing")?;
    if compared.answer() != compare_words(&Comparison::Same) {
        return Err(format!("the board cut at main item {main_number} compares as {:?}", compared.answer()));
    }
    match whole {
        true => audited.hold().and_then(|()| compared.hold()),
        false => Ok(()),
    }
}

/// Of the first main item with an address: its item number, its main number, and where it ends.
fn first_main(words: &[u32], address: &[u32]) -> Option<(usize, usize, usize)> {
    let frame = Layout::of(words).curve.frame();
    let mut mains = 0;
    for (number, place) in (1..).zip(places(words)).filter(|&(_, place)| kind(words[place]) == MAIN) {
        mains += 1;
        let end = place + count(words[place]) + frame;
        if &words[end - address.len()..end] == address {
            return Some((number, mains, end));
        }
    }
    None
}
