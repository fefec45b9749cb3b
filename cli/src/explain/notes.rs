//! What is wrong with a note that disagrees with an accepted board: its time, the item that it means, and that of the note before.

use super::text::start;
use crate::board::{pair, Passed};
use crate::format::{Format, TIME};
use crate::library::{Board, Disagreement, Fault};
use crate::times::date;
use crate::types::name;

/// A note, as its words are.
struct Note<'a> {
    time: u64,
    address: &'a [u32],
}

/// In words, from the board's words and the index table that the library left.
pub fn disagreement(board: Board, index: &[u32], notes: &[u32], disagreement: Disagreement) -> String {
    let general = match disagreement.fault {
        Fault::NoMainItem => "its address is no main item's",
        Fault::OutOfOrder => "its main item is earlier than that of the note before",
        Fault::TooEarly => "its time is less than that of its main item",
    };
    shown(board, index, notes, disagreement).unwrap_or_else(|| general.to_string())
}

/// What the words show; none where they don't.
fn shown(board: Board, index: &[u32], notes: &[u32], disagreement: Disagreement) -> Option<String> {
    let items = Passed::of_accepted(board, disagreement.items, index)?;
    let number = (disagreement.note as usize).checked_sub(1)?;
    let note = note(board.words, notes, number)?;
    let why = match disagreement.fault {
        Fault::NoMainItem => no_main_item(&items, &note),
        Fault::OutOfOrder => {
            let before = number.checked_sub(1)?;
            out_of_order(&items, &note, before, &self::note(board.words, notes, before)?)
        }
        Fault::TooEarly => too_early(&items, &note),
    };
    Some(format!("noted at {}, {}", date(note.time), why?))
}

/// A note by its place in the file, from 0.
fn note<'a>(board: &[u32], notes: &'a [u32], place: usize) -> Option<Note<'a>> {
    let (time, address) = notes.chunks_exact(Format::of(board).curve.note()).nth(place)?.split_at(TIME);
    Some(Note { time: pair(time), address })
}

/// The first main item, or the first hidden one, with a note's address.
fn noted(items: &Passed, note: &Note, hidden: bool) -> Option<usize> {
    let is_noted = |&number: &usize| {
        let item = items.item(number);
        item.is_main() != hidden && item.address() == note.address
    };
    items.numbers().find(is_noted)
}

fn no_main_item(items: &Passed, note: &Note) -> Option<String> {
    if noted(items, note, false).is_some() {
        return None;
    }
    let where_it_is = match noted(items, note, true) {
        Some(number) => format!("that of item {number} ({}), which is hidden", name(items.item(number).code())),
        None => "on no item of the board".to_string(),
    };
    Some(format!("its address {} is {where_it_is}", start(note.address)))
}

fn out_of_order(items: &Passed, note: &Note, before: usize, note_before: &Note) -> Option<String> {
    let [own, other] = [noted(items, note, false)?, noted(items, note_before, false)?];
    let is_earlier = items.mains_before(own) < items.mains_before(other);
    let [own, other] = [own, other].map(|number| main_item(items, number));
    is_earlier.then(|| format!("its item is main item {own}, and that of note {} is main item {other}", before + 1))
}

fn too_early(items: &Passed, note: &Note) -> Option<String> {
    let number = noted(items, note, false)?;
    let is_later = items.item(number).time() > note.time;
    is_later.then(|| format!("before the time of its item, main item {}", main_item(items, number)))
}

/// A main item by its main number, its type and its time.
fn main_item(items: &Passed, number: usize) -> String {
    let item = items.item(number);
    format!("{} ({}, {})", items.mains_before(number) + 1, name(item.code()), date(item.time()))
}
