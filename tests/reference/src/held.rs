//! Notes: what holds of the answer to them, whoever gave it, told from the words of the accepted board and of the notes
//! alone.

use crate::format::{count, kind, CLOSING, MAIN};
use crate::told::Fields;
use std::collections::HashMap;

/// The words of a time, and the kinds of an answer. Written out, not taken from `interface`, so that a wrong one there is
/// noticed.
const TIME: usize = 2;
const ALL_AGREE: u32 = 1;
const NO_MAIN_ITEM: u32 = 2;
const OUT_OF_ORDER: u32 = 3;
const TOO_EARLY: u32 = 4;

/// A note beside the first main item that has its address.
struct Note {
    time: (u32, u32),
    /// Its main number and its time.
    item: Option<(usize, (u32, u32))>,
}

/// The notes for an accepted board, and the answer: which disagrees first, if one does, and why.
pub struct Held {
    notes: Vec<Note>,
    kind: u32,
    number: u32,
}

/// Says what is wrong where it does not hold.
type Property = fn(&Held) -> Result<(), String>;

/// What holds of the answer.
pub const OF_NOTES: [Property; 5] = [
    the_answer_names_a_note,
    each_before_has_a_main_item,
    each_before_is_in_order,
    each_before_is_in_time,
    the_named_has_its_reason,
];

/// Holds an answer, its kind and its number, to all of them.
pub fn check_held(words: &[u32], notes: &[u32], answer: [u32; 2]) -> Result<(), String> {
    let held = Held::new(words, notes, answer)?;
    OF_NOTES.iter().try_for_each(|property| property(&held))
}

/// Which of them an answer breaks.
pub fn broken_held(words: &[u32], notes: &[u32], answer: [u32; 2]) -> Result<[bool; OF_NOTES.len()], String> {
    let held = Held::new(words, notes, answer)?;
    Ok(OF_NOTES.map(|property| property(&held).is_err()))
}

impl Held {
    fn new(words: &[u32], notes: &[u32], [kind, number]: [u32; 2]) -> Result<Held, String> {
        let fields = Fields::of(words);
        let width = TIME + fields.address;
        if notes.len() % width != 0 {
            return Err(format!("{} words are not whole notes", notes.len()));
        }
        let mains = first_mains(words, &fields)?;
        let notes = notes.chunks_exact(width).map(|note| {
            let (time, address) = note.split_at(TIME);
            Note { time: (time[0], time[1]), item: mains.get(address).copied() }
        });
        Ok(Held { notes: notes.collect(), kind, number })
    }

    /// The place of the note that is named; none where all agree, or where there is no such note.
    fn named(&self) -> Option<usize> {
        (self.number as usize).checked_sub(1).filter(|&at| at < self.notes.len())
    }

    /// The notes that are said to agree, each with its number and the note before it.
    fn before(&self) -> impl Iterator<Item = (usize, &Note, Option<&Note>)> {
        let agreed = self.named().unwrap_or(self.notes.len());
        self.notes[..agreed].iter().enumerate().map(|(at, note)| (at + 1, note, self.note_before(at)))
    }

    fn note_before(&self, at: usize) -> Option<&Note> {
        at.checked_sub(1).map(|before| &self.notes[before])
    }
}

/// Of each address of a main item the first that has it: its main number and its time.
fn first_mains<'a>(words: &'a [u32], fields: &Fields) -> Result<HashMap<&'a [u32], (usize, (u32, u32))>, String> {
    let (mut place, mut number, mut mains) = (0, 0, HashMap::new());
    while kind(*words.get(place).ok_or("the items run past the end")?) != CLOSING {
        let end = place + fields.length(count(words[place]));
        if kind(words[place]) == MAIN {
            number += 1;
            let time = end - fields.address - fields.signature - TIME;
            let address = &words[end - fields.address..end];
            mains.entry(address).or_insert((number, (words[time], words[time + 1])));
        }
        place = end;
    }
    Ok(mains)
}

/// Whether its main item is earlier than that of the note before, where both have one.
fn is_earlier(note: &Note, before: Option<&Note>) -> bool {
    match (note.item, before.and_then(|before| before.item)) {
        (Some((own, _)), Some((other, _))) => own < other,
        _ => false,
    }
}

/// Whether its time is less than that of its main item, the high words compared first.
fn is_too_early(note: &Note) -> bool {
    note.item.is_some_and(|(_, time)| note.time < time)
}

/// All agree, and no note is named; or one is named, with one of the three reasons.
fn the_answer_names_a_note(held: &Held) -> Result<(), String> {
    match (held.kind, held.number) {
        (ALL_AGREE, 0) => Ok(()),
        (NO_MAIN_ITEM..=TOO_EARLY, _) if held.named().is_some() => Ok(()),
        (kind, number) => Err(format!("{} notes have an answer of kind {kind}, note {number}", held.notes.len())),
    }
}

/// Each note before the one that is named, or each, has the address of a main item.
fn each_before_has_a_main_item(held: &Held) -> Result<(), String> {
    match held.before().find(|(_, note, _)| note.item.is_none()) {
        Some((number, ..)) => Err(format!("note {number} is said to agree, and has no main item")),
        None => Ok(()),
    }
}

/// Its main item is not earlier than that of the note before.
fn each_before_is_in_order(held: &Held) -> Result<(), String> {
    match held.before().find(|(_, note, before)| is_earlier(note, *before)) {
        Some((number, ..)) => Err(format!("note {number} is said to agree, and is out of order")),
        None => Ok(()),
    }
}

/// Its time is not less than that of its main item.
fn each_before_is_in_time(held: &Held) -> Result<(), String> {
    match held.before().find(|(_, note, _)| is_too_early(note)) {
        Some((number, ..)) => Err(format!("note {number} is said to agree, and is too early")),
        None => Ok(()),
    }
}

/// The note that is named disagrees for the reason that is given, and for none that goes before it.
fn the_named_has_its_reason(held: &Held) -> Result<(), String> {
    let Some(at) = held.named() else { return Ok(()) };
    let note = &held.notes[at];
    let reason = match note.item {
        None => Some(NO_MAIN_ITEM),
        _ if is_earlier(note, held.note_before(at)) => Some(OUT_OF_ORDER),
        _ if is_too_early(note) => Some(TOO_EARLY),
        _ => None,
    };
    match reason == Some(held.kind) {
        true => Ok(()),
        false => Err(format!("note {} has kind {}, by the board {reason:?}", at + 1, held.kind)),
    }
}
