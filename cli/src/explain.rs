//! What is wrong with a refused board, or with a note that disagrees with an accepted one, in words. It is told from the files' words and
//! the library's tables after the audit: the answer stands before anything here is read, and nothing here changes it.
//!
//! Each claim is tested on the words before it is made. Where none can be shown, what the refusal is about in general is said (`reasons`).

mod beside;
mod content;
mod fields;
mod heads;
mod keys;
mod links;
mod notes;
mod only;
mod phases;
mod reasons;
pub(crate) mod refused;
mod roll;
mod sets;
mod sizes;
mod text;
pub(crate) mod widths;

use crate::board::{items, Head, Item};
use crate::files::{Files, Words};
use crate::library::{Board, Disagreement, Refusal};
pub use beside::What;
use refused::Refused;
pub use text::start;

/// Stands below explanations.
pub const NOTE: &str =
    "(Explanations are told from the words and, after an audit, its tables; no answer depends on them.)\n";

/// The numbers of the refusals, and what each is about.
pub fn refusals() -> impl Iterator<Item = (u32, &'static str)> {
    (1..=23).filter_map(|number| Some((number, reasons::of(number)?.wrong)))
}

/// What is wrong in a few words, whatever the board.
pub fn reason(number: u32) -> &'static str {
    reasons::of(number).map_or("no refusal has this number", |reason| reason.wrong)
}

/// Whether a refusal is always about the item behind those that passed.
pub fn is_about_item(number: u32) -> bool {
    reasons::of(number).is_some_and(|reason| reason.of_item)
}

/// What check failed, at which item, and what to look at: a few sentences on one line.
pub fn explain(files: &Files, refusal: Refusal) -> String {
    detail(files, refusal).unwrap_or_else(|| general(files, refusal))
}

/// The same of receipts or notes that were given beside a board: of their file, under its name, where that is what is wrong.
pub fn explain_beside(files: &Files, name: &str, what: What, beside: &Words, refusal: Refusal) -> String {
    let said = beside::bad(files, name, what, beside, refusal);
    said.map_or_else(|| explain(files, refusal), |said| said + ".")
}

/// What is wrong with a note that disagrees with a board which is accepted, and has left that index table: behind what the library says.
pub fn explain_note(board: Board, index: &[u32], notes: &[u32], disagreement: Disagreement) -> String {
    notes::disagreement(board, index, notes, disagreement)
}

/// What the words show; none where they don't.
pub fn detail(files: &Files, refusal: Refusal) -> Option<String> {
    let Refusal { number, items } = refusal;
    let said = match number {
        1 => sizes::too_large(files, items),
        2 => Some(
            "A buffer that the calling program gave is too short: this is a fault of the program, not of the board"
                .into(),
        ),
        3 => sizes::empty(files),
        4 => sizes::truncated(files, items),
        5 => heads::unknown(files, items),
        6 => heads::wrong_count(files, items),
        18 => sizes::bad_closing(files, items),
        19 => Some("The board has no item of the number that was asked for; numbers count from 1".into()),
        20 => roll::bad(files),
        _ => {
            let refused = Refused::of(files.words(), items)?;
            of_item(files, &refused, number).map(|said| format!("{} {said}", refused.name()))
        }
    };
    said.map(|said| said + ".")
}

/// What is said behind the item's name.
fn of_item(files: &Files, refused: &Refused, number: u32) -> Option<String> {
    match number {
        7 => Some(links::address(refused)),
        8 => links::previous(refused),
        9 => links::parent(refused),
        10 => links::time(refused),
        11 => phases::out_of_phase(refused),
        12 => only::second(refused),
        13 => content::bad(refused),
        14 => keys::no_verdict(refused, files),
        15 => keys::wrong_key(refused, files),
        16 => keys::bad_signature(refused, files),
        21 => roll::not_on_roll(refused, files),
        _ => None,
    }
}

/// What the refusal is about, and the item's name as far as its head tells it.
fn general(files: &Files, refusal: Refusal) -> String {
    let Some(reason) = reasons::of(refusal.number) else {
        return format!("No refusal has the number {}.", refusal.number);
    };
    let what = match refusal.number {
        _ if reason.of_item => item_name(files, refusal.items),
        22 => "The file of receipts".to_string(),
        23 => "The file of notes".to_string(),
        _ => "The board".to_string(),
    };
    format!("{what} is refused: {}. Look at {}.", reason.wrong, reason.look)
}

/// The place behind so many items, if there are so many.
fn place_behind(board: &[u32], count: u32) -> Option<usize> {
    Some(items(board, count as usize)?.last().map_or(0, Item::end))
}

/// The head behind so many items, and its place.
fn head_behind(files: &Files, count: u32) -> Option<(Head, usize)> {
    let place = place_behind(&files.board.words, count)?;
    Some((Head(*files.board.words.get(place)?), place))
}

fn item_name(files: &Files, count: u32) -> String {
    let number = count as usize + 1;
    match head_behind(files, count) {
        Some((head, place)) => text::refused_item(number, head.listed().map(|row| row.name), place),
        None => format!("Item {number}"),
    }
}
