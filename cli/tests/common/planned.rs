//! The plan of a board, read plainly from its bytes by the papers; the file of each test that takes it has `widths` beside it.
#![allow(dead_code)]

use crate::widths::Widths;
use reference::format::{count, kind, kind_of, CLOSING, MAX_ITEMS, MAX_WORDS};
use reference::program::words;

/// Items, index words and blocks; or the refusal, and how many items have good heads.
pub type Plan = Result<[u64; 3], (u32, u64)>;

pub fn plan_of(bytes: &[u8]) -> Plan {
    if !bytes.len().is_multiple_of(4) {
        return Err((4, 0));
    }
    let board = words(bytes);
    match board.first() {
        _ if board.len() > MAX_WORDS => return Err((1, 0)),
        None => return Err((3, 0)),
        Some(&first) if kind(first) == CLOSING => return Err((3, 0)),
        _ => {}
    }
    let (widths, mut place, mut items, mut blocks) = (Widths::of(&board), 0, 0, 0);
    loop {
        let Some(&head) = board.get(place) else { return Err((4, items)) };
        if kind(head) == CLOSING {
            let fits = u64::from(head & 0x0fff_ffff) == items && place + 1 == board.len();
            return if fits { Ok([items, 5 * items, blocks]) } else { Err((18, items)) };
        }
        let is_listed = kind_of(reference::format::code(head)) == Some(kind(head));
        let end = place + count(head) + widths.frame();
        match (items as usize == MAX_ITEMS, is_listed, widths.is_readable(head), end > board.len()) {
            (true, ..) => return Err((1, items)),
            (_, false, ..) => return Err((5, items)),
            (.., false, _) => return Err((6, items)),
            (.., true) => return Err((4, items)),
            _ => {}
        }
        blocks += padded(&widths, count(head) + widths.hashed_frame());
        (place, items) = (end, items + 1);
    }
}

/// The blocks of a message of so many words: a bit 1, zeros, and the length in 64 or 128 bits, up to whole blocks.
fn padded(widths: &Widths, words: usize) -> u64 {
    let (block, length) = if widths.hash == "SHA-256" { (512, 64) } else { (1024, 128) };
    (1..).find(|blocks| blocks * block > 32 * words as u64 + length).expect("there is one")
}

/// What is printed behind the folder's name.
pub fn answer_of(plan: &Plan) -> String {
    match plan {
        Ok([items, index, blocks]) => format!("planned {items} {index} {blocks}"),
        Err((number, items)) => format!("refused {number} at {items}"),
    }
}
