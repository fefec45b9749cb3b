//! Refusals 1, 3, 4 and 18: the sizes of the files, and the closing word.

use super::text::{self, are, count, hex, place, BOARD, VERDICTS};
use super::{head_behind, place_behind, widths};
use crate::board::{Head, CLOSING, VERDICT};
use crate::files::{Files, Words, NAMES};
use crate::format::Format;
use crate::library::header::{TIRFOLMA_BOARD_ITEMS, TIRFOLMA_BOARD_WORDS};
use crate::library::Refusal;

/// The words of a file, those that were not read among them.
pub fn words_of(file: &Words) -> u64 {
    file.bytes / 4
}

/// 1: words or items over the limit.
pub fn too_large(files: &Files, items: u32) -> Option<String> {
    let words = words_of(&files.board);
    if items == 0 {
        let is_over = words > TIRFOLMA_BOARD_WORDS as u64;
        let most = TIRFOLMA_BOARD_WORDS;
        return is_over.then(|| {
            format!("{BOARD} has {words} words, and a board has at most {most}. Look at whether it is a board")
        });
    }
    let (head, at) = head_behind(files, items)?;
    let is_over = items as usize == TIRFOLMA_BOARD_ITEMS && head.kind() != CLOSING;
    is_over.then(|| {
        let item = text::refused_item(items as usize + 1, head.listed().map(|row| row.name), at);
        let wrong = format!("{item} is one too many: a board has at most {items} items");
        format!("{wrong}. Look at this word: {} stands where a closing word must stand", hex(head.0))
    })
}

/// 3: no item at all.
pub fn empty(files: &Files) -> Option<String> {
    match files.board.words.first() {
        None => Some(format!("{BOARD} has no words. Look at whether it was written, and copied whole")),
        Some(&word) if Head(word).kind() == CLOSING => Some(format!(
            "The first word of {BOARD}, {}, is a closing word, so that the board has no items. \
             Look at whether its items were written",
            hex(word)
        )),
        Some(_) => None,
    }
}

/// 4: a file that is not of whole words, an item that is not whole, no closing word.
pub fn truncated(files: &Files, items: u32) -> Option<String> {
    if files.size_refusal() == Some(Refusal { number: 4, items }) {
        return Some(part_of_a_word(NAMES.into_iter().zip(files.each())));
    }
    let board = &files.board.words;
    let words = board.len();
    if items > 0 && place_behind(board, items)? == words {
        return Some(format!(
            "{BOARD} ends at {}, behind item {items}, without a closing word: items may be missing. \
             Look at how it was copied",
            place(words)
        ));
    }
    let (head, at) = head_behind(files, items)?;
    let (needed, left) = (head.count() + Format::of(board).frame(), words - at);
    let item = text::refused_item(items as usize + 1, Some(head.listed()?.name), at);
    (needed > left).then(|| {
        let (fit, look) = widths::of_frame(board, at);
        format!(
            "{item} runs past the end of the file: by its head it has {needed} words, but there {} {left} only{fit}. \
             Look at how the file was copied{look}",
            are(left as u64)
        )
    })
}

/// Of files by their names: which are not of whole words.
pub fn part_of_a_word<'a>(files: impl Iterator<Item = (&'a str, &'a Words)>) -> String {
    let cut = files.filter(|(_, file)| !file.is_whole());
    let cut: Vec<String> = cut.map(|(name, file)| format!("{name} has {}", count(file.bytes, "byte"))).collect();
    let wrong = match cut.len() {
        1 => "which is no multiple of 4: the last word is not whole. Look at how it was copied",
        _ => "which are no multiples of 4: the last words are not whole. Look at how they were copied",
    };
    format!("{}, {wrong}", text::list(&cut, cut.len()))
}

/// 18: the closing word's number, words behind it, verdict words behind the last item's.
pub fn bad_closing(files: &Files, items: u32) -> Option<String> {
    let (head, at) = head_behind(files, items).filter(|(head, _)| head.kind() == CLOSING)?;
    let mut wrong = Vec::new();
    let number = head.0 & 0x0fff_ffff;
    if number != items {
        wrong.push(format!("its number is {number}, but {} before it", stand(u64::from(items), "item")));
    }
    let behind = words_of(&files.board).saturating_sub(at as u64 + 1);
    if behind > 0 {
        wrong.push(format!("{} behind it", stand(behind, "word")));
    }
    let verdicts = words_of(&files.verdicts);
    let left = verdicts.saturating_sub(VERDICT as u64 * u64::from(items));
    if left > 0 {
        wrong.push(format!(
            "{VERDICTS} has {}, {left} more than nine for each of {}",
            count(verdicts, "word"),
            count(items.into(), "item")
        ));
    }
    // Each item that passes an audit has its verdict words: without any, the board alone was read.
    let (files, look) = if verdicts == 0 { ("the file", "it") } else { ("the files", "both files") };
    let closing = format!("The closing word, {} at {} of {BOARD}, does not fit {files}", hex(head.0), place(at));
    (!wrong.is_empty()).then(|| format!("{closing}: {}. Look at the end of {look}", wrong.join("; ")))
}

fn stand(number: u64, what: &str) -> String {
    format!("{} {}", count(number, what), if number == 1 { "stands" } else { "stand" })
}
