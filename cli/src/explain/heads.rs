//! Refusals 5 and 6: what a head says of its item.

use super::head_behind;
use super::text::{self, count, hex, kind, one, refused_item};
use super::widths;
use crate::board::{Head, CLOSING, HIDDEN, MAIN};
use crate::files::Files;
use crate::format::Format;
use crate::types::{self, Type};

/// 5: a kind that no item has, or a type that is not listed under it.
pub fn unknown(files: &Files, items: u32) -> Option<String> {
    let (head, at) = head_behind(files, items)?;
    let item = refused_item(items as usize + 1, None, at);
    let wrong = match head.kind() {
        CLOSING => None,
        MAIN | HIDDEN if head.listed().is_some() => None,
        MAIN | HIDDEN => Some(unlisted(head)),
        other => Some(format!(
            "kind {other} and {}, but an item has {} or {}, and a closing word kind {CLOSING}",
            text::type_of(head),
            kind(false),
            kind(true)
        )),
    };
    wrong.map(|wrong| format!("{item} has the head {}: {wrong}. Look at this word", hex(head.0)))
}

fn unlisted(head: Head) -> String {
    let given = format!("{} and {}", kind(head.kind() == HIDDEN), text::type_of(head));
    match types::of_code(head.code()) {
        Some(row) => format!("{given}, but {} has {}", one(row.code), kind(row.hidden)),
        None => format!("{given}, which is not a listed type"),
    }
}

/// 6: a number of content words that the type does not have.
pub fn wrong_count(files: &Files, items: u32) -> Option<String> {
    let (head, at) = head_behind(files, items)?;
    let board = &files.board.words;
    let row = head.listed().filter(|row| !row.counts.fit(Format::of(board), head.count()))?;
    let (rule, look) = counts(board, row, head.count());
    Some(format!(
        "{} has {} by its head {}, but {rule}. Look at the low 16 bits of the head{look}",
        refused_item(items as usize + 1, Some(row.name), at),
        count(head.count() as u64, "content word"),
        hex(head.0)
    ))
}

/// The numbers that a type has, and what else to look at where the one that is given would fit another format.
fn counts(board: &[u32], row: &Type, given: usize) -> (String, String) {
    let format = Format::of(board);
    let rule = format!("{} has {}", one(row.code), row.counts.in_words(format));
    let Some(by) = row.counts.go_by() else { return (rule, String::new()) };
    let rule = widths::on_board(format, by, &rule);
    let mut others = format.others(by);
    others.retain(|&other| row.counts.fit(other, given));
    match others.is_empty() {
        true => (rule, String::new()),
        false => (rule + &widths::would_fit(given, format, &others), widths::look(board, by)),
    }
}
