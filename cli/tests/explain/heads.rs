//! What is claimed of the files and of a head, before the refused item can be read.

use crate::claims::{so, Claims};
use crate::content::counted;
use crate::widths::Widths;
use crate::words::place_behind;
use reference::format::*;
use tirfolma::files::{Files, NAMES};
use tirfolma::types;

/// The whole text of a board whose files are not all of whole words.
pub fn parts_of_words(files: &Files) -> String {
    let cut = NAMES.iter().zip(files.each()).filter(|(_, file)| file.bytes % 4 != 0);
    let cut: Vec<String> =
        cut.map(|(name, file)| format!("{name} has {}", counted(file.bytes as usize, "byte"))).collect();
    let one = "which is no multiple of 4: the last word is not whole. Look at how it was copied.";
    let more = "which are no multiples of 4: the last words are not whole. Look at how they were copied.";
    match &cut[..] {
        [a] => format!("{a}, {one}"),
        [a, b] => format!("{a} and {b}, {more}"),
        [a, b, c] => format!("{a}, {b} and {c}, {more}"),
        _ => String::new(),
    }
}

impl Claims<'_> {
    /// 1, 3, 4, 5 and 6.
    pub fn head(&self) -> Result<(), String> {
        let board = &self.files.board.words;
        if self.number == 3 {
            let first =
                board.first().map(|word| format!("The first word of board.words, {word:08x}, is a closing word"));
            let says = first.unwrap_or("board.words has no words. ".to_string());
            return so(self.says(&says) && board.first().map_or(true, |&word| kind(word) == CLOSING), &says);
        }
        if (self.number, self.at) == (1, 0) {
            let words = self.files.board.bytes / 4;
            let says = format!("board.words has {words} words, and a board has at most {MAX_WORDS}. ");
            return so(self.says(&says) && board.len() > MAX_WORDS, &says);
        }
        let place = place_behind(board, self.at).ok_or("no place")?;
        let Some(&head) = board.get(place) else {
            let says = format!(", behind item {}, without a closing word", self.at);
            return so(self.number == 4 && self.says(&says) && place == board.len(), &says);
        };
        match self.number {
            1 => {
                let says = format!("at most {MAX_ITEMS} items. Look at this word: {head:08x} stands where");
                so(self.says(&says) && self.at == MAX_ITEMS && kind(head) != CLOSING, &says)
            }
            4 => {
                let (needed, left) = (count(head) + Widths::of(board).frame(), board.len() - place);
                let there = if left == 1 { "is" } else { "are" };
                let (fit, look) = self.other_frame(place)?;
                let says = format!(
                    "by its head it has {needed} words, but there {there} {left} only{fit}. \
                     Look at how the file was copied{look}."
                );
                so(self.text.ends_with(&says) && left < needed, &says)
            }
            5 => self.unknown(head),
            _ => self.wrong_count(head),
        }
    }

    fn unknown(&self, head: u32) -> Result<(), String> {
        let (given, code) = (kind(head), code(head));
        so(self.says(&format!(" has the head {head:08x}: kind {given} ")), "the head and its kind")?;
        let name = kind_of(code).map_or(format!("{code:03x} hexadecimal"), |_| types::name(code));
        so(self.says(&format!(" and type {code} ({name}), ")), "its type")?;
        let says = match kind_of(code) {
            _ if ![MAIN, HIDDEN].contains(&given) => {
                ", but an item has kind 1 (main) or kind 2 (hidden), and a closing word kind 15. ".to_string()
            }
            Some(MAIN) => format!(" {} has kind 1 (main). ", types::name(code)),
            Some(_) => format!(" {} has kind 2 (hidden). ", types::name(code)),
            None => ", which is not a listed type. ".to_string(),
        };
        so(self.says(&says) && kind_of(code) != Some(given), &says)
    }
}
