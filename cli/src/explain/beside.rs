//! Refusals 22 and 23: a file beside a board that has other words than whole receipts or notes, or too many of them; and 4, where its last
//! word is not whole.

use super::sizes::{part_of_a_word, words_of};
use super::text::count;
use super::widths;
use crate::files::{size_refusal, Files, Words, NAMES};
use crate::format::{By, Curve, Format, TIME};
use crate::library::header::{TIRFOLMA_NOTES, TIRFOLMA_RECEIPTS};
use crate::library::Refusal;

/// What a file beside a board has.
#[derive(Clone, Copy, Debug, PartialEq, Eq)]
pub enum What {
    Receipts,
    Notes,
}

impl What {
    /// Its refusal.
    fn number(self) -> u32 {
        match self {
            What::Receipts => 22,
            What::Notes => 23,
        }
    }

    fn one(self) -> &'static str {
        match self {
            What::Receipts => "receipt",
            What::Notes => "note",
        }
    }

    /// How many there may be.
    fn most(self) -> usize {
        match self {
            What::Receipts => TIRFOLMA_RECEIPTS,
            What::Notes => TIRFOLMA_NOTES,
        }
    }

    /// The words of one.
    fn size(self, curve: &Curve) -> usize {
        match self {
            What::Receipts => curve.receipt(),
            What::Notes => curve.note(),
        }
    }

    /// What one is of, in words, and how many there may be.
    fn rule(self, curve: &Curve) -> [String; 2] {
        let (size, address, most) = (self.size(curve), curve.address, self.most());
        match self {
            What::Receipts => [
                format!("a receipt has {size} words, {} of signature and {address} of address", curve.signature),
                format!("at most {most} may be asked at once, more in several files"),
            ],
            // A note is held to the one before it, also over the ends of files.
            What::Notes => [
                format!("a note has {size} words, {TIME} of time and {address} of address"),
                format!(
                    "at most {most} may be held against it at once, more in several files that each begin with the \
                     last note of the file before"
                ),
            ],
        }
    }

    /// Whether so many words are as many as there may be on a board of a curve.
    fn fit(self, curve: &Curve, words: u64) -> bool {
        let size = self.size(curve) as u64;
        words.is_multiple_of(size) && words / size <= self.most() as u64
    }

    /// So many words, told by how many they are of it.
    fn counted(self, curve: &Curve, words: u64) -> String {
        let (one, size) = (self.one(), self.size(curve) as u64);
        let (whole, more) = (count(words / size, one), count(words % size, "word"));
        match (words / size, words % size) {
            (0, _) => format!("less than a {one}"),
            (_, 0) => format!("which are {whole}"),
            _ => format!("which are {whole} and {more} more"),
        }
    }
}

/// What the file shows beside the board's; none where it is not what is wrong.
pub fn bad(files: &Files, name: &str, what: What, beside: &Words, refusal: Refusal) -> Option<String> {
    match refusal.number {
        4 if size_refusal([beside]) == Some(refusal) => {
            let files = NAMES.into_iter().zip(files.each());
            Some(part_of_a_word(files.chain([(name, beside)])))
        }
        number if number == what.number() => other_words(&files.board.words, name, what, words_of(beside)),
        _ => None,
    }
}

/// How many words there are, and how many a receipt or note has on this board.
fn other_words(board: &[u32], name: &str, what: What, words: u64) -> Option<String> {
    let format = Format::of(board);
    let curve = format.curve;
    if what.fit(curve, words) {
        return None;
    }
    let [rule, most] = what.rule(curve);
    let rule = format!("{}, and {most}", widths::on_board(format, By::Curve, &rule));
    let mut others = format.others(By::Curve);
    others.retain(|other| what.fit(other.curve, words));
    let given = format!("{name} has {}, {}", count(words, "word"), what.counted(curve, words));
    let is_over = words > (what.size(curve) * what.most()) as u64;
    let look = if is_over { "its size" } else { "how it was written" };
    let (fit, other) = match others.is_empty() {
        true => Default::default(),
        false => (widths::would_fit(count(words, "word"), format, &others), of_other_board(board, what)),
    };
    Some(format!("{given}: {rule}{fit}. Look at {look}{other}"))
}

/// What else to look at where another curve would fit.
fn of_other_board(board: &[u32], what: What) -> String {
    let look = widths::look(board, By::Curve);
    let joint = if look.is_empty() { " and" } else { "," };
    format!("{joint} at whether the {}s are of this board{look}", what.one())
}
