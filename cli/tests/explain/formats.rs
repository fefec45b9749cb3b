//! What is claimed of a board's curve and of the width of its sets: of a rule that goes by them, of other formats that would fit, and of the
//! traits word.

use crate::claims::{so, Claims};
use crate::content::counted;
use crate::widths::{has_no_traits, traits, Widths, PLAIN};
use crate::words::place_behind;
use reference::format::*;
use tirfolma::types;

/// What a rule goes by: the curve, the width of sets.
type By = (bool, bool);

/// What the counts of a type go by.
fn counts_go_by(code: u32) -> By {
    match code {
        ROUND | SESSION => (false, true),
        VOTER_COMMITMENT | SERVER_COMMITMENT => (true, false),
        BALLOT => (true, true),
        _ => (false, false),
    }
}

/// The numbers of the bits that are set, as they are listed: three of them, and how many more.
fn listed_bits(word: u32) -> Option<String> {
    let bits: Vec<String> = (0..32).filter(|bit| word >> bit & 1 == 1).map(|bit| bit.to_string()).collect();
    match bits.len() {
        0 => None,
        1 => Some(format!("bit {} has", bits[0])),
        2 | 3 => Some(format!("bits {} and {} have", bits[..bits.len() - 1].join(", "), bits[bits.len() - 1])),
        n => Some(format!("bits {} and {} more have", bits[..3].join(", "), n - 3)),
    }
}

/// What is said of a traits word that is refused.
pub fn wrong_traits(word: u32) -> Option<String> {
    let bits = listed_bits(word & !7).map(|bits| format!("{bits} no meaning"));
    let curve = (word & 6 == 6).then(|| "bits 1 and 2 give the number 3, which no curve has".to_string());
    match (bits, curve) {
        (Some(bits), Some(curve)) => Some(format!("{bits}, and {curve}")),
        (bits, curve) => bits.or(curve),
    }
}

impl Claims<'_> {
    fn own(&self) -> Widths {
        Widths::of(&self.files.board.words)
    }

    /// What is said before a rule that goes by the board's format.
    pub fn on_board(&self, by: By) -> String {
        let (curve, set) = (self.own().curve, self.own().set_words());
        match by {
            (false, false) => String::new(),
            (true, false) => format!("on this board, which is on {curve}, "),
            (false, true) => format!("on this board, whose sets of contests have {set}, "),
            (true, true) => format!("on this board, which is on {curve} and whose sets of contests have {set}, "),
        }
    }

    pub fn wrong_count(&self, head: u32) -> Result<(), String> {
        let (code, given, own) = (code(head), count(head), self.own());
        so(!own.fits(code, given), "the number does not fit")?;
        let has = format!("has {} by its head {head:08x}, but ", counted(given, "content word"));
        so(self.says(&has), &has)?;
        let by = counts_go_by(code);
        so(self.says(" on this board") == (by != (false, false)), "what the rule goes by")?;
        let rule = format!("{} has {}", types::name(code), listed_counts(own, code));
        let own_rule = match by {
            (false, false) => format!(" {rule}"),
            _ => format!("but {}a {rule}", self.on_board(by)),
        };
        let (fit, look) = match fitting(own, by, |other| other.fits(code, given)).is_empty() {
            true => Default::default(),
            false => (self.fits_others(given)?, self.look_at_format(by)),
        };
        let says = format!("{own_rule}{fit}. Look at the low 16 bits of the head{look}.");
        so(self.text.ends_with(&says), &says)
    }

    /// What is said of a number that would fit other formats: those that `formats` holds to the words.
    pub fn fits_others(&self, number: usize) -> Result<String, String> {
        let (_, behind) = self.text.split_once(&format!("; {number} would fit ")).ok_or("no other format")?;
        let named = behind.split(". ").next().unwrap_or_default();
        Ok(format!("; {number} would fit {named}"))
    }

    /// What is said behind what else is to be looked at: the traits word, or that the genesis has none.
    pub fn look_at_format(&self, by: By) -> String {
        let board = &self.files.board.words;
        let read = match by {
            (true, false) => "the board is on secp256r1",
            (false, _) => "sets have one word",
            (true, true) => "the board is on secp256r1 and sets have one word",
        };
        match traits(board) {
            Some(word) => {
                let wrong =
                    wrong_traits(word).map(|wrong| format!(": {wrong}, so that the board is read as on secp256r1"));
                format!(", and at the traits word, {word:08x} at word 18, byte 72{}", wrong.unwrap_or_default())
            }
            None if has_no_traits(board) => {
                format!(", and at item 1 (genesis), which has no traits word, so that {read}")
            }
            None => String::new(),
        }
    }

    /// What follows the item at a place with these widths, and where: an item, or the closing word at the end.
    fn follower(&self, place: usize, widths: Widths) -> Option<(String, usize)> {
        let board = &self.files.board.words;
        let behind = place + count(board[place]) + widths.frame();
        let head = *board.get(behind)?;
        let name = match types::name(code(head)) {
            _ if kind(head) == CLOSING => "the closing word".to_string(),
            name if code(head) == EXTRACTION => name,
            name if "aeiou".contains(&name[..1]) => format!("an {name}"),
            name => format!("a {name}"),
        };
        let is_there = if kind(head) == CLOSING { behind + 1 == board.len() } else { widths.is_readable(head) };
        is_there.then_some((name, behind))
    }

    /// The curves with whose widths something follows the item at a place, each with what is said of it and where that stands.
    pub fn other_frames(&self, place: usize) -> Vec<(String, usize)> {
        let others = Widths::all().into_iter().filter(|other| other.curve != self.own().curve);
        let found = others.filter_map(|other| {
            let (follower, behind) = self.follower(place, other)?;
            Some((format!("; with the widths of {} {follower} would follow it, at ", other.curve), behind))
        });
        found.collect()
    }

    /// What is said of an item's frame, and of what else is to be looked at: where with its own widths nothing follows, one of those with
    /// which something does; of a first item also that its traits word is wrong.
    pub fn other_frame(&self, place: usize) -> Result<(String, String), String> {
        let is_own = self.follower(place, self.own()).is_some();
        let others = if is_own { Vec::new() } else { self.other_frames(place) };
        let named = others.iter().find(|(says, _)| self.says(says));
        so(named.is_some() != others.is_empty(), "the curve with which something follows")?;
        let fit = named.map(|(says, behind)| format!("{says}word {behind}, byte {}", 4 * behind));
        let board = &self.files.board.words;
        let is_wrong = place == 0 && traits(board).and_then(wrong_traits).is_some();
        let look = match fit.is_some() {
            true if place == 0 && has_no_traits(board) => {
                ", and at whether its traits word is missing: without one the board is on secp256r1".to_string()
            }
            false if !is_wrong => String::new(),
            _ => self.look_at_format((true, false)),
        };
        Ok((fit.unwrap_or_default(), look))
    }

    /// Whatever the refusal: the format that is named is the board's, each other that is said to fit does and no other does, and a genesis
    /// that is said to have no traits word has none.
    pub fn formats(&self) -> Result<(), String> {
        let (board, own) = (&self.files.board.words, self.own());
        let is_said = self.says("no traits word") || self.says("traits word is missing");
        so(!is_said || has_no_traits(board), "a genesis without a traits word")?;
        let all = [(true, false), (false, true), (true, true)].map(|by| (by, self.on_board(by)));
        let by = all.iter().find(|(_, says)| self.says(says)).map(|&(by, _)| by);
        so(self.says(" on this board") == by.is_some(), "the format of the board")?;
        so(!self.says(" read as on ") || own == PLAIN, "a board that is read as one without traits")?;
        let Some((before, behind)) = self.text.split_once(" would fit ") else { return Ok(()) };
        let number: usize = before.rsplit("; ").next().and_then(|number| number.parse().ok()).ok_or("no number")?;
        let mut named: Vec<&str> = behind.split(". ").next().unwrap_or_default().split(", or ").collect();
        let head = *place_behind(board, self.at).and_then(|place| board.get(place)).ok_or("no head")?;
        let fits = |other: Widths| match self.number {
            6 => number == count(head) && other.fits(code(head), number),
            _ => number == self.item().content[0] as usize && number < 32 * other.set,
        };
        let mut right = fitting(own, by.ok_or("no format of the board")?, fits);
        named.sort();
        right.sort();
        so(named == right, &format!("it would fit {right:?}"))
    }
}

/// The formats that fit, by what is other than on the board: of those that differ from it in nothing but what a rule goes by.
fn fitting(own: Widths, by: By, fits: impl Fn(Widths) -> bool) -> Vec<String> {
    let differs = |other: &Widths| (other.curve != own.curve, other.set != own.set);
    let may =
        |other: &Widths| differs(other) != (false, false) && (by.0 || !differs(other).0) && (by.1 || !differs(other).1);
    let named = |other: Widths| match differs(&other) {
        (true, true) => format!("{} with sets of {}", other.curve, other.set_words()),
        (true, false) => other.curve.to_string(),
        _ => format!("sets of {}", other.set_words()),
    };
    Widths::all().into_iter().filter(may).filter(|&other| fits(other)).map(named).collect()
}

/// The counts of a type, as they are listed.
fn listed_counts(widths: Widths, code: u32) -> String {
    let fits: Vec<usize> = (0..=10_000).filter(|&n| widths.fits(code, n)).collect();
    let (least, most) = (fits[0], fits[fits.len() - 1]);
    match most - least {
        0 => format!("{least}"),
        1 => format!("{least} or {most}"),
        range if range + 1 == fits.len() => format!("{least} to {most}"),
        _ => {
            let each = fits[1] - least;
            format!("{} + {each} k, with k from 1 to {}", least - each, fits.len())
        }
    }
}
