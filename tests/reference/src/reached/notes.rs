//! What there must be calls of with notes, on each curve.

use crate::checks::SaidOfNotes;
use crate::format::*;
use crate::interface::agreement;
use crate::noted::{Noted, Sort};
use crate::presented::Ending;

/// Notes for a board, what the audit says of that, and what was said of both.
pub struct AskedNotes<'a> {
    pub noted: &'a Noted,
    pub board: &'a [u32],
    /// The refusal of the board, or 0, with tables that are long enough.
    pub audited: u32,
    pub said: &'a SaidOfNotes,
}

type ShowsNotes = fn(&AskedNotes) -> bool;

/// What only a board with today's widths shows.
pub const NOTES_OF_UNKNOWN_TRAITS: [&str; 2] =
    ["23: as wide as unknown traits tell", "13: unknown traits of a larger curve, and notes"];

/// What there must be calls of, by a short name.
pub const NOTES_WANTED: [(&str, ShowsNotes); 38] = [
    ("none, and all agree", |a| a.agrees() && a.noted.notes.is_empty()),
    ("each has its item's time", |a| a.agrees() && a.count() > 1 && a.all(Sort::SameTime)),
    ("a later time", |a| a.agrees() && a.has(Sort::Later)),
    ("a greater high word", |a| a.agrees() && a.has(Sort::LaterHigh)),
    ("the latest time", |a| a.agrees() && a.has(Sort::Latest)),
    ("times that fall", |a| a.agrees() && a.noted.falling),
    ("one main item twice in a row", |a| a.agrees() && a.noted.repeated),
    ("a note for each main item", |a| a.agrees() && a.noted.of_each && a.count() > 5),
    ("a note of the board's own words", |a| a.said.number == 0 && a.noted.sorts.is_empty() && a.count() == 1),
    ("1,024, and all agree", |a| a.agrees() && a.count() == 1_024),
    ("1,024, and one disagrees", |a| a.disagrees() && a.count() == 1_024),
    ("of a hidden item", |a| a.first(Sort::Hidden)),
    ("of no item", |a| a.first(Sort::Nothing)),
    ("an address with a bit turned over", |a| a.first(Sort::Changed)),
    ("an address before its time", |a| a.first(Sort::AddressFirst)),
    ("words moved by one", |a| a.first(Sort::Shifted)),
    ("the main item before that of the note before", |a| a.first(Sort::Back)),
    ("an earlier main item", |a| a.first(Sort::FarBack)),
    ("a time one less", |a| a.first(Sort::OneLess)),
    ("a lesser high word", |a| a.first(Sort::HighLess)),
    ("an earlier main item, and time 0", |a| a.first(Sort::BackAndEarly)),
    ("a hidden item, and time 0", |a| a.first(Sort::HiddenAndEarly)),
    ("no main item's", |a| a.is(agreement::NO_MAIN_ITEM)),
    ("out of order", |a| a.is(agreement::OUT_OF_ORDER)),
    ("too early", |a| a.is(agreement::TOO_EARLY)),
    ("the first note", |a| a.disagrees() && a.said.agreement[1] == 1 && a.count() > 2),
    ("the last note", |a| a.disagrees() && a.said.agreement[1] as usize == a.count() && a.count() > 2),
    ("three or more that disagree", |a| a.disagrees() && a.faults() > 2),
    ("of another curve's width, whole by accident", |a| a.said.number == 0 && a.ends(Ending::OtherWidth)),
    ("23: 1,025", |a| a.said.number == 23 && a.ends(Ending::Whole) && a.count() == 1_025),
    ("23: words missing", |a| a.said.number == 23 && a.ends(Ending::Missing)),
    ("23: words too many", |a| a.said.number == 23 && a.ends(Ending::TooMany)),
    ("23: of another curve's width", |a| a.said.number == 23 && a.ends(Ending::OtherWidth)),
    ("23: a board of too many words", |a| a.said.number == 23 && a.is_oversize()),
    ("23: a table that is too short", |a| a.said.number == 23 && a.said.short),
    ("1: a board of too many words, and notes", |a| a.said.number == 1 && a.is_oversize() && a.count() > 0),
    (NOTES_OF_UNKNOWN_TRAITS[0], |a| a.said.number == 23 && a.told_by_unknown() && a.ends(Ending::OtherWidth)),
    (NOTES_OF_UNKNOWN_TRAITS[1], |a| a.said.number == 13 && a.told_by_unknown() && a.count() > 0),
];

impl AskedNotes<'_> {
    fn is(&self, kind: u32) -> bool {
        self.said.agreement[0] == kind
    }
    fn agrees(&self) -> bool {
        self.is(agreement::ALL_AGREE)
    }
    fn disagrees(&self) -> bool {
        self.said.number == 0 && !self.agrees()
    }
    fn count(&self) -> usize {
        self.noted.notes.len() / Layout::of(self.board).curve.note()
    }
    fn ends(&self, ending: Ending) -> bool {
        self.noted.ending == ending
    }
    fn has(&self, sort: Sort) -> bool {
        self.noted.sorts.contains(&sort)
    }
    fn all(&self, sort: Sort) -> bool {
        self.noted.sorts.iter().all(|&other| other == sort)
    }
    fn faults(&self) -> usize {
        self.noted.sorts.iter().filter(|sort| sort.reason().is_some()).count()
    }
    /// Whether the first note that disagrees is of this sort.
    fn first(&self, sort: Sort) -> bool {
        self.disagrees() && self.noted.sorts.get(self.said.agreement[1] as usize - 1) == Some(&sort)
    }
    fn is_oversize(&self) -> bool {
        self.board.len() > MAX_WORDS
    }

    /// Whether the board has traits that are not known, with the bits of a larger curve.
    fn told_by_unknown(&self) -> bool {
        traits(self.board).is_some_and(|traits| Layout::known(traits).is_none() && traits & CURVE_BITS != 0)
    }

    /// What the entry says in the end: what the audit does, or 23.
    pub fn way(&self) -> Option<usize> {
        match self.said.number {
            23 => Some(1),
            said if said == self.audited => Some(0),
            _ => None,
        }
    }
}
