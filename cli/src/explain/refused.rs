//! The refused item with the items that passed before it, and what can be looked up there.

use super::text;
use crate::board::{Item, Passed};
use crate::library::Board;
use crate::types::code::{GENESIS, ROUND, SESSION, TRACK};
use crate::types::Type;

/// An item and its number.
#[derive(Clone, Copy)]
pub struct Numbered<'a> {
    pub number: usize,
    pub item: Item<'a>,
}

impl Numbered<'_> {
    pub fn name(&self) -> String {
        text::item(self.number, self.item.code())
    }
}

/// An item that is whole, of a listed type and of a number of content words that the type has, and that comes right behind items which
/// passed.
pub struct Refused<'a> {
    pub passed: Passed<'a>,
    pub item: Item<'a>,
    pub row: &'static Type,
    pub board: &'a [u32],
}

/// The whole item at a place, if its head is as the table of types has it. Its content words may then be read by their places.
fn readable(board: &[u32], place: usize) -> Option<(Item<'_>, &'static Type)> {
    let item = Item::at(board, place)?;
    Some((item, item.head().fitting(item.format)?))
}

impl<'a> Refused<'a> {
    pub fn of(board: Board<'a>, items: u32) -> Option<Refused<'a>> {
        let passed = Passed::of(board, items)?;
        let (item, row) = readable(board.words, passed.end())?;
        Some(Refused { passed, item, row, board: board.words })
    }

    pub fn number(&self) -> usize {
        self.passed.count() + 1
    }

    pub fn code(&self) -> u32 {
        self.item.code()
    }

    pub fn own(&self) -> Numbered<'a> {
        Numbered { number: self.number(), item: self.item }
    }

    /// Its name and place, at the start of a sentence.
    pub fn name(&self) -> String {
        text::refused_item(self.number(), Some(self.row.name), self.item.place)
    }

    pub fn at(&self, number: usize) -> Numbered<'a> {
        Numbered { number, item: self.passed.item(number) }
    }

    /// The items that passed.
    pub fn earlier(&self) -> impl DoubleEndedIterator<Item = Numbered<'a>> + '_ {
        self.passed.numbers().map(|number| self.at(number))
    }

    /// The items behind it, as far as they can be read. Nothing is known of them but their words.
    pub fn later(&self) -> impl Iterator<Item = Numbered<'a>> + '_ {
        let mut place = self.item.end();
        let items = std::iter::from_fn(move || {
            let (item, _) = readable(self.board, place)?;
            place = item.end();
            Some(item)
        });
        (self.number() + 1..).zip(items).map(|(number, item)| Numbered { number, item })
    }

    /// The first and the last of a type among the items that passed.
    pub fn first(&self, code: u32) -> Option<Numbered<'a>> {
        self.earlier().find(|earlier| earlier.item.code() == code)
    }
    pub fn last(&self, code: u32) -> Option<Numbered<'a>> {
        self.earlier().rfind(|earlier| earlier.item.code() == code)
    }

    pub fn last_main(&self) -> Option<Numbered<'a>> {
        self.earlier().rfind(|earlier| earlier.item.is_main())
    }

    pub fn latest_config(&self) -> Option<Numbered<'a>> {
        self.earlier().rfind(|earlier| (GENESIS..=ROUND).contains(&earlier.item.code()))
    }

    /// Whether its parent is sought among hidden items.
    pub fn has_hidden_parent(&self) -> bool {
        self.code() > TRACK
    }

    /// The first earlier item of the main board, or of the hidden tracks, that has an address.
    pub fn with_address(&self, hidden: bool, address: &[u32]) -> Option<Numbered<'a>> {
        self.earlier().find(|earlier| earlier.item.is_main() != hidden && earlier.item.address() == address)
    }

    /// The first item behind it that has an address.
    pub fn later_with_address(&self, address: &[u32]) -> Option<Numbered<'a>> {
        self.later().find(|later| later.item.address() == address)
    }

    /// Its parent, if that is found; none for genesis.
    pub fn parent(&self) -> Option<Numbered<'a>> {
        (self.code() != GENESIS).then(|| self.with_address(self.has_hidden_parent(), self.item.parent()))?
    }

    /// The session above it; none for a session.
    pub fn session(&self) -> Option<Numbered<'a>> {
        let session = self.passed.session(self.parent()?.number)?;
        Some(self.at(session)).filter(|session| session.item.code() == SESSION)
    }
}
