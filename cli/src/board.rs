//! A board's words as items, to be shown and explained. What is read here decides nothing.

use crate::format::{Format, Part};
use crate::library::header::*;
use crate::library::{self, Answer, Board, Tables};
use crate::types::{of_code, Type};

pub const MAIN: u32 = 1;
pub const HIDDEN: u32 = 2;
pub const CLOSING: u32 = 15;

/// The words of a verdict.
pub const VERDICT: usize = 9;

/// A head word: kind in bits 31..28, type in 27..16, number of content words in 15..0.
#[derive(Clone, Copy)]
pub struct Head(pub u32);

impl Head {
    pub fn kind(self) -> u32 {
        self.0 >> 28
    }
    pub fn code(self) -> u32 {
        self.0 >> 16 & 0xfff
    }
    pub fn count(self) -> usize {
        (self.0 & 0xffff) as usize
    }
    /// Its type, if that is listed under its kind.
    pub fn listed(self) -> Option<&'static Type> {
        of_code(self.code()).filter(|row| self.kind() == if row.hidden { HIDDEN } else { MAIN })
    }
    /// The same, if the type has as many content words on a board of a format. Without that, where the next item stands is not known.
    pub fn fitting(self, format: Format) -> Option<&'static Type> {
        self.listed().filter(|row| row.counts.fit(format, self.count()))
    }
}

/// A whole item, the place of its head, and the format of its board.
#[derive(Clone, Copy)]
pub struct Item<'a> {
    pub place: usize,
    pub format: Format,
    words: &'a [u32],
}

impl<'a> Item<'a> {
    /// The item whose head stands at a place, if all its words are there.
    pub fn at(board: &'a [u32], place: usize) -> Option<Item<'a>> {
        let format = Format::of(board);
        let length = Head(*board.get(place)?).count() + format.frame();
        Some(Item { place, format, words: board.get(place..place + length)? })
    }

    pub fn head(&self) -> Head {
        Head(self.words[0])
    }
    pub fn code(&self) -> u32 {
        self.head().code()
    }
    pub fn is_main(&self) -> bool {
        self.head().kind() == MAIN
    }
    pub fn content(&self) -> &'a [u32] {
        &self.words[1..1 + self.head().count()]
    }
    /// Where its content begins.
    pub fn content_place(&self) -> usize {
        self.place + 1
    }
    fn part(&self, part: Part) -> &'a [u32] {
        let from = self.place_of(part) - self.place;
        &self.words[from..from + self.format.part(part)]
    }
    /// Where a part behind its content begins.
    pub fn place_of(&self, part: Part) -> usize {
        self.content_place() + self.head().count() + self.format.before(part)
    }
    pub fn parent(&self) -> &'a [u32] {
        self.part(Part::Parent)
    }
    pub fn previous(&self) -> &'a [u32] {
        self.part(Part::Previous)
    }
    /// In milliseconds.
    pub fn time(&self) -> u64 {
        pair(self.part(Part::Time))
    }
    pub fn address(&self) -> &'a [u32] {
        self.part(Part::Address)
    }
    /// The place behind its last word.
    pub fn end(&self) -> usize {
        self.place + self.words.len()
    }
}

/// Two words as a number, the high one first.
pub fn pair(words: &[u32]) -> u64 {
    u64::from(words[0]) << 32 | u64::from(words[1])
}

/// Items that passed, with what the library's index table says of each. Item numbers count from 1.
pub struct Passed<'a> {
    items: Vec<Item<'a>>,
    index: Vec<u32>,
}

impl<'a> Passed<'a> {
    /// The first items of a board, of which the library says that so many pass. With a closing word behind them they are a board that it
    /// accepts, and so its tables tell of them. None where that board would be too large: then there is no room for the closing word.
    pub fn of(board: Board<'a>, count: u32) -> Option<Passed<'a>> {
        let items = items(board.words, count as usize)?;
        let mut tables = Tables::default();
        if count > 0 {
            let cut = Cut::of(board, &items)?;
            let Answer::Accepted(_) = library::audit(cut.board(), &mut tables) else { return None };
        }
        Some(Passed { items, index: tables.index })
    }

    /// Those of an accepted board, with the index table that it left.
    pub fn of_accepted(board: Board<'a>, count: u32, index: &[u32]) -> Option<Passed<'a>> {
        Some(Passed { items: items(board.words, count as usize)?, index: index.to_vec() })
    }

    pub fn count(&self) -> usize {
        self.items.len()
    }
    pub fn item(&self, number: usize) -> Item<'a> {
        self.items[number - 1]
    }
    /// The place behind the last item.
    pub fn end(&self) -> usize {
        self.items.last().map_or(0, Item::end)
    }
    fn word(&self, number: usize, column: usize) -> usize {
        self.index[TIRFOLMA_INDEX_ROW_WORDS * (number - 1) + column] as usize
    }
    fn item_or_none(&self, number: usize, column: usize) -> Option<usize> {
        Some(self.word(number, column)).filter(|&named| named != TIRFOLMA_NO_ITEM)
    }
    /// The item number of its parent; its own for genesis.
    pub fn parent(&self, number: usize) -> usize {
        self.word(number, TIRFOLMA_ROW_PARENT)
    }
    pub fn session(&self, number: usize) -> Option<usize> {
        self.item_or_none(number, TIRFOLMA_ROW_SESSION)
    }
    pub fn mains_before(&self, number: usize) -> usize {
        self.word(number, TIRFOLMA_ROW_MAINS)
    }
    /// Of a ballot, the cast or spoil under it.
    pub fn closer(&self, number: usize) -> Option<usize> {
        self.item_or_none(number, TIRFOLMA_ROW_CLOSER)
    }
    pub fn numbers(&self) -> std::ops::RangeInclusive<usize> {
        1..=self.count()
    }
    /// The main number of an item; none of a hidden one.
    pub fn main(&self, number: usize) -> Option<usize> {
        self.item(number).is_main().then(|| self.mains_before(number) + 1)
    }
    /// The first items up to one, in the order of the file.
    pub fn up_to(&self, number: usize) -> &[Item<'a>] {
        &self.items[..number]
    }
}

/// A board cut behind some of its items: their words, a closing word with their number, the verdicts on them, and the same roll.
pub struct Cut<'a> {
    words: Vec<u32>,
    verdicts: &'a [u32],
    roll: &'a [u32],
}

impl<'a> Cut<'a> {
    /// Of a board's first items. None where it has fewer verdicts.
    pub fn of(board: Board<'a>, items: &[Item]) -> Option<Cut<'a>> {
        let mut words = board.words[..items.last().map_or(0, Item::end)].to_vec();
        words.push(CLOSING << 28 | items.len() as u32);
        Some(Cut { words, verdicts: board.verdicts.get(..VERDICT * items.len())?, roll: board.roll })
    }

    pub fn board(&self) -> Board<'_> {
        Board { words: &self.words, verdicts: self.verdicts, roll: self.roll }
    }
}

/// The first items of a board, if it has so many by their heads.
pub fn items(words: &[u32], count: usize) -> Option<Vec<Item<'_>>> {
    let mut found = Vec::with_capacity(count.min(TIRFOLMA_BOARD_ITEMS));
    let mut place = 0;
    for _ in 0..count {
        let item = Item::at(words, place)?;
        place = item.end();
        found.push(item);
    }
    Some(found)
}
