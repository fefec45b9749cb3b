//! Sets of contests and of trustees: number j is bit j mod 32 of word j div 32.

use super::fields::{round, session, SET};
use super::text::{hex, place};
use crate::board::Item;
use crate::format::Members;
use crate::types::code::{ROUND, SESSION};

/// The words of a set, and the place of the first.
#[derive(Clone, Copy)]
pub struct Set<'a> {
    words: &'a [u32],
    place: usize,
}

impl<'a> Set<'a> {
    /// Of a round, a session or a ballot.
    pub fn of_contests(item: &Item<'a>) -> Set<'a> {
        let field = match item.code() {
            ROUND => round::CONTESTS,
            SESSION => session::CONTESTS,
            _ => SET,
        };
        Set::at(item, field, Members::Contests)
    }

    /// Of a confirmation.
    pub fn of_trustees(item: &Item<'a>) -> Set<'a> {
        Set::at(item, SET, Members::Trustees)
    }

    fn at(item: &Item<'a>, field: usize, members: Members) -> Set<'a> {
        let words = &item.content()[field..field + item.format.words(members)];
        Set { words, place: item.content_place() + field }
    }

    /// The numbers in it, from the least.
    pub fn members(self) -> impl Iterator<Item = u32> + 'a {
        (0..u32::BITS * self.words.len() as u32).filter(move |&number| self.has(number))
    }

    pub fn has(self, number: u32) -> bool {
        let word = self.words.get((number / u32::BITS) as usize);
        word.is_some_and(|word| word >> (number % u32::BITS) & 1 == 1)
    }

    pub fn count(self) -> u32 {
        self.words.iter().map(|word| word.count_ones()).sum()
    }

    pub fn words(self) -> usize {
        self.words.len()
    }

    /// What it is and where it stands: a word, or how many there are.
    pub fn named(self) -> String {
        match *self.words {
            [word] => format!("{} at {}", hex(word), place(self.place)),
            _ => self.begins(),
        }
    }

    /// Where it stands.
    pub fn begins(self) -> String {
        match self.words.len() {
            1 => format!("at {}", place(self.place)),
            words => format!("{words} words at {}", place(self.place)),
        }
    }

    /// The word that has one of its numbers, the bit too where that is not the number itself.
    pub fn word_of(self, number: u32) -> String {
        let (word, bit) = ((number / u32::BITS) as usize, number % u32::BITS);
        let named = format!("{} at {}", hex(self.words[word]), place(self.place + word));
        match self.words.len() {
            1 => named,
            _ => format!("bit {bit} of {named}"),
        }
    }
}
