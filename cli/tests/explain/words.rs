//! A board's words as items, read by this test for itself.

use crate::widths::Widths;
use reference::format::*;

pub struct Item {
    pub number: usize,
    pub place: usize,
    pub code: u32,
    /// Those of its board.
    pub widths: Widths,
    pub content: Vec<u32>,
    pub parent: Vec<u32>,
    pub previous: Vec<u32>,
    pub time: u64,
    pub address: Vec<u32>,
}

impl Item {
    pub fn is_hidden(&self) -> bool {
        self.code >= TRACK
    }
    /// Where the set of contests begins in the content of a round, a session or a ballot.
    pub fn set_field(&self) -> usize {
        match self.code {
            ROUND => 1,
            SESSION => 18,
            _ => 0,
        }
    }
    /// The contests in that set: number j is bit j mod 32 of word j div 32.
    pub fn contests(&self) -> Vec<usize> {
        let set = &self.content[self.set_field()..][..self.widths.set];
        (0..32 * self.widths.set).filter(|j| set[j / 32] >> (j % 32) & 1 == 1).collect()
    }
    /// Where the start and the end stand in the content of a round, and what they are.
    pub fn times(&self) -> [(usize, u64); 2] {
        [1 + self.widths.set, 3 + self.widths.set].map(|field| (field, time(&self.content, field)))
    }
    pub fn is_open(&self, at: u64) -> bool {
        let [(_, start), (_, end)] = self.times();
        start <= at && at < end
    }
    /// Where the last word of a ballot's cryptogram stands in its content; cryptograms count from 1.
    pub fn cryptogram_end(&self, k: usize) -> usize {
        self.widths.set + self.widths.cryptogram * k - 1
    }
    pub fn cryptograms(&self) -> usize {
        (self.content.len() - self.widths.set) / self.widths.cryptogram
    }
    /// The place of a content word.
    pub fn content_place(&self, field: usize) -> usize {
        self.place + 1 + field
    }
    /// The places of the fields behind the content: parent, previous, time (2 words), signature, address.
    pub fn parent_place(&self) -> usize {
        self.content_place(self.content.len())
    }
    pub fn previous_place(&self) -> usize {
        self.parent_place() + self.widths.address
    }
    pub fn time_place(&self) -> usize {
        self.previous_place() + self.widths.address
    }
    pub fn signature_place(&self) -> usize {
        self.time_place() + 2
    }
    pub fn address_place(&self) -> usize {
        self.signature_place() + self.widths.signature
    }
    /// What stands in the place of an address where no item is named, as it is told.
    pub fn zeros(&self) -> &'static str {
        match self.widths.address {
            8 => "eight zeros",
            12 => "twelve zeros",
            _ => "sixteen zeros",
        }
    }
}

pub fn is_zeros(words: &[u32]) -> bool {
    words.iter().all(|&word| word == 0)
}

/// The items by their heads, as far as they are whole, listed and of a count that fits.
pub fn items(words: &[u32]) -> Vec<Item> {
    let (mut found, widths): (Vec<Item>, _) = (Vec::new(), Widths::of(words));
    let mut place = 0;
    while let Some(&head) = words.get(place).filter(|&&head| widths.is_readable(head)) {
        let (content, end) = (place + 1, place + count(head) + widths.frame());
        if end > words.len() {
            break;
        }
        let parent = content + count(head);
        let previous = parent + widths.address;
        let address = |at: usize| words[at..at + widths.address].to_vec();
        found.push(Item {
            number: found.len() + 1,
            place,
            code: code(head),
            widths,
            content: words[content..parent].to_vec(),
            parent: address(parent),
            previous: address(previous),
            time: time(words, previous + widths.address),
            address: address(end - widths.address),
        });
        place = end;
    }
    found
}

/// The place behind so many items, by their counts alone.
pub fn place_behind(words: &[u32], items: usize) -> Option<usize> {
    let (mut place, frame) = (0, Widths::of(words).frame());
    for _ in 0..items {
        place += count(*words.get(place)?) + frame;
    }
    Some(place)
}

/// The number behind a phrase of a text.
pub fn number_behind(text: &str, phrase: &str) -> Option<usize> {
    number_at(&text[text.find(phrase)? + phrase.len()..])
}

/// The number that a text begins with.
pub fn number_at(text: &str) -> Option<usize> {
    let digits: String = text.chars().take_while(char::is_ascii_digit).collect();
    digits.parse().ok()
}
