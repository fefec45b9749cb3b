//! What holds of an accepted board's tables, whoever filled them, told from the words of the board and of its
//! roll alone: nothing of `audit` is used. The properties are in `closed`, `opened`, `enrolled`, `contests` and `zeros`; those of
//! answers to receipts in `answered`.

use crate::closed::*;
use crate::contests::*;
use crate::enrolled::*;
use crate::format::*;
use crate::opened::*;
use crate::zeros::*;
use std::collections::HashMap;

/// The words of the rows, where the fifth of an index row stands, and its value where it is not in use.
/// Written out, not taken from `format`, so that a wrong one there is noticed.
const ROW_OF_INDEX: usize = 5;
const ROW_OF_BALLOTS: usize = 3;
const ROW_OF_ROLL: usize = 2;
const FIFTH: usize = 4;
const NOT_IN_USE: u32 = 4_294_967_295;
/// The head of a genesis with a word of traits.
const HEAD_OF_TRAITS: u32 = 0x1001_0012;

/// How wide the fields of a board are, in words.
#[derive(Clone, Copy)]
pub struct Fields {
    pub set: usize,
    pub address: usize,
    pub signature: usize,
    pub commitment: usize,
    /// A commitment's last word is a multiple of this.
    pub commitment_unit: u32,
    pub cryptogram: usize,
}

impl Fields {
    /// By the traits word of an accepted board.
    pub fn of(words: &[u32]) -> Fields {
        let traits = if words[0] == HEAD_OF_TRAITS { words[18] } else { 0 };
        let set = if traits % 2 == 1 { 8 } else { 1 };
        let (address, signature, commitment, commitment_unit, cryptogram) = match traits / 2 {
            0 => (8, 16, 9, 1 << 24, 17),
            1 => (12, 24, 13, 1 << 24, 25),
            _ => (16, 33, 17, 1 << 8, 34),
        };
        Fields { set, address, signature, commitment, commitment_unit, cryptogram }
    }

    /// The words of an item with so many content words: head, content, parent, previous, time, signature, address.
    pub fn length(&self, n: usize) -> usize {
        1 + n + 2 * self.address + 2 + self.signature + self.address
    }
}

/// A voter with a weight.
#[derive(Clone, Copy, PartialEq, Eq, Debug)]
pub struct Pair {
    pub voter: u32,
    pub weight: u32,
}

impl Pair {
    /// Of a slice that begins with them.
    fn at(words: &[u32]) -> Pair {
        Pair { voter: words[0], weight: words[1] }
    }
}

/// The items of an accepted board as its words have them, its roll, and what its tables say of ballots. Items
/// are numbered from 1, and have the place of their number less one here.
pub struct Told<'a> {
    pub codes: Vec<u32>,
    pub contents: Vec<&'a [u32]>,
    pub times: Vec<u64>,
    pub fields: Fields,
    /// The number of the first item with the address in the parent field, of those among which a type's
    /// parent is sought; 0 where there is none.
    pub parents: Vec<usize>,
    /// The fifth column of the index table.
    pub fifth: Vec<u32>,
    /// The main numbers of the counted ballots, from the ballot table, and the voters there.
    pub counted: Vec<u32>,
    pub rows: Vec<Pair>,
    /// Of each session, in order.
    pub sessions: Vec<Pair>,
    pub roll: Vec<Pair>,
}

/// Says what is wrong where it does not hold.
type Property = fn(&Told) -> Result<(), String>;

/// What holds of the tables. Some of these follow from others; each is looked at by itself.
pub const PROPERTIES: [Property; 18] = [
    any_two_differ,
    each_closer_is_named_once,
    only_ballots_have_one,
    open_ballots_have_none,
    each_is_under_its_row,
    no_opened_ballot_is_counted,
    each_opened_ballot_was_spoiled,
    each_session_is_on_the_roll,
    each_voter_has_one_weight,
    each_row_is_on_the_roll,
    weight_is_at_most_the_rolls,
    each_set_has_a_contest,
    each_contest_is_defined_before,
    each_contest_has_a_cryptogram,
    each_ballot_is_within_its_session,
    each_ballot_is_enabled,
    each_commitment_ends_with_zeros,
    each_cryptogram_ends_with_zeros,
];

/// Holds an accepted board's tables to all of them.
pub fn check_told(words: &[u32], roll: &[u32], index: &[u32], ballots: &[u32]) -> Result<(), String> {
    let told = Told::new(words, roll, index, ballots)?;
    PROPERTIES.iter().try_for_each(|property| property(&told))
}

/// Holds the end address that an audit reports of an accepted board to its words: the address of the last main item,
/// then zeros.
pub fn check_end(words: &[u32], end: &[u32]) -> Result<(), String> {
    let fields = Fields::of(words);
    let (mut place, mut last) = (0, 0);
    while kind(*words.get(place).ok_or("the items run past the end")?) != CLOSING {
        let behind = place + fields.length(count(words[place]));
        if kind(words[place]) == MAIN {
            last = behind;
        }
        place = behind;
    }
    let mut right = words[last - fields.address..last].to_vec();
    right.resize(end.len(), 0);
    match end == right {
        true => Ok(()),
        false => Err(format!("the end address is {end:08x?}, by the board {right:08x?}")),
    }
}

/// Which of them an accepted board's tables break.
pub fn broken(words: &[u32], roll: &[u32], index: &[u32], ballots: &[u32]) -> Result<[bool; PROPERTIES.len()], String> {
    let told = Told::new(words, roll, index, ballots)?;
    Ok(PROPERTIES.map(|property| property(&told).is_err()))
}

impl<'a> Told<'a> {
    /// Of tables in which there is a row for each item, some for ballots, and nothing else.
    fn new(words: &'a [u32], roll: &[u32], index: &[u32], ballots: &[u32]) -> Result<Told<'a>, String> {
        let mut told = Told::without_items(words, roll, &rows(ballots)?);
        let (mut mains, mut hidden): (HashMap<&[u32], usize>, HashMap<&[u32], usize>) = Default::default();
        let mut rows = index.chunks(ROW_OF_INDEX);
        let width = told.fields.address;
        let mut place = 0;
        while kind(*words.get(place).ok_or("the items run past the end")?) != CLOSING {
            let parent = place + 1 + count(words[place]);
            let time = parent + 2 * width;
            let end = place + told.fields.length(count(words[place]));
            let address = end - width;
            if end > words.len() {
                return Err(format!("the item at {place} runs past the end"));
            }
            let code = code(words[place]);
            let sought = if code <= TRACK { &mains } else { &hidden };
            told.parents.push(sought.get(&words[parent..parent + width]).copied().unwrap_or(0));
            told.codes.push(code);
            told.contents.push(&words[place + 1..parent]);
            told.times.push(u64::from(words[time]) << 32 | u64::from(words[time + 1]));
            if code == SESSION {
                told.sessions.push(Pair::at(&words[place + 1..]));
            }
            let own = if kind(words[place]) == MAIN { &mut mains } else { &mut hidden };
            own.entry(&words[address..end]).or_insert(told.codes.len());
            match rows.next() {
                Some(row) if row.len() == ROW_OF_INDEX && row[0] == place as u32 => told.fifth.push(row[FIFTH]),
                _ => return Err(format!("index row {} is not that of the head at {place}", told.codes.len())),
            }
            place = end;
        }
        match rows.flatten().all(|&word| word == 0) {
            true => Ok(told),
            false => Err("a word behind the index rows is not zero".to_string()),
        }
    }

    /// Before its items are read.
    fn without_items(words: &[u32], roll: &[u32], rows: &[&[u32]]) -> Told<'a> {
        Told {
            codes: Vec::new(),
            contents: Vec::new(),
            times: Vec::new(),
            fields: Fields::of(words),
            parents: Vec::new(),
            fifth: Vec::new(),
            counted: rows.iter().map(|row| row[0]).collect(),
            rows: rows.iter().map(|row| Pair::at(&row[1..])).collect(),
            sessions: Vec::new(),
            roll: roll.chunks_exact(ROW_OF_ROLL).map(Pair::at).collect(),
        }
    }

    /// The type of an item; none where there is no such number.
    pub fn code(&self, number: usize) -> Option<u32> {
        self.codes.get(number.checked_sub(1)?).copied()
    }

    /// The number of an item's parent; 0 where there is none.
    pub fn parent(&self, number: usize) -> usize {
        number.checked_sub(1).map_or(0, |at| self.parents[at])
    }

    /// The numbers of the items of these types.
    pub fn of<'b>(&'b self, codes: &'b [u32]) -> impl Iterator<Item = usize> + 'b {
        (1..=self.codes.len()).filter(move |&number| codes.contains(&self.codes[number - 1]))
    }

    /// How many main items there are up to an item.
    pub fn main_number(&self, number: usize) -> u32 {
        self.codes[..number].iter().filter(|&&code| kind_of(code) == Some(MAIN)).count() as u32
    }

    /// An item's fifth word; none where it is not in use.
    pub fn closer(&self, number: usize) -> Option<usize> {
        let word = *self.fifth.get(number.checked_sub(1)?)?;
        (word != NOT_IN_USE).then_some(word as usize)
    }

    /// The number and fifth word of each item whose fifth word is in use.
    pub fn in_use(&self) -> impl Iterator<Item = (usize, u32)> + '_ {
        (1..).zip(self.fifth.iter().copied()).filter(|&(_, word)| word != NOT_IN_USE)
    }
}

/// The ballot rows, up to the one that has no main number.
fn rows(ballots: &[u32]) -> Result<Vec<&[u32]>, String> {
    let rows: Vec<&[u32]> = ballots.chunks_exact(ROW_OF_BALLOTS).take_while(|row| row[0] != 0).collect();
    match ballots[ROW_OF_BALLOTS * rows.len()..].iter().all(|&word| word == 0) {
        true => Ok(rows),
        false => Err("a word behind the ballot rows is not zero".to_string()),
    }
}
