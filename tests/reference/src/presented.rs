//! Receipts to ask a board for, of every sort, the answers as far as their making tells them, and a length for the buffer
//! that they go to.

use crate::audit::Board;
use crate::calls::places;
use crate::checks::{Case, Known};
use crate::format::*;
use crate::random::Random;
use crate::sound::Expected;
use std::collections::HashSet;

/// What a receipt is of.
#[derive(Clone, Copy, PartialEq, Eq, Debug)]
pub enum Sort {
    /// A cast: one that counts, one that a later cast of its voter replaced, or one of which that is not known.
    Counted,
    Replaced,
    Cast,
    Spoil,
    /// Another main item, or a hidden one.
    Main,
    Hidden,
    /// A cast, with a bit of its address or of its signature turned over.
    AddressChanged,
    SignatureChanged,
    /// The address of a cast, with the signature of another item.
    TwoItems,
    /// A cast, its address before its signature.
    AddressFirst,
    /// The words of a cast's receipt and the one before them, but for the last.
    Shifted,
    /// No item.
    Nothing,
}

/// How the words of all receipts, or of all notes, end.
#[derive(Clone, Copy, PartialEq, Eq, Debug)]
pub enum Ending {
    Whole,
    Missing,
    TooMany,
    /// Each of them is as wide as on another curve.
    OtherWidth,
}

pub struct Presented {
    /// The board's words where they are others: signatures that several items have.
    words: Option<Vec<u32>>,
    pub receipts: Vec<u32>,
    /// Of each receipt, up to where they end otherwise.
    pub sorts: Vec<Sort>,
    pub ending: Ending,
    /// Whether two of them are equal, and whether nearly all have one address.
    pub equal: bool,
    pub one_address: bool,
    /// The words of the buffer for answers.
    pub buffer: usize,
    /// The answers, if the board is sound and there are no words but whole receipts.
    pub answers: Option<Vec<u32>>,
    /// The refusal before the audit, as far as it is known.
    pub refusal: Option<u32>,
}

impl Presented {
    /// Any receipts for a case.
    pub fn new(case: &Case, random: &mut Random) -> Presented {
        let words = if random.chance(12) { with_common_signatures(&case.words, random) } else { None };
        let items = Items::new(words.as_ref().unwrap_or(&case.words), &case.known);
        // At times many receipts with the address of one cast.
        let one = (!items.casts.is_empty() && random.chance(6)).then(|| *random.pick(&items.casts));
        let count = if one.is_some() { random.between(10, MAX_RECEIPTS) } else { how_many(random) };
        let mut made: Vec<Receipt> = Vec::new();
        for at in 0..count {
            let again = at > 0 && random.chance(15);
            made.push(match one {
                _ if again => random.pick(&made).clone(),
                Some(cast) => items.receipt_like(cast, random),
                None => items.any_receipt(random),
            });
        }
        let equal = made.iter().enumerate().any(|(at, a)| made[..at.min(8)].iter().any(|b| a.words == b.words));
        let answers: Option<Vec<u32>> = made.iter().map(|receipt| receipt.answer).collect();
        let sorts = made.iter().map(|receipt| receipt.sort).collect();
        let mut presented = Presented {
            words: None,
            receipts: Vec::new(),
            sorts,
            ending: any_ending(random),
            equal,
            one_address: one.is_some(),
            buffer: 0,
            answers: None,
            refusal: None,
        };
        presented.lay(&made, items.curve, random);
        if presented.ending == Ending::Whole {
            presented.answers = answers.filter(|_| matches!(case.known, Known::Sound(..)));
        }
        presented.buffer = buffer_for(presented.receipts.len() / items.curve.receipt(), random);
        presented.refusal = match presented.ending {
            Ending::Missing | Ending::TooMany => Some(22),
            Ending::Whole if made.len() > 512 => Some(22),
            Ending::Whole if made.len() > presented.buffer => Some(2),
            _ => None,
        };
        presented.words = words;
        presented
    }

    /// The receipts of a board's items, with a word of buffer for each. Where they are more than there may be, casts go
    /// before others.
    pub fn of_all_items(words: &[u32]) -> Presented {
        let items = Items::new(words, &Known::Nothing);
        let mut ends = items.ends.clone();
        if ends.len() > MAX_RECEIPTS {
            ends = [&items.casts[..], &items.spoils, &items.hidden, &items.mains].concat();
            ends.truncate(MAX_RECEIPTS);
        }
        let receipts: Vec<u32> = ends.iter().flat_map(|&end| items.receipt(end)).copied().collect();
        let (sorts, ending, buffer) = (Vec::new(), Ending::Whole, ends.len());
        let (equal, one_address, answers, refusal) = (false, false, None, None);
        Presented { words: None, receipts, sorts, ending, equal, one_address, buffer, answers, refusal }
    }

    /// The board that they are for.
    pub fn board<'a>(&'a self, case: &'a Case) -> Board<'a> {
        Board { words: self.words.as_ref().unwrap_or(&case.words), ..case.board() }
    }

    /// Whether several items of the board were given one signature.
    pub fn has_common_signatures(&self) -> bool {
        self.words.is_some()
    }

    /// Puts the words of the receipts one behind the other, and ends them.
    fn lay(&mut self, made: &[Receipt], curve: Curve, random: &mut Random) {
        let other = *random.pick(&CURVES);
        if self.ending == Ending::OtherWidth && other != curve {
            return self.lay_as(made, curve, other, random);
        }
        self.receipts = made.iter().flat_map(|receipt| &receipt.words).copied().collect();
        let some = random.between(1, curve.receipt() - 1);
        match self.ending {
            Ending::Missing if !made.is_empty() => self.receipts.truncate(self.receipts.len() - some),
            Ending::TooMany => self.receipts.extend(random.words(some)),
            _ => self.ending = Ending::Whole,
        }
    }

    /// The same, each as wide as on another curve. At times they are as many as make whole receipts by accident.
    fn lay_as(&mut self, made: &[Receipt], curve: Curve, other: Curve, random: &mut Random) {
        let widths = other.widths();
        for receipt in made {
            let (signature, address) = receipt.words.split_at(curve.widths().signature);
            for (words, length) in [(signature, widths.signature), (address, widths.address)] {
                let mut words = words.to_vec();
                words.resize(length, 0);
                self.receipts.extend(words);
            }
        }
        let whole = |count: usize| count * other.receipt() % curve.receipt() == 0;
        if random.chance(50) && !made.is_empty() {
            let count = (made.len()..).find(|&count| whole(count)).expect("some number is whole");
            let first = self.receipts[..other.receipt()].to_vec();
            self.receipts.extend(first.repeat(count - made.len()));
        }
    }
}

/// How many receipts there are: mostly a few, at times none, as many as there may be, or more.
fn how_many(random: &mut Random) -> usize {
    match random.below(40) {
        0..=2 => 0,
        3..=7 => 1,
        8 | 9 => random.between(20, 100),
        10 => random.between(200, MAX_RECEIPTS - 1),
        11 | 12 => MAX_RECEIPTS,
        13 | 14 => MAX_RECEIPTS + 1,
        15 => random.between(MAX_RECEIPTS + 2, 2 * MAX_RECEIPTS + 1),
        _ => random.between(2, 12),
    }
}

pub fn any_ending(random: &mut Random) -> Ending {
    match random.below(20) {
        0 => Ending::Missing,
        1 => Ending::TooMany,
        2 => Ending::OtherWidth,
        _ => Ending::Whole,
    }
}

/// The words of a buffer for so many answers: mostly just enough, at times more, at times too few.
fn buffer_for(count: usize, random: &mut Random) -> usize {
    match random.below(24) {
        0 | 1 => count.saturating_sub(1),
        2 => 0,
        3 => count / 2,
        4..=8 => count + random.between(1, 9),
        9..=11 => MAX_RECEIPTS,
        12 => MAX_RECEIPTS - 1,
        13 => MAX_RECEIPTS + random.between(1, 600),
        14 => MAX_RECEIPTS + random.between(601, 20_000),
        _ => count,
    }
}

/// The board with one signature for some of its items, and zeros for some. A signature is not hashed, so that all else
/// stays right.
fn with_common_signatures(words: &[u32], random: &mut Random) -> Option<Vec<u32>> {
    let items = Items::new(words, &Known::Nothing);
    let (width, length) = (items.curve.receipt(), items.curve.widths().signature);
    let from = if items.casts.is_empty() { &items.ends } else { &items.casts };
    let common = match from.is_empty() {
        true => return None,
        false => items.receipt(*random.pick(from))[..length].to_vec(),
    };
    let mut changed = words.to_vec();
    for end in items.ends {
        let signature = &mut changed[end - width..end - width + length];
        match random.below(10) {
            0 => signature.fill(0),
            1..=6 => signature.copy_from_slice(&common),
            _ => {}
        }
    }
    Some(changed)
}

/// A receipt, and the answer to it where the making of the board tells it.
#[derive(Clone)]
struct Receipt {
    sort: Sort,
    words: Vec<u32>,
    answer: Option<u32>,
}

/// The items of a board, as far as a walk over the heads goes: where each ends, which is where its receipt does.
struct Items<'a> {
    words: &'a [u32],
    curve: Curve,
    ends: Vec<usize>,
    /// By what they are; the casts are all in `casts`, and in one of the next two where that is known.
    casts: Vec<usize>,
    counted: Vec<usize>,
    replaced: Vec<usize>,
    spoils: Vec<usize>,
    mains: Vec<usize>,
    hidden: Vec<usize>,
    expected: Option<&'a Expected>,
}

impl<'a> Items<'a> {
    fn new(words: &'a [u32], known: &'a Known) -> Items<'a> {
        let curve = Layout::of(words).curve;
        let expected = match known {
            Known::Sound(expected, ..) => Some(expected),
            _ => None,
        };
        let counted = expected.map(counted_casts);
        let mut items = Items {
            words,
            curve,
            ends: Vec::new(),
            casts: Vec::new(),
            counted: Vec::new(),
            replaced: Vec::new(),
            spoils: Vec::new(),
            mains: Vec::new(),
            hidden: Vec::new(),
            expected,
        };
        for (number, place) in (1..).zip(places(words)) {
            let (head, end) = (words[place], place + count(words[place]) + curve.frame());
            if end > words.len() {
                break;
            }
            items.ends.push(end);
            match (kind(head), code(head)) {
                (MAIN, CAST) => items.casts.push(end),
                (MAIN, SPOIL) => items.spoils.push(end),
                (MAIN, _) => items.mains.push(end),
                _ => items.hidden.push(end),
            }
            match &counted {
                Some(counted) if code(head) == CAST && counted.contains(&number) => items.counted.push(end),
                Some(_) if code(head) == CAST => items.replaced.push(end),
                _ => {}
            }
        }
        items
    }

    /// The receipt of the item that ends there.
    fn receipt(&self, end: usize) -> &'a [u32] {
        &self.words[end - self.curve.receipt()..end]
    }

    /// The answer to a receipt with the address of the item that ends there.
    fn answer(&self, end: usize, receipt: &[u32]) -> Option<u32> {
        let row = &self.expected?.rows[self.ends.binary_search(&end).expect("an item's end")];
        let is_cast = self.casts.binary_search(&end).is_ok();
        Some(if is_cast && receipt == self.receipt(end) { row.mains_before + 1 } else { NO_CAST })
    }

    fn any_receipt(&self, random: &mut Random) -> Receipt {
        let (sort, from) = match random.below(40) {
            0..=7 => (Sort::Counted, &self.counted),
            8..=12 => (Sort::Replaced, &self.replaced),
            13..=16 => (Sort::Spoil, &self.spoils),
            17 | 18 => (Sort::Main, &self.mains),
            19 | 20 => (Sort::Hidden, &self.hidden),
            21..=23 => (Sort::AddressChanged, &self.casts),
            24..=26 => (Sort::SignatureChanged, &self.casts),
            27..=29 => (Sort::TwoItems, &self.casts),
            30 | 31 => (Sort::AddressFirst, &self.casts),
            32 => (Sort::Shifted, &self.casts),
            33 => (Sort::Nothing, &self.ends),
            _ => (Sort::Cast, &self.casts),
        };
        match (from.is_empty(), self.ends.is_empty()) {
            (false, _) => self.receipt_of(sort, *random.pick(from), random),
            (true, false) => self.receipt_of(Sort::Main, *random.pick(&self.ends), random),
            _ => self.receipt_of_nothing(random),
        }
    }

    /// A receipt with the address of the cast that ends there, mostly with another signature.
    fn receipt_like(&self, end: usize, random: &mut Random) -> Receipt {
        let sort = match random.below(20) {
            0 | 1 => Sort::Cast,
            2 => Sort::AddressChanged,
            3 | 4 => Sort::TwoItems,
            _ => Sort::SignatureChanged,
        };
        self.receipt_of(sort, end, random)
    }

    /// A receipt of a sort, from the item that ends there.
    fn receipt_of(&self, sort: Sort, end: usize, random: &mut Random) -> Receipt {
        let widths = self.curve.widths();
        let mut words = self.receipt(end).to_vec();
        match sort {
            Sort::AddressChanged => words[widths.signature + random.below(widths.address)] ^= 1 << random.below(32),
            Sort::SignatureChanged => words[random.below(widths.signature)] ^= 1 << random.below(32),
            Sort::TwoItems => {
                let others = if random.chance(70) { &self.casts } else { &self.ends };
                let other = &self.receipt(*random.pick(others))[..widths.signature];
                words[..widths.signature].copy_from_slice(other);
            }
            Sort::AddressFirst => words.rotate_left(widths.signature),
            Sort::Shifted => {
                let start = end - self.curve.receipt();
                words = self.words[start - 1..end - 1].to_vec();
            }
            Sort::Nothing => return self.receipt_of_nothing(random),
            _ => {}
        }
        let answer = match sort {
            Sort::AddressChanged | Sort::AddressFirst | Sort::Shifted => Some(NO_CAST),
            _ => self.answer(end, &words),
        };
        Receipt { sort, words, answer }
    }

    fn receipt_of_nothing(&self, random: &mut Random) -> Receipt {
        let width = self.curve.receipt();
        let words = match random.below(3) {
            0 => vec![0; width],
            1 => vec![u32::MAX; width],
            _ => random.words(width),
        };
        Receipt { sort: Sort::Nothing, words, answer: Some(NO_CAST) }
    }
}

/// The item numbers of the casts whose ballots count.
fn counted_casts(expected: &Expected) -> HashSet<usize> {
    let ballots: HashSet<u32> = expected.ballots.iter().map(|row| row[0]).collect();
    let counted = expected.rows.iter().filter(|row| ballots.contains(&(row.mains_before + 1)));
    counted.filter_map(|row| row.closer().map(|position| position + 1)).collect()
}
