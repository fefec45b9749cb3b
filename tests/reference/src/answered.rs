//! Receipts: what holds of their answers, whoever gave them, told from the words of the accepted board and of the
//! receipts alone.

use crate::format::{code, count, kind, CLOSING, MAIN};
use crate::told::Fields;
use std::collections::HashMap;

/// The type of a cast, and the answer where there is none. Written out, not taken from `format`, so that a wrong one
/// there is noticed.
const CAST: u32 = 20;
const NONE: u32 = 4_294_967_295;

/// What a main item can be known by.
struct Signed<'a> {
    code: u32,
    signature: &'a [u32],
    address: &'a [u32],
}

/// An accepted board's main items in order, the receipts, and their answers.
pub struct Answered<'a> {
    mains: Vec<Signed<'a>>,
    /// Signature, address and answer.
    receipts: Vec<(&'a [u32], &'a [u32], u32)>,
    /// The words behind the answers.
    rest: &'a [u32],
}

/// Says what is wrong where it does not hold.
type Property = fn(&Answered) -> Result<(), String>;

/// What holds of the answers. Some of these follow from others; each is looked at by itself.
pub const OF_ANSWERS: [Property; 5] =
    [each_answer_is_its_cast, no_earlier_cast_is, none_has_no_cast, equal_receipts_have_one_answer, the_rest_is_zero];

/// Holds answers to all of them.
pub fn check_answers(words: &[u32], receipts: &[u32], answers: &[u32]) -> Result<(), String> {
    let answered = Answered::new(words, receipts, answers)?;
    OF_ANSWERS.iter().try_for_each(|property| property(&answered))
}

/// Which of them answers break.
pub fn broken_answers(words: &[u32], receipts: &[u32], answers: &[u32]) -> Result<[bool; OF_ANSWERS.len()], String> {
    let answered = Answered::new(words, receipts, answers)?;
    Ok(OF_ANSWERS.map(|property| property(&answered).is_err()))
}

impl<'a> Answered<'a> {
    fn new(words: &'a [u32], receipts: &'a [u32], answers: &'a [u32]) -> Result<Answered<'a>, String> {
        let fields = Fields::of(words);
        let (width, mut place, mut mains) = (fields.signature + fields.address, 0, Vec::new());
        while kind(*words.get(place).ok_or("the items run past the end")?) != CLOSING {
            let end = place + fields.length(count(words[place]));
            if kind(words[place]) == MAIN {
                let (signature, address) = words[end - width..end].split_at(fields.signature);
                mains.push(Signed { code: code(words[place]), signature, address });
            }
            place = end;
        }
        if receipts.len() % width != 0 || answers.len() < receipts.len() / width {
            return Err(format!("{} words of receipts have {} words of answers", receipts.len(), answers.len()));
        }
        let (answers, rest) = answers.split_at(receipts.len() / width);
        let receipts = receipts.chunks_exact(width).zip(answers).map(|(receipt, &answer)| {
            let (signature, address) = receipt.split_at(fields.signature);
            (signature, address, answer)
        });
        Ok(Answered { mains, receipts: receipts.collect(), rest })
    }

    /// Of each receipt its number from 1, the answer, and the main numbers of the casts that have its signature and its
    /// address.
    fn casts(&self) -> impl Iterator<Item = (usize, u32, Vec<u32>)> + '_ {
        // Of all main items, those that are casts with an address.
        let mut by_address: HashMap<&[u32], Vec<(u32, &[u32])>> = HashMap::new();
        for (number, main) in (1..).zip(&self.mains).filter(|(_, main)| main.code == CAST) {
            by_address.entry(main.address).or_default().push((number, main.signature));
        }
        (1..).zip(&self.receipts).map(move |(number, &(signature, address, answer))| {
            let casts = by_address.get(address).into_iter().flatten();
            (number, answer, casts.filter(|cast| cast.1 == signature).map(|cast| cast.0).collect())
        })
    }
}

/// An answer that is a main number is that of a cast with the receipt's address and signature.
fn each_answer_is_its_cast(answered: &Answered) -> Result<(), String> {
    for (number, &(signature, address, answer)) in (1..).zip(&answered.receipts).filter(|(_, r)| r.2 != NONE) {
        let main = (answer as usize).checked_sub(1).and_then(|at| answered.mains.get(at));
        if !main.is_some_and(|main| main.code == CAST && main.address == address && main.signature == signature) {
            return Err(format!("the answer to receipt {number} is {answer}, which is no cast with its words"));
        }
    }
    Ok(())
}

/// No earlier main item is such a cast.
fn no_earlier_cast_is(answered: &Answered) -> Result<(), String> {
    for (number, answer, casts) in answered.casts().filter(|&(_, answer, _)| answer != NONE) {
        if let Some(first) = casts.iter().find(|&&cast| cast < answer) {
            return Err(format!("the answer to receipt {number} is {answer}, and main item {first} is its cast"));
        }
    }
    Ok(())
}

/// A receipt with no answer has no cast at all.
fn none_has_no_cast(answered: &Answered) -> Result<(), String> {
    match answered.casts().find(|(_, answer, casts)| *answer == NONE && !casts.is_empty()) {
        Some((number, _, casts)) => {
            Err(format!("receipt {number} has no answer, and main items {casts:?} are its cast"))
        }
        None => Ok(()),
    }
}

/// Equal receipts have equal answers.
fn equal_receipts_have_one_answer(answered: &Answered) -> Result<(), String> {
    let mut first: HashMap<[&[u32]; 2], (usize, u32)> = HashMap::new();
    for (number, &(signature, address, answer)) in (1..).zip(&answered.receipts) {
        let (earlier, other) = *first.entry([signature, address]).or_insert((number, answer));
        if other != answer {
            return Err(format!("receipts {earlier} and {number} are equal, and their answers {other} and {answer}"));
        }
    }
    Ok(())
}

/// Behind the answers all words are zero.
fn the_rest_is_zero(answered: &Answered) -> Result<(), String> {
    match answered.rest.iter().position(|&word| word != 0) {
        Some(at) => Err(format!("word {at} behind the answers is {}", answered.rest[at])),
        None => Ok(()),
    }
}
