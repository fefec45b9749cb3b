//! Refusals 14 to 16: the verdict on an item's signature, and whose key it was given for.

use super::fields::*;
use super::refused::{Numbered, Refused};
use super::text::{are, hex, place, start, BOARD, VERDICTS};
use crate::board::VERDICT;
use crate::files::Files;
use crate::format::Part;
use crate::types::code::*;
use crate::types::{self, Writer};

/// The first word of a verdict.
const BAD: u32 = 0x3000_0000;
const GOOD: u32 = 0x3000_0001;

/// The item's verdict words, as many of the nine as there are, and the place of the first.
fn verdict<'a>(refused: &Refused, files: &'a Files) -> (&'a [u32], usize) {
    let (words, from) = (&files.verdicts.words, VERDICT * refused.passed.count());
    (words.get(from..words.len().min(from + VERDICT)).unwrap_or(&[]), from)
}

pub fn no_verdict(refused: &Refused, files: &Files) -> Option<String> {
    let (words, from) = verdict(refused, files);
    let wrong = match *words {
        [first, ..] if words.len() == VERDICT => {
            let is_wrong = first != GOOD && first != BAD;
            is_wrong
                .then(|| format!("{} stands where {} (good) or {} (bad) must stand", hex(first), hex(GOOD), hex(BAD)))
        }
        [] => Some("none of its nine words is there".to_string()),
        _ => Some(format!("only {} of its nine words {} there", words.len(), are(words.len() as u64))),
    };
    wrong.map(|wrong| format!("has no verdict: {wrong}. Look at {}, {}", VERDICTS, place(from)))
}

/// A key fingerprint, and whose it is.
struct Key<'a> {
    words: &'a [u32],
    whose: String,
}

fn key_of<'a>(from: &Numbered<'a>, field: usize, whose: &str) -> Key<'a> {
    let at = place(from.item.content_place() + field);
    Key {
        words: key(&from.item, field),
        whose: format!("{whose} ({} item {}, at {at})", types::name(from.item.code()), from.number),
    }
}

fn voters_key<'a>(session: &Numbered<'a>) -> Key<'a> {
    key_of(session, session::KEY, &format!("voter {}", session.item.content()[session::VOTER]))
}

/// The keys that an item names.
fn keys_in<'a>(from: &Numbered<'a>) -> Vec<Key<'a>> {
    match from.item.code() {
        GENESIS if from.number == 1 => {
            [Writer::Administrator, Writer::BallotBox].map(|writer| opening_key(from, writer)).into()
        }
        // Behind the refused item, or that itself: on this board the keys are nobody's.
        GENESIS => [(genesis::ADMINISTRATOR, "another administrator"), (genesis::BALLOT_BOX, "another ballot box")]
            .map(|(field, whose)| key_of(from, field, whose))
            .into(),
        THRESHOLD => vec![key_of(from, threshold::KEY, "the trustees")],
        AUTHORIZER => vec![key_of(from, authorizer::KEY, "an authorizer")],
        SESSION => vec![voters_key(from)],
        VERIFIER => vec![key_of(from, verifier::KEY, "a verifier")],
        _ => Vec::new(),
    }
}

fn opening_key<'a>(opening: &Numbered<'a>, writer: Writer) -> Key<'a> {
    match writer {
        Writer::BallotBox => key_of(opening, genesis::BALLOT_BOX, "the ballot box"),
        _ => key_of(opening, genesis::ADMINISTRATOR, "the administrator"),
    }
}

/// The key that its writer has.
fn writers_key<'a>(refused: &Refused<'a>) -> Option<Key<'a>> {
    let own = refused.own();
    match refused.row.writer {
        Writer::Administrator | Writer::BallotBox => {
            let opening = refused.earlier().next().unwrap_or(own);
            (opening.item.code() == GENESIS).then(|| opening_key(&opening, refused.row.writer))
        }
        Writer::Authorizer => Some(key_of(&refused.last(AUTHORIZER)?, authorizer::KEY, "the latest authorizer")),
        Writer::Voter => Some(voters_key(&refused.session()?)),
        Writer::Verifier => Some(key_of(&own, verifier::KEY, "the verifier itself")),
    }
}

pub fn wrong_key(refused: &Refused, files: &Files) -> Option<String> {
    let (words, from) = verdict(refused, files);
    let given = words.get(1..VERDICT)?;
    let writers = writers_key(refused).filter(|key| key.words != given)?;
    let own = refused.own();
    let all = refused.earlier().chain([own]).chain(refused.later());
    let owner = all.flat_map(|item| keys_in(&item)).find(|key| key.words == given);
    let whose = owner.map_or("no key that the items name".to_string(), |key| format!("that of {}", key.whose));
    Some(format!(
        "was checked under the key fingerprint {}, which is {whose}, but its writer's key is that of {}. Look at {}, {}",
        start(given),
        writers.whose,
        VERDICTS,
        place(from + 1)
    ))
}

pub fn bad_signature(refused: &Refused, files: &Files) -> Option<String> {
    let (words, from) = verdict(refused, files);
    let is_bad = words.len() == VERDICT && words[0] == BAD;
    is_bad.then(|| {
        format!(
            "has a bad signature: its verdict is {} at {} of {VERDICTS}. \
             Look at the log of the signature checker, and at the signature, at {} of {BOARD}",
            hex(BAD),
            place(from),
            place(refused.item.place_of(Part::Signature))
        )
    })
}
