//! Refusal 13: the content rules of the types, in the order of the model's `Content`.

use super::fields::*;
use super::refused::{Numbered, Refused};
use super::sets::Set;
use super::text::{are, count, hex, list, place, start};
use super::widths;
use crate::format::{By, Format, Members, CRYPTOGRAM_ZEROS};
use crate::times::date;
use crate::types::code::*;

/// As many ballots are listed.
const LISTED: usize = 8;

/// The greatest number of a round, and how many trustees there may be.
const LAST_ROUND: u32 = 15;
const MOST_TRUSTEES: u32 = 32;

pub fn bad(refused: &Refused) -> Option<String> {
    match refused.code() {
        GENESIS => bad_traits(refused),
        CONTEST => bad_contest(refused),
        THRESHOLD => bad_threshold(refused),
        AUTHORIZER => bad_mode(refused),
        ROUND => bad_round(refused),
        SESSION => bad_session(refused),
        VOTER_COMMITMENT | SERVER_COMMITMENT => bad_commitment(refused),
        BALLOT => bad_ballot(refused),
        EXTRACTION => Some(bad_fingerprint(refused)),
        CONFIRMATION => bad_confirmation(refused),
        _ => None,
    }
}

fn word(refused: &Refused, field: usize) -> u32 {
    refused.item.content()[field]
}

/// Where a content word stands.
fn at(refused: &Refused, field: usize) -> String {
    place(refused.item.content_place() + field)
}

/// A content word that breaks a rule: its name, value and place, and the rule.
fn wrong(refused: &Refused, field: usize, name: &str, rule: &str) -> String {
    format!("has the {name} {} at {}, but {rule}. Look at this word", word(refused, field), at(refused, field))
}

/// The last word of a genesis that has a word more than others.
fn bad_traits(refused: &Refused) -> Option<String> {
    let traits = *refused.item.content().get(genesis::TRAITS)?;
    let wrong = widths::wrong_traits(traits)?;
    Some(format!("has the traits {} at {}, but {wrong}. Look at this word", hex(traits), at(refused, genesis::TRAITS)))
}

/// A number that no set of contests of the board has. It may be one of the other width.
fn bad_contest(refused: &Refused) -> Option<String> {
    let (number, format) = (word(refused, contest::NUMBER), refused.item.format);
    let last = |format: Format| format.numbers(Members::Contests) as u32 - 1;
    let rule = format!("it must be at most {}", last(format));
    let said = |rule: &str| wrong(refused, contest::NUMBER, "contest number", rule);
    if number <= last(format) {
        return None;
    }
    let mut others = format.others(By::Sets);
    others.retain(|&other| number <= last(other));
    if others.is_empty() {
        return Some(said(&rule));
    }
    let rule = widths::on_board(format, By::Sets, &rule) + &widths::would_fit(number as usize, format, &others);
    Some(said(&rule) + &widths::look(refused.board, By::Sets))
}

fn bad_threshold(refused: &Refused) -> Option<String> {
    let (trustees, needed) = (word(refused, threshold::TRUSTEES), word(refused, threshold::NEEDED));
    if needed < 1 {
        return Some(wrong(refused, threshold::NEEDED, "threshold", "it must be at least 1"));
    }
    if needed > trustees {
        let (verb, most) = (are(trustees.into()), count(trustees.into(), "trustee"));
        let rule = format!("there {verb} {most} only, by the word before it");
        return Some(wrong(refused, threshold::NEEDED, "threshold", &rule));
    }
    let rule = format!("there may be at most {MOST_TRUSTEES}");
    (trustees > MOST_TRUSTEES).then(|| wrong(refused, threshold::TRUSTEES, "number of trustees", &rule))
}

fn bad_mode(refused: &Refused) -> Option<String> {
    let is_known = matches!(word(refused, authorizer::MODE), 1 | 2);
    (!is_known).then(|| wrong(refused, authorizer::MODE, "mode", "it must be 1 (identity) or 2 (credential)"))
}

fn bad_round(refused: &Refused) -> Option<String> {
    if round_number(&refused.item) > LAST_ROUND {
        return Some(wrong(refused, round::NUMBER, "round number", &format!("it must be at most {LAST_ROUND}")));
    }
    let [starts, ends] = start_and_end(&refused.item);
    if starts >= ends {
        let [from, to] = times_of_round(refused.item.format).map(|field| at(refused, field));
        let times = format!("starts at {} ({from}) and ends at {} ({to})", date(starts), date(ends));
        return Some(format!("{times}, but its start must be before its end. Look at these words"));
    }
    bad_contests(refused)
}

fn bad_session(refused: &Refused) -> Option<String> {
    if word(refused, session::WEIGHT) < 1 {
        return Some(wrong(refused, session::WEIGHT, "weight", "it must be at least 1"));
    }
    bad_contests(refused)
}

/// A set of contests that must not be empty, each defined before.
fn bad_contests(refused: &Refused) -> Option<String> {
    let set = Set::of_contests(&refused.item);
    if set.count() == 0 {
        let look = if set.words() == 1 { "this word" } else { "these words" };
        return Some(format!("has no contests: its set of contests, {}, is empty. Look at {look}", set.begins()));
    }
    let defines = |earlier: &Numbered, contest: u32| {
        earlier.item.code() == CONTEST && earlier.item.content()[contest::NUMBER] == contest
    };
    let undefined = set.members().find(|&contest| !refused.earlier().any(|earlier| defines(&earlier, contest)))?;
    Some(format!(
        "has contest {undefined} in its set of contests, {}, which no contest item before it defines. \
         Look at this word, and at the contests",
        set.word_of(undefined)
    ))
}

/// A word whose low bits must be zero.
fn low_bits(refused: &Refused, field: usize, bits: u32, name: &str) -> Option<String> {
    let word = word(refused, field);
    let is_wrong = word & ((1 << bits) - 1) != 0;
    is_wrong.then(|| {
        let at = at(refused, field);
        format!(
            "has {} as {name}, at {at}, but the low {bits} bits of that word must be zero. Look at this word",
            hex(word)
        )
    })
}

fn bad_commitment(refused: &Refused) -> Option<String> {
    let curve = refused.item.format.curve;
    low_bits(refused, curve.commitment - 1, curve.commitment_zeros, "its last content word")
}

/// A set that the content begins with, and a part for each member behind it.
fn parts(refused: &Refused, set: Set, members: Members, member: &str, part: &str) -> Option<String> {
    let parts = (refused.item.content().len() - set.words()) / refused.item.format.each(members);
    (parts != set.count() as usize).then(|| {
        format!(
            "has {} in its set, {}, but {}. Look at the set, and at the number of content words",
            count(set.count().into(), member),
            set.named(),
            count(parts as u64, part)
        )
    })
}

fn bad_ballot(refused: &Refused) -> Option<String> {
    let set = Set::of_contests(&refused.item);
    parts(refused, set, Members::Contests, "contest", "cryptogram")
        .or_else(|| set.members().find_map(|contest| may_not_vote(refused, contest)))
        .or_else(|| (1..=set.count() as usize).find_map(|k| bad_cryptogram(refused, set, k)))
}

/// The cryptograms, from 1 on, stand behind the set.
fn bad_cryptogram(refused: &Refused, set: Set, k: usize) -> Option<String> {
    let last = set.words() + k * refused.item.format.curve.cryptogram - 1;
    low_bits(refused, last, CRYPTOGRAM_ZEROS, &format!("the last word of cryptogram {k}"))
}

/// A contest that is not in the session's set, or that no open round enables.
fn may_not_vote(refused: &Refused, contest: u32) -> Option<String> {
    let session = refused.session()?;
    let set = Set::of_contests(&refused.item);
    let given = format!("has contest {contest} in its set of contests, {}", set.word_of(contest));
    if !Set::of_contests(&session.item).has(contest) {
        return Some(format!(
            "{given}, but its session, item {}, does not have that contest. Look at both sets",
            session.number
        ));
    }
    let now = refused.item.time();
    let enables = |round: &Numbered| is_open(&round.item, now) && Set::of_contests(&round.item).has(contest);
    let is_enabled = rounds(refused).iter().any(enables);
    (!is_enabled).then(|| {
        format!(
            "{given}, but no round that is open at its time, {}, enables that contest. Look at the sets of the rounds",
            date(now)
        )
    })
}

/// The eight words are not the hash. That is the library's word: there is no hash here.
fn bad_fingerprint(refused: &Refused) -> String {
    let given = format!(
        "has a fingerprint, {} at {}, that is not the SHA-256 of",
        start(refused.item.content()),
        at(refused, 0)
    );
    let ballots: Vec<String> = counted(refused).iter().map(usize::to_string).collect();
    let (what, look) = match ballots.as_slice() {
        [] => ("the empty message, though no ballot is counted".to_string(), "whether casts are missing"),
        [only] => (format!("the content of the only counted ballot, item {only}"), "which ballot it was made of"),
        _ => {
            let listed = list(&ballots, LISTED);
            let what = format!(
                "the contents of the {} counted ballots, in the order of their casts: items {listed}",
                ballots.len()
            );
            (what, "which ballots it was made of")
        }
    };
    format!("{given} {what}. Look at {look}")
}

/// The item numbers of the counted ballots: of each voter the one under the last cast, in the order of those casts.
fn counted(refused: &Refused) -> Vec<usize> {
    let mut counted: Vec<(u32, usize)> = Vec::new();
    for cast in refused.earlier().filter(|earlier| earlier.item.code() == CAST) {
        let Some(session) = refused.passed.session(cast.number) else { continue };
        let voter = refused.passed.item(session).content()[session::VOTER];
        counted.retain(|&(other, _)| other != voter);
        counted.push((voter, refused.passed.parent(cast.number)));
    }
    counted.into_iter().map(|(_, ballot)| ballot).collect()
}

fn bad_confirmation(refused: &Refused) -> Option<String> {
    let set = Set::of_trustees(&refused.item);
    parts(refused, set, Members::Trustees, "trustee", "trustee share").or_else(|| trustees(refused, set))
}

/// Numbers below that of trustees, and as many of them as are needed.
fn trustees(refused: &Refused, set: Set) -> Option<String> {
    let threshold = refused.first(THRESHOLD)?;
    let [most, needed] = [threshold::TRUSTEES, threshold::NEEDED].map(|field| threshold.item.content()[field]);
    let given = format!("in its set, {}", set.named());
    if let Some(over) = set.members().find(|&trustee| trustee >= most) {
        let rule = format!("by the threshold, item {}, numbers are below {most}", threshold.number);
        return Some(format!("has trustee {over} {given}, but {rule}. Look at this word"));
    }
    let has = count(set.count().into(), "trustee");
    (set.count() < needed).then(|| {
        format!(
            "has {has} {given}, but {needed} are needed by the threshold, item {}. Look at this word",
            threshold.number
        )
    })
}
