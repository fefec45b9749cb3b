//! Refusal 11: what may stand when. The rules in the order of the model's `Phase`.

use super::fields::{is_open, round_number, rounds, session, start_and_end};
use super::refused::{Numbered, Refused};
use super::text::list;
use crate::times::date;
use crate::types::code::*;

/// As many rounds are listed.
const LISTED: usize = 3;

pub fn out_of_phase(refused: &Refused) -> Option<String> {
    after_extraction(refused)
        .or_else(|| no_open_round(refused))
        .or_else(|| nothing_standing(refused))
        .or_else(|| overwritten_session(refused))
        .or_else(|| not_spoiled(refused))
}

fn after_extraction(refused: &Refused) -> Option<String> {
    let may_follow = matches!(refused.code(), INTENT..=CONFIRMATION | TRACK..=SERVER_OPENING);
    let intent = refused.first(INTENT).filter(|_| !may_follow)?;
    Some(format!(
        "stands behind {}, after which only extraction intents, extraction data, confirmations and hidden tracks \
         may follow. Look at the order of the items",
        intent.name()
    ))
}

fn no_open_round(refused: &Refused) -> Option<String> {
    let now = refused.item.time();
    let rounds = rounds(refused);
    let is_voting = (SESSION..=SPOIL).contains(&refused.code());
    if !is_voting || rounds.iter().any(|round| is_open(&round.item, now)) {
        return None;
    }
    let wrong = format!("needs a round that is open at its time, {}, but none is", date(now));
    if rounds.is_empty() {
        return Some(format!("{wrong}: no round item stands before it. Look at whether one is missing"));
    }
    let rounds: Vec<String> = rounds.iter().map(in_force).collect();
    Some(format!("{wrong}. Look at its time, and at what is in force: {}", list(&rounds, LISTED)))
}

fn in_force(round: &Numbered) -> String {
    let [start, end] = start_and_end(&round.item).map(date);
    format!("round {} (item {}) from {start} until {end}", round_number(&round.item), round.number)
}

/// A session needs a threshold and an authorizer, an extraction intent a threshold.
fn nothing_standing(refused: &Refused) -> Option<String> {
    let missing = |code: u32| refused.first(code).is_none();
    let what = match refused.code() {
        SESSION | INTENT if missing(THRESHOLD) => "a threshold",
        SESSION if missing(AUTHORIZER) => "an authorizer",
        _ => return None,
    };
    Some(format!("needs {what}, but no such item stands before it. Look at whether one is missing"))
}

/// The session of a voting item must be the latest of its voter.
fn overwritten_session(refused: &Refused) -> Option<String> {
    if !(VOTER_COMMITMENT..=SPOIL).contains(&refused.code()) {
        return None;
    }
    let own = refused.session()?;
    let voter = |session: &Numbered| session.item.content()[session::VOTER];
    let mut sessions = refused.earlier().filter(|earlier| earlier.item.code() == SESSION);
    let latest =
        sessions.rfind(|session| voter(session) == voter(&own)).filter(|latest| latest.number != own.number)?;
    Some(format!(
        "belongs to session item {}, which is not the latest of voter {}: session item {} is. Look at both sessions",
        own.number,
        voter(&own),
        latest.number
    ))
}

/// A voter opening needs an earlier spoil of the ballot that its track hangs on.
fn not_spoiled(refused: &Refused) -> Option<String> {
    let verifier =
        refused.parent().filter(|parent| refused.code() == VOTER_OPENING && parent.item.code() == VERIFIER)?;
    let ballot = refused.at(refused.passed.parent(refused.passed.parent(verifier.number)));
    let is_spoil = |later: &Numbered| later.item.code() == SPOIL && later.item.parent() == ballot.item.address();
    let state = match refused.passed.closer(ballot.number).map(|closer| refused.at(closer)) {
        Some(closer) if closer.item.code() == CAST => format!("which was cast by item {}", closer.number),
        Some(_) => return None,
        None => match refused.later().find(is_spoil) {
            Some(spoil) => format!("whose spoil, item {}, stands behind the opening", spoil.number),
            None => "which is open: neither cast nor spoiled before it".to_string(),
        },
    };
    Some(format!(
        "opens ballot item {}, {state}; a ballot must be spoiled before it is opened. \
         Look at what stands under the ballot",
        ballot.number
    ))
}
