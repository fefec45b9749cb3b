//! Opened ballots: none counts, and each was spoiled before it was opened.

use crate::format::*;
use crate::told::Told;

/// The number of each voter opening, and of the ballot that its track hangs on: a verifier and a track start
/// stand between them.
fn openings<'a>(told: &'a Told<'a>) -> impl Iterator<Item = (usize, usize)> + 'a {
    told.of(&[VOTER_OPENING]).map(|opening| {
        let track = told.parent(told.parent(opening));
        (opening, told.parent(track))
    })
}

/// No ballot row is that of a ballot with a voter opening on its track.
pub fn no_opened_ballot_is_counted(told: &Told) -> Result<(), String> {
    match openings(told).find(|&(_, ballot)| told.counted.contains(&told.main_number(ballot))) {
        Some((opening, ballot)) => Err(format!("item {opening} opens ballot {ballot}, which has a ballot row")),
        None => Ok(()),
    }
}

/// The fifth word of such a ballot is a spoil earlier in the file than the opening.
pub fn each_opened_ballot_was_spoiled(told: &Told) -> Result<(), String> {
    for (opening, ballot) in openings(told) {
        let is_earlier_spoil = |closer: usize| closer < opening && told.code(closer) == Some(SPOIL);
        if !told.closer(ballot).is_some_and(is_earlier_spoil) {
            return Err(format!("item {opening} opens ballot {ballot}, and its index row names no earlier spoil"));
        }
    }
    Ok(())
}
