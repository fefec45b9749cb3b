//! Points of the curve end with zeros: of a commitment's last word and of each cryptogram's, the low bits.

use crate::format::{BALLOT, SERVER_COMMITMENT, VOTER_COMMITMENT};
use crate::told::Told;

/// A commitment has the words of its curve, and the low bits of the last that they leave are zero.
pub fn each_commitment_ends_with_zeros(told: &Told) -> Result<(), String> {
    for number in told.of(&[VOTER_COMMITMENT, SERVER_COMMITMENT]) {
        let content = told.contents[number - 1];
        if content.len() != told.fields.commitment || content[content.len() - 1] % told.fields.commitment_unit != 0 {
            return Err(format!(
                "commitment {number} has {} words, of which the last is {:08x?}",
                content.len(),
                content.last()
            ));
        }
    }
    Ok(())
}

/// The last word of each cryptogram is a multiple of 65,536.
pub fn each_cryptogram_ends_with_zeros(told: &Told) -> Result<(), String> {
    for number in told.of(&[BALLOT]) {
        let cryptograms = &told.contents[number - 1][told.fields.set..];
        let mut lasts = cryptograms.iter().skip(told.fields.cryptogram - 1).step_by(told.fields.cryptogram);
        if let Some(last) = lasts.find(|&last| last % 65_536 != 0) {
            return Err(format!("ballot {number} has a cryptogram with the last word {last:08x}"));
        }
    }
    Ok(())
}
