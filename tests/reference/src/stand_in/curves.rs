//! Mistakes about curves: hashes, widths and zeros of another one, and which words tell a board's curve.

use super::{made, Mistake};
use crate::audit::{ends_with_zeros, Board, LayoutRules, Rules, LAYOUT_RULES, RULES};
use crate::compare::{Comparison, Side};
use crate::curves::widened;
use crate::format::*;
use crate::interface::{audit_answer, AUDIT_ANSWER};
use crate::sha256::sha256;
use crate::sha512::sha512;

/// The hash of a board on a curve.
pub fn hash_rule() -> fn(Curve, &[u32]) -> Digest {
    match made() {
        Some(Mistake::Sha512Cut) => |curve, message| match curve {
            Curve::Secp384r1 => widened(&sha512(message)[..12]),
            _ => curve.hash(message),
        },
        Some(Mistake::HashedOf19) => |curve, message| {
            let left_out = curve.hashed_frame() - 19;
            curve.hash(&message[..message.len() - left_out])
        },
        Some(Mistake::Sha256OnAll) => |_, message| widened(&sha256(message)),
        _ => RULES.hash,
    }
}

/// The fingerprint of counted ballots.
pub fn fingerprint_rule() -> fn(Curve, &[u32]) -> [u32; FINGERPRINT] {
    match made() {
        Some(Mistake::FingerprintByCurve) => |curve, message| eight(&curve.hash(message), 0),
        _ => RULES.fingerprint,
    }
}

/// The rules about layouts, one of which a mistake makes wrong; without one, as they are given.
pub fn layout_rules(given: LayoutRules) -> LayoutRules {
    let mut rules = given;
    match made() {
        Some(Mistake::CurveBitsTurned) => {
            rules.of = |board| match Layout::of(board) {
                Layout { curve: Curve::Secp384r1, sets } => Layout { curve: Curve::Secp521r1, sets },
                Layout { curve: Curve::Secp521r1, sets } => Layout { curve: Curve::Secp384r1, sets },
                layout => layout,
            };
        }
        Some(Mistake::WideOnOne) => {
            rules.of = |board| match Layout::of(board) {
                Layout { curve: Curve::Secp256r1, sets } => Layout { curve: Curve::Secp256r1, sets },
                Layout { curve, .. } => Layout { curve, sets: Width::Narrow },
            };
        }
        Some(Mistake::OneCurve) => rules.of = |board| Layout { curve: Curve::Secp256r1, ..Layout::of(board) },
        Some(Mistake::UnknownTraitsTell) => rules.of = told_by_unknown,
        Some(Mistake::Curve3As2) => {
            rules.of = |board| match traits(board) {
                Some(traits) if is_curve_3(traits) => Layout::known(traits & !2).expect("secp521r1"),
                _ => Layout::of(board),
            };
            rules.traits_fit = passes_curve_3;
        }
        Some(Mistake::Curve3Passes) => rules.traits_fit = passes_curve_3,
        Some(Mistake::SignatureOf16) => rules.signature = |_| 16,
        Some(Mistake::SignatureOf32) => rules.signature = |curve| curve.widths().signature.min(32),
        Some(Mistake::VerdictAsAddress) => rules.verdict = |curve| 1 + curve.widths().address,
        Some(Mistake::ZerosOf24) => rules.commitment_fits = |_, words| ends_with_zeros(words, 24),
        Some(Mistake::ZerosOf8) => rules.commitment_fits = |_, words| ends_with_zeros(words, 8),
        Some(Mistake::NinthWord) => {
            rules.commitment_fits = |curve, words| ends_with_zeros(&words[..9], curve.widths().commitment_zeros);
        }
        Some(Mistake::SeventeenthWord) => {
            rules.cryptogram_fits = |_, words| ends_with_zeros(&words[..17], CRYPTOGRAM_ZEROS);
        }
        Some(Mistake::CryptogramOf17) => rules.cryptogram = |_| 17,
        Some(Mistake::CryptogramOf33) => rules.cryptogram = |curve| curve.widths().cryptogram.min(33),
        Some(Mistake::ShareAsSignature) => rules.trustee = |curve| curve.widths().signature,
        Some(Mistake::CryptogramZerosOf8) => {
            rules.cryptogram_fits = |curve, words| match curve {
                Curve::Secp521r1 => ends_with_zeros(words, 8),
                _ => ends_with_zeros(words, CRYPTOGRAM_ZEROS),
            };
        }
        Some(Mistake::AddressOfEight) => rules.seen = |check, address| first_in(7, 8, check, address),
        Some(Mistake::PreviousOfEight) => rules.seen = |check, address| first_in(8, 8, check, address),
        Some(Mistake::ParentOfEight) => rules.seen = |check, address| first_in(9, 8, check, address),
        Some(Mistake::AddressOfTwelve) => rules.seen = |check, address| first_in(7, 12, check, address),
        Some(Mistake::PreviousOfTwelve) => rules.seen = |check, address| first_in(8, 12, check, address),
        Some(Mistake::ParentOfTwelve) => rules.seen = |check, address| first_in(9, 12, check, address),
        _ => {}
    }
    LayoutRules { count_fits: count_rule(given), ..rules }
}

/// Which counts pass.
fn count_rule(given: LayoutRules) -> fn(Layout, u32, usize) -> bool {
    match made() {
        Some(Mistake::CommitmentOf9) => |layout, code, n| match code {
            VOTER_COMMITMENT | SERVER_COMMITMENT => n == 9,
            _ => layout.count_fits(code, n),
        },
        Some(Mistake::CryptogramOf17) => |layout, code, n| match code {
            BALLOT => Layout { curve: Curve::Secp256r1, ..layout }.count_fits(code, n),
            _ => layout.count_fits(code, n),
        },
        Some(Mistake::CryptogramOf33) => |layout, code, n| match (layout.curve, code) {
            (Curve::Secp521r1, BALLOT) => n > layout.sets.words() && (n - layout.sets.words()) % 33 == 0,
            _ => layout.count_fits(code, n),
        },
        Some(Mistake::ShareAsSignature) => |layout, code, n| match code {
            CONFIRMATION => n > 1 && (n - 1) % layout.curve.widths().signature == 0,
            _ => layout.count_fits(code, n),
        },
        Some(Mistake::KeyAsAddress) => |layout, code, n| match code {
            VERIFIER => n == layout.curve.widths().address,
            _ => layout.count_fits(code, n),
        },
        _ => given.count_fits,
    }
}

fn is_curve_3(traits: u32) -> bool {
    traits & !WIDE_SETS == CURVE_BITS
}

fn passes_curve_3(traits: u32) -> bool {
    is_curve_3(traits) || (LAYOUT_RULES.traits_fit)(traits)
}

/// The layout by the traits that are known, whatever others there are.
pub fn told_by_unknown(board: &[u32]) -> Layout {
    let known = traits(board).map(|traits| traits & (WIDE_SETS | CURVE_BITS));
    known.and_then(Layout::known).unwrap_or(Layout::PLAIN)
}

/// In one check so many of an address's first words alone.
fn first_in(wrong: u32, words: usize, check: u32, address: Digest) -> Digest {
    if check == wrong {
        widened(&address[..words])
    } else {
        address
    }
}

/// The layout with these traits, whatever the board.
fn always<const TRAITS: u32>(_: &[u32]) -> Layout {
    LAYOUTS[TRAITS as usize]
}

/// The rules for the later board of a comparison: with the layout of the kept one, where that is the mistake.
pub fn later_rules(rules: Rules, kept: Board) -> Rules {
    let by_traits: [fn(&[u32]) -> Layout; LAYOUTS.len()] =
        [always::<0>, always::<1>, always::<2>, always::<3>, always::<4>, always::<5>];
    match made() {
        Some(Mistake::LayoutOfKept) => {
            let of = by_traits[Layout::of(kept.words).traits() as usize];
            Rules { layout: LayoutRules { of, ..rules.layout }, ..rules }
        }
        _ => rules,
    }
}

/// The answer of a comparison that sees too soon that two boards are on different curves.
pub fn apart_too_soon(kept: Board, later: Board, comparison: Comparison) -> Comparison {
    let apart = Layout::of(kept.words).curve != Layout::of(later.words).curve;
    match (made(), comparison) {
        (Some(Mistake::ApartBeforeAudit), Comparison::Refused { side: Side::Later, number, .. })
            if apart && number != 19 =>
        {
            Comparison::Apart
        }
        (Some(Mistake::ApartBeforeNumber), Comparison::Refused { number: 19, .. }) if apart => Comparison::Apart,
        _ => comparison,
    }
}

/// An audit's answer of which a mistake leaves out a part of the end address. Behind it stands what was there before.
pub fn answer_with_end(board: Board, mut words: [u32; AUDIT_ANSWER], before: &[u32]) -> [u32; AUDIT_ANSWER] {
    use audit_answer::END;
    let behind = END + Layout::of(board.words).curve.widths().address;
    match made() {
        Some(Mistake::EndOfEight) => words[END + 8..].fill(0),
        Some(Mistake::EndUnpadded) => words[behind..].copy_from_slice(&before[behind..AUDIT_ANSWER]),
        _ => {}
    }
    words
}
