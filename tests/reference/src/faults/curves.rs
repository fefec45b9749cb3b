//! Faults of the curve: hashes, signatures, commitments and cryptograms of another one, addresses that differ behind the
//! eighth word, what is to be as wide on every curve, and boards that only seem to tell their curve. Also boards that are
//! sound on a curve, though not on another.

use super::widths::{later_genesis, unknown, with_traits};
use super::*;

/// The curves on which an address has more than eight words.
const LARGER: [Curve; 2] = [Curve::Secp384r1, Curve::Secp521r1];

/// Another curve than the board's.
fn other_curve(made: &Made, random: &mut Random) -> Curve {
    let others: Vec<Curve> = CURVES.into_iter().filter(|&curve| curve != made.layout.curve).collect();
    *random.pick(&others)
}

/// One with narrower fields, where there is one.
fn smaller_curve(made: &Made, random: &mut Random) -> Option<Curve> {
    let smaller: Vec<Curve> = CURVES.into_iter().filter(|&curve| curve < made.layout.curve).collect();
    (!smaller.is_empty()).then(|| *random.pick(&smaller))
}

/// The traits word that chooses a curve, and sets of the width that the board has.
fn traits_of(curve: Curve, made: &Made) -> u32 {
    Layout { curve, ..made.layout }.traits()
}

// ---- addresses ----

/// The address is the hash of another curve, which has this number: cut, or with zeros behind it.
fn address_of_curve(made: &Made, number: u32, random: &mut Random) -> Change {
    let curve = Curve::numbered(number).expect("a curve");
    address_wrong(made, Address::Of(curve), any(made, random))
}
/// All items have such addresses.
fn all_addresses_of_curve(made: &Made, number: u32, _: &mut Random) -> Change {
    let curve = Curve::numbered(number).expect("a curve");
    let mut plan = made.plan.clone();
    plan.items.iter_mut().for_each(|item| item.address = Address::Of(curve));
    Some((plan, 0))
}
fn address_cut_to_eight(made: &Made, _: u32, random: &mut Random) -> Change {
    address_wrong(made, Address::First(8), any(made, random))
}
/// A bit that no address of eight words has; most of the time one of the last four words.
fn late_bit(made: &Made, random: &mut Random) -> usize {
    let words = widths(made).address;
    let first = *random.pick(&[8, words - 4]);
    random.between(32 * first, 32 * words - 1)
}
fn address_late_bit(made: &Made, _: u32, random: &mut Random) -> Change {
    let bit = late_bit(made, random);
    address_wrong(made, Address::Flipped(bit), any(made, random))
}
fn turned_over(mut words: Digest, bit: usize) -> Digest {
    words[bit / 32] ^= 1 << (bit % 32);
    words
}
fn previous_late_bit_of(made: &Made, at: usize, random: &mut Random) -> Change {
    let words = turned_over(links(made, at)[1], late_bit(made, random));
    change_item(made, at, |s| s.previous = Previous::Words(words))
}
fn previous_late_bit(made: &Made, _: u32, random: &mut Random) -> Change {
    let at = pick_where(made, random, |i, s| i > 0 && s.kind == MAIN)?;
    previous_late_bit_of(made, at, random)
}
fn hidden_previous_late_bit(made: &Made, _: u32, random: &mut Random) -> Change {
    let at = pick_where(made, random, |_, s| s.kind == HIDDEN)?;
    previous_late_bit_of(made, at, random)
}
fn first_previous_late_bit(made: &Made, _: u32, random: &mut Random) -> Change {
    previous_late_bit_of(made, 0, random)
}
/// The parent differs so from one that is as listed, or from zeros; a hidden item's previous is the same.
fn parent_late_bit(made: &Made, code: u32, random: &mut Random) -> Change {
    let at = pick(made, code, random)?;
    let words = turned_over(links(made, at)[0], late_bit(made, random));
    change_item(made, at, |s| s.parent = Link::Words(words))
}

// ---- signatures, and whole items ----

/// An item's signature is as wide as on another curve; a main item follows it.
fn signature_of_other(made: &Made, _: u32, random: &mut Random) -> Change {
    let other = other_curve(made, random).widths().signature;
    let last = last_main(made, items(made).len())?;
    let at = pick_where(made, random, |i, _| i < last)?;
    change_item(made, at, |s| s.signature_words = Some(other))
}
/// The last item's is as wide as on a smaller curve: the words end before its address does.
fn last_signature_of_smaller(made: &Made, _: u32, random: &mut Random) -> Change {
    let smaller = smaller_curve(made, random)?.widths().signature;
    change_item(made, items(made).len() - 1, |s| s.signature_words = Some(smaller))
}
/// The whole board is laid out as on another curve, of which it does not tell.
fn laid_out_as_other(made: &Made, _: u32, random: &mut Random) -> Change {
    let mut plan = made.plan.clone();
    plan.laid_as = Some(other_curve(made, random));
    (plan.items.len() > 1).then_some((plan, 0))
}
fn genesis_laid_out_as_smaller(made: &Made, _: u32, random: &mut Random) -> Change {
    let mut plan = made.plan.clone();
    plan.items.truncate(1);
    plan.laid_as = Some(smaller_curve(made, random)?);
    Some((plan, 0))
}
/// The board ends where an item of a smaller curve would, or a little behind it.
fn cut_as_smaller(made: &Made, _: u32, random: &mut Random) -> Change {
    let at = any(made, random);
    let content = items(made)[at].content.len();
    let least = content + smaller_curve(made, random)?.frame();
    let some = random.between(least, content + frame(made) - 1);
    let mut plan = made.plan.clone();
    plan.cut = Some((at, *random.pick(&[least, least, some])));
    Some((plan, at))
}

// ---- commitments and cryptograms ----

fn commitment_of_other(made: &Made, code: u32, random: &mut Random) -> Change {
    let other = other_curve(made, random).widths().commitment;
    change_content(made, code, random, |c, _| c.resize(other, 0))
}

/// A ballot whose cryptograms are as wide as on another curve; whether the table has such a count.
fn cryptograms_of_other(made: &Made, fits: bool, random: &mut Random) -> Change {
    let other = other_curve(made, random).widths().cryptogram;
    let at = pick(made, BALLOT, random)?;
    let content = &items(made)[at].content;
    let mut changed = content[..made.layout.sets.words()].to_vec();
    for cryptogram in made.layout.cryptograms(content) {
        let end = changed.len() + other;
        changed.extend_from_slice(&cryptogram[..other.min(cryptogram.len())]);
        changed.resize(end, 0);
        changed[end - 1] &= 0xffff_0000;
    }
    let is_so = made.layout.count_fits(BALLOT, changed.len()) == fits;
    is_so.then(|| change_item(made, at, |s| s.content = changed))?
}
fn cryptograms_of_other_misfit(made: &Made, _: u32, random: &mut Random) -> Change {
    cryptograms_of_other(made, false, random)
}
fn cryptograms_of_other_fit(made: &Made, _: u32, random: &mut Random) -> Change {
    cryptograms_of_other(made, true, random)
}

/// A commitment's last word has these low bits, and no others of them.
fn last_word_has(made: &Made, code: u32, bits: u32, random: &mut Random) -> Change {
    let zeros = widths(made).commitment_zeros;
    change_content(made, code, random, |c, _| {
        let last = c.last_mut().expect("a last word");
        *last = *last >> zeros << zeros | bits;
    })
}
fn highest_low_bit(made: &Made, code: u32, random: &mut Random) -> Change {
    last_word_has(made, code, 1 << (widths(made).commitment_zeros - 1), random)
}
fn lowest_low_bit(made: &Made, code: u32, random: &mut Random) -> Change {
    last_word_has(made, code, 1, random)
}
/// Of those that secp521r1 leaves to the point.
fn bit_of_secp521r1(made: &Made, code: u32, random: &mut Random) -> Change {
    let bit = random.between(8, 23);
    last_word_has(made, code, 1 << *random.pick(&[8, bit]), random)
}

// ---- what is as wide on every curve ----

/// A key fingerprint, or the fingerprint of ballots, as wide as the curve's hash.
fn fingerprint_as_address(made: &Made, code: u32, random: &mut Random) -> Change {
    let more = widths(made).address - FINGERPRINT;
    let behind = match code {
        THRESHOLD => 2 + FINGERPRINT,
        AUTHORIZER => 1 + FINGERPRINT,
        SESSION => 2 + FINGERPRINT,
        _ => FINGERPRINT,
    };
    let words = random.words(more);
    change_content(made, code, random, |c, _| {
        c.splice(behind..behind, words);
    })
}
/// The fingerprint of the counted ballots is the first words of the curve's hash.
fn fingerprint_by_curve(made: &Made, _: u32, random: &mut Random) -> Change {
    let at = pick(made, EXTRACTION, random)?;
    let message: Vec<u32> = counted(made, at).iter().flat_map(|&b| items(made)[b].content.clone()).collect();
    let hash = made.layout.curve.hash(&message);
    change_item(made, at, |s| s.content = hash[..FINGERPRINT].to_vec())
}
/// The trustees' shares are as wide as a signature; whether the table has such a count.
fn shares_as_signatures(made: &Made, fits: bool, random: &mut Random) -> Change {
    let (plan, at) = change_content(made, CONFIRMATION, random, |c, _| {
        c.resize(1 + widths(made).signature * c[0].count_ones() as usize, 0);
    })?;
    (made.layout.count_fits(CONFIRMATION, plan.items[at].content.len()) == fits).then_some((plan, at))
}
fn shares_as_signatures_misfit(made: &Made, _: u32, random: &mut Random) -> Change {
    shares_as_signatures(made, false, random)
}
fn shares_as_signatures_fit(made: &Made, _: u32, random: &mut Random) -> Change {
    shares_as_signatures(made, true, random)
}

// ---- traits ----

/// Traits that are not known, on a board that is laid out as on its curve nevertheless.
fn unknown_traits_on_curve(made: &Made, random: &mut Random) -> Plan {
    let others = unknown(random) & !7 | 1 << random.between(3, 31);
    let mut plan = with_traits(made, Some(others | made.layout.traits()));
    plan.laid_as = Some(made.layout.curve);
    plan
}
fn unknown_traits_and_curve(made: &Made, _: u32, random: &mut Random) -> Change {
    Some((unknown_traits_on_curve(made, random), 0))
}
/// Its words end before a genesis on secp256r1 would.
fn unknown_traits_and_curve_cut(made: &Made, _: u32, random: &mut Random) -> Change {
    let mut plan = unknown_traits_on_curve(made, random);
    let end = TRAITS_PLACE + Layout::PLAIN.curve.frame();
    plan.cut = Some((0, random.between(TRAITS_PLACE + 1, end - 1)));
    Some((plan, 0))
}
/// A curve with the number 3.
fn curve_3(made: &Made, _: u32, _: &mut Random) -> Change {
    Some((with_traits(made, Some(made.layout.traits() | CURVE_BITS)), 0))
}
/// The same, laid out as on this board's.
fn curve_3_on_curve(made: &Made, _: u32, _: &mut Random) -> Change {
    let mut plan = with_traits(made, Some(made.layout.traits() | CURVE_BITS));
    plan.laid_as = Some(made.layout.curve);
    Some((plan, 0))
}

fn later_genesis_other_curve(made: &Made, _: u32, random: &mut Random) -> Change {
    let traits = traits_of(other_curve(made, random), made);
    later_genesis(made, Some(traits), random)
}

/// Any traits word that chooses a layout other than the plain one.
fn telling_traits(random: &mut Random) -> u32 {
    random.pick(&LAYOUTS[1..]).traits()
}
/// A genesis without a traits word, and a parent field that begins with one.
fn traits_in_parent(made: &Made, _: u32, random: &mut Random) -> Change {
    let mut plan = with_traits(made, None);
    let mut parent = ZEROS;
    parent[0] = telling_traits(random);
    plan.items[0].parent = Link::Words(parent);
    Some((plan, 0))
}
/// The head is that of a genesis with a traits word, all but its kind.
fn hidden_genesis(made: &Made, _: u32, random: &mut Random) -> Change {
    let mut plan = with_traits(made, Some(telling_traits(random)));
    plan.items[0].kind = HIDDEN;
    Some((plan, 0))
}
/// All but its type: a text is as long.
fn text_with_traits(made: &Made, _: u32, random: &mut Random) -> Change {
    let mut plan = with_traits(made, Some(telling_traits(random)));
    plan.items[0].code = TEXT;
    Some((plan, 0))
}
/// A board that begins with a commitment or a ballot as on a larger curve, and has its traits word where a genesis has it.
fn first_is_of_larger(made: &Made, code: u32, random: &mut Random) -> Change {
    // A cryptogram of secp521r1 is as wide as two of secp256r1.
    let curve = if code == BALLOT { Curve::Secp384r1 } else { *random.pick(&LARGER) };
    let traits = Layout { curve, sets: Width::Narrow }.traits();
    let content = match code {
        BALLOT => [&[1], &vec![0; curve.widths().cryptogram][..]].concat(),
        _ => vec![0; curve.widths().commitment],
    };
    let mut spec = new_item(made, code, 0, Link::Zeros, content, administrator(made));
    match TRAITS_PLACE.checked_sub(1 + spec.content.len()) {
        None => spec.content[TRAITS_PLACE - 1] = traits,
        Some(at) => spec.parent = Link::Words(std::array::from_fn(|i| if i == at { traits } else { 0 })),
    }
    insert(made, 0, spec)
}

// ---- boards that are sound ----

/// A board without a commitment is as good on another curve.
fn on_other_curve(made: &Made, _: u32, random: &mut Random) -> Change {
    match first_of(made, VOTER_COMMITMENT) {
        Some(_) => None,
        None => {
            let traits = traits_of(other_curve(made, random), made);
            Some((with_traits(made, Some(traits)), items(made).len()))
        }
    }
}
/// Every bit that a commitment may have, in all its words.
fn all_bits_of_commitment(made: &Made, code: u32, random: &mut Random) -> Change {
    let zeros = widths(made).commitment_zeros;
    let (plan, _) = change_content(made, code, random, |c, _| {
        c.fill(u32::MAX);
        *c.last_mut().expect("a last word") = u32::MAX << zeros;
    })?;
    Some((plan, items(made).len()))
}
/// The lowest bit that its last word may have, alone.
fn lowest_bit_of_commitment(made: &Made, code: u32, random: &mut Random) -> Change {
    let zeros = widths(made).commitment_zeros;
    let (plan, _) = change_content(made, code, random, |c, _| *c.last_mut().expect("a last word") = 1 << zeros)?;
    Some((plan, items(made).len()))
}

// ---- the lists ----

/// On boards of every curve.
const ALL: &[Way] = &[
    (7, "signature of another curve", signature_of_other),
    (7, "laid out as on another curve", laid_out_as_other),
    (6, "cryptograms of another curve", cryptograms_of_other_misfit),
    (13, "number 3", curve_3),
    (12, "later genesis, another curve", later_genesis_other_curve),
    (9, "genesis of 17 words, a traits word behind it", traits_in_parent),
    (5, "hidden genesis with a traits word", hidden_genesis),
    (9, "text in the place of a genesis with a traits word", text_with_traits),
    (0, "on another curve, without a commitment", on_other_curve),
];

/// On those whose addresses have more than eight words.
const ON_LARGER: &[Way] = &[
    (7, "address cut to eight words", address_cut_to_eight),
    (7, "address, a bit behind the eighth word", address_late_bit),
    (8, "previous, a bit behind the eighth word", previous_late_bit),
    (8, "hidden previous, a bit behind the eighth word", hidden_previous_late_bit),
    (8, "first previous, a bit behind the eighth word", first_previous_late_bit),
    (4, "last signature of a smaller curve", last_signature_of_smaller),
    (4, "genesis alone, laid out as on a smaller curve", genesis_laid_out_as_smaller),
    (4, "cut where an item of a smaller curve ends", cut_as_smaller),
    (13, "fingerprint by the curve's hash", fingerprint_by_curve),
    (6, "shares as wide as signatures", shares_as_signatures_misfit),
    (7, "unknown traits, laid out as on their curve", unknown_traits_and_curve),
    (4, "unknown traits, laid out as on their curve, cut", unknown_traits_and_curve_cut),
    (7, "number 3, laid out as on another", curve_3_on_curve),
];

/// All that is about curves.
pub fn curve_faults() -> Vec<Fault> {
    let mut list: Vec<Fault> = Vec::new();
    let mut add = |number: u32, reason: &str, layouts: &[Layout], code: u32, change| {
        let reason = format!("{number}/curve, {reason}");
        list.push(Fault { number, reason, layouts: layouts.to_vec(), all_contests: false, code, change });
    };
    let larger = of_curves(&LARGER);
    for (layouts, ways) in [(&LAYOUTS[..], ALL), (&larger, ON_LARGER)] {
        for &(number, reason, change) in ways {
            add(number, reason, layouts, 0, change);
        }
    }
    for (curve, hash) in CURVES.into_iter().zip(["SHA-256", "SHA-384", "SHA-512"]) {
        let others: Vec<Curve> = CURVES.into_iter().filter(|&other| other != curve).collect();
        let others = of_curves(&others);
        add(7, &format!("address by {hash}"), &others, curve as u32, address_of_curve);
        add(7, &format!("all addresses by {hash}"), &others, curve as u32, all_addresses_of_curve);
    }
    for code in CODES {
        add(9, &format!("parent, a bit behind the eighth word, type {code}"), &larger, code, parent_late_bit);
    }
    // One width is twice the other.
    let twice = of_curves(&[Curve::Secp256r1, Curve::Secp521r1]);
    add(13, "cryptograms of another curve, a count that fits", &twice, 0, cryptograms_of_other_fit);
    // Two signatures are as wide as three shares.
    let secp384r1 = of_curves(&[Curve::Secp384r1]);
    add(13, "shares as wide as signatures, a count that fits", &secp384r1, 0, shares_as_signatures_fit);
    for code in [VOTER_COMMITMENT, SERVER_COMMITMENT] {
        let mut on = |number: u32, reason: &str, layouts: &[Layout], change| {
            add(number, &format!("{reason}, type {code}"), layouts, code, change);
        };
        on(6, "commitment of another curve", &LAYOUTS, commitment_of_other);
        on(13, "highest low bit of a commitment", &LAYOUTS, highest_low_bit);
        on(13, "lowest low bit of a commitment", &LAYOUTS, lowest_low_bit);
        let twenty_four = of_curves(&[Curve::Secp256r1, Curve::Secp384r1]);
        on(13, "low bit of a commitment that secp521r1 has", &twenty_four, bit_of_secp521r1);
        on(0, "all bits of a commitment", &LAYOUTS, all_bits_of_commitment);
        on(0, "lowest bit of a commitment", &LAYOUTS, lowest_bit_of_commitment);
    }
    for code in [THRESHOLD, AUTHORIZER, SESSION, EXTRACTION, VERIFIER] {
        add(6, &format!("fingerprint as wide as an address, type {code}"), &larger, code, fingerprint_as_address);
    }
    for code in [VOTER_COMMITMENT, SERVER_COMMITMENT, BALLOT] {
        add(6, &format!("first is type {code} of a larger curve"), &LAYOUTS, code, first_is_of_larger);
    }
    list
}
