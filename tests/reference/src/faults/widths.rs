//! Faults of the traits word, and of contest sets at both widths: sets of the other width, counts that only the other
//! width has, contests in later words of a set.

use super::*;

// ---- traits ----

/// The board with this traits word, or with none.
pub fn with_traits(made: &Made, traits: Option<u32>) -> Plan {
    let mut plan = made.plan.clone();
    plan.items[0].content.truncate(PLAIN_GENESIS);
    plan.items[0].content.extend(traits);
    plan
}

/// The lowest trait that is not known.
const FIRST_UNKNOWN: u32 = 3;

/// Any traits that are not known. A curve with the number 3 is one of them.
pub fn unknown(random: &mut Random) -> u32 {
    let any = random.word() | 1 << random.between(FIRST_UNKNOWN as usize, 31);
    let one = 1 << random.between(FIRST_UNKNOWN as usize, 31) | random.below(8) as u32;
    *random.pick(&[CURVE_BITS, CURVE_BITS | WIDE_SETS, u32::MAX, any, one])
}

/// One trait that is not known, beside those of the board.
fn unknown_trait(made: &Made, bit: u32, _: &mut Random) -> Change {
    Some((with_traits(made, Some(1 << bit | made.layout.traits())), 0))
}
fn all_traits(made: &Made, _: u32, _: &mut Random) -> Change {
    Some((with_traits(made, Some(u32::MAX)), 0))
}
fn any_unknown_traits(made: &Made, _: u32, random: &mut Random) -> Change {
    Some((with_traits(made, Some(unknown(random))), 0))
}

/// Traits that are not known, and something else wrong with the genesis.
fn unknown_traits_and(made: &Made, number: u32, random: &mut Random) -> Change {
    let mut plan = with_traits(made, Some(unknown(random)));
    let genesis = &mut plan.items[0];
    match number {
        4 => plan.cut = Some((0, random.between(1, TRAITS_PLACE + Layout::PLAIN.curve.frame() - 1))),
        7 => genesis.address = Address::Flipped(random.below(32 * Layout::PLAIN.curve.widths().address)),
        8 => genesis.previous = Previous::Words(random.digest()),
        9 => genesis.parent = Link::Words(random.digest()),
        14 => genesis.verdict = 0,
        15 => genesis.key = random.eight(),
        16 => genesis.verdict = VERDICT << 28,
        18 => plan.closing = Some(Some(CLOSING << 28)),
        _ => panic!("no fault {number} of a genesis"),
    }
    Some((plan, 0))
}

/// The board ends before the traits word, mostly just before it.
fn cut_before_traits(made: &Made, _: u32, random: &mut Random) -> Change {
    let mut plan = with_traits(made, Some(made.layout.traits()));
    let length = random.between(1, TRAITS_PLACE);
    plan.cut = Some((0, *random.pick(&[length, TRAITS_PLACE, TRAITS_PLACE])));
    Some((plan, 0))
}
fn cut_behind_traits(made: &Made, _: u32, random: &mut Random) -> Change {
    let any = random.below(16) as u32;
    let mut plan = with_traits(made, Some(*random.pick(&[any, made.layout.traits()])));
    plan.cut = Some((0, TRAITS_PLACE + 1));
    Some((plan, 0))
}

/// A genesis with a word less than it may have, or one more.
fn genesis_too_short(made: &Made, _: u32, _: &mut Random) -> Change {
    change_item(made, 0, |s| s.content.truncate(PLAIN_GENESIS - 1))
}
fn genesis_too_long(made: &Made, _: u32, random: &mut Random) -> Change {
    let mut plan = with_traits(made, Some(random.below(6) as u32));
    plan.items[0].content.push(random.below(6) as u32);
    Some((plan, 0))
}

/// A second genesis with these traits.
pub fn later_genesis(made: &Made, traits: Option<u32>, random: &mut Random) -> Change {
    let at = config_position(made, 1, random)?;
    let mut content = items(made)[0].content[..PLAIN_GENESIS].to_vec();
    content.extend(traits);
    insert(made, at, new_item(made, GENESIS, at, Link::Zeros, content, administrator(made)))
}
/// It says that sets are of the other width.
fn later_genesis_other_width(made: &Made, _: u32, random: &mut Random) -> Change {
    let traits = Some(other_width(made).traits());
    // Rounds before it, which are of this board's width.
    let (plan, at) = later_genesis(made, traits, random)?;
    plan.items[..at].iter().any(|s| s.code == ROUND).then_some((plan, at))
}
fn later_genesis_unknown_traits(made: &Made, _: u32, random: &mut Random) -> Change {
    let traits = unknown(random);
    later_genesis(made, Some(traits), random)
}
fn later_genesis_misfit(made: &Made, _: u32, random: &mut Random) -> Change {
    let (mut plan, at) = later_genesis(made, Some(made.layout.traits()), random)?;
    let length = *random.pick(&[PLAIN_GENESIS - 1, PLAIN_GENESIS + 2]);
    plan.items[at].content.resize(length, 1);
    Some((plan, at))
}

/// The position of the first item at which a narrow board is wide, or a wide one narrow.
fn first_set(made: &Made) -> Option<usize> {
    first_of(made, ROUND)
}
/// The first contest that only a wide board can have.
fn first_wide_contest(made: &Made) -> Option<usize> {
    let is_wide = |s: &Spec| s.code == CONTEST && s.content[0] >= Width::Narrow.contests();
    items(made).iter().position(is_wide)
}
/// A narrow board that says it is wide.
fn narrow_said_wide(made: &Made, _: u32, _: &mut Random) -> Change {
    Some((with_traits(made, Some(other_width(made).traits())), first_set(made)?))
}
/// A wide board that does not say so, in either way.
fn unsaid(made: &Made, random: &mut Random) -> Plan {
    let said = Some(other_width(made).traits());
    with_traits(made, if made.layout.curve == Layout::PLAIN.curve { *random.pick(&[None, said]) } else { said })
}
fn wide_unsaid_round(made: &Made, _: u32, random: &mut Random) -> Change {
    let at = first_set(made)?;
    let later = first_wide_contest(made).is_none_or(|contest| contest > at);
    later.then(|| (unsaid(made, random), at))
}
fn wide_unsaid_contest(made: &Made, _: u32, random: &mut Random) -> Change {
    let at = first_wide_contest(made)?;
    let earlier = first_set(made).is_none_or(|set| set > at);
    earlier.then(|| (unsaid(made, random), at))
}

// ---- counts ----

/// The board's layout with sets of the other width.
fn other_width(made: &Made) -> Layout {
    let sets = match made.layout.sets {
        Width::Narrow => Width::Wide,
        Width::Wide => Width::Narrow,
    };
    Layout { sets, ..made.layout }
}

/// An item with a set of the other width, of which the first word is the same.
fn set_of_other_width(made: &Made, code: u32, random: &mut Random) -> Change {
    let at = pick(made, code, random)?;
    let (place, set) = (made.layout.sets.set_place(code), set_of(made, at));
    change_item(made, at, |s| {
        s.content.splice(place, set.words(other_width(made).sets).to_vec());
    })
}

/// A ballot with so many cryptograms, whatever its set.
fn with_cryptograms(made: &Made, k: usize, random: &mut Random) -> Change {
    let at = pick(made, BALLOT, random)?;
    let length = made.layout.sets.words() + widths(made).cryptogram * k;
    change_item(made, at, |s| s.content.resize(length, 0))
}
fn no_cryptogram(made: &Made, _: u32, random: &mut Random) -> Change {
    with_cryptograms(made, 0, random)
}
fn a_cryptogram_over_all(made: &Made, _: u32, random: &mut Random) -> Change {
    with_cryptograms(made, made.layout.sets.contests() as usize + 1, random)
}
/// As many as there can be, for a set with fewer.
fn most_cryptograms(made: &Made, _: u32, random: &mut Random) -> Change {
    let (plan, at) = with_cryptograms(made, made.layout.sets.contests() as usize, random)?;
    (set_of(made, at) != Set::all(made.layout.sets)).then_some((plan, at))
}

/// A confirmation whose trustees are a set of eight words.
fn wide_trustees(made: &Made, _: u32, random: &mut Random) -> Change {
    change_content(made, CONFIRMATION, random, |c, _| {
        c.splice(1..1, [0; 7]);
    })
}

/// A board that begins with an item of a wide set, and has the word of wide traits where a genesis has it.
fn first_is_wide(made: &Made, code: u32, random: &mut Random) -> Change {
    let set = Set::one(random.contest(Set::all(Width::Wide)));
    let content = match code {
        ROUND => round_content(Width::Wide, 1, set, 0, u64::MAX),
        SESSION => [&[7, 1], &[0; SESSION_SET - 2][..], set.words(Width::Wide)].concat(),
        _ => [set.words(Width::Wide), &[0; 17]].concat(),
    };
    let mut spec = new_item(made, code, 0, Link::Zeros, content, administrator(made));
    match TRAITS_PLACE.checked_sub(1 + spec.content.len()) {
        None => spec.content[TRAITS_PLACE - 1] = WIDE_SETS,
        Some(at) => spec.parent = Link::Words(std::array::from_fn(|i| if i == at { WIDE_SETS } else { 0 })),
    }
    insert(made, 0, spec)
}

// ---- contests ----

fn first_number_too_many(made: &Made, _: u32, random: &mut Random) -> Change {
    change_content(made, CONTEST, random, |c, _| c[0] = made.layout.sets.contests())
}

/// The contests of a set's later words that are not among these, though another word has the same bit.
fn hidden_by_other_words(among: Set) -> Set {
    let bits = among.numbers().fold(0, |bits, number| bits | 1 << (number % 32));
    let same_bits = Set::of(&[bits; Width::Wide.words()]);
    same_bits.later_words().minus(among)
}

/// A contest of a later word that is not defined; one with the same bit of another word is.
fn undefined_later(made: &Made, code: u32, random: &mut Random) -> Change {
    let at = pick(made, code, random)?;
    let undefined = hidden_by_other_words(contests(made, at));
    if undefined.is_empty() {
        return None;
    }
    let other = Set::one(random.contest(undefined));
    let alone = random.chance(30);
    change_set(made, at, if alone { other } else { set_of(made, at) | other })
}

/// A contest in the place of another, the words of which are counted the wrong way about: number j as bit j div 8
/// of word j mod 8.
fn counted_across(made: &Made, code: u32, random: &mut Random) -> Change {
    let at = pick(made, code, random)?;
    let (set, defined) = (set_of(made, at), contests(made, at));
    let across = |number: u32| Set::at(number as usize % 8, number / 8);
    let moved: Vec<u32> = set.numbers().filter(|&number| !across(number).is_within(defined)).collect();
    if moved.is_empty() {
        return None;
    }
    let number = *random.pick(&moved);
    change_set(made, at, set.minus(Set::one(number)) | across(number))
}

/// A contest of a ballot is swapped for one of a later word that its session lacks.
fn later_not_in_session(made: &Made, _: u32, random: &mut Random) -> Change {
    ballot_swap(made, random, |i| only_enabled(made, i).later_words())
}
/// The session has the same bit of another word.
fn hidden_not_in_session(made: &Made, _: u32, random: &mut Random) -> Change {
    let of_session = |i: usize| set_of(made, session_of(made, i));
    ballot_swap(made, random, |i| hidden_by_other_words(of_session(i)) & enabled(made, i))
}
/// It is swapped for one of a later word that no open round enables.
fn later_not_enabled(made: &Made, _: u32, random: &mut Random) -> Change {
    ballot_swap(made, random, |i| only_in_session(made, i).later_words())
}
/// An open round enables the same bit of another word.
fn hidden_not_enabled(made: &Made, _: u32, random: &mut Random) -> Change {
    let of_session = |i: usize| set_of(made, session_of(made, i));
    ballot_swap(made, random, |i| hidden_by_other_words(enabled(made, i)) & of_session(i))
}

/// A ballot with contests in the first word and in later ones, and cryptograms for some of them alone.
fn counted_in(made: &Made, random: &mut Random, counted: fn(&Set) -> Set) -> Change {
    let is_part = |set: Set| !counted(&set).is_empty() && counted(&set) != set;
    let at = pick_where(made, random, |i, s| s.code == BALLOT && is_part(set_of(made, i)))?;
    let length = made.layout.sets.words() + widths(made).cryptogram * counted(&set_of(made, at)).count();
    change_item(made, at, |s| s.content.truncate(length))
}
fn counted_in_first_word(made: &Made, _: u32, random: &mut Random) -> Change {
    counted_in(made, random, Set::first_word)
}
fn counted_in_later_words(made: &Made, _: u32, random: &mut Random) -> Change {
    counted_in(made, random, Set::later_words)
}

/// The low bits of a cryptogram that no narrow ballot has.
fn late_cryptogram_bits(made: &Made, _: u32, random: &mut Random) -> Change {
    let most = Width::Narrow.contests() as usize;
    let at = pick_where(made, random, |i, s| s.code == BALLOT && cryptograms(made, i) > most)?;
    let k = cryptograms(made, at);
    let some = random.between(most + 1, k);
    let which = *random.pick(&[most + 1, k, some]);
    low_bits(made, at, which, random)
}

/// The low bits of a cryptogram of a ballot that has 256: of the last, or of one not far before it.
fn cryptogram_of_256(made: &Made, which: usize, random: &mut Random) -> Change {
    let at = pick_where(made, random, |i, s| s.code == BALLOT && cryptograms(made, i) == 256)?;
    low_bits(made, at, which, random)
}
fn last_of_256_bits(made: &Made, _: u32, random: &mut Random) -> Change {
    cryptogram_of_256(made, 256, random)
}
fn near_last_of_256_bits(made: &Made, _: u32, random: &mut Random) -> Change {
    let which = random.between(198, 255);
    cryptogram_of_256(made, which, random)
}

// ---- boards that are sound ----

/// A board of the plain layout with a traits word of 0 or, where it had that, with none.
fn other_plain_traits(made: &Made, _: u32, _: &mut Random) -> Change {
    let plain = items(made)[0].content.len() == PLAIN_GENESIS;
    Some((with_traits(made, plain.then_some(0)), items(made).len()))
}
/// A narrow board without any set is as good as a wide one.
fn wide_without_sets(made: &Made, _: u32, _: &mut Random) -> Change {
    match first_set(made) {
        Some(_) => None,
        None => Some((with_traits(made, Some(other_width(made).traits())), items(made).len())),
    }
}

// ---- the lists ----

/// On boards of both widths.
const BOTH: &[Way] = &[
    (13, "traits that are not known", any_unknown_traits),
    (13, "all traits", all_traits),
    (4, "cut before the traits word", cut_before_traits),
    (4, "cut behind the traits word", cut_behind_traits),
    (6, "genesis of 16 words", genesis_too_short),
    (6, "genesis of 19 words", genesis_too_long),
    (6, "later genesis of 16 or 19 words", later_genesis_misfit),
    (12, "later genesis, the other width", later_genesis_other_width),
    (12, "later genesis, unknown traits", later_genesis_unknown_traits),
    (6, "no cryptogram", no_cryptogram),
    (6, "a cryptogram over all", a_cryptogram_over_all),
    (13, "as many cryptograms as there can be", most_cryptograms),
    (6, "trustees in eight words", wide_trustees),
    (13, "first contest number too many", first_number_too_many),
];

const NARROW: &[Way] =
    &[(6, "narrow board said to be wide", narrow_said_wide), (0, "wide, without a set", wide_without_sets)];

const PLAIN: &[Way] = &[(0, "traits word of 0, or none", other_plain_traits)];

const WIDE: &[Way] = &[
    (6, "wide board not said to be, a round", wide_unsaid_round),
    (13, "wide board not said to be, a contest", wide_unsaid_contest),
    (13, "contest of a later word not in session", later_not_in_session),
    (13, "contest not in session, its bit is", hidden_not_in_session),
    (13, "contest of a later word not enabled", later_not_enabled),
    (13, "contest not enabled, its bit is", hidden_not_enabled),
    (13, "cryptograms of the first word's contests", counted_in_first_word),
    (13, "cryptograms of the later words' contests", counted_in_later_words),
    (13, "bits of a late cryptogram", late_cryptogram_bits),
];

/// On wide boards with a ballot of all contests.
const ALL_CONTESTS: &[Way] = &[
    (13, "bits of cryptogram 256", last_of_256_bits),
    (13, "bits of one of the cryptograms 198 to 255", near_last_of_256_bits),
];

/// Each trait that is not known, by itself.
fn trait_faults() -> impl Iterator<Item = Fault> {
    (FIRST_UNKNOWN..32).map(|bit| Fault {
        number: 13,
        reason: format!("13/trait, bit {bit}"),
        layouts: LAYOUTS.to_vec(),
        all_contests: false,
        code: bit,
        change: unknown_trait,
    })
}

/// Those of a ballot of 256 contests.
fn all_contests_faults() -> impl Iterator<Item = Fault> {
    ALL_CONTESTS.iter().map(|&(number, reason, change)| Fault {
        number,
        reason: format!("{number}/all contests, {reason}"),
        layouts: of_sets(Width::Wide),
        all_contests: true,
        code: 0,
        change,
    })
}

/// All that is about traits and the widths of sets.
pub fn width_faults() -> Vec<Fault> {
    let mut list: Vec<Fault> = trait_faults().chain(all_contests_faults()).collect();
    let mut add = |number: u32, reason: &str, layouts: &[Layout], code: u32, change| {
        let reason = format!("{number}/width, {reason}");
        list.push(Fault { number, reason, layouts: layouts.to_vec(), all_contests: false, code, change });
    };
    let (narrow, wide) = (of_sets(Width::Narrow), of_sets(Width::Wide));
    for (layouts, ways) in [(&LAYOUTS[..], BOTH), (&[Layout::PLAIN], PLAIN), (&narrow, NARROW), (&wide, WIDE)] {
        for &(number, reason, change) in ways {
            add(number, reason, layouts, 0, change);
        }
    }
    for also in [4, 7, 8, 9, 14, 15, 16, 18] {
        let number = if also < 13 { also } else { 13 };
        add(number, &format!("unknown traits, and {also}"), &LAYOUTS, also, unknown_traits_and);
    }
    for code in [ROUND, SESSION, BALLOT] {
        add(6, &format!("set of the other width, type {code}"), &LAYOUTS, code, set_of_other_width);
        add(6, &format!("first is type {code} with a wide set"), &LAYOUTS, code, first_is_wide);
        add(13, &format!("bits counted across words, type {code}"), &wide, code, counted_across);
    }
    for code in [ROUND, SESSION] {
        add(13, &format!("contest undefined, its bit is, type {code}"), &wide, code, undefined_later);
    }
    list
}
