//! Boards on each curve with sets of either width: each fault that goes by them is told by the right word, contest, bound, curve and hash.

use crate::traits_boards::made;
use crate::{hold, hold_sound, refused};
use reference::format::*;
use reference::plan::{Address, Laid, Link, Plan, Previous};
use reference::program::bytes;
use reference::sound::Traits;
use tirfolma::files::Files;
use tirfolma::library::{Refusal, Tables};

const SET: usize = 8;
const BOARDS: u64 = 40;

/// What is changed on a board: the position of the item that is refused for it, and what must be said; none where the board has no place
/// for it.
type Change = fn(&mut Plan) -> Option<(usize, String)>;

const ANY_FAULTS: &[(&str, u32, Change)] = &[
    ("traits 6", 13, |plan| traits(plan, 6, "bits 1 and 2 give the number 3, which no curve has")),
    ("traits 7", 13, |plan| traits(plan, 7, "bits 1 and 2 give the number 3, which no curve has")),
    ("traits 8", 13, |plan| traits(plan, 8, "bit 3 has no meaning")),
    ("traits with the highest bit", 13, |plan| traits(plan, 0x8000_0003, "bit 31 has no meaning")),
    ("traits with three bits", 13, |plan| traits(plan, 0x1111_0000 >> 4, "bits 12, 16, 20 and 1 more have no meaning")),
    ("traits with two bits and a curve", 13, |plan| {
        traits(plan, 0x3e, "bits 3, 4 and 5 have no meaning, and bits 1 and 2 give the number 3, which no curve has")
    }),
    ("all traits", 13, |plan| {
        let bits = "bits 3, 4, 5 and 26 more have no meaning";
        traits(plan, u32::MAX, &format!("{bits}, and bits 1 and 2 give the number 3, which no curve has"))
    }),
    ("traits of a second genesis", 12, second_genesis),
    ("contest 256", 13, |plan| contest(plan, 256)),
    ("contest 4294967295", 13, |plan| contest(plan, u32::MAX)),
    ("round, start is end", 13, start_is_end),
    ("round, a word more", 6, |plan| word_more(plan, ROUND)),
    ("session, a word more", 6, |plan| word_more(plan, SESSION)),
    ("ballot, three words more", 6, |plan| word_more(plan, BALLOT)),
    ("threshold, a word more", 6, |plan| word_more(plan, THRESHOLD)),
    ("commitment, a word more", 6, |plan| word_more(plan, VOTER_COMMITMENT)),
    ("no open round", 11, no_open_round),
    ("commitment, low bit", 13, commitment_bit),
    ("ballot, cryptogram too many", 13, cryptogram_too_many),
    ("ballot, bits of the last cryptogram", 13, cryptogram_bits),
    ("address", 7, wrong_address),
    ("previous of the first", 8, first_previous),
];

/// On boards whose sets have eight words.
const WIDE_FAULTS: &[(&str, u32, Change)] = &[
    ("round, contest undefined", 13, |plan| undefined(plan, ROUND, 1)),
    ("session, contest undefined", 13, |plan| undefined(plan, SESSION, 18)),
    ("round without contests", 13, |plan| no_contests(plan, ROUND, 1)),
    ("session without contests", 13, |plan| no_contests(plan, SESSION, 18)),
    ("ballot, contest not in session", 13, not_in_session),
    ("ballot, contest not enabled", 13, not_enabled),
];

/// What would be right with the other width of sets, so that what tells the width is named; by the width of the board's sets.
const SET_FAULTS: &[(Width, &str, u32, Change)] = &[
    (Width::Wide, "round, set of one word", 6, |plan| {
        narrow(
            plan,
            ROUND,
            1,
            "whose sets of contests have eight words, a round has 13; 6 would fit sets of one word. ",
        )
    }),
    (Width::Wide, "session, set of one word", 6, |plan| {
        narrow(plan, SESSION, 18, ", a session has 26; 19 would fit sets of one word. ")
    }),
    (Width::Wide, "ballot, set of one word", 6, |plan| narrow(plan, BALLOT, 0, "sets of one word")),
    (Width::Narrow, "round, wide set", 6, |plan| {
        wide(plan, ROUND, 1, "whose sets of contests have one word, a round has 6; 13 would fit sets of eight words. ")
    }),
    (Width::Narrow, "session, wide set", 6, |plan| {
        wide(plan, SESSION, 18, ", a session has 19; 26 would fit sets of eight words. ")
    }),
    (Width::Narrow, "ballot, wide set", 6, |plan| wide(plan, BALLOT, 0, "sets of eight words")),
    (Width::Narrow, "contest 32", 13, |plan| contest(plan, 32)),
    (Width::Narrow, "contest 63", 13, |plan| contest(plan, 63)),
    (Width::Narrow, "contest 255", 13, |plan| contest(plan, 255)),
];

/// What would be right on another curve, so that what tells the curve is named.
type CurveChange = fn(&mut Plan, Curve) -> Option<(usize, String)>;

const CURVE_FAULTS: &[(&str, u32, CurveChange)] = &[
    ("voter commitment of another curve", 6, |plan, other| commitment(plan, VOTER_COMMITMENT, other)),
    ("server commitment of another curve", 6, |plan, other| commitment(plan, SERVER_COMMITMENT, other)),
    ("ballot with a cryptogram of another curve", 6, one_cryptogram),
];

fn first(plan: &Plan, code: u32) -> Option<usize> {
    plan.items.iter().position(|item| item.code == code)
}

fn has(set: &[u32], contest: usize) -> bool {
    set[contest / 32] >> (contest % 32) & 1 == 1
}

fn set_words(plan: &Plan) -> usize {
    plan.layout().sets.words()
}

fn cryptogram_words(plan: &Plan) -> usize {
    plan.layout().curve.widths().cryptogram
}

/// A word that is refused: the board is then laid out as one without it.
fn traits(plan: &mut Plan, word: u32, wrong: &str) -> Option<(usize, String)> {
    plan.items[0].content.resize(18, 0);
    plan.items[0].content[17] = word;
    Some((0, format!("has the traits {word:08x} at word 18, byte 72, but {wrong}. Look at this word.")))
}

/// With bits that are not looked at: it is refused before.
fn second_genesis(plan: &mut Plan) -> Option<(usize, String)> {
    let mut genesis = plan.items[0].clone();
    genesis.content.resize(18, 0);
    genesis.content[17] = 6;
    plan.insert(1, genesis);
    Some((1, "item 1 is the board's genesis already".to_string()))
}

fn contest(plan: &mut Plan, number: u32) -> Option<(usize, String)> {
    let at = first(plan, CONTEST)?;
    plan.items[at].content[0] = number;
    Some((at, format!("has the contest number {number} at word ")))
}

/// The greatest number that no contest before the item has.
fn undefined(plan: &mut Plan, code: u32, field: usize) -> Option<(usize, String)> {
    let at = first(plan, code)?;
    let is_defined = |j: &usize| plan.items[..at].iter().any(|i| i.code == CONTEST && i.content[0] as usize == *j);
    let number = (0..256).rev().find(|j| !is_defined(j))?;
    let word = &mut plan.items[at].content[field + number / 32];
    *word |= 1 << (number % 32);
    Some((at, format!("has contest {number} in its set of contests, bit {} of {word:08x} at word ", number % 32)))
}

fn no_contests(plan: &mut Plan, code: u32, field: usize) -> Option<(usize, String)> {
    let at = first(plan, code)?;
    plan.items[at].content[field..field + SET].fill(0);
    Some((at, "has no contests: its set of contests, 8 words at word ".to_string()))
}

fn start_is_end(plan: &mut Plan) -> Option<(usize, String)> {
    let (at, start) = (first(plan, ROUND)?, 1 + set_words(plan));
    plan.items[at].content.copy_within(start..start + 2, start + 2);
    Some((at, "but its start must be before its end. ".to_string()))
}

/// One word in the place of the set. What the item is on a narrow board is no fault.
fn narrow(plan: &mut Plan, code: u32, field: usize, says: &str) -> Option<(usize, String)> {
    let at = first(plan, code)?;
    plan.items[at].content.drain(field..field + SET - 1);
    Some((at, says.to_string()))
}

/// Eight words in the place of the set: what the item is on a wide board.
fn wide(plan: &mut Plan, code: u32, field: usize, says: &str) -> Option<(usize, String)> {
    let at = first(plan, code)?;
    plan.items[at].content.splice(field + 1..field + 1, [0; SET - 1]);
    Some((at, says.to_string()))
}

/// A number of content words that fits no format. The rule is told by what it goes by.
fn word_more(plan: &mut Plan, code: u32) -> Option<(usize, String)> {
    let at = first(plan, code)?;
    let (curve, set) = (plan.layout().curve.name(), set_words(plan));
    let sets = format!("whose sets of contests have {}", if set == 1 { "one word" } else { "eight words" });
    let counts = match code {
        THRESHOLD => ", but a threshold has 10".to_string(),
        ROUND => format!(", but on this board, {sets}, a round has {}", 5 + set),
        SESSION => format!(", but on this board, {sets}, a session has {}", 18 + set),
        VOTER_COMMITMENT => {
            let words = plan.layout().curve.widths().commitment;
            format!(", but on this board, which is on {curve}, a voter commitment has {words}")
        }
        _ => {
            let each = format!("{set} + {} k, with k from 1 to {}", cryptogram_words(plan), 32 * set);
            format!(", but on this board, which is on {curve} and {sets}, a ballot has {each}")
        }
    };
    // A ballot of a cryptogram and three words: with one or two it may fit another format.
    let length = if code == BALLOT { set + cryptogram_words(plan) + 3 } else { plan.items[at].content.len() + 1 };
    plan.items[at].content.resize(length, 0);
    Some((at, format!("{counts}. Look at the low 16 bits of the head.")))
}

/// No round is open at any time of the board.
fn no_open_round(plan: &mut Plan) -> Option<(usize, String)> {
    let (at, start) = (first(plan, SESSION)?, 1 + set_words(plan));
    for round in plan.items.iter_mut().filter(|item| item.code == ROUND) {
        round.content[start..].copy_from_slice(&[u32::MAX, u32::MAX - 1, u32::MAX, u32::MAX]);
    }
    Some((at, "at what is in force: round ".to_string()))
}

fn commitment_bit(plan: &mut Plan) -> Option<(usize, String)> {
    let at = first(plan, VOTER_COMMITMENT)?;
    let bits = match plan.layout().curve {
        Curve::Secp521r1 => 8,
        _ => 24,
    };
    let last = plan.items[at].content.last_mut()?;
    *last |= 1 << (bits - 1);
    Some((at, format!("but the low {bits} bits of that word must be zero. ")))
}

fn cryptogram_too_many(plan: &mut Plan) -> Option<(usize, String)> {
    let (at, set, each) = (first(plan, BALLOT)?, set_words(plan), cryptogram_words(plan));
    let content = &mut plan.items[at].content;
    let contests = (content.len() - set) / each;
    content.resize(set + each * (contests + 1), 0);
    let said = if contests == 1 { "1 contest".to_string() } else { format!("{contests} contests") };
    Some((at, format!("has {said} in its set, ")))
}

/// The content of the session above an item.
fn session(plan: &Plan, at: usize) -> &[u32] {
    match plan.items[at].parent {
        _ if plan.items[at].code == SESSION => &plan.items[at].content,
        Link::Item(parent) => session(plan, parent),
        _ => panic!("a ballot has a session"),
    }
}

/// One more contest in a ballot, with its cryptogram.
fn vote(plan: &mut Plan, at: usize, contest: usize) -> String {
    let each = cryptogram_words(plan);
    let content = &mut plan.items[at].content;
    content.resize(content.len() + each, 0);
    content[contest / 32] |= 1 << (contest % 32);
    format!("has contest {contest} in its set of contests, bit {} of ", contest % 32)
}

/// The greatest number that the session does not have.
fn not_in_session(plan: &mut Plan) -> Option<(usize, String)> {
    let at = first(plan, BALLOT)?;
    let number = (0..256).rev().find(|&j| !has(&session(plan, at)[18..], j))?;
    Some((at, vote(plan, at, number)))
}

/// A contest of the session that the rounds before the ballot do not have.
fn not_enabled(plan: &mut Plan) -> Option<(usize, String)> {
    for at in (0..plan.items.len()).filter(|&at| plan.items[at].code == BALLOT) {
        let is_in_round = |j: usize| plan.items[..at].iter().any(|i| i.code == ROUND && has(&i.content[1..], j));
        let number = (0..256).find(|&j| has(&session(plan, at)[18..], j) && !is_in_round(j));
        if let Some(number) = number {
            return Some((at, vote(plan, at, number)));
        }
    }
    None
}

fn cryptogram_bits(plan: &mut Plan) -> Option<(usize, String)> {
    let at = plan.items.iter().rposition(|item| item.code == BALLOT)?;
    let (set, each) = (set_words(plan), cryptogram_words(plan));
    let content = &mut plan.items[at].content;
    let (last, k) = (content.len() - 1, (content.len() - set) / each);
    content[last] |= 1;
    Some((at, format!("has {:08x} as the last word of cryptogram {k}, at word ", content[last])))
}

/// The last word of the address, which no narrower one has.
fn wrong_address(plan: &mut Plan) -> Option<(usize, String)> {
    let (at, curve) = (plan.items.len() - 1, plan.layout().curve);
    plan.items[at].address = Address::Flipped(32 * curve.widths().address - 1);
    let hash = match curve {
        Curve::Secp256r1 => "SHA-256",
        Curve::Secp384r1 => "SHA-384",
        Curve::Secp521r1 => "SHA-512",
    };
    Some((at, format!("that is not the {hash} of its words ")))
}

fn first_previous(plan: &mut Plan) -> Option<(usize, String)> {
    let zeros = match plan.layout().curve {
        Curve::Secp256r1 => "eight zeros",
        Curve::Secp384r1 => "twelve zeros",
        Curve::Secp521r1 => "sixteen zeros",
    };
    plan.items[0].previous = Previous::Words([7; WIDEST]);
    Some((0, format!("but it is the first main item, whose previous field must be {zeros}. ")))
}

fn commitment(plan: &mut Plan, code: u32, other: Curve) -> Option<(usize, String)> {
    let at = first(plan, code)?;
    let (own, words) = (plan.layout().curve, other.widths().commitment);
    plan.items[at].content.resize(words, 0);
    let name = if code == VOTER_COMMITMENT { "voter commitment" } else { "server commitment" };
    let rule = format!("on this board, which is on {}, a {name} has {}", own.name(), own.widths().commitment);
    Some((at, format!("{rule}; {words} would fit {}. ", other.name())))
}

/// The words of one: secp521r1's are also those of two cryptograms on secp256r1.
fn one_cryptogram(plan: &mut Plan, other: Curve) -> Option<(usize, String)> {
    let (at, set) = (first(plan, BALLOT)?, set_words(plan));
    let words = set + other.widths().cryptogram;
    plan.items[at].content.resize(words, 0);
    let fits = if other == Curve::Secp521r1 { "secp256r1, or secp521r1" } else { other.name() };
    Some((at, format!("; {words} would fit {fits}. ")))
}

fn files(laid: &Laid) -> Files {
    let [board, verdicts, roll] = [&laid.words, &laid.verdicts, &laid.roll].map(|words| bytes(words));
    Files::of_bytes([&board, &verdicts, &roll])
}

/// The text of a board that is refused, held to the words.
fn explained(name: &str, files: &Files, refusal: Refusal, says: &str) -> String {
    assert_eq!(refused(files, &mut Tables::default()), Some(refusal), "{name}");
    let text = hold(files, refusal).unwrap_or_else(|why| panic!("{name}: {why}"));
    assert!(text.contains(says), "{name}: no '{says}' in\n    {text}");
    text
}

/// That of a board with a fault; none where the board has no place for the fault.
fn faulty(
    name: &str,
    number: u32,
    mut plan: Plan,
    change: impl Fn(&mut Plan) -> Option<(usize, String)>,
) -> Option<String> {
    let (at, says) = change(&mut plan)?;
    let refusal = Refusal { number, items: at as u32 };
    Some(explained(name, &files(&plan.lay()), refusal, &says))
}

/// How a text ends that names what tells the format of a board.
fn look(traits: Traits, read: &str) -> String {
    match traits.word() {
        Some(word) => format!(", and at the traits word, {word:08x} at word 18, byte 72."),
        None => format!(", and at item 1 (genesis), which has no traits word, so that {read}."),
    }
}

/// Each fault on a few boards of each layout, with what must be said of it at the end.
fn every_board(most: u64, check: impl Fn(&str, Traits, Plan) -> bool, name: &str, is_for: impl Fn(Layout) -> bool) {
    for traits in Traits::ALL.into_iter().filter(|traits| is_for(traits.layout())) {
        let boards = (0..most).filter(|&seed| {
            let name = format!("{name}, {traits:?}, seed {seed}");
            check(&name, traits, made(seed, 80, traits).plan)
        });
        let boards = boards.count();
        assert!(boards > 2, "{name}, {traits:?}: only {boards} boards");
    }
}

/// Nothing of them would be right with other traits.
#[test]
fn faults_of_any_format() {
    for (faults, is_wide) in [(ANY_FAULTS, false), (WIDE_FAULTS, true)] {
        for &(name, number, change) in faults {
            let check = |name: &str, _: Traits, plan: Plan| {
                let Some(text) = faulty(name, number, plan, change) else { return false };
                assert!(!text.contains("traits word") && !text.contains("would"), "{name}: {text}");
                true
            };
            every_board(BOARDS, check, name, |layout| !is_wide || layout.sets == Width::Wide);
        }
    }
}

#[test]
fn faults_of_the_other_width_of_sets() {
    for &(width, name, number, change) in SET_FAULTS {
        let check = |name: &str, traits: Traits, plan: Plan| {
            let Some(text) = faulty(name, number, plan, change) else { return false };
            let read = if text.contains("a ballot has ") { "the board is on secp256r1 and sets" } else { "sets" };
            assert!(text.ends_with(&look(traits, &format!("{read} have one word"))), "{name}: {text}");
            true
        };
        every_board(BOARDS, check, name, |layout| layout.sets == width);
    }
}

#[test]
fn faults_of_another_curve() {
    for &(name, number, change) in CURVE_FAULTS {
        for other in CURVES {
            let check = |name: &str, traits: Traits, plan: Plan| {
                let Some(text) = faulty(name, number, plan, |plan| change(plan, other)) else { return false };
                let read = if text.contains("a ballot has ") { " and sets have one word" } else { "" };
                let look = look(traits, &format!("the board is on secp256r1{read}"));
                assert!(text.ends_with(&look), "{name}, {}: {text}", other.name());
                true
            };
            // One cryptogram of secp521r1 is as wide as two of secp256r1.
            let has_place = |layout: Layout| {
                let is_twice = (layout.curve, other) == (Curve::Secp256r1, Curve::Secp521r1);
                layout.curve != other && !(name.starts_with("ballot") && is_twice)
            };
            every_board(BOARDS, check, name, has_place);
        }
    }
}

/// The first item is refused, and what would follow it is told with the curve.
#[test]
fn boards_laid_out_as_on_another_curve() {
    for other in CURVES {
        let check = |name: &str, traits: Traits, mut plan: Plan| {
            if plan.items.len() == 1 {
                return false;
            }
            plan.laid_as = Some(other);
            let laid = plan.lay();
            let says = format!("; with the widths of {} ", other.name());
            let text = explained(name, &files(&laid), Refusal { number: 7, items: 0 }, &says);
            let follows = format!(" would follow it, at word {}, ", laid.places[1]);
            assert!(text.contains(&follows), "{name}: no '{follows}' in\n    {text}");
            let look = match traits {
                Traits::Said(_) => look(traits, ""),
                Traits::Unsaid => {
                    ", and at whether its traits word is missing: without one the board is on secp256r1.".to_string()
                }
            };
            assert!(text.ends_with(&look), "{name}: {text}");
            true
        };
        every_board(BOARDS, check, other.name(), |layout| layout.curve != other);
    }
}

/// Where an item follows as it must, no other curve is named, whatever stands where one would follow with its widths.
#[test]
fn words_that_look_like_heads() {
    const CAST_HEAD: u32 = 0x1014_0000;
    for traits in Traits::ALL {
        let mut plan = made(5, 80, traits).plan;
        let mut text = plan.items[0].clone();
        (text.code, text.content, text.parent) = (TEXT, vec![CAST_HEAD; 64], Link::Item(0));
        plan.insert(1, text);
        plan.items[0].signature.fill(CAST_HEAD);
        plan.items[0].address = Address::Flipped(0);
        let laid = plan.lay();
        for other in CURVES.into_iter().filter(|&other| other != traits.layout().curve) {
            assert_eq!(laid.words[plan.items[0].content.len() + other.frame()], CAST_HEAD, "{traits:?}");
        }
        let says = ". Look at whether a word was changed.";
        explained(&format!("{traits:?}"), &files(&laid), Refusal { number: 7, items: 0 }, says);
    }
}

/// The first item is of the board's curve, those behind it of another: the second is refused, and it is said what would follow it.
#[test]
fn items_of_another_curve() {
    for (traits, other) in Traits::ALL.into_iter().flat_map(|traits| CURVES.map(|other| (traits, other))) {
        let curve = traits.layout().curve;
        if curve == other {
            continue;
        }
        let mut boards = 0;
        for seed in 0..BOARDS {
            let mut plan = made(seed, 80, traits).plan;
            if plan.items.len() < 9 {
                continue;
            }
            let mut laid = plan.lay();
            plan.laid_as = Some(other);
            let others = plan.lay();
            laid.words.splice(laid.places[1].., others.words[others.places[1]..].iter().copied());
            let third = laid.places[1] + others.places[2] - others.places[1];
            let says = format!("; with the widths of {} ", other.name());
            let name = format!("{traits:?}, {}, seed {seed}", other.name());
            let text = explained(&name, &files(&laid), Refusal { number: 7, items: 1 }, &says);
            let follows = format!(" would follow it, at word {third}, byte {}. ", 4 * third);
            assert!(text.contains(&follows), "{name}: no '{follows}' in\n    {text}");
            assert!(text.ends_with(&look(traits, "the board is on secp256r1")), "{name}: {text}");
            boards += 1;
        }
        assert!(boards > 9, "only {boards} boards");
    }
}

/// A genesis alone on secp256r1 that says it is on secp384r1: its words end too soon, and with the right widths the closing word follows.
#[test]
fn a_genesis_of_a_smaller_curve() {
    let mut plan = made(1, 80, Traits::Said(LAYOUTS[2])).plan;
    plan.items.truncate(1);
    plan.laid_as = Some(Curve::Secp256r1);
    let files = files(&plan.lay());
    let text = explained("genesis", &files, Refusal { number: 4, items: 0 }, "");
    assert_eq!(
        text,
        "Item 1 (genesis, at word 0, byte 0 of board.words) runs past the end of the file: by its head it has 81 words, \
         but there are 62 only; with the widths of secp256r1 the closing word would follow it, at word 61, byte 244. \
         Look at how the file was copied, and at the traits word, 00000002 at word 18, byte 72."
    );
}

/// A traits word that is refused is named where the first item is refused before it, since its widths are not known then.
#[test]
fn unknown_traits_before_their_refusal() {
    for (curve, word, wrong) in [
        (Curve::Secp384r1, 0x0a, "bit 3 has no meaning"),
        (Curve::Secp521r1, 0x06, "bits 1 and 2 give the number 3, which no curve has"),
    ] {
        let mut plan = made(3, 80, Traits::Said(LAYOUTS[2])).plan;
        assert!(plan.items.len() > 1);
        plan.items[0].content[17] = word;
        plan.laid_as = Some(curve);
        let read = ", so that the board is read as on secp256r1.";
        let look = format!(", and at the traits word, {word:08x} at word 18, byte 72: {wrong}{read}");
        let text = explained("unknown traits", &files(&plan.lay()), Refusal { number: 7, items: 0 }, &look);
        assert!(text.contains("that is not the SHA-256 of its words 0 to 36; with the widths of "), "{text}");
        plan.cut = Some((0, 40));
        let text = explained("unknown traits, cut", &files(&plan.lay()), Refusal { number: 4, items: 0 }, &look);
        assert!(text.contains("by its head it has 61 words, but there are 40 only. Look at "), "{text}");
    }
}

/// A number of words that fits more than one format: all are named.
#[test]
fn a_ballot_that_fits_two_curves() {
    let mut ballots = 0;
    for seed in 0..BOARDS {
        let mut plan = made(seed, 80, Traits::Said(LAYOUTS[4])).plan;
        let Some(at) = first(&plan, BALLOT) else { continue };
        // 25 cryptograms of 17 words, or 17 of 25.
        plan.items[at].content.resize(1 + 17 * 25, 0);
        let says = "which is on secp521r1 and whose sets of contests have one word, a ballot has 1 + 34 k, with k from 1 to 32; \
                    426 would fit secp256r1, or secp384r1. ";
        explained("two curves", &files(&plan.lay()), Refusal { number: 6, items: at as u32 }, says);
        ballots += 1;
    }
    assert!(ballots > 2, "only {ballots} ballots");
}

#[test]
fn sound_boards_of_all_traits() {
    for (traits, seed) in Traits::ALL.into_iter().flat_map(|traits| (0..10).map(move |seed| (traits, seed))) {
        hold_sound(&format!("{traits:?}, seed {seed}"), &files(&made(seed, 80, traits).plan.lay()));
    }
}
