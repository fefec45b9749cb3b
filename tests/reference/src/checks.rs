//! Cases from seeds, the reference held against what their making foretells, and an
//! implementation behind the C interface held against the reference word by word.

use crate::audit::{audit, refused, Board, Report};
use crate::calls::{call_ancestry, call_audit, call_compare, call_notes, call_receipts, Tally};
use crate::crowded::{all_contests, crowded_with, most_ballots, Fate};
use crate::damage::{damage_plan, damage_roll, damage_words, no_board};
use crate::faults::{bad_roll, faults, rank, spoil_more, Fault, Faulty};
use crate::format::*;
use crate::hidden::remove_hidden;
use crate::interface::*;
use crate::noted::Noted;
use crate::plan::{Laid, Plan, Spec};
use crate::presented::Presented;
use crate::program::PROGRAM_WORDS;
use crate::random::Random;
use crate::reached::{Ballots, OnCurve, Roll, Sets, CURVES_WANTED, ROLLS_WANTED, SETS_WANTED, WANTED};
use crate::roll::{any_roll, full_around, roll_of, voters_of};
use crate::sound::{any_shape, make, make_with, many_contests, Expected, Made, Shape, Traits};
use crate::stand_in::{ANSWER_NEED_BEFORE, BALLOTS_NEED_BEFORE, INDEX_NEED_BEFORE};
use crate::told::{check_end, check_told, PROPERTIES};

mod notes;
mod plans;
mod receipts;
pub use notes::*;
pub use plans::*;
pub use receipts::*;

/// What is known of a board from its making.
#[derive(Clone)]
pub enum Known {
    /// It is sound, and this is what the audit must report; with the place of each head.
    Sound(Expected, Vec<usize>, Digest),
    /// It is refused with this number after so many items.
    Refused(u32, usize),
    Nothing,
}

#[derive(Clone)]
pub struct Case {
    /// The group and seed that make it again, and what it is.
    pub name: String,
    pub words: Vec<u32>,
    pub verdicts: Vec<u32>,
    pub roll: Vec<u32>,
    pub known: Known,
    /// A board to compare it with, and whether this one is the kept one.
    pub other: Laid,
    pub kept: bool,
}

impl Case {
    pub fn board(&self) -> Board<'_> {
        Board { words: &self.words, verdicts: &self.verdicts, roll: &self.roll }
    }

    /// Other words in the place of the board's, the verdicts and the roll.
    fn replace(&mut self, laid: Laid) {
        (self.words, self.verdicts, self.roll) = (laid.words, laid.verdicts, laid.roll);
    }
}

/// How a group of cases is made: from a seed.
#[derive(Clone, Copy, PartialEq, Eq, Debug)]
pub enum Group {
    Sound,
    /// Each fault of the list in turn.
    Faults,
    /// Two faults in one item.
    Order,
    /// Damage that keeps links and hashes right.
    Rules,
    /// Damage to the words.
    Words,
    /// Long boards, and the limits.
    Long,
    /// As many counted ballots as there can be, or nearly.
    Full,
    /// As many ballots as there can be, closed, open or opened by turns.
    Ballots,
    /// Many contests, up to 256.
    Contests,
}

pub const GROUPS: [Group; 9] = [
    Group::Sound,
    Group::Faults,
    Group::Order,
    Group::Rules,
    Group::Words,
    Group::Long,
    Group::Full,
    Group::Ballots,
    Group::Contests,
];

pub fn group_named(name: &str) -> Option<Group> {
    GROUPS.into_iter().find(|g| format!("{g:?}").eq_ignore_ascii_case(name))
}

/// The faults, made once.
pub struct Makers {
    pub faults: Vec<Fault>,
}

impl Default for Makers {
    fn default() -> Makers {
        Makers { faults: faults() }
    }
}

impl Makers {
    /// The fault of a seed: each in turn.
    pub fn fault(&self, seed: u64) -> &Fault {
        &self.faults[seed as usize % self.faults.len()]
    }

    /// The layout of the board that it is put into: by turns, each that has a place for it.
    pub fn layout(&self, seed: u64) -> Layout {
        let (turn, layouts) = (seed as usize / self.faults.len(), &self.fault(seed).layouts);
        layouts[turn % layouts.len()]
    }
}

fn sound_case(name: String, made: &Made, random: &mut Random) -> Case {
    let laid = made.plan.lay();
    let end = (0..laid.addresses.len()).rev().find(|&i| made.plan.items[i].kind == MAIN).expect("a main item");
    let other = sibling(made, random).lay();
    let known = Known::Sound(made.expected.clone(), laid.places, laid.addresses[end]);
    let (words, verdicts, roll) = (laid.words, laid.verdicts, laid.roll);
    Case { name, words, verdicts, roll, known, other, kept: random.chance(50) }
}

/// A sound board that shares main items with this one: a shorter one, one with other hidden
/// tracks or signatures, or one that goes another way from some item on. Its roll may be another, or bad. At times
/// it is the beginning of a board with other traits.
fn sibling(made: &Made, random: &mut Random) -> Plan {
    let mut plan = made.plan.clone();
    if random.chance(10) {
        give_other_traits(&mut plan, random);
    }
    if random.chance(40) {
        plan.items.truncate(random.between(1, made.plan.items.len()));
    }
    if random.chance(40) {
        remove_hidden(&mut plan, random);
    }
    if random.chance(40) {
        for item in &mut plan.items {
            item.signature[random.below(made.layout.curve.widths().signature)] = random.word();
        }
    }
    if random.chance(25) {
        // Another time for the last main item: another end address.
        if let Some(last) = plan.items.iter_mut().rev().find(|s| s.kind == MAIN) {
            last.time = last.time.saturating_add(1);
        }
    }
    match random.below(10) {
        0 | 1 => plan.roll = roll_of(voters_of(&plan.items)),
        2 => plan.roll = any_roll(&voters_of(&plan.items), random),
        3 => damage_roll(&mut plan.roll, random),
        _ => {}
    }
    plan
}

/// Other traits for a board, which then ends before its first contest set, or its first commitment where the sets are
/// as wide.
fn give_other_traits(plan: &mut Plan, random: &mut Random) {
    let (sets, traits) = (plan.layout().sets, *random.pick(&Traits::ALL));
    plan.items[0].content.truncate(PLAIN_GENESIS);
    plan.items[0].content.extend(traits.word());
    let first_other = if traits.layout().sets == sets { VOTER_COMMITMENT } else { ROUND };
    let is_wide = |s: &Spec| s.code == CONTEST && s.content[0] >= traits.layout().sets.contests();
    let end = plan.items.iter().position(|s| s.code == first_other || is_wide(s));
    plan.items.truncate(end.unwrap_or(plan.items.len()));
}

/// A sound board to put a fault into; with these traits, or any.
fn board_for_faults(random: &mut Random, traits: Option<Traits>) -> Made {
    let traits = traits.unwrap_or_else(|| Traits::any(random));
    if traits.layout().sets == Width::Wide && random.chance(2) {
        return board_of_many(traits.layout().curve, random);
    }
    let most = *random.pick(&[20, 60, 120, 120]);
    let mut shape = any_shape(random, most);
    shape.items = shape.items.max(most / 2);
    any_board(random, shape, traits)
}

/// A sound board of this shape, at times with a voter whose number is at an end.
fn any_board(random: &mut Random, shape: Shape, traits: Traits) -> Made {
    let mut made = make_with(random, shape, traits);
    let voters: Vec<u32> = voters_of(&made.plan.items).into_keys().collect();
    if !voters.is_empty() && random.chance(25) {
        let ends = [0, 1, 0x7fff_ffff, 0x8000_0000, u32::MAX - 1, u32::MAX];
        made.rename(*random.pick(&voters), *random.pick(&ends));
    }
    made
}

/// Makes a case's name of what it is.
type Name<'a> = &'a dyn Fn(&str) -> String;

/// The group and seed that make a case again, and what it is.
fn case_name(group: Group, seed: u64, what: &str) -> String {
    format!("{} {seed} ({what})", format!("{group:?}").to_lowercase())
}

/// The numbers that a case is made from.
fn seeded(group: Group, seed: u64) -> Random {
    Random::new(seed.wrapping_mul(GROUPS.len() as u64).wrapping_add(group as u64))
}

/// The case of a group and seed. The same seed gives the same case.
pub fn case(makers: &Makers, group: Group, seed: u64) -> Case {
    let random = &mut seeded(group, seed);
    let name = |what: &str| case_name(group, seed, what);
    match group {
        Group::Sound => {
            let shape = any_shape(random, *[15, 60, 150].get(seed as usize % 3).unwrap_or(&60));
            let traits = Traits::any(random);
            let made = any_board(random, shape, traits);
            sound_case(name("sound"), &made, random)
        }
        Group::Faults => case_with_fault(makers, seed).0,
        Group::Order => order_case(makers, &name, random),
        Group::Rules => {
            let made = board_for_faults(random, None);
            let mut plan = made.plan.clone();
            damage_plan(&mut plan, random);
            faulty_case(name("rules"), &made, &plan, Known::Nothing, random)
        }
        Group::Words => words_case(&name, random),
        Group::Long => long_case(&name, seed, random),
        Group::Full => full_case(makers, &name, seed, random),
        Group::Ballots => {
            let fate = [Fate::Closed, Fate::Open, Fate::Opened][seed as usize % 3];
            let traits = Traits::ALL[seed as usize / 3 % Traits::ALL.len()];
            let made = most_ballots(random, fate, traits);
            sound_case(name(&format!("ballots, {fate:?}").to_lowercase()), &made, random)
        }
        Group::Contests => contests_case(makers, &name, seed, random),
    }
}

/// A board with two faults in one item.
fn order_case(makers: &Makers, name: Name, random: &mut Random) -> Case {
    loop {
        let fault = random.pick(&makers.faults);
        let made = board_for_faults(random, None);
        let Some(mut faulty) = fault.apply(&made, random) else { continue };
        let Some(second) = spoil_more(&mut faulty, random) else { continue };
        let first = if rank(second) < rank(faulty.number) { second } else { faulty.number };
        let what = format!("{} with {second}", fault.reason);
        // A bad roll is seen before any item.
        let known = Known::Refused(first, if first == 20 { 0 } else { faulty.items });
        return faulty_case(name(&what), &made, &faulty.plan, known, random);
    }
}

/// Words that are damaged, too many, or never were a board.
fn words_case(name: Name, random: &mut Random) -> Case {
    let made = board_for_faults(random, None);
    let mut case = faulty_case(name("words"), &made, &made.plan, Known::Nothing, random);
    if random.chance(2) {
        oversize(&mut case, 3, random);
    } else if random.chance(15) {
        (case.words, case.verdicts, case.roll) = no_board(random);
    } else {
        let mut laid = made.plan.lay();
        damage_words(&mut laid, random);
        case.replace(laid);
    }
    case
}

/// A board of many contests: sound, with a fault, damaged, as long as there may be, or with ballots of all contests,
/// at times as many of them as the word limit allows. All are wide but some of those.
fn contests_case(makers: &Makers, name: Name, seed: u64, random: &mut Random) -> Case {
    // The curves by turns.
    let turn = seed as usize / 5;
    let curve = CURVES[turn % CURVES.len()];
    match seed % 5 {
        0 => {
            let voters = *random.pick(&[1, 1, 2, most_wide_ballots(curve)]);
            let sets = [Width::Wide, Width::Narrow][turn / CURVES.len() % 2];
            let traits = Traits::of_layout(Layout { curve, sets }, random);
            sound_case(name("contests, all on each ballot"), &all_contests(random, voters, traits), random)
        }
        1 => {
            let made = board_of_many(curve, random);
            sound_case(name("contests"), &made, random)
        }
        2 => loop {
            let made = board_of_many(curve, random);
            let fault = random.pick(&makers.faults);
            let Some(faulty) = fault.apply(&made, random).filter(|faulty| faulty.number != 0) else { continue };
            let known = Known::Refused(faulty.number, faulty.items);
            let what = format!("contests, {}", fault.reason);
            return faulty_case(name(&what), &made, &faulty.plan, known, random);
        },
        3 => {
            let made = board_of_many(curve, random);
            let mut plan = made.plan.clone();
            damage_plan(&mut plan, random);
            faulty_case(name("contests, damaged"), &made, &plan, Known::Nothing, random)
        }
        _ => {
            let shape = Shape { words: Some(MAX_WORDS), ..many_contests(random) };
            let shape = Shape { items: random.between(1_950, MAX_ITEMS), ..shape };
            let made = make_with(random, shape, Traits::Said(Layout { curve, sets: Width::Wide }));
            sound_case(name("contests, long"), &made, random)
        }
    }
}

/// The ballots of all 256 contests that fit on a board, with an item of each contest and eight rounds.
fn most_wide_ballots(curve: Curve) -> usize {
    let (frame, widths) = (curve.frame(), curve.widths());
    // Genesis, threshold, authorizer, contests, rounds, intent, extraction; then the items of one ballot.
    let others = 18 + 10 + 9 + 256 + 8 * 13 + FINGERPRINT + (3 + 256 + 8 + 2) * frame + 1;
    let each = 26 + 2 * widths.commitment + 8 + 256 * widths.cryptogram + 5 * frame;
    (MAX_WORDS - others) / each
}

/// A board of many contests, with wide sets.
fn board_of_many(curve: Curve, random: &mut Random) -> Made {
    let shape = many_contests(random);
    make_with(random, shape, Traits::Said(Layout { curve, sets: Width::Wide }))
}

/// The case of a seed in the group of faults, and the plan that it was laid out from.
pub fn case_with_fault(makers: &Makers, seed: u64) -> (Case, Faulty) {
    let random = &mut seeded(Group::Faults, seed);
    let fault = makers.fault(seed);
    loop {
        let traits = Traits::of_layout(makers.layout(seed), random);
        let made = match fault.all_contests {
            true => all_contests(random, 1, traits),
            false => board_for_faults(random, Some(traits)),
        };
        if let Some(faulty) = fault.apply(&made, random) {
            let name = case_name(Group::Faults, seed, &fault.reason);
            let case = match faulty.number {
                // Another roll, and the board is sound still.
                0 => sound_case(name, &Made { plan: faulty.plan.clone(), ..made }, random),
                number => faulty_case(name, &made, &faulty.plan, Known::Refused(number, faulty.items), random),
            };
            return (case, faulty);
        }
    }
}

fn faulty_case(name: String, made: &Made, plan: &Plan, known: Known, random: &mut Random) -> Case {
    let Laid { words, verdicts, roll, .. } = plan.lay();
    let other = sibling(made, random).lay();
    Case { name, words, verdicts, roll, known, other, kept: random.chance(50) }
}

/// Makes a board longer than there may be words, by at most so many; at times the roll is bad as well.
fn oversize(case: &mut Case, more: usize, random: &mut Random) {
    case.words.resize(MAX_WORDS + random.between(1, more), random.word());
    if random.chance(50) {
        case.roll = bad_roll(&case.roll, random);
    }
    case.known = Known::Refused(1, 0);
}

/// A board of a curve at the limits: exact sizes, many items.
pub fn long_shape(which: u64, curve: Curve, random: &mut Random) -> Shape {
    let (items, words) = match which % 4 {
        0 => (MAX_ITEMS, None),
        1 => (MAX_ITEMS, Some(MAX_WORDS)),
        2 => (random.between(1_950, MAX_ITEMS), Some(MAX_WORDS)),
        // With contents of 42 words, or of 20 to 24.
        _ => {
            let least = if curve == Curve::Secp256r1 { 20 } else { 24 };
            let [fewest, most] = [42, least].map(|content| PROGRAM_WORDS / (curve.frame() + content));
            (random.between(fewest, most), Some(PROGRAM_WORDS))
        }
    };
    Shape { items, words, long: 20, voters: random.between(3, 300), extraction: random.chance(60) }
}

fn long_case(name: Name, seed: u64, random: &mut Random) -> Case {
    // Each way below comes by turns with three layouts, one of each curve.
    let (way, turn) = (seed / 4 % 6, seed / 24);
    let layout = LAYOUTS[(way + 2 * turn) as usize % LAYOUTS.len()];
    let traits = Traits::of_layout(layout, random);
    let shape = long_shape(seed, layout.curve, random);
    let made = make_with(random, shape, traits);
    let mut case = sound_case(name("long, sound"), &made, random);
    let full = made.plan.items.len() == MAX_ITEMS;
    match way {
        1 if full => {
            // One item more than the limit, or something that looks like one.
            let word = match random.below(4) {
                0 => head(MAIN, TEXT, 0),
                1 => random.word() >> 5,
                2 => head(HIDDEN, TRACK, 9),
                _ => head(MAIN, 99, 0),
            };
            case.words.pop();
            case.words.push(word);
            if random.chance(50) && case.words.len() + 60 < MAX_WORDS {
                case.words.extend(random.words(50));
            }
            case.known = Known::Refused(1, MAX_ITEMS);
            case.name = name("long, an item too many");
        }
        2 => {
            let items = made.plan.items.len();
            case.words.pop();
            case.known = Known::Refused(4, items);
            case.name = name("long, no closing word");
        }
        3 => {
            // Over the word limit by one or more, whatever else is wrong.
            let more = *random.pick(&[1, 2, 1000]);
            oversize(&mut case, more, random);
            case.name = name("long, a word too many");
        }
        4 => {
            let mut plan = made.plan.clone();
            damage_plan(&mut plan, random);
            case.replace(plan.lay());
            case.known = Known::Nothing;
            case.name = name("long, damaged");
        }
        5 => {
            let at = random.between(case.words.len() / 2, case.words.len() - 2);
            case.words[at] ^= 1 << random.below(32);
            case.known = Known::Nothing;
            case.name = name("long, a bit turned over");
        }
        _ => {}
    }
    case
}

/// The voters of a full board, each counted: with five items each, five before them and an
/// extraction's three behind, they make 2,048. This and the words of ballot table for their rows
/// are written out, not taken from `format`, so that a wrong bound there is noticed; so are the words
/// of index table for a row of each item.
pub const FULL: usize = 408;
pub const FULL_TABLE: usize = 1_224;
pub const FULL_INDEX: usize = 10_240;

/// A board of 2,048 items with 408 counted ballots, or fewer where voters cast again; sound, or
/// with one thing wrong.
fn full_case(makers: &Makers, name: Name, seed: u64, random: &mut Random) -> Case {
    let (which, turn) = (seed % 8, seed / 8);
    match which {
        1 | 7 => {
            let fewer = random.between(380, FULL - 2);
            let voters = if which == 1 { FULL - 1 } else { *random.pick(&[FULL / 2, fewer, fewer]) };
            full_cast_again(name, voters, random)
        }
        // Without an extraction there is room for three items that cast nothing.
        2 => sound_case(name("full"), &full_board(MAX_ITEMS, FULL, false, random), random),
        3 if turn % 2 == 1 => full_voter_too_many(name, random),
        3 => full_item_too_many(name, random),
        4 if turn % 5 == 1 => full_unclosed(name, random),
        4 => full_faulty(makers, name, &at_close, random),
        5 => full_bit_turned(name, turn, random),
        // Every other one is about all counted ballots.
        6 => {
            let any = turn % 2 == 1;
            let wanted = |fault: &Fault| !at_close(fault) && (any || fault.reason.contains("fingerprint"));
            full_faulty(makers, name, &wanted, random)
        }
        _ => sound_case(name("full"), &full_board(MAX_ITEMS, FULL, true, random), random),
    }
}

/// A board of so many items in which so many voters cast, each counted once.
fn full_board(items: usize, voters: usize, extraction: bool, random: &mut Random) -> Made {
    let traits = Traits::any(random);
    let made = crowded_with(random, Shape { items, words: None, long: 20, voters, extraction }, traits);
    assert_eq!(made.expected.ballots.len(), voters, "each voter counts once");
    made
}

/// A sound board of fewer voters than there is room for, some of whom cast again.
fn full_cast_again(name: Name, voters: usize, random: &mut Random) -> Case {
    let made = full_board(MAX_ITEMS, voters, random.chance(60), random);
    let casts = made.plan.items.iter().filter(|s| s.code == CAST).count();
    assert!(casts > voters, "some voter casts again");
    sound_case(name("full, cast again"), &made, random)
}

/// A board of one voter more than there is room for: two items over the limit.
fn full_voter_too_many(name: Name, random: &mut Random) -> Case {
    let made = full_board(5 + 5 * (FULL + 1), FULL + 1, false, random);
    faulty_case(name("full, a voter too many"), &made, &made.plan, Known::Refused(1, MAX_ITEMS), random)
}

/// A full board with another intent behind it, with all that it needs.
fn full_item_too_many(name: Name, random: &mut Random) -> Case {
    let made = full_board(MAX_ITEMS, FULL, true, random);
    let mut plan = made.plan.clone();
    let mut intent = plan.items[MAX_ITEMS - 3].clone();
    intent.time = plan.items[MAX_ITEMS - 1].time;
    plan.items.push(intent);
    faulty_case(name("full, an item too many"), &made, &plan, Known::Refused(1, MAX_ITEMS), random)
}

/// A full board without a closing word.
fn full_unclosed(name: Name, random: &mut Random) -> Case {
    let made = full_board(MAX_ITEMS, FULL, true, random);
    let mut plan = made.plan.clone();
    plan.closing = Some(None);
    faulty_case(name("full, no closing word"), &made, &plan, Known::Refused(4, MAX_ITEMS), random)
}

/// Whether a fault is seen only when all items have passed.
fn at_close(fault: &Fault) -> bool {
    fault.number == 18
}

/// A full board with a fault of those that are wanted.
fn full_faulty(makers: &Makers, name: Name, wanted: &dyn Fn(&Fault) -> bool, random: &mut Random) -> Case {
    let made = full_board(MAX_ITEMS, FULL, true, random);
    loop {
        let fault = random.pick(&makers.faults);
        if !wanted(fault) {
            continue;
        }
        let Some(faulty) = fault.apply(&made, random) else { continue };
        // An item put behind the last one would be over the limit.
        if at_close(fault) == (faulty.items >= MAX_ITEMS) {
            let what = format!("full, {}", fault.reason);
            let known = Known::Refused(faulty.number, faulty.items);
            return faulty_case(name(&what), &made, &faulty.plan, known, random);
        }
    }
}

/// A full board with a bit turned over.
fn full_bit_turned(name: Name, turn: u64, random: &mut Random) -> Case {
    let made = full_board(MAX_ITEMS, FULL, true, random);
    let mut case = sound_case(name("full, a bit turned over"), &made, random);
    turn_bit(&mut case, turn, random);
    case
}

/// Turns a bit of a sound board over, in a part that goes by turns, and notes what it is then.
/// Not in a head, where what it is depends on the bit.
fn turn_bit(case: &mut Case, turn: u64, random: &mut Random) {
    if turn % 6 == 5 {
        return turn_weight_bit(case, random);
    }
    let Known::Sound(_, places, _) = &case.known else { panic!("a sound board") };
    let (items, bit) = (places.len(), random.below(32));
    let at = random.below(items);
    let place = places[at];
    let curve = Layout::of(&case.words).curve;
    let widths = curve.widths();
    let signature = place + count(case.words[place]) + curve.hashed_frame();
    let verdict = at * VERDICT_WORDS;
    let (on_board, word, refusal) = match turn % 6 {
        0 => (true, random.between(place + 1, signature - 1), Some((7, at))),
        1 => (true, signature + random.below(widths.signature), None),
        2 => (true, signature + widths.signature + random.below(widths.address), Some((7, at))),
        3 => (true, case.words.len() - 1, Some(if bit < 28 { (18, items) } else { (1, items) })),
        _ => {
            let word = random.below(VERDICT_WORDS);
            let number = match (word, bit) {
                (0, 0) => 16,
                (0, _) => 14,
                _ => 15,
            };
            (false, verdict + word, Some((number, at)))
        }
    };
    let words = if on_board { &mut case.words } else { &mut case.verdicts };
    words[word] ^= 1 << bit;
    // The signature's own words are not looked at.
    if let Some((number, items)) = refusal {
        case.known = Known::Refused(number, items);
    }
}

/// A small board with every number of roll words, from none to more than there may be: the same roll, which has
/// the board's voters spread over it, is cut there.
pub fn roll_lengths() -> Vec<Case> {
    let random = &mut Random::new(4_096);
    let shape = Shape { items: 40, words: None, long: 0, voters: 4, extraction: true };
    let made = loop {
        let made = make(random, shape);
        if voters_of(&made.plan.items).len() > 2 {
            break made;
        }
    };
    let mut roll = full_around(&voters_of(&made.plan.items), random);
    // Behind the last: two pairs more, and a word.
    let last = roll[roll.len() - ROLL_ROW];
    assert!(last < u32::MAX - 3, "there are numbers behind the last");
    roll.extend([last + 1, 1, last + 2, 1, last + 3]);
    let sound = sound_case(String::new(), &made, random);
    (0..=roll.len()).map(|len| with_cut_roll(&sound, &made.plan, &roll[..len])).collect()
}

/// A sound board with the first words of a roll that has its voters.
fn with_cut_roll(sound: &Case, plan: &Plan, roll: &[u32]) -> Case {
    let has = |voter: &[u32]| roll.chunks(ROLL_ROW).any(|pair| pair == voter);
    let is_missing = |s: &Spec| s.code == SESSION && !has(&s.content[..ROLL_ROW]);
    let known = match plan.items.iter().position(is_missing) {
        _ if roll.len() % ROLL_ROW == 1 || roll.len() > ROLL_MOST => Known::Refused(20, 0),
        Some(at) => Known::Refused(21, at),
        None => sound.known.clone(),
    };
    Case { name: format!("{} roll words", roll.len()), roll: roll.to_vec(), known, ..sound.clone() }
}

/// Turns a bit of a voter's weight on the roll over: the voter's first session is refused.
fn turn_weight_bit(case: &mut Case, random: &mut Random) {
    let Known::Sound(_, places, _) = &case.known else { panic!("a sound board") };
    let voter_at = |&place: &usize| (code(case.words[place]) == SESSION).then(|| case.words[place + 1]);
    let voters: Vec<u32> = places.iter().filter_map(voter_at).collect();
    let voter = *random.pick(&voters);
    let first = places.iter().position(|place| voter_at(place) == Some(voter)).expect("the voter's session");
    let pair = case.roll.chunks_mut(ROLL_ROW).find(|pair| pair[roll_row::VOTER] == voter).expect("the voter's pair");
    pair[roll_row::WEIGHT] ^= 1 << random.below(32);
    case.known = Known::Refused(21, first);
}

// ---- the reference against what is known ----

/// Audits a case with the reference and holds the answer against the making. Gives the number and the items.
pub fn check_known(case: &Case) -> Result<(u32, usize), String> {
    if matches!(case.known, Known::Refused(20, _)) {
        // A short table is seen before a bad roll.
        for [index, ballots] in TOO_SHORT {
            check_known_with(case, index, ballots, &Known::Refused(2, 0))?;
        }
    }
    check_known_with(case, INDEX_NEED + INDEX_ROW + 1, BALLOTS_NEED + BALLOT_ROW + 1, &case.known)
}

/// The same with tables for a full board, and with one word less of either or the index table that was
/// enough before, which are refused. Gives whether the counted ballots fill the ballot table.
pub fn check_full(case: &Case) -> Result<bool, String> {
    check_known_with(case, FULL_INDEX, FULL_TABLE, &case.known)?;
    for (index, ballots) in
        [(FULL_INDEX, FULL_TABLE - 1), (FULL_INDEX - 1, FULL_TABLE), (INDEX_NEED_BEFORE, FULL_TABLE)]
    {
        check_known_with(case, index, ballots, &Known::Refused(2, 0))?;
    }
    let Known::Sound(expected, ..) = &case.known else { return Ok(false) };
    if expected.ballots.len() < FULL {
        return Ok(false);
    }
    let (mut index, mut ballots) = (vec![0; FULL_INDEX], vec![0; FULL_TABLE]);
    let report = audit(&case.words, &case.verdicts, &case.roll, &mut index, &mut ballots);
    // The last word is a weight, which is at least 1; so is a ballot's main number.
    let all_used = ballots.chunks(BALLOT_ROW).all(|row| row[ballot_row::BALLOT] != 0 && row[ballot_row::WEIGHT] != 0);
    if report.ballots as usize != FULL || !all_used || ballots[FULL_TABLE - 1] == 0 {
        return Err(format!("{}: {FULL} ballots do not fill the table", case.name));
    }
    if report.weight <= u64::from(u32::MAX) {
        return Err(format!("{}: the weight was to need more than 32 bits", case.name));
    }
    Ok(true)
}

/// The same with tables of these lengths, against what is known of the case with them.
fn check_known_with(case: &Case, index_len: usize, ballots_len: usize, known: &Known) -> Result<(u32, usize), String> {
    let audited = Audited::new(case, index_len, ballots_len);
    let held = match known {
        Known::Nothing => Ok(()),
        Known::Refused(number, items) => audited.check_refused(*number, *items),
        Known::Sound(expected, places, end) => audited.check_sound(expected, places, *end),
    };
    let rows = || match audited.report.number {
        0 => check_told(&case.words, &case.roll, &audited.index, &audited.ballots)
            .and_then(|()| check_end(&case.words, &audited.report.end)),
        _ => Ok(()),
    };
    held.and_then(|()| rows()).map_err(|message| format!("{}: {message}", case.name))?;
    Ok((audited.report.number, audited.report.items as usize))
}

/// What the tables hold in every word before an audit.
const INDEX_JUNK: u32 = 0xdead;
const BALLOTS_JUNK: u32 = 0xbeef;

/// What the reference says of a board, and the tables after it.
struct Audited {
    report: Report,
    index: Vec<u32>,
    ballots: Vec<u32>,
}

impl Audited {
    fn new(case: &Case, index_len: usize, ballots_len: usize) -> Audited {
        let (mut index, mut ballots) = (vec![INDEX_JUNK; index_len], vec![BALLOTS_JUNK; ballots_len]);
        let report = audit(&case.words, &case.verdicts, &case.roll, &mut index, &mut ballots);
        Audited { report, index, ballots }
    }

    /// Whether the board is refused so, with the tables cleared, or left alone where nothing was read.
    fn check_refused(&self, number: u32, items: usize) -> Result<(), String> {
        let given = &self.report;
        if (given.number, given.items as usize) != (number, items) {
            return Err(format!(
                "made to be refused {number} at {items}, the reference says {} at {}",
                given.number, given.items
            ));
        }
        let untouched = number == 2 || number == 1 && items == 0;
        let (i, b) = if untouched { (INDEX_JUNK, BALLOTS_JUNK) } else { (0, 0) };
        if self.index.iter().any(|&w| w != i) || self.ballots.iter().any(|&w| w != b) {
            return other_than_made("tables");
        }
        if *given != refused(number, items) {
            return other_than_made("fields of a refusal");
        }
        Ok(())
    }

    /// Whether the board is accepted with what is expected, and nothing else is in the tables.
    fn check_sound(&self, expected: &Expected, places: &[usize], end: Digest) -> Result<(), String> {
        let given = &self.report;
        if given.number != 0 {
            return Err(format!("made sound, refused {} at {}", given.number, given.items));
        }
        let counts = (given.items as usize, given.mains as usize, given.ballots as usize);
        if counts != (expected.rows.len(), expected.mains, expected.ballots.len()) {
            return other_than_made("counts");
        }
        let weight: u64 = expected.ballots.iter().map(|row| u64::from(row[2])).sum();
        if given.weight != weight || given.end != end {
            return other_than_made("weight or end address");
        }
        let mut rows: Vec<u32> = Vec::new();
        for (row, &place) in expected.rows.iter().zip(places) {
            rows.extend([place as u32, row.parent, row.session, row.mains_before, row.closed_by]);
        }
        rows.resize(self.index.len(), 0);
        if self.index != rows {
            return other_than_made("index rows");
        }
        let mut rows: Vec<u32> = expected.ballots.concat();
        rows.resize(self.ballots.len(), 0);
        if self.ballots != rows {
            return other_than_made("ballot rows");
        }
        Ok(())
    }
}

fn other_than_made(what: &str) -> Result<(), String> {
    Err(format!("the reference has {what} other than it was made"))
}

/// Which of what is wanted a case shows; nothing where it is not made sound.
pub fn shown(case: &Case) -> [bool; WANTED.len()] {
    let Known::Sound(expected, places, _) = &case.known else { return [false; WANTED.len()] };
    let ballots = Ballots::new(&case.words, places, expected);
    WANTED.map(|(_, shows)| shows(&ballots))
}

/// Which of what is wanted of rolls a case shows, of whichever board.
pub fn shown_of_roll(case: &Case, number: u32) -> [bool; ROLLS_WANTED.len()] {
    let roll = Roll::new(&case.words, &case.roll, number);
    ROLLS_WANTED.map(|(_, shows)| shows(&roll))
}

/// Which of what is wanted of traits and widths a case shows, of whichever board.
pub fn shown_of_sets(case: &Case, number: u32, items: usize) -> [bool; SETS_WANTED.len()] {
    let sets = Sets::new(&case.words, number, items, case.other.board());
    SETS_WANTED.map(|(_, shows)| shows(&sets))
}

/// Which of what is wanted on each curve a case shows, of whichever board.
pub fn shown_of_curve(case: &Case, number: u32, items: usize) -> [bool; CURVES_WANTED.len()] {
    let on_curve = OnCurve::new(&case.words, number, items, case.other.board());
    CURVES_WANTED.map(|(_, shows)| shows(&on_curve))
}

// ---- an implementation against the reference ----

/// A length for a buffer that needs `need`: mostly enough, at times more, at times too short.
fn buffer_length(need: usize, random: &mut Random) -> usize {
    match random.below(60) {
        0 => need - 1,
        1 => random.below(need),
        2 => *random.pick(&[0, 1, need / 2]),
        3..=14 => need + random.between(1, 9),
        15..=17 => need + random.below(3_000),
        _ => need,
    }
}

fn answer_length(need: usize, random: &mut Random) -> usize {
    match random.below(60) {
        0 => random.below(need),
        1 => need - 1,
        2 => ANSWER_NEED_BEFORE.min(need - 1),
        3..=5 => need + random.between(1, 5),
        _ => need,
    }
}

/// A check of one entry. Nothing is tallied where the library has no such entry.
pub type Check = fn(&Interface, &Case, &mut Random, &mut Tally) -> Result<(), String>;

/// How many entries there are: audit, compare, ancestry, receipts, notes and plan. All but the last audit a board.
pub const ENTRIES: usize = 6;

/// Every entry, with tables of any length.
pub const ANY_LENGTH: [Check; ENTRIES] =
    [check_audit, check_compare, check_ancestry, check_receipts, check_notes, check_plan];

/// Every entry, with tables of just the words they need, of too few, and of more.
pub const FULL_LENGTHS: [Check; ENTRIES] =
    [check_audit_full, check_compare_full, check_ancestry_full, check_receipts_full, check_notes_full, check_plan_full];

/// Every entry, its tables held to the boards alone, and a plan to an audit.
pub const TOLD: [Check; ENTRIES] =
    [check_audit_told, check_compare_told, check_ancestry_told, check_receipts_told, check_notes_told, check_plan_told];

/// The lengths that an index table and a ballot table need.
const NEED: [usize; 2] = [INDEX_NEED, BALLOTS_NEED];

/// One of the two is too short: by a word, or as long as was enough for the index table before.
const TOO_SHORT: [[usize; 2]; 3] =
    [[INDEX_NEED, BALLOTS_NEED - 1], [INDEX_NEED - 1, BALLOTS_NEED], [INDEX_NEED_BEFORE, BALLOTS_NEED]];

/// Lengths that are more than they need.
fn longer(random: &mut Random) -> [usize; 2] {
    let index = *random.pick(&[INDEX_NEED, INDEX_NEED + 1, INDEX_NEED + INDEX_ROW]);
    [index, *random.pick(&[BALLOTS_NEED + 1, BALLOTS_NEED + BALLOT_ROW, 2_000, BALLOTS_NEED_BEFORE])]
}

/// Lengths for the two tables of a board: just enough, too short, more.
fn table_lengths(random: &mut Random) -> Vec<[usize; 2]> {
    [&[NEED][..], &TOO_SHORT, &[longer(random)]].concat()
}

fn check_audit(with: &Interface, case: &Case, random: &mut Random, tally: &mut Tally) -> Result<(), String> {
    call_audit(with, case, audit_lengths(random), random, tally).hold()
}

/// The same, and a plan beside it.
pub fn check_audit_and_plan(
    with: &Interface,
    case: &Case,
    random: &mut Random,
    [audits, plans]: [&mut Tally; 2],
) -> Result<(), String> {
    let audit = call_audit(with, case, audit_lengths(random), random, audits);
    audit.hold()?;
    check_plan_beside(with, &audit, random, plans)
}

fn audit_lengths(random: &mut Random) -> [usize; 3] {
    let (index, ballots) = (buffer_length(INDEX_NEED, random), buffer_length(BALLOTS_NEED, random));
    [index, ballots, answer_length(AUDIT_ANSWER, random)]
}

fn check_audit_full(with: &Interface, case: &Case, random: &mut Random, tally: &mut Tally) -> Result<(), String> {
    for [index, ballots] in table_lengths(random) {
        call_audit(with, case, [index, ballots, AUDIT_ANSWER], random, tally).hold()?;
    }
    Ok(())
}

/// Sees nothing of the answer but the end address.
fn check_audit_told(with: &Interface, case: &Case, random: &mut Random, tally: &mut Tally) -> Result<(), String> {
    call_audit(with, case, [INDEX_NEED, BALLOTS_NEED, AUDIT_ANSWER], random, tally).hold_told()
}

/// Which properties of the tables an audit breaks; none where the board is refused.
pub fn broken_by_audit(with: &Interface, case: &Case) -> [bool; PROPERTIES.len()] {
    let lengths = [INDEX_NEED, BALLOTS_NEED, AUDIT_ANSWER];
    call_audit(with, case, lengths, &mut Random::new(0), &mut Tally::default()).broken()
}

/// What is known of a stored board: the refusal, or 0, the items, and what an audit leaves in both tables.
pub struct Answer {
    pub number: u32,
    pub items: u32,
    pub tables: Option<[Vec<u32>; 2]>,
}

/// Holds what every entry says of a board, and leaves in its tables, to what is known. In the comparison the
/// board is both the kept one and the later one.
pub fn check_answer(with: &Interface, board: Board, known: &Answer) -> Result<(), String> {
    let [words, verdicts, roll] = [board.words, board.verdicts, board.roll].map(<[u32]>::to_vec);
    let other = Laid {
        words: words.clone(),
        verdicts: verdicts.clone(),
        roll: roll.clone(),
        places: Vec::new(),
        addresses: Vec::new(),
    };
    let case = &Case { name: String::new(), words, verdicts, roll, known: Known::Nothing, other, kept: true };
    let [i, b] = known.tables.as_ref().map_or(NEED, |tables| [tables[0].len(), tables[1].len()]);
    let (random, tally) = (&mut Random::new(0), &mut Tally::default());
    let presented = &Presented::of_all_items(&case.words);
    let lengths = [i, b, presented.buffer, AUDIT_ANSWER];
    let noted = &Noted::of_all_mains(&case.words);
    let calls = [
        Some(call_audit(with, case, [i, b, AUDIT_ANSWER], random, tally)),
        call_compare(with, case, [i, b, i, b, COMPARE_ANSWER], random, tally),
        call_ancestry(with, case, [i, b, LIST_NEED, ANCESTRY_ANSWER], random, tally),
        call_receipts(with, board, &presented.receipts, lengths, random, tally),
        call_notes(with, board, &noted.notes, [i, b, NOTES_ANSWER], random, tally),
    ];
    for call in calls.iter().flatten() {
        call.hold_said(known.number, known.items)?;
        call.hold_end()?;
        known.tables.as_ref().map_or(Ok(()), |tables| call.hold_tables(tables))?;
    }
    calls[0].iter().try_for_each(|audit| check_plan_beside(with, audit, random, tally))?;
    check_plan(with, case, random, tally)
}

fn check_ancestry(with: &Interface, case: &Case, random: &mut Random, tally: &mut Tally) -> Result<(), String> {
    let (index, ballots) = (buffer_length(INDEX_NEED, random), buffer_length(BALLOTS_NEED, random));
    let (list, answer) = (buffer_length(LIST_NEED, random), answer_length(ANCESTRY_ANSWER, random));
    call_ancestry(with, case, [index, ballots, list, answer], random, tally).map_or(Ok(()), |call| call.hold())
}

fn check_ancestry_full(with: &Interface, case: &Case, random: &mut Random, tally: &mut Tally) -> Result<(), String> {
    for [index, ballots] in table_lengths(random) {
        let lengths = [index, ballots, LIST_NEED, ANCESTRY_ANSWER];
        call_ancestry(with, case, lengths, random, tally).map_or(Ok(()), |call| call.hold())?;
    }
    Ok(())
}

fn check_ancestry_told(with: &Interface, case: &Case, random: &mut Random, tally: &mut Tally) -> Result<(), String> {
    let lengths = [INDEX_NEED, BALLOTS_NEED, LIST_NEED, ANCESTRY_ANSWER];
    call_ancestry(with, case, lengths, random, tally).map_or(Ok(()), |call| call.hold_told())
}

fn check_compare(with: &Interface, case: &Case, random: &mut Random, tally: &mut Tally) -> Result<(), String> {
    // Four buffers: one too short is enough now and then.
    let [ki, kb, li, lb] = [INDEX_NEED, BALLOTS_NEED, INDEX_NEED, BALLOTS_NEED].map(|need| {
        if random.chance(60) {
            need
        } else {
            buffer_length(need, random)
        }
    });
    let answer = answer_length(COMPARE_ANSWER, random);
    call_compare(with, case, [ki, kb, li, lb, answer], random, tally).map_or(Ok(()), |call| call.hold())
}

fn check_compare_full(with: &Interface, case: &Case, random: &mut Random, tally: &mut Tally) -> Result<(), String> {
    let more = longer(random);
    let mut both = vec![(NEED, NEED), (more, more)];
    both.extend(TOO_SHORT.map(|short| (short, NEED)));
    both.extend(TOO_SHORT.map(|short| (NEED, short)));
    for ([ki, kb], [li, lb]) in both {
        let lengths = [ki, kb, li, lb, COMPARE_ANSWER];
        call_compare(with, case, lengths, random, tally).map_or(Ok(()), |call| call.hold())?;
    }
    Ok(())
}

fn check_compare_told(with: &Interface, case: &Case, random: &mut Random, tally: &mut Tally) -> Result<(), String> {
    let lengths = [INDEX_NEED, BALLOTS_NEED, INDEX_NEED, BALLOTS_NEED, COMPARE_ANSWER];
    call_compare(with, case, lengths, random, tally).map_or(Ok(()), |call| call.hold_told())
}
