//! Faulty boards: a sound board changed in one place, all else kept right, so that the check
//! in question is the first to fail. Each fault says which refusal it must give, and where. Those of the roll
//! are in `rolls`, with rolls that are no fault: they give the number 0, and the board is sound still; those of
//! traits and of the widths of contest sets are in `widths`, those of curves and what is as wide as they have it in
//! `curves`.

use crate::curves::Widths;
use crate::format::*;
use crate::plan::{Address, Link, Plan, Previous, Spec, GOOD};
use crate::random::Random;
use crate::roll::{pairs_of, roll_of};
use crate::sha256::sha256;
use crate::sound::{ballot_of, Made};

mod curves;
mod rolls;
mod widths;
pub use rolls::bad_roll;

/// The changed board and how many items pass.
type Change = Option<(Plan, usize)>;

/// A refusal, a reason, and how a board is changed for it.
type Way = (u32, &'static str, fn(&Made, u32, &mut Random) -> Change);

/// A way to spoil a board. `code` is the type it is about, or 0; of bad rolls, which of several ways it is.
pub struct Fault {
    pub number: u32,
    pub reason: String,
    /// Of the boards that have a place for it.
    pub layouts: Vec<Layout>,
    /// Whether it takes a ballot of all the contests that a board of its width can have.
    pub all_contests: bool,
    code: u32,
    change: fn(&Made, u32, &mut Random) -> Change,
}

pub struct Faulty {
    pub number: u32,
    pub items: usize,
    pub plan: Plan,
}

impl Fault {
    /// The fault done to a board; none where the board has no place for it.
    pub fn apply(&self, made: &Made, random: &mut Random) -> Option<Faulty> {
        if !self.layouts.contains(&made.layout) {
            return None;
        }
        let (plan, items) = (self.change)(made, self.code, random)?;
        Some(Faulty { number: self.number, items, plan })
    }
}

/// The layouts with sets of this width, and those of these curves.
fn of_sets(width: Width) -> Vec<Layout> {
    LAYOUTS.into_iter().filter(|layout| layout.sets == width).collect()
}
fn of_curves(curves: &[Curve]) -> Vec<Layout> {
    LAYOUTS.into_iter().filter(|layout| curves.contains(&layout.curve)).collect()
}

// ---- what a board is like, and what stands before a position ----

/// What a board's curve decides.
fn widths(made: &Made) -> &'static Widths {
    made.layout.curve.widths()
}

/// The words of an item beside its content.
fn frame(made: &Made) -> usize {
    made.layout.curve.frame()
}

fn items(made: &Made) -> &[Spec] {
    &made.plan.items
}

/// A random item of a type.
fn pick(made: &Made, code: u32, random: &mut Random) -> Option<usize> {
    pick_where(made, random, |_, item| item.code == code)
}

fn pick_where(made: &Made, random: &mut Random, fits: impl Fn(usize, &Spec) -> bool) -> Option<usize> {
    let all: Vec<usize> = (0..items(made).len()).filter(|&i| fits(i, &items(made)[i])).collect();
    if all.is_empty() {
        None
    } else {
        Some(*random.pick(&all))
    }
}

fn last_main(made: &Made, before: usize) -> Option<usize> {
    (0..before).rev().find(|&i| items(made)[i].kind == MAIN)
}

fn latest_config(made: &Made, before: usize) -> usize {
    (0..before).rev().find(|&i| is_config(items(made)[i].code)).expect("a genesis stands before")
}

fn first_of(made: &Made, code: u32) -> Option<usize> {
    items(made).iter().position(|s| s.code == code)
}

/// The item's session's position.
fn session_of(made: &Made, position: usize) -> usize {
    made.expected.rows[position].session as usize - 1
}

fn is_live(made: &Made, session: usize, before: usize) -> bool {
    let voter = items(made)[session].content[0];
    !items(made)[session + 1..before].iter().any(|s| s.code == SESSION && s.content[0] == voter)
}

/// The rounds that stand before a position: number, contests, start, end.
fn rounds(made: &Made, before: usize) -> Vec<(u32, Set, u64, u64)> {
    let mut standing: Vec<(u32, Set, u64, u64)> = Vec::new();
    for s in items(made)[..before].iter().filter(|s| s.code == ROUND) {
        standing.retain(|r| r.0 != s.content[0]);
        let (start, end) = made.layout.sets.round_times(&s.content);
        standing.push((s.content[0], made.layout.sets.set(ROUND, &s.content), start, end));
    }
    standing
}

fn open(made: &Made, before: usize, at: u64) -> Vec<(u32, Set, u64, u64)> {
    rounds(made, before).into_iter().filter(|r| r.2 <= at && at < r.3).collect()
}

/// The contests that are defined before a position.
fn contests(made: &Made, before: usize) -> Set {
    let defined = items(made)[..before].iter().filter(|s| s.code == CONTEST);
    defined.fold(Set::EMPTY, |set, s| set | Set::one(s.content[0]))
}

/// Those of the round, session or ballot at a position.
fn set_of(made: &Made, at: usize) -> Set {
    let item = &items(made)[at];
    made.layout.sets.set(item.code, &item.content)
}

/// Those that open rounds enable at the position and the time of an item.
fn enabled(made: &Made, at: usize) -> Set {
    open(made, at, items(made)[at].time).iter().fold(Set::EMPTY, |set, r| set | r.1)
}

/// Gives the round, session or ballot at a position another set.
fn change_set(made: &Made, at: usize, set: Set) -> Change {
    let place = made.layout.sets.set_place(items(made)[at].code);
    change_item(made, at, |s| s.content[place].copy_from_slice(set.words(made.layout.sets)))
}

fn administrator(made: &Made) -> [u32; FINGERPRINT] {
    eight(&items(made)[0].content, 1)
}

fn ballot_box(made: &Made) -> [u32; FINGERPRINT] {
    eight(&items(made)[0].content, 9)
}

fn authorizer(made: &Made, before: usize) -> Option<[u32; FINGERPRINT]> {
    let latest = items(made)[..before].iter().rev().find(|s| s.code == AUTHORIZER)?;
    Some(eight(&latest.content, 1))
}

/// A position after genesis and not after the first intent, where config may stand.
fn config_position(made: &Made, from: usize, random: &mut Random) -> Option<usize> {
    let end = first_of(made, INTENT).unwrap_or(items(made).len());
    if from > end {
        None
    } else {
        Some(random.between(from, end))
    }
}

/// A right item to put before a position; its content is the caller's affair.
fn new_item(made: &Made, code: u32, before: usize, parent: Link, content: Vec<u32>, key: [u32; FINGERPRINT]) -> Spec {
    Spec {
        kind: kind_of(code).expect("a listed type"),
        code,
        count: None,
        content,
        parent,
        previous: Previous::Right,
        time: last_main(made, before).map_or(0, |i| items(made)[i].time),
        signature: [0x5151_5151; WIDEST_SIGNATURE],
        signature_words: None,
        address: Address::Right,
        verdict: GOOD,
        key,
    }
}

fn new_round(made: &Made, before: usize, number: u32, set: Set, start: u64, end: u64) -> Spec {
    let content = round_content(made.layout.sets, number, set, start, end);
    let parent = Link::Item(latest_config(made, before));
    new_item(made, ROUND, before, parent, content, administrator(made))
}

/// Content that fits a type by its count and its own ranges, on a board laid out as this one.
fn plain_content(made: &Made, code: u32, before: usize, random: &mut Random) -> Vec<u32> {
    // What begins a board decides its layout by itself, and that of a board that begins otherwise is the plain one.
    let Layout { curve, sets: width } = if before == 0 { Layout::PLAIN } else { made.layout };
    let defined = match contests(made, before) {
        Set::EMPTY => Set::one(0),
        defined => defined,
    };
    let mut content = random.words(match code {
        TEXT => 5,
        CONTEST => 3,
        THRESHOLD => 10,
        AUTHORIZER => 9,
        VOTER_COMMITMENT | SERVER_COMMITMENT => curve.widths().commitment - 1,
        SESSION => SESSION_SET,
        EXTRACTION | VERIFIER => 8,
        CONFIRMATION => 1 + TRUSTEE,
        VOTER_OPENING | SERVER_OPENING => 4,
        _ => 0,
    });
    match code {
        GENESIS => content = items(made)[0].content.clone(),
        CONTEST => content[0] %= width.contests(),
        THRESHOLD => content[..2].copy_from_slice(&[3, 2]),
        AUTHORIZER => content[0] = 1,
        ROUND => content = round_content(width, random.below(16) as u32, random.contests(defined), 0, 1 << 32),
        SESSION => {
            content[1] |= 1;
            content.extend(random.contests(defined).words(width));
        }
        VOTER_COMMITMENT | SERVER_COMMITMENT => content.push(random.word_with_zeros(curve.widths().commitment_zeros)),
        BALLOT => {
            content = Set::one(random.contest(defined)).words(width).to_vec();
            content.extend(random.words(curve.widths().cryptogram - 1));
            content.push(random.word_with_zeros(CRYPTOGRAM_ZEROS));
        }
        CONFIRMATION => content[0] = 1,
        _ => {}
    }
    content
}

// ---- changes that several faults share ----

fn change_item(made: &Made, at: usize, edit: impl FnOnce(&mut Spec)) -> Change {
    let mut plan = made.plan.clone();
    edit(&mut plan.items[at]);
    Some((plan, at))
}

fn change_content(
    made: &Made,
    code: u32,
    random: &mut Random,
    edit: impl FnOnce(&mut Vec<u32>, &mut Random),
) -> Change {
    let at = pick(made, code, random)?;
    let mut plan = made.plan.clone();
    edit(&mut plan.items[at].content, random);
    Some((plan, at))
}

fn insert(made: &Made, at: usize, spec: Spec) -> Change {
    let mut plan = made.plan.clone();
    plan.insert(at, spec);
    Some((plan, at))
}

fn any(made: &Made, random: &mut Random) -> usize {
    random.below(items(made).len())
}

// ---- 3: blank ----

fn no_words(made: &Made, _: u32, random: &mut Random) -> Change {
    let mut plan = made.plan.clone();
    plan.cut = Some((0, 0));
    if random.chance(50) {
        plan.verdicts_cut = Some(0);
    }
    Some((plan, 0))
}

fn closing_first(made: &Made, _: u32, random: &mut Random) -> Change {
    let mut plan = made.plan.clone();
    let number = *random.pick(&[0, 1, 0x0fff_ffff, plan.items.len() as u32]);
    plan.head = Some((0, CLOSING << 28 | number));
    if random.chance(50) {
        plan.cut = Some((0, 1));
    }
    Some((plan, 0))
}

// ---- 4: torn ----

fn cut(made: &Made, _: u32, random: &mut Random) -> Change {
    let at = any(made, random);
    let length = items(made)[at].content.len() + frame(made);
    let mut plan = made.plan.clone();
    plan.cut = Some((at, random.between(1, length - 1)));
    Some((plan, at))
}

fn cut_after_head(made: &Made, _: u32, random: &mut Random) -> Change {
    let at = any(made, random);
    let mut plan = made.plan.clone();
    plan.cut = Some((at, 1));
    Some((plan, at))
}

fn one_short(made: &Made, _: u32, random: &mut Random) -> Change {
    let at = any(made, random);
    let mut plan = made.plan.clone();
    plan.cut = Some((at, items(made)[at].content.len() + frame(made) - 1));
    Some((plan, at))
}

fn no_closing_word(made: &Made, _: u32, random: &mut Random) -> Change {
    let mut plan = made.plan.clone();
    let passed = random.between(1, items(made).len());
    plan.items.truncate(passed);
    plan.closing = Some(None);
    Some((plan, passed))
}

// ---- 5: stranger ----

fn unlisted(random: &mut Random) -> u32 {
    loop {
        let code = if random.chance(70) { random.below(60) as u32 } else { random.word() & 0xfff };
        if kind_of(code).is_none() {
            return code;
        }
    }
}

fn strange_kind(made: &Made, _: u32, random: &mut Random) -> Change {
    let kind = *random.pick(&[0, 3, 4, 5, 6, 7, 8, 9, 10, 11, 12, 13, 14]);
    let at = any(made, random);
    change_item(made, at, |s| s.kind = kind)
}

fn strange_main(made: &Made, _: u32, random: &mut Random) -> Change {
    let (at, code) = (any(made, random), unlisted(random));
    change_item(made, at, |s| (s.kind, s.code) = (MAIN, code))
}

fn strange_hidden(made: &Made, _: u32, random: &mut Random) -> Change {
    let (at, code) = (any(made, random), unlisted(random));
    change_item(made, at, |s| (s.kind, s.code) = (HIDDEN, code))
}

fn hidden_as_main(made: &Made, _: u32, random: &mut Random) -> Change {
    let at = pick_where(made, random, |_, s| s.kind == HIDDEN)?;
    change_item(made, at, |s| s.kind = MAIN)
}

fn main_as_hidden(made: &Made, _: u32, random: &mut Random) -> Change {
    let at = pick_where(made, random, |_, s| s.kind == MAIN)?;
    change_item(made, at, |s| s.kind = HIDDEN)
}

fn strange_head_last(made: &Made, _: u32, random: &mut Random) -> Change {
    let at = any(made, random);
    let mut plan = made.plan.clone();
    plan.head = Some((at, head(MAIN, unlisted(random), random.below(70))));
    plan.cut = Some((at, 1));
    Some((plan, at))
}

// ---- 6: misfit ----

/// A count that a type does not have on a board of a layout. Often it is one that the type has in another.
fn misfit_count(layout: Layout, code: u32, random: &mut Random) -> usize {
    loop {
        let other = *random.pick(&LAYOUTS);
        let n = match random.below(5) {
            0 => random.between(0, 70),
            1 => random.between(0, 600),
            2 => *random.pick(&[0, 7, 9, 10, 11, 16, 19, 65, 66, 257, 1 + 17 * 33, 1 + 16 * 33, 8 + 17 * 257, 65535]),
            3 => match code {
                ROUND => 5 + other.sets.words(),
                SESSION => SESSION_SET + other.sets.words(),
                VOTER_COMMITMENT | SERVER_COMMITMENT => other.curve.widths().commitment,
                _ => other.sets.words() + other.curve.widths().cryptogram * random.between(0, 33),
            },
            _ => random.below(65536),
        };
        if !layout.count_fits(code, n) {
            return n;
        }
    }
}

/// Only the head's count is wrong.
fn misfit_head(made: &Made, code: u32, random: &mut Random) -> Change {
    let at = pick(made, code, random)?;
    let n = misfit_count(made.layout, code, random);
    change_item(made, at, |s| s.count = Some(n))
}

/// The content has the wrong count too, and the address is right for it.
fn misfit_content(made: &Made, code: u32, random: &mut Random) -> Change {
    let at = pick(made, code, random)?;
    let n = misfit_count(made.layout, code, random);
    let content = random.words(n);
    change_item(made, at, |s| s.content = content)
}

fn misfit_head_last(made: &Made, code: u32, random: &mut Random) -> Change {
    let at = pick(made, code, random)?;
    let mut plan = made.plan.clone();
    plan.items[at].count = Some(misfit_count(made.layout, code, random));
    plan.cut = Some((at, 1));
    Some((plan, at))
}

// ---- 7: false address ----

fn address_flipped(made: &Made, code: u32, random: &mut Random) -> Change {
    let at = pick(made, code, random)?;
    let bit = random.below(32 * widths(made).address);
    change_item(made, at, |s| s.address = Address::Flipped(bit))
}

fn address_wrong(made: &Made, address: Address, at: usize) -> Change {
    change_item(made, at, |s| s.address = address)
}

fn address_with_signature(made: &Made, _: u32, random: &mut Random) -> Change {
    address_wrong(made, Address::WithSignature, any(made, random))
}

fn address_without_head(made: &Made, _: u32, random: &mut Random) -> Change {
    address_wrong(made, Address::WithoutHead, any(made, random))
}

fn address_without_count(made: &Made, _: u32, random: &mut Random) -> Change {
    let at = pick_where(made, random, |_, s| !s.content.is_empty())?;
    address_wrong(made, Address::WithoutCount, at)
}

fn address_without_time(made: &Made, _: u32, random: &mut Random) -> Change {
    address_wrong(made, Address::WithoutTime, any(made, random))
}

fn address_zeros(made: &Made, _: u32, random: &mut Random) -> Change {
    address_wrong(made, Address::Words(ZEROS), any(made, random))
}

/// A hashed word is changed after hashing.
fn changed_after_hashing(made: &Made, at: usize, edit: impl FnOnce(&mut Spec)) -> Change {
    let address = made.plan.lay().addresses[at];
    change_item(made, at, |s| {
        edit(s);
        s.address = Address::Words(address);
    })
}

fn content_changed(made: &Made, _: u32, random: &mut Random) -> Change {
    let at = pick_where(made, random, |_, s| !s.content.is_empty())?;
    let word = random.below(items(made)[at].content.len());
    let bit = random.below(32);
    changed_after_hashing(made, at, |s| s.content[word] ^= 1 << bit)
}

fn parent_changed(made: &Made, _: u32, random: &mut Random) -> Change {
    let (at, words) = (any(made, random), random.digest());
    changed_after_hashing(made, at, |s| s.parent = Link::Words(words))
}

fn previous_changed(made: &Made, _: u32, random: &mut Random) -> Change {
    let (at, words) = (any(made, random), random.digest());
    changed_after_hashing(made, at, |s| s.previous = Previous::Words(words))
}

fn time_changed(made: &Made, _: u32, random: &mut Random) -> Change {
    let (at, bit) = (any(made, random), random.below(64));
    changed_after_hashing(made, at, |s| s.time ^= 1 << bit)
}

/// A cast made a spoil, or a spoil a cast, after hashing.
fn decision_changed(made: &Made, _: u32, random: &mut Random) -> Change {
    let at = pick_where(made, random, |_, s| s.code == CAST || s.code == SPOIL)?;
    changed_after_hashing(made, at, |s| s.code = CAST + SPOIL - s.code)
}

// ---- 8: broken history ----

fn previous_random(made: &Made, code: u32, random: &mut Random) -> Change {
    let at = pick(made, code, random)?;
    let words = random.digest();
    change_item(made, at, |s| s.previous = Previous::Words(words))
}

/// The right parent and previous of an item, as words.
fn links(made: &Made, at: usize) -> [Digest; 2] {
    let laid = made.plan.lay();
    let parent = laid.places[at] + 1 + items(made)[at].content.len();
    [parent, parent + widths(made).address].map(|place| made.layout.curve.address(&laid.words, place))
}

/// One bit of a right previous is turned over.
fn previous_flipped(made: &Made, _: u32, random: &mut Random) -> Change {
    let at = any(made, random);
    let (word, bit) = (random.below(widths(made).address), random.below(32));
    let mut words = links(made, at)[1];
    words[word] ^= 1 << bit;
    change_item(made, at, |s| s.previous = Previous::Words(words))
}

fn previous_zeros(made: &Made, _: u32, random: &mut Random) -> Change {
    let at = pick_where(made, random, |i, _| i > 0)?;
    change_item(made, at, |s| s.previous = Previous::Words(ZEROS))
}

/// A main item that names the hidden item before it.
fn previous_hidden(made: &Made, _: u32, random: &mut Random) -> Change {
    let at = pick_where(made, random, |i, s| s.kind == MAIN && i > 0 && items(made)[i - 1].kind == HIDDEN)?;
    change_item(made, at, |s| s.previous = Previous::Item(at - 1))
}

fn previous_two_back(made: &Made, _: u32, random: &mut Random) -> Change {
    let at = pick_where(made, random, |i, s| s.kind == MAIN && made.expected.rows[i].mains_before >= 2)?;
    let before = last_main(made, last_main(made, at)?)?;
    change_item(made, at, |s| s.previous = Previous::Item(before))
}

/// A main item that names its parent, which is not the main item before it.
fn previous_parent(made: &Made, _: u32, random: &mut Random) -> Change {
    let at = pick_where(made, random, |i, s| {
        s.kind == MAIN && i > 0 && last_main(made, i) != Some(made.expected.rows[i].parent as usize - 1)
    })?;
    let parent = made.expected.rows[at].parent as usize - 1;
    change_item(made, at, |s| s.previous = Previous::Item(parent))
}

/// A hidden item that names an item which is not its parent.
fn hidden_previous(made: &Made, random: &mut Random, other: impl Fn(usize) -> Option<usize>) -> Change {
    let parent = |i: usize| made.expected.rows[i].parent as usize - 1;
    let at = pick_where(made, random, |i, s| s.kind == HIDDEN && other(i).is_some_and(|o| o != parent(i)))?;
    let named = other(at)?;
    change_item(made, at, |s| s.previous = Previous::Item(named))
}

fn hidden_previous_last_main(made: &Made, _: u32, random: &mut Random) -> Change {
    hidden_previous(made, random, |i| last_main(made, i))
}

fn hidden_previous_item_before(made: &Made, _: u32, random: &mut Random) -> Change {
    hidden_previous(made, random, |i| i.checked_sub(1))
}

/// A hidden item whose parent is unknown and whose previous differs from it.
fn hidden_unknown_parent_and_previous(made: &Made, _: u32, random: &mut Random) -> Change {
    let at = pick_where(made, random, |_, s| s.kind == HIDDEN)?;
    let (parent, previous) = (random.digest(), random.digest());
    change_item(made, at, |s| {
        s.parent = Link::Words(parent);
        s.previous = Previous::Words(previous);
    })
}

/// A hidden first item, its previous not its parent.
fn hidden_first_previous(made: &Made, _: u32, random: &mut Random) -> Change {
    let code = *random.pick(&[TRACK, VERIFIER, VOTER_OPENING, SERVER_OPENING]);
    let content = plain_content(made, code, 0, random);
    let mut spec = new_item(made, code, 0, Link::Words(random.digest()), content, ballot_box(made));
    spec.previous = Previous::Words(*random.pick(&[ZEROS, [1; WIDEST]]));
    insert(made, 0, spec)
}

// ---- 9: orphan ----

fn parent_unknown(made: &Made, code: u32, random: &mut Random) -> Change {
    let at = pick(made, code, random)?;
    let words = random.digest();
    change_item(made, at, |s| s.parent = Link::Words(words))
}

fn parent_flipped(made: &Made, code: u32, random: &mut Random) -> Change {
    let at = pick(made, code, random)?;
    let (word, bit) = (random.below(widths(made).address), random.below(32));
    let mut words = links(made, at)[0];
    words[word] ^= 1 << bit;
    change_item(made, at, |s| s.parent = Link::Words(words))
}

fn parent_zeros(made: &Made, code: u32, random: &mut Random) -> Change {
    let at = pick(made, code, random)?;
    change_item(made, at, |s| s.parent = Link::Zeros)
}

fn parent_item(made: &Made, code: u32, random: &mut Random, fits: impl Fn(usize, &Spec) -> bool) -> Change {
    let at = pick(made, code, random)?;
    let possible: Vec<usize> = (0..at).filter(|&i| fits(i, &items(made)[i])).collect();
    if possible.is_empty() {
        return None;
    }
    let parent = *random.pick(&possible);
    if Link::Item(parent) == items(made)[at].parent {
        return None;
    }
    change_item(made, at, |s| s.parent = Link::Item(parent))
}

fn parent_older_config(made: &Made, code: u32, random: &mut Random) -> Change {
    parent_item(made, code, random, |_, s| is_config(s.code))
}

fn parent_no_config(made: &Made, code: u32, random: &mut Random) -> Change {
    parent_item(made, code, random, |_, s| s.kind == MAIN && !is_config(s.code))
}

fn parent_hidden(made: &Made, code: u32, random: &mut Random) -> Change {
    parent_item(made, code, random, |_, s| s.kind == HIDDEN)
}

fn parent_main(made: &Made, code: u32, random: &mut Random) -> Change {
    parent_item(made, code, random, |_, s| s.kind == MAIN)
}

/// An item in the right pool, of another type than the listed one.
fn parent_other_type(made: &Made, code: u32, random: &mut Random) -> Change {
    let Parent::Type(listed) = parent_of(code) else { return None };
    let pool = if code <= TRACK { MAIN } else { HIDDEN };
    parent_item(made, code, random, |_, s| s.kind == pool && s.code != listed)
}

/// A genesis whose parent is not zeros, first or second.
fn genesis_parent(made: &Made, _: u32, random: &mut Random) -> Change {
    let end = items(made).len();
    let at = random.between(1, end);
    let content = items(made)[0].content.clone();
    insert(made, at, new_item(made, GENESIS, at, Link::Item(random.below(at)), content, administrator(made)))
}

/// A board that begins with another type. Its parent is anything.
fn first_is(made: &Made, code: u32, random: &mut Random) -> Change {
    let content = plain_content(made, code, 0, random);
    let parent = if random.chance(50) { Link::Zeros } else { Link::Words(random.digest()) };
    insert(made, 0, new_item(made, code, 0, parent, content, administrator(made)))
}

/// A hidden item that stands before its parent.
fn before_its_parent(made: &Made, _: u32, random: &mut Random) -> Change {
    let at = pick_where(made, random, |i, s| {
        s.kind == HIDDEN && s.code != TRACK && items(made)[made.expected.rows[i].parent as usize - 1].kind == HIDDEN
    })?;
    let parent = made.expected.rows[at].parent as usize - 1;
    let address = made.plan.lay().addresses[parent];
    let mut spec = items(made)[at].clone();
    spec.parent = Link::Words(address);
    insert(made, parent, spec)
}

// ---- 10: backward clock ----

fn backward(made: &Made, code: u32, random: &mut Random) -> Change {
    let at = pick(made, code, random)?;
    let bound = if items(made)[at].kind == MAIN {
        items(made)[last_main(made, at)?].time
    } else {
        items(made)[made.expected.rows[at].parent as usize - 1].time
    };
    if bound == 0 {
        return None;
    }
    let time = match random.below(4) {
        0 => 0,
        1 if bound >> 32 > 0 => bound - (1 << 32),
        // The high word less, the low word more.
        2 if bound >> 32 > 0 => ((bound >> 32) - 1) << 32 | 0xffff_ffff,
        _ => bound - 1,
    };
    change_item(made, at, |s| s.time = time)
}

// ---- 11: out of phase ----

/// An item that passes all before 11, after an intent.
fn after_intent(made: &Made, code: u32, random: &mut Random) -> Change {
    let intent = first_of(made, INTENT)?;
    let at = random.between(intent + 1, items(made).len());
    let parent = match parent_of(code) {
        Parent::Zeros => Link::Zeros,
        Parent::LatestConfig => Link::Item(latest_config(made, at)),
        Parent::Type(listed) => Link::Item(pick(made, listed, random)?),
    };
    let content = plain_content(made, code, at, random);
    insert(made, at, new_item(made, code, at, parent, content, administrator(made)))
}

/// The end of a round, or the end of time, with no round open.
fn late(made: &Made, code: u32, random: &mut Random) -> Change {
    let at = pick(made, code, random)?;
    let bound = items(made)[last_main(made, at)?].time;
    let mut times: Vec<u64> = rounds(made, at).iter().map(|r| r.3).collect();
    times.retain(|&t| t >= bound && open(made, at, t).is_empty());
    if times.is_empty() || random.chance(10) {
        times = vec![u64::MAX];
    }
    let time = *random.pick(&times);
    change_item(made, at, |s| s.time = time)
}

/// Every round that is open is replaced by one that is over or not yet begun.
fn replaced(made: &Made, code: u32, random: &mut Random) -> Change {
    let at = pick(made, code, random)?;
    let time = items(made)[at].time;
    let mut plan = made.plan.clone();
    let mut inserted = 0;
    for (number, set, start, _) in open(made, at, time) {
        let early = time == 0 || random.chance(50);
        let (start, end) = if early { (time + 1, time + 2) } else { (start.min(time - 1), time) };
        let mut round = new_round(made, at, number, set, start, end);
        if inserted > 0 {
            round.parent = Link::Item(at + inserted - 1);
        }
        plan.insert(at + inserted, round);
        inserted += 1;
    }
    let item = &mut plan.items[at + inserted];
    if code == SESSION {
        item.parent = Link::Item(at + inserted - 1);
    }
    Some((plan, at + inserted))
}

/// The config without any item of a type; the first item that needs one.
fn without(made: &Made, code: u32, needs: impl Fn(u32) -> bool) -> Change {
    let mut plan = made.plan.clone();
    let needy = plan.items.iter().position(|s| needs(s.code))?;
    let mut removed = 0;
    for at in (0..needy).rev() {
        if plan.items[at].code == code {
            plan.remove(at, latest_config(made, at));
            removed += 1;
        }
    }
    if removed == 0 {
        return None;
    }
    Some((plan, needy - removed))
}

fn without_threshold(made: &Made, _: u32, _: &mut Random) -> Change {
    without(made, THRESHOLD, |code| code == SESSION || code == INTENT)
}

fn without_authorizer(made: &Made, _: u32, _: &mut Random) -> Change {
    without(made, AUTHORIZER, |code| code == SESSION)
}

fn without_round(made: &Made, _: u32, _: &mut Random) -> Change {
    without(made, ROUND, |code| code == SESSION)
}

fn early_intent(made: &Made, _: u32, random: &mut Random) -> Change {
    let end = first_of(made, THRESHOLD).unwrap_or(items(made).len());
    let at = random.between(1, end);
    let parent = Link::Item(latest_config(made, at));
    insert(made, at, new_item(made, INTENT, at, parent, Vec::new(), administrator(made)))
}

/// The voter has a new session just before the item.
fn overwritten(made: &Made, code: u32, random: &mut Random) -> Change {
    let at = pick(made, code, random)?;
    let old = session_of(made, at);
    let mut content = items(made)[old].content.clone();
    if random.chance(70) {
        content[2..18].copy_from_slice(&random.words(16));
    }
    let mut session = new_item(made, SESSION, at, Link::Item(latest_config(made, at)), content, authorizer(made, at)?);
    session.time = items(made)[at].time;
    let mut plan = made.plan.clone();
    plan.insert(at, session);
    Some((plan, at + 1))
}

// ---- 11: an opening of a ballot that is not spoiled ----

/// The item of a type under another.
fn child(made: &Made, parent: usize, code: u32) -> Option<usize> {
    (parent + 1..items(made).len()).find(|&i| items(made)[i].code == code && parent_position(made, i) == parent)
}

/// The cast or spoil under a ballot, if it is of this type.
fn closer(made: &Made, ballot: usize, code: u32) -> Option<usize> {
    made.expected.rows[ballot].closer().filter(|&i| items(made)[i].code == code)
}

/// Puts a voter opening of a ballot before the item at `at`, and before it what its track lacks. None
/// where the ballot is opened or its track goes on further behind.
fn open_ballot(made: &Made, ballot: usize, at: usize, random: &mut Random) -> Change {
    let track = child(made, ballot, TRACK);
    let verifier = track.and_then(|i| child(made, i, VERIFIER));
    let opening = verifier.and_then(|i| child(made, i, VOTER_OPENING));
    let there: Vec<usize> = [track, verifier].into_iter().flatten().collect();
    if opening.is_some() || there.iter().any(|&i| i >= at) {
        return None;
    }
    let mut plan = made.plan.clone();
    let mut parent = *there.last().unwrap_or(&ballot);
    for (end, &code) in (at..).zip(&[TRACK, VERIFIER, VOTER_OPENING][there.len()..]) {
        let content = plain_content(made, code, at, random);
        let key = match code {
            TRACK => ballot_box(made),
            VERIFIER => eight(&content, 0),
            _ => eight(&items(made)[session_of(made, ballot)].content, 2),
        };
        let mut spec = new_item(made, code, at, Link::Item(parent), content, key);
        spec.time = plan.items[parent].time.saturating_add(random.below(50) as u64);
        plan.insert(end, spec);
        parent = end;
    }
    Some((plan, parent))
}

/// An opening of some ballot. `between` gives the first and the last position for it, if the ballot fits.
fn open_some(made: &Made, random: &mut Random, between: impl Fn(usize) -> Option<(usize, usize)>) -> Change {
    let ballot = pick_where(made, random, |i, s| s.code == BALLOT && between(i).is_some())?;
    let (first, last) = between(ballot)?;
    let at = random.between(first, last);
    open_ballot(made, ballot, at, random)
}

fn opening_beside_cast(made: &Made, _: u32, random: &mut Random) -> Change {
    open_some(made, random, |ballot| Some((closer(made, ballot, CAST)? + 1, items(made).len())))
}
fn opening_before_cast(made: &Made, _: u32, random: &mut Random) -> Change {
    open_some(made, random, |ballot| Some((ballot + 1, closer(made, ballot, CAST)?)))
}
fn opening_on_open(made: &Made, _: u32, random: &mut Random) -> Change {
    open_some(made, random, |ballot| match made.expected.rows[ballot].closer() {
        Some(_) => None,
        None => Some((ballot + 1, items(made).len())),
    })
}

/// The opened ballot is cast or open. A spoil stands before the opening, under another ballot: `other` says of a
/// spoil and the opened ballot whether it may be this one.
fn opening_other_spoiled(made: &Made, random: &mut Random, other: impl Fn(usize, usize) -> bool) -> Change {
    open_some(made, random, |ballot| {
        if closer(made, ballot, SPOIL).is_some() {
            return None;
        }
        let spoils = positions(made, items(made).len(), SPOIL);
        let spoil = spoils.into_iter().find(|&i| other(i, ballot))?;
        Some((spoil.max(ballot) + 1, items(made).len()))
    })
}
fn opening_other_of_session_spoiled(made: &Made, _: u32, random: &mut Random) -> Change {
    opening_other_spoiled(made, random, |spoil, ballot| session_of(made, spoil) == session_of(made, ballot))
}
fn opening_other_voters_spoiled(made: &Made, _: u32, random: &mut Random) -> Change {
    opening_other_spoiled(made, random, |spoil, ballot| voter_of(made, spoil) != voter_of(made, ballot))
}

/// A voter opening, and the spoil before it.
fn opened(made: &Made, random: &mut Random) -> Option<(usize, usize)> {
    let opening = pick(made, VOTER_OPENING, random)?;
    let ballot = ballot_of(items(made), &made.expected.rows, opening);
    Some((opening, closer(made, ballot, SPOIL)?))
}

fn opening_without_spoil(made: &Made, _: u32, random: &mut Random) -> Change {
    let (opening, spoil) = opened(made, random)?;
    let mut plan = made.plan.clone();
    // Nothing hangs on a spoil.
    plan.remove(spoil, 0);
    Some((plan, opening - 1))
}
fn opening_with_cast_for_spoil(made: &Made, _: u32, random: &mut Random) -> Change {
    let (opening, spoil) = opened(made, random)?;
    // A fingerprint would be another one.
    if first_of(made, EXTRACTION).is_some_and(|i| i < opening) {
        return None;
    }
    let mut plan = made.plan.clone();
    plan.items[spoil].code = CAST;
    Some((plan, opening))
}

/// The spoil moved behind the opening, if their times then fit.
fn opening_before_spoil(made: &Made, random: &mut Random, fits: fn(u64, u64) -> bool) -> Change {
    let (opening, spoil) = opened(made, random)?;
    let at = opening + 1;
    let mut moved = items(made)[spoil].clone();
    moved.time = items(made)[last_main(made, at)?].time;
    if !may_vote(made, session_of(made, spoil), at) || !fits(items(made)[opening].time, moved.time) {
        return None;
    }
    let mut plan = made.plan.clone();
    plan.insert(at, moved);
    plan.remove(spoil, 0);
    Some((plan, opening - 1))
}
fn opening_before_spoil_at_any_time(made: &Made, _: u32, random: &mut Random) -> Change {
    opening_before_spoil(made, random, |_, _| true)
}
fn opening_before_spoil_of_earlier_time(made: &Made, _: u32, random: &mut Random) -> Change {
    opening_before_spoil(made, random, |opening, spoil| spoil < opening)
}

/// An opening of a ballot that is cast or open, with something else wrong in it.
fn opening_unspoiled(
    made: &Made,
    random: &mut Random,
    edit: fn(&mut Plan, usize, &mut Random) -> Option<()>,
) -> Change {
    let (mut plan, at) = open_some(made, random, |ballot| match closer(made, ballot, SPOIL) {
        Some(_) => None,
        None => Some((ballot + 1, items(made).len())),
    })?;
    edit(&mut plan, at, random)?;
    Some((plan, at))
}
fn opening_unspoiled_with_bad_verdict(made: &Made, _: u32, random: &mut Random) -> Change {
    opening_unspoiled(made, random, |plan, at, random| {
        match random.below(3) {
            0 => plan.items[at].verdict = 0,
            1 => plan.items[at].key = random.eight(),
            _ => plan.items[at].verdict &= !1,
        }
        Some(())
    })
}
fn opening_unspoiled_and_backward(made: &Made, _: u32, random: &mut Random) -> Change {
    opening_unspoiled(made, random, |plan, at, _| {
        let Link::Item(verifier) = plan.items[at].parent else { return None };
        plan.items[at].time = plan.items[verifier].time.checked_sub(1)?;
        Some(())
    })
}
fn opening_unspoiled_under_track(made: &Made, _: u32, random: &mut Random) -> Change {
    opening_unspoiled(made, random, |plan, at, _| {
        let Link::Item(verifier) = plan.items[at].parent else { return None };
        plan.items[at].parent = plan.items[verifier].parent.clone();
        Some(())
    })
}

// ---- 12: second ----

fn second_genesis(made: &Made, _: u32, random: &mut Random) -> Change {
    let at = config_position(made, 1, random)?;
    let mut content = items(made)[0].content.clone();
    if random.chance(50) {
        // Its traits are not read.
        content = random.words(PLAIN_GENESIS);
        let known = random.below(6) as u32;
        content.extend(*random.pick(&[None, Some(known), Some(known), Some(6), Some(u32::MAX)]));
    }
    insert(made, at, new_item(made, GENESIS, at, Link::Zeros, content, administrator(made)))
}

fn second_threshold(made: &Made, _: u32, random: &mut Random) -> Change {
    let first = first_of(made, THRESHOLD)?;
    let at = config_position(made, first + 1, random)?;
    let mut content = items(made)[first].content.clone();
    if random.chance(50) {
        content[0] = 99; // 12 comes before 13
    }
    insert(made, at, new_item(made, THRESHOLD, at, Link::Item(latest_config(made, at)), content, administrator(made)))
}

/// Whether a voting item of this session may stand before the item at `at`.
fn may_vote(made: &Made, session: usize, at: usize) -> bool {
    let end = first_of(made, INTENT).unwrap_or(items(made).len());
    let now = last_main(made, at).map_or(0, |i| items(made)[i].time);
    at <= end && is_live(made, session, at) && !open(made, at, now).is_empty()
}

/// A position after `from` where a voting item of this session may stand.
fn voting_position(made: &Made, from: usize, session: usize, random: &mut Random) -> usize {
    for _ in 0..4 {
        let end = first_of(made, INTENT).unwrap_or(items(made).len());
        let at = random.between(from + 1, end.max(from + 1));
        if may_vote(made, session, at) {
            return at;
        }
    }
    from + 1
}

/// Another item of the type under the same parent.
fn second_under(made: &Made, code: u32, random: &mut Random) -> Change {
    let first = pick(made, code, random)?;
    let mut spec = items(made)[first].clone();
    let at = if is_voting(code) {
        voting_position(made, first, session_of(made, first), random)
    } else {
        random.between(first + 1, items(made).len())
    };
    if spec.kind == MAIN {
        spec.time = items(made)[last_main(made, at)?].time;
    } else if random.chance(50) {
        spec.time = spec.time.saturating_add(1);
    }
    // Of a copy only the first differs; bad bits would be 13, which comes later.
    if random.chance(50) && !spec.content.is_empty() && code != VERIFIER {
        let word = random.below(spec.content.len());
        spec.content[word] ^= 1 + random.word() / 2;
    }
    insert(made, at, spec)
}

/// A cast or spoil of the ballot that another one decided, before the item at `at`.
fn decide_again(made: &Made, decided: usize, second: u32, at: usize) -> Change {
    let mut spec = items(made)[decided].clone();
    spec.code = second;
    spec.time = items(made)[last_main(made, at)?].time;
    insert(made, at, spec)
}

fn second_decision(made: &Made, first: u32, second: u32, random: &mut Random) -> Change {
    let decided = pick(made, first, random)?;
    let at = voting_position(made, decided, session_of(made, decided), random);
    decide_again(made, decided, second, at)
}

fn cast_after_cast(made: &Made, _: u32, random: &mut Random) -> Change {
    second_decision(made, CAST, CAST, random)
}
fn spoil_after_cast(made: &Made, _: u32, random: &mut Random) -> Change {
    second_decision(made, CAST, SPOIL, random)
}
fn cast_after_spoil(made: &Made, _: u32, random: &mut Random) -> Change {
    second_decision(made, SPOIL, CAST, random)
}
fn spoil_after_spoil(made: &Made, _: u32, random: &mut Random) -> Change {
    second_decision(made, SPOIL, SPOIL, random)
}
/// A cast of a ballot that was spoiled, then opened.
fn cast_after_opening(made: &Made, _: u32, random: &mut Random) -> Change {
    let (opening, spoil) = opened(made, random)?;
    let session = session_of(made, spoil);
    let at = voting_position(made, opening, session, random);
    if !may_vote(made, session, at) {
        return None;
    }
    decide_again(made, spoil, CAST, at)
}

// ---- 13: bad content ----

fn contest_number(made: &Made, _: u32, random: &mut Random) -> Change {
    let numbers = made.layout.sets.contests();
    change_content(made, CONTEST, random, |c, r| {
        c[0] = *r.pick(&[numbers, numbers + 1, numbers + 31, 2 * numbers, 1 << 31, u32::MAX]);
    })
}

fn threshold_is(made: &Made, random: &mut Random, m: u32, t: u32) -> Change {
    change_content(made, THRESHOLD, random, |c, _| (c[0], c[1]) = (m, t))
}
fn threshold_t_zero(made: &Made, _: u32, random: &mut Random) -> Change {
    let m = random.between(1, 32) as u32;
    threshold_is(made, random, m, 0)
}
fn threshold_t_over_m(made: &Made, _: u32, random: &mut Random) -> Change {
    let m = random.between(1, 31) as u32;
    let t = *random.pick(&[m + 1, 32, 33, u32::MAX]);
    threshold_is(made, random, m, t.max(m + 1))
}
fn threshold_m_33(made: &Made, _: u32, random: &mut Random) -> Change {
    let t = random.between(1, 33) as u32;
    threshold_is(made, random, 33, t)
}
fn threshold_m_zero(made: &Made, _: u32, random: &mut Random) -> Change {
    threshold_is(made, random, 0, 0)
}
fn threshold_m_huge(made: &Made, _: u32, random: &mut Random) -> Change {
    let m = *random.pick(&[64, 1 << 31, u32::MAX]);
    threshold_is(made, random, m, 2)
}

fn authorizer_mode(made: &Made, _: u32, random: &mut Random) -> Change {
    change_content(made, AUTHORIZER, random, |c, r| c[0] = *r.pick(&[0, 3, 1 << 31 | 1, u32::MAX]))
}

fn round_number(made: &Made, _: u32, random: &mut Random) -> Change {
    change_content(made, ROUND, random, |c, r| c[0] = *r.pick(&[16, 17, 31, 32, u32::MAX]))
}
fn round_empty(made: &Made, _: u32, random: &mut Random) -> Change {
    let at = pick(made, ROUND, random)?;
    change_set(made, at, Set::EMPTY)
}
/// A contest that is not defined yet, alone or beside the others.
fn undefined_contest(made: &Made, code: u32, random: &mut Random) -> Change {
    let at = pick(made, code, random)?;
    let undefined = Set::all(made.layout.sets).minus(contests(made, at));
    if undefined.is_empty() {
        return None;
    }
    let other = Set::one(random.contest(undefined));
    let alone = random.chance(30);
    change_set(made, at, if alone { other } else { set_of(made, at) | other })
}
fn round_undefined(made: &Made, _: u32, random: &mut Random) -> Change {
    undefined_contest(made, ROUND, random)
}
/// A round with another start and end, from those that it has.
fn round_times(made: &Made, random: &mut Random, edit: fn(u64, u64) -> (u64, u64)) -> Change {
    let at = pick(made, ROUND, random)?;
    let round = &items(made)[at].content;
    let (start, end) = made.layout.sets.round_times(round);
    let (start, end) = edit(start, end);
    let content = round_content(made.layout.sets, round[0], set_of(made, at), start, end);
    change_item(made, at, |s| s.content = content)
}
fn round_start_is_end(made: &Made, _: u32, random: &mut Random) -> Change {
    round_times(made, random, |start, _| (start, start))
}
fn round_start_after_end(made: &Made, _: u32, random: &mut Random) -> Change {
    round_times(made, random, |start, end| (end, start))
}
/// The start's low word is less, its high word more.
fn round_start_after_end_high(made: &Made, _: u32, random: &mut Random) -> Change {
    round_times(made, random, |_, _| (8 << 32, 7 << 32 | 9))
}

fn session_weight(made: &Made, _: u32, random: &mut Random) -> Change {
    change_content(made, SESSION, random, |c, _| c[1] = 0)
}
fn session_empty(made: &Made, _: u32, random: &mut Random) -> Change {
    let at = pick(made, SESSION, random)?;
    change_set(made, at, Set::EMPTY)
}
fn session_undefined(made: &Made, _: u32, random: &mut Random) -> Change {
    undefined_contest(made, SESSION, random)
}

/// Some of the low bits of a commitment's last word.
fn commitment_bits(made: &Made, code: u32, random: &mut Random) -> Change {
    let low = (1 << widths(made).commitment_zeros) - 1;
    change_content(made, code, random, |c, r| {
        let bit = r.bit(low);
        *c.last_mut().expect("a last word") |= *r.pick(&[1, bit, low]);
    })
}

/// How many cryptograms a ballot has.
fn cryptograms(made: &Made, at: usize) -> usize {
    made.layout.cryptograms(&items(made)[at].content).len()
}

fn cryptogram_bits(made: &Made, _: u32, random: &mut Random) -> Change {
    let at = pick(made, BALLOT, random)?;
    let k = cryptograms(made, at);
    let some = 1 + random.below(k);
    let which = *random.pick(&[1, k, some]);
    low_bits(made, at, which, random)
}
/// A low bit of a ballot's cryptogram with this number, from 1.
fn low_bits(made: &Made, at: usize, which: usize, random: &mut Random) -> Change {
    let bits = *random.pick(&[1, 1 << 15, 1 << 8]);
    change_item(made, at, |s| s.content[made.layout.sets.words() + which * widths(made).cryptogram - 1] |= bits)
}
/// A cryptogram too many for the set.
fn ballot_too_long(made: &Made, _: u32, random: &mut Random) -> Change {
    let most = made.layout.sets.contests() as usize;
    let at = pick_where(made, random, |i, s| s.code == BALLOT && cryptograms(made, i) < most)?;
    change_item(made, at, |s| s.content.resize(s.content.len() + widths(made).cryptogram, 0))
}
fn ballot_too_short(made: &Made, _: u32, random: &mut Random) -> Change {
    let at = pick_where(made, random, |i, s| s.code == BALLOT && cryptograms(made, i) > 1)?;
    change_item(made, at, |s| s.content.truncate(s.content.len() - widths(made).cryptogram))
}
fn ballot_empty(made: &Made, _: u32, random: &mut Random) -> Change {
    let at = pick(made, BALLOT, random)?;
    change_set(made, at, Set::EMPTY)
}
/// A contest is swapped for another, so that the count still fits.
fn ballot_swap(made: &Made, random: &mut Random, into: impl Fn(usize) -> Set) -> Change {
    let at = pick_where(made, random, |i, s| s.code == BALLOT && !into(i).is_within(set_of(made, i)))?;
    let set = set_of(made, at);
    let (gone, come) = (random.contest(set), random.contest(into(at).minus(set)));
    change_set(made, at, set.minus(Set::one(gone)) | Set::one(come))
}
/// The contests that are enabled where a ballot stands, and not in its session.
fn only_enabled(made: &Made, ballot: usize) -> Set {
    enabled(made, ballot).minus(set_of(made, session_of(made, ballot)))
}
/// Those that are in its session, and not enabled.
fn only_in_session(made: &Made, ballot: usize) -> Set {
    set_of(made, session_of(made, ballot)).minus(enabled(made, ballot))
}
fn ballot_not_in_session(made: &Made, _: u32, random: &mut Random) -> Change {
    ballot_swap(made, random, |i| only_enabled(made, i))
}
fn ballot_not_enabled(made: &Made, _: u32, random: &mut Random) -> Change {
    ballot_swap(made, random, |i| only_in_session(made, i))
}
fn ballot_undefined(made: &Made, _: u32, random: &mut Random) -> Change {
    ballot_swap(made, random, |i| Set::all(made.layout.sets).minus(contests(made, i)))
}
/// The rounds that enabled a contest are replaced by such without it.
fn ballot_only_replaced(made: &Made, _: u32, random: &mut Random) -> Change {
    let at = pick(made, BALLOT, random)?;
    let gone = Set::one(random.contest(set_of(made, at)));
    let rest = contests(made, at).minus(gone);
    if rest.is_empty() {
        return None;
    }
    let mut plan = made.plan.clone();
    let mut inserted = 0;
    for (number, set, start, end) in open(made, at, items(made)[at].time) {
        let kept = if set.is_within(gone) { random.contests(rest) } else { set.minus(gone) };
        let mut round = new_round(made, at, number, kept, start, end);
        if inserted > 0 {
            round.parent = Link::Item(at + inserted - 1);
        }
        plan.insert(at + inserted, round);
        inserted += 1;
    }
    Some((plan, at + inserted))
}

/// A fingerprint of other ballots than the counted ones. `order` gives their positions.
fn fingerprint_of(made: &Made, random: &mut Random, order: impl Fn(&Made, usize) -> Vec<usize>) -> Change {
    let at = pick(made, EXTRACTION, random)?;
    let mut message = Vec::new();
    for ballot in order(made, at) {
        message.extend_from_slice(&items(made)[ballot].content);
    }
    let wrong = sha256(&message).to_vec();
    if wrong == items(made)[at].content {
        return None;
    }
    change_item(made, at, |s| s.content = wrong)
}

fn positions(made: &Made, before: usize, code: u32) -> Vec<usize> {
    (0..before).filter(|&i| items(made)[i].code == code).collect()
}
fn voter_of(made: &Made, position: usize) -> u32 {
    items(made)[session_of(made, position)].content[0]
}
fn parent_position(made: &Made, position: usize) -> usize {
    made.expected.rows[position].parent as usize - 1
}
/// Of each voter the last of some positions, in order.
fn last_of_voters(made: &Made, from: Vec<usize>) -> Vec<usize> {
    let mut kept: Vec<usize> = Vec::new();
    for i in from {
        kept.retain(|&k| voter_of(made, k) != voter_of(made, i));
        kept.push(i);
    }
    kept
}
/// The counted ballots, were the board to end before a position.
pub fn counted(made: &Made, before: usize) -> Vec<usize> {
    last_of_voters(made, positions(made, before, CAST)).iter().map(|&i| parent_position(made, i)).collect()
}

fn fingerprint_flipped(made: &Made, _: u32, random: &mut Random) -> Change {
    change_content(made, EXTRACTION, random, |c, r| c[r.below(8)] ^= 1 << r.below(32))
}
fn fingerprint_none(made: &Made, _: u32, random: &mut Random) -> Change {
    fingerprint_of(made, random, |_, _| Vec::new())
}
fn fingerprint_all_casts(made: &Made, _: u32, random: &mut Random) -> Change {
    fingerprint_of(made, random, |m, at| positions(m, at, CAST).iter().map(|&i| parent_position(m, i)).collect())
}
fn fingerprint_all_ballots(made: &Made, _: u32, random: &mut Random) -> Change {
    fingerprint_of(made, random, |m, at| positions(m, at, BALLOT))
}
fn fingerprint_last_ballots(made: &Made, _: u32, random: &mut Random) -> Change {
    fingerprint_of(made, random, |m, at| last_of_voters(m, positions(m, at, BALLOT)))
}
fn fingerprint_reversed(made: &Made, _: u32, random: &mut Random) -> Change {
    fingerprint_of(made, random, |m, at| counted(m, at).into_iter().rev().collect())
}
/// The counted ballots in the order of each voter's first cast.
fn fingerprint_first_order(made: &Made, _: u32, random: &mut Random) -> Change {
    fingerprint_of(made, random, |m, at| {
        let mut voters: Vec<u32> = Vec::new();
        for i in positions(m, at, CAST) {
            if !voters.contains(&voter_of(m, i)) {
                voters.push(voter_of(m, i));
            }
        }
        let mut ballots = counted(m, at);
        ballots.sort_by_key(|&b| voters.iter().position(|&v| v == voter_of(m, b)));
        ballots
    })
}
/// The counted ballots in the order of the ballots, not of the casts.
fn fingerprint_ballot_order(made: &Made, _: u32, random: &mut Random) -> Change {
    fingerprint_of(made, random, |m, at| {
        let mut ballots = counted(m, at);
        ballots.sort();
        ballots
    })
}
fn fingerprint_live_only(made: &Made, _: u32, random: &mut Random) -> Change {
    fingerprint_of(made, random, |m, at| {
        counted(m, at).into_iter().filter(|&b| is_live(m, session_of(m, b), at)).collect()
    })
}
/// The contents without the contest sets.
fn fingerprint_cryptograms(made: &Made, _: u32, random: &mut Random) -> Change {
    let at = pick(made, EXTRACTION, random)?;
    let ballots = counted(made, at);
    if ballots.is_empty() {
        return None;
    }
    let set = made.layout.sets.words();
    let message: Vec<u32> = ballots.iter().flat_map(|&b| items(made)[b].content[set..].to_vec()).collect();
    change_item(made, at, |s| s.content = sha256(&message).to_vec())
}

fn confirmation_too_long(made: &Made, _: u32, random: &mut Random) -> Change {
    let at = pick_where(made, random, |_, s| s.code == CONFIRMATION && s.content.len() < 1 + TRUSTEE * 32)?;
    change_item(made, at, |s| s.content.extend([0; TRUSTEE]))
}
fn confirmation_too_short(made: &Made, _: u32, random: &mut Random) -> Change {
    let at = pick_where(made, random, |_, s| s.code == CONFIRMATION && s.content.len() > 1 + TRUSTEE)?;
    change_item(made, at, |s| s.content.truncate(s.content.len() - TRUSTEE))
}
fn confirmation_empty(made: &Made, _: u32, random: &mut Random) -> Change {
    change_content(made, CONFIRMATION, random, |c, _| c[0] = 0)
}
/// A trustee number of m or more: m itself, or any.
fn confirmation_number(made: &Made, random: &mut Random, just_m: bool) -> Change {
    let m = items(made)[first_of(made, THRESHOLD)?].content[0];
    if m == 32 {
        return None;
    }
    let add = if just_m { 1 << m } else { random.bit(u32::MAX << m) };
    let replace = random.chance(50);
    change_content(made, CONFIRMATION, random, |c, r| {
        if replace || c.len() == 1 + TRUSTEE * 32 {
            let gone = r.bit(c[0]);
            c[0] = c[0] & !gone | add;
        } else {
            c[0] |= add;
            c.extend([7; TRUSTEE]);
        }
    })
}
fn confirmation_number_m(made: &Made, _: u32, random: &mut Random) -> Change {
    confirmation_number(made, random, true)
}
fn confirmation_number_over(made: &Made, _: u32, random: &mut Random) -> Change {
    confirmation_number(made, random, false)
}
fn confirmation_too_few(made: &Made, _: u32, random: &mut Random) -> Change {
    let t = items(made)[first_of(made, THRESHOLD)?].content[1];
    if t < 2 {
        return None;
    }
    let fewer = *random.pick(&[1, t - 1]);
    change_content(made, CONFIRMATION, random, |c, r| {
        while c[0].count_ones() > fewer {
            c[0] &= !r.bit(c[0]);
        }
        c.truncate(1 + TRUSTEE * fewer as usize);
    })
}

// ---- 14: no verdict ----

fn verdict_kind(made: &Made, _: u32, random: &mut Random) -> Change {
    let at = any(made, random);
    let kind = *random.pick(&[0, 1, 2, 4, 7, 11, 15]);
    change_item(made, at, |s| s.verdict = kind << 28 | s.verdict & 1)
}
fn verdict_bits(made: &Made, _: u32, random: &mut Random) -> Change {
    let at = any(made, random);
    let bit = random.between(1, 27);
    let good = random.chance(50);
    change_item(made, at, |s| s.verdict = VERDICT << 28 | 1 << bit | u32::from(good))
}
fn verdict_missing(made: &Made, _: u32, random: &mut Random) -> Change {
    let at = any(made, random);
    let mut plan = made.plan.clone();
    plan.verdicts_cut = Some(at * VERDICT_WORDS + random.below(VERDICT_WORDS));
    // What is left of the nine may be wrong as well.
    match random.below(4) {
        0 => plan.items[at].verdict = VERDICT << 28,
        1 => plan.items[at].key = random.eight(),
        _ => {}
    }
    Some((plan, at))
}
fn verdict_none(made: &Made, _: u32, _: &mut Random) -> Change {
    let mut plan = made.plan.clone();
    plan.verdicts_cut = Some(0);
    Some((plan, 0))
}

// ---- 15: wrong key ----

/// Another key than the writer's; the verdict may be bad as well.
fn key_is(made: &Made, at: usize, key: [u32; FINGERPRINT], random: &mut Random) -> Change {
    if key == items(made)[at].key {
        return None;
    }
    let verdict = VERDICT << 28 | u32::from(random.chance(70));
    change_item(made, at, |s| (s.key, s.verdict) = (key, verdict))
}
fn key_random(made: &Made, code: u32, random: &mut Random) -> Change {
    let at = pick(made, code, random)?;
    let key = random.eight();
    key_is(made, at, key, random)
}
fn key_zeros(made: &Made, code: u32, random: &mut Random) -> Change {
    let at = pick(made, code, random)?;
    key_is(made, at, NO_KEY, random)
}
fn key_flipped(made: &Made, code: u32, random: &mut Random) -> Change {
    let at = pick(made, code, random)?;
    let mut key = items(made)[at].key;
    key[random.below(8)] ^= 1 << random.below(32);
    key_is(made, at, key, random)
}
fn key_administrator(made: &Made, code: u32, random: &mut Random) -> Change {
    let at = pick(made, code, random)?;
    key_is(made, at, administrator(made), random)
}
fn key_ballot_box(made: &Made, code: u32, random: &mut Random) -> Change {
    let at = pick(made, code, random)?;
    key_is(made, at, ballot_box(made), random)
}
fn key_authorizer(made: &Made, code: u32, random: &mut Random) -> Change {
    let at = pick(made, code, random)?;
    key_is(made, at, authorizer(made, items(made).len())?, random)
}
/// The key of some session: another voter's, or the same voter's other one.
fn key_voter(made: &Made, code: u32, random: &mut Random) -> Change {
    let at = pick(made, code, random)?;
    let session = pick(made, SESSION, random)?;
    key_is(made, at, eight(&items(made)[session].content, 2), random)
}
/// An authorizer's key that a later one has replaced.
fn key_replaced(made: &Made, _: u32, random: &mut Random) -> Change {
    let at = pick(made, SESSION, random)?;
    let old = positions(made, at, AUTHORIZER);
    let replaced = *random.pick(&old);
    key_is(made, at, eight(&items(made)[replaced].content, 1), random)
}
/// An opening under the key of the voter's latest session, which is not its own.
fn key_latest_session(made: &Made, _: u32, random: &mut Random) -> Change {
    let at = pick_where(made, random, |i, s| s.code == VOTER_OPENING && !is_live(made, session_of(made, i), i))?;
    let voter = voter_of(made, at);
    let latest = positions(made, at, SESSION).into_iter().rev().find(|&s| items(made)[s].content[0] == voter)?;
    key_is(made, at, eight(&items(made)[latest].content, 2), random)
}

// ---- 16: bad signature ----

fn bad_signature(made: &Made, code: u32, random: &mut Random) -> Change {
    let at = pick(made, code, random)?;
    change_item(made, at, |s| s.verdict = VERDICT << 28)
}

// ---- 18: bad close ----

fn close_with(made: &Made, word: u32) -> Change {
    let mut plan = made.plan.clone();
    plan.closing = Some(Some(word));
    Some((plan, items(made).len()))
}
fn close_number(made: &Made, _: u32, random: &mut Random) -> Change {
    let items = items(made).len() as u32;
    let wrong = *random.pick(&[items - 1, items + 1, 0, items | 1 << 27, 0x0fff_ffff]);
    close_with(made, CLOSING << 28 | wrong)
}
fn close_number_of_mains(made: &Made, _: u32, _: &mut Random) -> Change {
    if made.expected.mains == items(made).len() {
        return None;
    }
    close_with(made, CLOSING << 28 | made.expected.mains as u32)
}
fn close_words_after(made: &Made, _: u32, random: &mut Random) -> Change {
    let mut plan = made.plan.clone();
    let count = random.between(1, 60);
    plan.after = random.words(count);
    if random.chance(30) {
        plan.after = vec![CLOSING << 28 | items(made).len() as u32];
    }
    Some((plan, items(made).len()))
}
fn close_verdicts_left(made: &Made, _: u32, random: &mut Random) -> Change {
    let mut plan = made.plan.clone();
    let count = *random.pick(&[1, 8, 9, 10, 90]);
    plan.verdicts_after = random.words(count);
    Some((plan, items(made).len()))
}
/// A closing word in an item's place, its number right.
fn close_inside(made: &Made, _: u32, random: &mut Random) -> Change {
    if items(made).len() < 2 {
        return None;
    }
    let at = random.between(1, items(made).len() - 1);
    let mut plan = made.plan.clone();
    plan.head = Some((at, CLOSING << 28 | at as u32));
    Some((plan, at))
}
/// A shorter board with all verdicts.
fn close_early(made: &Made, _: u32, random: &mut Random) -> Change {
    if items(made).len() < 2 {
        return None;
    }
    let passed = random.between(1, items(made).len() - 1);
    let mut plan = made.plan.clone();
    for spec in plan.items.drain(passed..) {
        plan.verdicts_after.push(spec.verdict);
        plan.verdicts_after.extend(spec.key);
    }
    Some((plan, passed))
}

// ---- the list ----

/// Every fault but those of the word and item limits, which take long boards.
pub fn faults() -> Vec<Fault> {
    let mut list = plain_faults();
    list.extend(widths::width_faults());
    list.extend(curves::curve_faults());
    list.extend(rolls::roll_faults());
    list
}

/// Those that leave the roll alone.
fn plain_faults() -> Vec<Fault> {
    let mut list = Vec::new();
    let mut one = |number: u32, reason: &str, change: fn(&Made, u32, &mut Random) -> Change| {
        let reason = format!("{number}/{reason}");
        list.push(Fault { number, reason, layouts: LAYOUTS.to_vec(), all_contests: false, code: 0, change });
    };
    one(3, "no words", no_words);
    one(3, "closing word first", closing_first);
    one(4, "cut in an item", cut);
    one(4, "cut after a head", cut_after_head);
    one(4, "one word short", one_short);
    one(4, "no closing word", no_closing_word);
    one(5, "kind", strange_kind);
    one(5, "unlisted main type", strange_main);
    one(5, "unlisted hidden type", strange_hidden);
    one(5, "hidden type as main", hidden_as_main);
    one(5, "main type as hidden", main_as_hidden);
    one(5, "unlisted head as last word", strange_head_last);
    one(7, "with signature", address_with_signature);
    one(7, "without head", address_without_head);
    one(7, "without count", address_without_count);
    one(7, "without time", address_without_time);
    one(7, "zeros", address_zeros);
    one(7, "content changed", content_changed);
    one(7, "parent changed", parent_changed);
    one(7, "previous changed", previous_changed);
    one(7, "time changed", time_changed);
    one(7, "cast and spoil changed", decision_changed);
    one(8, "one bit", previous_flipped);
    one(8, "zeros", previous_zeros);
    one(8, "main names hidden", previous_hidden);
    one(8, "two back", previous_two_back);
    one(8, "main names parent", previous_parent);
    one(8, "hidden names last main", hidden_previous_last_main);
    one(8, "hidden names item before", hidden_previous_item_before);
    one(8, "hidden, parent unknown too", hidden_unknown_parent_and_previous);
    one(8, "hidden first", hidden_first_previous);
    one(9, "genesis with a parent", genesis_parent);
    one(9, "hidden before its parent", before_its_parent);
    one(9, "opening under a track start, not spoiled", opening_unspoiled_under_track);
    one(10, "opening earlier than its verifier, not spoiled", opening_unspoiled_and_backward);
    one(11, "no threshold", without_threshold);
    one(11, "no authorizer", without_authorizer);
    one(11, "no round", without_round);
    one(11, "intent without threshold", early_intent);
    one(11, "opening beside a cast", opening_beside_cast);
    one(11, "opening before a cast", opening_before_cast);
    one(11, "opening on an open ballot", opening_on_open);
    one(11, "opening, another ballot of the session spoiled", opening_other_of_session_spoiled);
    one(11, "opening, another voter's ballot spoiled", opening_other_voters_spoiled);
    one(11, "opening, the spoil left out", opening_without_spoil);
    one(11, "opening, a cast in the spoil's place", opening_with_cast_for_spoil);
    one(11, "opening before its spoil", opening_before_spoil_at_any_time);
    one(11, "opening before its spoil, which has an earlier time", opening_before_spoil_of_earlier_time);
    one(11, "opening not spoiled, and a bad verdict", opening_unspoiled_with_bad_verdict);
    one(12, "genesis", second_genesis);
    one(12, "threshold", second_threshold);
    one(12, "cast after cast", cast_after_cast);
    one(12, "spoil after cast", spoil_after_cast);
    one(12, "cast after spoil", cast_after_spoil);
    one(12, "spoil after spoil", spoil_after_spoil);
    one(12, "cast after spoil and opening", cast_after_opening);
    one(13, "contest number", contest_number);
    one(13, "threshold, t zero", threshold_t_zero);
    one(13, "threshold, t over m", threshold_t_over_m);
    one(13, "threshold, m 33", threshold_m_33);
    one(13, "threshold, m zero", threshold_m_zero);
    one(13, "threshold, m huge", threshold_m_huge);
    one(13, "authorizer mode", authorizer_mode);
    one(13, "round number", round_number);
    one(13, "round without contests", round_empty);
    one(13, "round, contest undefined", round_undefined);
    one(13, "round, start is end", round_start_is_end);
    one(13, "round, start after end", round_start_after_end);
    one(13, "round, start after end in the high word", round_start_after_end_high);
    one(13, "session weight 0", session_weight);
    one(13, "session without contests", session_empty);
    one(13, "session, contest undefined", session_undefined);
    one(13, "cryptogram bits", cryptogram_bits);
    one(13, "ballot, cryptogram too many", ballot_too_long);
    one(13, "ballot, cryptogram too few", ballot_too_short);
    one(13, "ballot without contests", ballot_empty);
    one(13, "ballot, contest not in session", ballot_not_in_session);
    one(13, "ballot, contest not enabled", ballot_not_enabled);
    one(13, "ballot, contest undefined", ballot_undefined);
    one(13, "ballot, only a replaced round", ballot_only_replaced);
    one(13, "fingerprint, one bit", fingerprint_flipped);
    one(13, "fingerprint of none", fingerprint_none);
    one(13, "fingerprint of all casts", fingerprint_all_casts);
    one(13, "fingerprint of all ballots", fingerprint_all_ballots);
    one(13, "fingerprint of last ballots", fingerprint_last_ballots);
    one(13, "fingerprint, reversed", fingerprint_reversed);
    one(13, "fingerprint, order of first casts", fingerprint_first_order);
    one(13, "fingerprint, order of ballots", fingerprint_ballot_order);
    one(13, "fingerprint of live sessions", fingerprint_live_only);
    one(13, "fingerprint of cryptograms", fingerprint_cryptograms);
    one(13, "confirmation, trustee too many", confirmation_too_long);
    one(13, "confirmation, trustee too few", confirmation_too_short);
    one(13, "confirmation without trustees", confirmation_empty);
    one(13, "confirmation, number m", confirmation_number_m);
    one(13, "confirmation, number over m", confirmation_number_over);
    one(13, "confirmation below threshold", confirmation_too_few);
    one(14, "kind", verdict_kind);
    one(14, "bits", verdict_bits);
    one(14, "missing", verdict_missing);
    one(14, "none at all", verdict_none);
    one(15, "replaced authorizer", key_replaced);
    one(15, "voter's latest session", key_latest_session);
    one(18, "number", close_number);
    one(18, "number of mains", close_number_of_mains);
    one(18, "words after", close_words_after);
    one(18, "verdicts left", close_verdicts_left);
    one(18, "closing word inside", close_inside);
    one(18, "cut, verdicts left", close_early);

    let mut each = |number: u32, reason: &str, codes: &[u32], change: fn(&Made, u32, &mut Random) -> Change| {
        for &code in codes {
            let reason = format!("{number}/{reason}/type {code}");
            list.push(Fault { number, reason, layouts: LAYOUTS.to_vec(), all_contests: false, code, change });
        }
    };
    let linked = &CODES[1..];
    let configured = [TEXT, CONTEST, THRESHOLD, AUTHORIZER, ROUND, SESSION, INTENT];
    let typed = [17, 18, 19, 20, 21, 33, 34, 48, 49, 50, 51];
    let voting = [16, 17, 18, 19, 20, 21];
    let tracks = [VERIFIER, VOTER_OPENING, SERVER_OPENING];
    each(6, "head", &CODES, misfit_head);
    each(6, "content", &CODES, misfit_content);
    each(6, "head as last word", &CODES, misfit_head_last);
    each(7, "one bit", &CODES, address_flipped);
    each(8, "random", &CODES, previous_random);
    each(9, "not found", &CODES, parent_unknown);
    each(9, "one bit", linked, parent_flipped);
    each(9, "zeros", linked, parent_zeros);
    each(9, "older config", &configured, parent_older_config);
    each(9, "no config", &[TEXT, CONTEST, AUTHORIZER, ROUND, SESSION, INTENT], parent_no_config);
    each(9, "hidden parent", &[2, 3, 5, 6, 16, 17, 18, 19, 20, 21, 32, 33, 34, 48], parent_hidden);
    each(9, "main parent", &tracks, parent_main);
    each(9, "other type", &typed, parent_other_type);
    each(9, "first", linked, first_is);
    each(10, "earlier", linked, backward);
    each(11, "after intent", &CODES[..12], after_intent);
    each(11, "late", &voting, late);
    each(11, "replaced", &voting, replaced);
    each(11, "overwritten", &voting[1..], overwritten);
    each(12, "under a parent", &[18, 19, 33, 34, 48, 49, 50, 51], second_under);
    each(13, "low bits", &[VOTER_COMMITMENT, SERVER_COMMITMENT], commitment_bits);
    each(15, "random", &CODES, key_random);
    each(15, "zeros", &CODES, key_zeros);
    each(15, "one bit", &CODES, key_flipped);
    each(15, "administrator", &[16, 17, 18, 19, 20, 21, 33, 48, 49, 50, 51], key_administrator);
    each(15, "ballot box", &[1, 2, 3, 4, 5, 6, 16, 17, 19, 20, 21, 32, 34, 49, 50], key_ballot_box);
    each(15, "authorizer", &[1, 2, 3, 4, 5, 6, 17, 18, 19, 20, 21, 32, 33, 34, 48, 49, 50, 51], key_authorizer);
    each(15, "a voter", &CODES, key_voter);
    each(16, "verdict", &CODES, bad_signature);
    list
}

/// The place of a refusal in the order of an item's checks.
pub fn rank(number: u32) -> u32 {
    match number {
        20 => 0,
        5 => 1,
        6 => 2,
        4 => 3,
        21 => rank(13) + 1,
        14.. => number + 1,
        _ => number,
    }
}

/// A second fault in the item that has one: gives its number, if it could be done.
pub fn spoil_more(faulty: &mut Faulty, random: &mut Random) -> Option<u32> {
    let at = faulty.items;
    if faulty.plan.cut.is_some() || faulty.plan.head.is_some() || at >= faulty.plan.items.len() {
        return None;
    }
    let plan = &mut faulty.plan;
    let layout = plan.layout();
    let voter = plan.items[at].content.first().copied();
    let is_voters = |s: &Spec| s.code == SESSION && s.content.first().copied() == voter;
    let first_session = is_voters(&plan.items[at]) && !plan.items[..at].iter().any(is_voters);
    let before = plan.items[..at].iter().rev().find(|s| s.kind == MAIN).map_or(0, |s| s.time);
    let item = &mut plan.items[at];
    let number = *random.pick(&[4, 5, 6, 7, 8, 9, 10, 14, 15, 16, 20, 21]);
    match number {
        4 => {
            let length = item.count.unwrap_or(item.content.len()).min(item.content.len()) + layout.curve.frame();
            plan.cut = Some((at, random.between(1, length - 1)));
        }
        5 => item.code = unlisted(random),
        6 => item.count = Some(misfit_count(layout, item.code, random)),
        7 if item.address == Address::Right => {
            item.address = Address::Flipped(random.below(32 * layout.curve.widths().address));
        }
        8 => item.previous = Previous::Words(random.digest()),
        9 if item.kind == MAIN || item.previous == Previous::Right => item.parent = Link::Words(random.digest()),
        10 if item.kind == MAIN && before > 0 => item.time = before - 1,
        14 => item.verdict = 0x4000_0001,
        15 => item.key = random.eight(),
        16 => item.verdict &= !1,
        20 => plan.roll = bad_roll(&plan.roll, random),
        // The voter of a session goes from a roll that is good.
        21 if first_session && faulty.number != 20 => {
            let mut pairs = pairs_of(&plan.roll);
            pairs.remove(&item.content[0]);
            plan.roll = roll_of(pairs);
        }
        _ => return None,
    }
    Some(number)
}
