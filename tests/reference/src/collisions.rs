//! Collisions, with a hash so weak that they can be made: what the curves' hashes will not show.

use crate::answered::check_answers;
use crate::audit::{audit_with, Board, Report, Rules, RULES};
use crate::compare::{compare_with, Comparison, Tables};
use crate::format::*;
use crate::held::check_held;
use crate::interface::agreement_words;
use crate::noted::note_words;
use crate::notes::{Agreement, Reason};
use crate::plan::{Laid, Plan};
use crate::presented::Presented;
use crate::random::Random;
use crate::sound::{any_shape, make_with, Made, Traits};
use crate::told::check_told;

/// A hash of 13 bits. Zero is no value of it, so that no item has the address zeros.
fn weak(message: &[u32]) -> u32 {
    let mut sum: u32 = 0x9e37_79b9;
    for &word in message {
        sum = (sum ^ word).wrapping_mul(0x85eb_ca6b).rotate_left(13);
    }
    sum ^= message.len() as u32;
    sum = sum.wrapping_mul(0xc2b2_ae35);
    (sum >> 19) + 1
}

/// It stands in an address where every curve has a word: with zeros behind them, addresses of two curves can be equal.
pub fn weak_hash(_: Curve, message: &[u32]) -> Digest {
    let mut words = ZEROS;
    (words[0], words[7]) = (weak(message), 7);
    words
}

/// It stands in the last word of an address: on larger curves the first eight are always the same.
fn late_weak_hash(curve: Curve, message: &[u32]) -> Digest {
    let mut words = ZEROS;
    words[curve.widths().address - 1] = weak(message);
    words
}

/// A hash in the place of the curve's.
type Hash = fn(Curve, &[u32]) -> Digest;

fn rules(hash: Hash) -> Rules {
    Rules { hash, ..RULES }
}

/// Audits a board. Gives the number, and both tables.
fn run(hash: Hash, laid: &Laid) -> (u32, Vec<u32>, Vec<u32>) {
    let mut index = vec![3; INDEX_NEED];
    let mut ballots = vec![4; BALLOTS_NEED];
    let (report, _) = audit_with(rules(hash), laid.board(), &mut index, &mut ballots);
    (report.number, index, ballots)
}

fn compare_laid(hash: Hash, kept: &Laid, later: &Laid, main_number: usize) -> Comparison {
    let (mut i1, mut b1) = (vec![1; INDEX_NEED], vec![1; BALLOTS_NEED]);
    let (mut i2, mut b2) = (vec![2; INDEX_NEED], vec![2; BALLOTS_NEED]);
    compare_with(
        [rules(hash); 2],
        kept.board(),
        later.board(),
        main_number,
        Tables { index: &mut i1, ballots: &mut b1 },
        Tables { index: &mut i2, ballots: &mut b2 },
    )
}

/// A board that is accepted under a weak hash.
fn accepted(hash: Hash, random: &mut Random) -> (Made, Laid) {
    loop {
        let shape = any_shape(random, 40);
        let traits = Traits::any(random);
        let made = make_with(random, shape, traits);
        let laid = made.plan.lay_with(hash);
        if run(hash, &laid).0 == 0 {
            return (made, laid);
        }
    }
}

/// Changes a content word of the item at a position until its address is `address`.
fn forge(hash: Hash, plan: &mut Plan, at: usize, word_at: usize, address: Digest, random: &mut Random) -> Option<Laid> {
    let (laid, curve) = (plan.lay_with(hash), plan.layout().curve);
    let place = laid.places[at];
    let content = &mut plan.items[at].content;
    let mut hashed = laid.words[place..place + content.len() + curve.hashed_frame()].to_vec();
    for _ in 0..100_000 {
        let word = random.word();
        hashed[1 + word_at] = word;
        if word != content[word_at] && hash(curve, &hashed) == address {
            content[word_at] = word;
            return Some(plan.lay_with(hash));
        }
    }
    None
}

/// The hashed words of each main item.
fn main_words<'a>(laid: &'a Laid, plan: &Plan) -> Vec<&'a [u32]> {
    let mut mains = Vec::new();
    for (spec, &place) in plan.items.iter().zip(&laid.places) {
        if spec.kind == MAIN {
            mains.push(&laid.words[place..place + spec.content.len() + plan.layout().curve.hashed_frame()]);
        }
    }
    mains
}

/// Demand 3, told from the boards' curves and hashed words alone.
fn judge(curves: [Curve; 2], kept: &[&[u32]], later: &[&[u32]], b: usize) -> Comparison {
    let a = kept.len();
    if curves[0] != curves[1] || weak(kept[a - 1]) != weak(later[b - 1]) {
        return Comparison::Apart;
    }
    if a == b && kept == &later[..b] {
        return Comparison::Same;
    }
    let mut d = 0;
    while kept[a - 1 - d] == later[b - 1 - d] {
        d += 1;
    }
    assert_eq!(weak(kept[a - 1 - d]), weak(later[b - 1 - d]), "a collision has one address");
    Comparison::Collision { kept: (a - d) as u32, later: (b - d) as u32 }
}

/// What came out of `check`.
#[derive(Default, Debug)]
pub struct Seen {
    pub apart: usize,
    pub same: usize,
    pub collision: usize,
    pub uneven: usize,
    /// Collisions of a narrow board and a wide one.
    pub across: usize,
    /// Collisions on each curve.
    pub on_curve: [usize; CURVES.len()],
    /// Ends of two boards on different curves that have the same words, up to zeros, and are apart.
    pub curves_apart: usize,
    /// Receipts of a cast behind another with its address and its signature, on each curve.
    pub second_casts: [usize; CURVES.len()],
    /// Notes of a cast behind another with its address that agree, or not, by the first alone.
    pub second_noted: [usize; CURVES.len()],
}

/// The hash of a seed: both by turns.
fn hash_of(seed: u64) -> Hash {
    [weak_hash, late_weak_hash][seed as usize % 2]
}

/// One pair of boards with a forged item, compared at every main item.
pub fn check(seed: u64, seen: &mut Seen) -> Result<(), String> {
    let (random, hash) = (&mut Random::new(seed), hash_of(seed));
    let (made, kept) = accepted(hash, random);
    let texts: Vec<usize> = (0..made.plan.items.len())
        .filter(|&i| matches!(made.plan.items[i].code, TEXT | CONTEST) && made.plan.items[i].content.len() > 1)
        .collect();
    let mut later_plan = made.plan.clone();
    let mut later = kept.clone();
    if !texts.is_empty() {
        let at = *random.pick(&texts);
        // In half of the cases an item is added before the forged one, so that the lengths differ.
        let position = if random.chance(50) {
            let mut added = later_plan.items[at].clone();
            added.code = TEXT;
            added.content = random.words(3);
            later_plan.insert(at, added);
            later_plan.items[at + 1].parent = crate::plan::Link::Item(at);
            at + 1
        } else {
            at
        };
        let last = later_plan.items[position].content.len() - 1;
        let address = kept.addresses[at];
        let Some(forged) = forge(hash, &mut later_plan, position, last, address, random) else { return Ok(()) };
        later = forged;
    }
    let (number, index, ballots) = run(hash, &later);
    if number != 0 {
        return Ok(());
    }
    // Also where two ballots have one address.
    check_told(&later.words, &later.roll, &index, &ballots)
        .map_err(|message| format!("collision seed {seed}: {message}"))?;
    let boards = [(&kept, &made.plan), (&later, &later_plan)];
    let before = seen.collision;
    compare_at_each(hash, boards, seen).map_err(|message| format!("collision seed {seed}, {message}"))?;
    seen.on_curve[made.layout.curve as usize] += seen.collision - before;
    Ok(())
}

/// A narrow board and a wide one, on one curve, with one address of the genesis, and the same items behind it, none of
/// which has a contest set: at every main number they are apart, or their collision is the genesis.
pub fn check_across(seed: u64, seen: &mut Seen) -> Result<(), String> {
    let (random, hash) = (&mut Random::new(seed), hash_of(seed));
    let (made, _) = accepted(hash, random);
    let has_set = |code: u32| matches!(code, ROUND | SESSION | INTENT);
    let end = made.plan.items.iter().position(|s| has_set(s.code)).unwrap_or(made.plan.items.len());
    let mut narrow = made.plan.clone();
    narrow.items.truncate(end);
    for contest in narrow.items.iter_mut().filter(|s| s.code == CONTEST) {
        contest.content[0] %= Width::Narrow.contests();
    }
    narrow.items[0].content.truncate(PLAIN_GENESIS);
    let curve = made.layout.curve;
    let mut wide = narrow.clone();
    wide.items[0].content.push(Layout { curve, sets: Width::Wide }.traits());
    narrow.items[0].content.extend(Traits::of_layout(Layout { curve, sets: Width::Narrow }, random).word());
    let kept = narrow.lay_with(hash);
    // The election number is not looked at.
    let Some(later) = forge(hash, &mut wide, 0, 0, kept.addresses[0], random) else { return Ok(()) };
    if run(hash, &kept).0 != 0 || run(hash, &later).0 != 0 {
        return Ok(());
    }
    let mut boards = [(&kept, &narrow), (&later, &wide)];
    if random.chance(50) {
        boards.reverse();
    }
    let before = seen.collision;
    compare_at_each(hash, boards, seen)
        .map_err(|message| format!("collision across widths, seed {seed}, {message}"))?;
    seen.across += seen.collision - before;
    Ok(())
}

/// Two boards on different curves, without commitments, the first of which ends with an address that is the second's
/// first one but for zeros: at every main number they are apart.
pub fn check_curves(seed: u64, seen: &mut Seen) -> Result<(), String> {
    let random = &mut Random::new(seed);
    let (made, _) = accepted(weak_hash, random);
    let end = made.plan.items.iter().position(|s| s.code == VOTER_COMMITMENT).unwrap_or(made.plan.items.len());
    let others: Vec<Curve> = CURVES.into_iter().filter(|&curve| curve != made.layout.curve).collect();
    let mut later_plan = made.plan.clone();
    later_plan.items.truncate(end);
    let mut kept_plan = later_plan.clone();
    kept_plan.items[0].content.truncate(PLAIN_GENESIS);
    kept_plan.items[0].content.push(Layout { curve: *random.pick(&others), ..made.layout }.traits());
    if random.chance(50) {
        kept_plan.items.truncate(1);
    }
    let kept = kept_plan.lay_with(weak_hash);
    let last = kept_plan.items.iter().rposition(|s| s.kind == MAIN).expect("a genesis");
    let Some(later) = forge(weak_hash, &mut later_plan, 0, 0, kept.addresses[last], random) else { return Ok(()) };
    if run(weak_hash, &kept).0 != 0 || run(weak_hash, &later).0 != 0 {
        return Ok(());
    }
    let boards = [(&kept, &kept_plan), (&later, &later_plan)];
    compare_at_each(weak_hash, boards, seen).map_err(|message| format!("two curves, seed {seed}, {message}"))?;
    seen.curves_apart += 1;
    Ok(())
}

/// Compares a kept board with a later one at every main number, and holds the answers to demand 3.
fn compare_at_each(hash: Hash, boards: [(&Laid, &Plan); 2], seen: &mut Seen) -> Result<(), String> {
    let [(kept, _), (later, _)] = boards;
    let [kept_mains, later_mains] = boards.map(|(laid, plan)| main_words(laid, plan));
    for b in 1..=later_mains.len() {
        let expected = judge(boards.map(|(_, plan)| plan.layout().curve), &kept_mains, &later_mains, b);
        let given = compare_laid(hash, kept, later, b);
        if given != expected {
            return Err(format!("main {b}: expected {expected:?}, given {given:?}"));
        }
        match given {
            Comparison::Apart => seen.apart += 1,
            Comparison::Same => seen.same += 1,
            Comparison::Collision { kept, later } => {
                seen.collision += 1;
                seen.uneven += usize::from(kept != later);
            }
            Comparison::Refused { .. } => return Err("refused".to_string()),
        }
    }
    Ok(())
}

// ---- receipts and notes ----

/// One bit for casts, in the last word of the address, so that several casts have one address. Other items have the
/// curve's hash.
fn weak_for_casts(curve: Curve, message: &[u32]) -> Digest {
    if code(message[0]) != CAST {
        return curve.hash(message);
    }
    let mut words = ZEROS;
    words[curve.widths().address - 1] = 1 + weak(message) % 2;
    words
}

/// The entry for receipts by any rules.
pub type ReceiptsWith = fn(Rules, Board, &[u32], Tables, &mut [u32]) -> Report;

/// A board with several casts of one address and one signature: the first of them is answered. As a SHA-256 of casts will
/// not show it, no other check does.
pub fn check_receipts(seed: u64, entry: ReceiptsWith, seen: &mut Seen) -> Result<(), String> {
    let random = &mut Random::new(seed);
    let (shape, traits) = (any_shape(random, 150), Traits::any(random));
    let mut plan = make_with(random, shape, traits).plan;
    let common = plan.items[0].signature;
    for item in &mut plan.items {
        if random.chance(60) {
            item.signature = common;
        }
    }
    let laid = plan.lay_with(weak_for_casts);
    let asked = Presented::of_all_items(&laid.words);
    let (mut index, mut ballots, mut answers) = (vec![1; INDEX_NEED], vec![2; BALLOTS_NEED], vec![3; asked.buffer + 2]);
    let tables = Tables { index: &mut index, ballots: &mut ballots };
    let report = entry(rules(weak_for_casts), laid.board(), &asked.receipts, tables, &mut answers);
    if (report.number, report.items as usize) != (0, plan.items.len()) {
        return Err(format!("casts of one address, seed {seed}: refused {} at {}", report.number, report.items));
    }
    check_answers(&laid.words, &asked.receipts, &answers)
        .map_err(|message| format!("casts of one address, seed {seed}: {message}"))?;
    let receipts = asked.receipts.chunks_exact(plan.layout().curve.receipt());
    let casts: Vec<&[u32]> = receipts.zip(&plan.items).filter(|(_, item)| item.code == CAST).map(|(r, _)| r).collect();
    let seconds = (0..casts.len()).filter(|&at| casts[..at].contains(&casts[at])).count();
    seen.second_casts[plan.layout().curve as usize] += seconds;
    Ok(())
}

/// The entry for notes by any rules.
pub type NotesWith = fn(Rules, Board, &[u32], Tables) -> (Report, Agreement);

/// A board with several casts of one address: notes with it are of the first, also where the order or the time would be
/// right by a later one alone, or wrong.
pub fn check_notes(seed: u64, entry: NotesWith, seen: &mut Seen) -> Result<(), String> {
    let random = &mut Random::new(seed);
    let (shape, traits) = (any_shape(random, 150), Traits::any(random));
    let plan = make_with(random, shape, traits).plan;
    let laid = plan.lay_with(weak_for_casts);
    for (notes, right) in notes_of_second_casts(&plan, &laid) {
        let (mut index, mut ballots) = (vec![1; INDEX_NEED], vec![2; BALLOTS_NEED]);
        let tables = Tables { index: &mut index, ballots: &mut ballots };
        let (report, given) = entry(rules(weak_for_casts), laid.board(), &notes, tables);
        if (report.number, report.items as usize) != (0, plan.items.len()) {
            return Err(format!("notes of one address, seed {seed}: refused {} at {}", report.number, report.items));
        }
        if given != right {
            return Err(format!("notes of one address, seed {seed}: {given:?}, not {right:?}"));
        }
        check_held(&laid.words, &notes, agreement_words(given))
            .map_err(|message| format!("notes of one address, seed {seed}: {message}"))?;
        seen.second_noted[plan.layout().curve as usize] += 1;
    }
    Ok(())
}

/// Notes with the address of two casts, and whether they agree, as the first of the two is meant.
fn notes_of_second_casts(plan: &Plan, laid: &Laid) -> Vec<(Vec<u32>, Agreement)> {
    let items = &plan.items;
    let note = |at: usize, time: u64| note_words(time, &laid.addresses[at][..plan.layout().curve.widths().address]);
    let casts: Vec<usize> = (0..items.len()).filter(|&at| items[at].code == CAST).collect();
    let mut made = Vec::new();
    for &later in &casts {
        let one_address = |cast: &&usize| laid.addresses[**cast] == laid.addresses[later];
        let first = *casts.iter().find(one_address).expect("the cast itself");
        // A main item between the two that its address tells apart.
        let Some(between) = (first + 1..later).find(|&at| items[at].kind == MAIN && items[at].code != CAST) else {
            continue;
        };
        let [early, middle, late] = [first, between, later].map(|at| items[at].time);
        let by_second = [note(between, late), note(later, late)].concat();
        made.push((by_second, Agreement::Disagrees(2, Reason::OutOfOrder)));
        made.push(([note(later, late), note(between, middle)].concat(), Agreement::AllAgree));
        if early < late {
            made.push((note(later, early), Agreement::AllAgree));
        }
    }
    made
}
