//! Faults of the roll, and of sessions whose voters are not on it; also rolls with which a board is sound still.

use super::*;
use crate::roll::*;

// ---- 20: bad roll ----

/// Makes a bad roll of a good one.
type Spoil = fn(&[u32], &mut Random) -> Vec<u32>;

/// The ways in which a roll is bad.
const BAD: [(&str, Spoil); 22] = [
    ("one word", |roll, random| vec![roll.first().copied().unwrap_or(random.word())]),
    ("a word too few", |roll, random| without_last(some_pairs(roll, 1, random))),
    ("a word too many", |roll, random| with_word(some_pairs(roll, 0, random), random)),
    ("4,095 words", |roll, random| without_last(some_pairs(roll, MAX_VOTERS, random))),
    ("4,097 words", |roll, random| with_word(some_pairs(roll, MAX_VOTERS, random), random)),
    ("2,049 pairs", |roll, random| too_many(roll, MAX_VOTERS + 1, random)),
    ("many more pairs", |roll, random| {
        let count = random.between(MAX_VOTERS + 2, 3 * MAX_VOTERS);
        too_many(roll, count, random)
    }),
    ("equal at the start", |roll, random| equal_at(some_pairs(roll, 4, random), |_| 0, random)),
    ("equal in the middle", |roll, random| equal_at(some_pairs(roll, 4, random), |last| (last + 1) / 2, random)),
    ("equal at the end", |roll, random| equal_at(some_pairs(roll, 4, random), |last| last, random)),
    ("falling at the start", |roll, random| falling_at(some_pairs(roll, 4, random), |_| 0)),
    ("falling in the middle", |roll, random| falling_at(some_pairs(roll, 4, random), |last| (last + 1) / 2)),
    ("falling at the end", |roll, random| falling_at(some_pairs(roll, 4, random), |last| last)),
    ("falling, each more than the first", |roll, random| falling_at(first_of_pairs(roll, 3, random), |_| 1)),
    ("two equal pairs", |roll, random| equal_at(first_of_pairs(roll, 2, random), |_| 0, random)),
    ("two falling pairs", |roll, random| falling_at(first_of_pairs(roll, 2, random), |_| 0)),
    ("all equal", |roll, random| {
        let pairs = some_pairs(roll, 3, random);
        let voter = pairs[random.below(pairs.len())].0;
        roll_of(pairs.into_iter().map(|(_, weight)| (voter, weight)))
    }),
    ("all falling", |roll, random| roll_of(some_pairs(roll, 2, random).into_iter().rev())),
    ("the greatest, then 0", |roll, random| {
        let weight = random.word();
        let mut pairs: Vec<(u32, u32)> = some_pairs(roll, 1, random).into_iter().filter(|pair| pair.0 > 0).collect();
        pairs.truncate(MAX_VOTERS - 2);
        pairs.retain(|pair| pair.0 < u32::MAX);
        roll_of(pairs.into_iter().chain([(u32::MAX, 1), (0, weight)]))
    }),
    ("rising as signed numbers", |roll, random| {
        let mut pairs = pairs_of(roll);
        for voter in [random.word() | 1 << 31, random.word() >> 1] {
            pairs.entry(voter).or_insert(1);
        }
        let mut pairs: Vec<(u32, u32)> = pairs.into_iter().collect();
        pairs.sort_by_key(|pair| pair.0 as i32);
        pairs.truncate(MAX_VOTERS);
        // The last is not negative, so that they do not rise as unsigned numbers, too.
        if pairs.last().is_some_and(|last| (last.0 as i32) < 0) {
            pairs.pop();
            pairs.push((5, 5));
        }
        roll_of(pairs)
    }),
    ("the last is the first again", |roll, random| {
        let mut pairs = first_of_pairs(roll, 9, random);
        pairs.push(pairs[0]);
        roll_of(pairs)
    }),
    ("equal in 2,048 pairs", |roll, random| {
        let at = random.below(MAX_VOTERS - 1);
        let mut pairs = some_pairs(roll, MAX_VOTERS, random);
        pairs[at + 1].0 = pairs[at].0;
        roll_of(pairs)
    }),
];

/// A bad roll from a good one, or from any that is of whole pairs.
pub fn bad_roll(roll: &[u32], random: &mut Random) -> Vec<u32> {
    let (_, spoil) = random.pick(&BAD);
    spoil(roll, random)
}

/// The pairs of a roll and others, so many at the least.
fn some_pairs(roll: &[u32], least: usize, random: &mut Random) -> Vec<(u32, u32)> {
    let mut pairs = pairs_of(roll);
    add_others(&mut pairs, least, random);
    pairs.into_iter().collect()
}

/// The first pairs of those.
fn first_of_pairs(roll: &[u32], count: usize, random: &mut Random) -> Vec<(u32, u32)> {
    let mut pairs = some_pairs(roll, count, random);
    pairs.truncate(count);
    pairs
}

fn without_last(pairs: Vec<(u32, u32)>) -> Vec<u32> {
    let mut roll = roll_of(pairs);
    roll.pop();
    roll
}

fn with_word(pairs: Vec<(u32, u32)>, random: &mut Random) -> Vec<u32> {
    let mut roll = roll_of(pairs);
    roll.push(*random.pick(&[0, u32::MAX, 7]));
    roll
}

/// More pairs than there may be; they rise.
fn too_many(roll: &[u32], count: usize, random: &mut Random) -> Vec<u32> {
    let mut pairs = pairs_of(roll);
    while pairs.len() < count {
        pairs.entry(random.word()).or_insert(1);
    }
    roll_of(pairs)
}

/// Two neighbours are equal, the first of them where `place` has it. It is given the last place for that.
fn equal_at(mut pairs: Vec<(u32, u32)>, place: fn(usize) -> usize, random: &mut Random) -> Vec<u32> {
    let at = place(pairs.len() - 2);
    if random.chance(50) {
        pairs[at + 1] = pairs[at];
    }
    pairs[at + 1].0 = pairs[at].0;
    roll_of(pairs)
}

/// Two neighbours are in each other's place.
fn falling_at(mut pairs: Vec<(u32, u32)>, place: fn(usize) -> usize) -> Vec<u32> {
    let at = place(pairs.len() - 2);
    pairs.swap(at, at + 1);
    roll_of(pairs)
}

/// One of the ways alone; which is told by its place.
fn bad_roll_alone(made: &Made, way: u32, random: &mut Random) -> Change {
    let mut plan = made.plan.clone();
    plan.roll = BAD[way as usize].1(&made.plan.roll, random);
    Some((plan, 0))
}

/// A bad roll, and something else for which the board is refused later.
fn bad_roll_and(made: &Made, number: u32, random: &mut Random) -> Change {
    let mut others = plain_faults();
    others.extend(unenrolled_faults());
    let others: Vec<&Fault> = others.iter().filter(|fault| fault.number == number).collect();
    let faulty = random.pick(&others).apply(made, random)?;
    let mut plan = faulty.plan;
    plan.roll = bad_roll(&plan.roll, random);
    Some((plan, 0))
}

// ---- 21: not on the roll ----

/// A session that is the first of its voter.
struct First {
    at: usize,
    voter: u32,
    weight: u32,
    /// What the sessions before it need.
    needed: Pairs,
}

fn is_first(items: &[Spec], at: usize) -> bool {
    let voter = items[at].content[0];
    !items[..at].iter().any(|s| s.code == SESSION && s.content[0] == voter)
}

fn first_session(made: &Made, random: &mut Random) -> Option<First> {
    let at = pick_where(made, random, |i, s| s.code == SESSION && is_first(items(made), i))?;
    let content = &items(made)[at].content;
    Some(First { at, voter: content[0], weight: content[1], needed: voters_of(&items(made)[..at]) })
}

/// The board with another roll.
fn with_roll(made: &Made, pairs: Pairs, at: usize) -> Change {
    let mut plan = made.plan.clone();
    plan.roll = roll_of(pairs);
    Some((plan, at))
}

fn empty_roll(made: &Made, _: u32, _: &mut Random) -> Change {
    with_roll(made, Pairs::new(), first_of(made, SESSION)?)
}

fn voter_missing(made: &Made, _: u32, random: &mut Random) -> Change {
    let First { at, voter, .. } = first_session(made, random)?;
    let mut pairs = pairs_of(&made.plan.roll);
    pairs.remove(&voter);
    with_roll(made, pairs, at)
}

/// The voter is missing, with these numbers by it, and stands so to all on the roll.
fn voter_missing_by(
    made: &Made,
    random: &mut Random,
    by: fn(u32) -> [Option<u32>; 2],
    stands: fn(u32, u32) -> bool,
) -> Change {
    let First { at, voter, needed: mut pairs, .. } = first_session(made, random)?;
    for other in by(voter) {
        add_other(&mut pairs, other?, random);
    }
    if !pairs.keys().all(|&other| stands(voter, other)) {
        return None;
    }
    with_roll(made, pairs, at)
}
fn voter_below_all(made: &Made, _: u32, random: &mut Random) -> Change {
    voter_missing_by(made, random, |v| [v.checked_add(1), v.checked_add(9)], |voter, other| voter < other)
}
fn voter_above_all(made: &Made, _: u32, random: &mut Random) -> Change {
    voter_missing_by(made, random, |v| [v.checked_sub(1), v.checked_sub(9)], |voter, other| voter > other)
}
fn voter_between(made: &Made, _: u32, random: &mut Random) -> Change {
    voter_missing_by(made, random, |v| [v.checked_sub(1), v.checked_add(1)], |voter, other| voter != other)
}
/// All around the voter have the session's weight.
fn voter_missing_among_weights(made: &Made, _: u32, random: &mut Random) -> Change {
    let First { at, voter, weight, needed: mut pairs } = first_session(made, random)?;
    for other in [voter.checked_sub(1)?, voter.checked_add(1)?, random.word()] {
        pairs.entry(other).or_insert(weight);
    }
    pairs.remove(&voter);
    with_roll(made, pairs, at)
}

/// The voter has another weight on the roll.
fn weight_is(made: &Made, random: &mut Random, other: fn(u32, &mut Random) -> Option<u32>) -> Change {
    let First { at, voter, weight, .. } = first_session(made, random)?;
    let mut pairs = pairs_of(&made.plan.roll);
    pairs.insert(voter, other(weight, random)?);
    with_roll(made, pairs, at)
}
fn weight_more(made: &Made, _: u32, random: &mut Random) -> Change {
    weight_is(made, random, |weight, random| {
        let more = weight.checked_add(1)?;
        let much_more = more.saturating_add(random.word() >> 1);
        Some(*random.pick(&[more, u32::MAX, much_more]))
    })
}
fn weight_less(made: &Made, _: u32, random: &mut Random) -> Change {
    weight_is(made, random, |weight, random| {
        let any = random.word() % weight;
        Some(*random.pick(&[weight - 1, weight >> 1, any]))
    })
}
fn weight_zero(made: &Made, _: u32, random: &mut Random) -> Change {
    weight_is(made, random, |_, _| Some(0))
}
fn weight_bit(made: &Made, _: u32, random: &mut Random) -> Change {
    weight_is(made, random, |weight, random| Some(weight ^ 1 << random.below(32)))
}

/// The voter has another weight, and the session's is that of the voter at this number.
fn weight_of(made: &Made, random: &mut Random, neighbour: fn(u32) -> Option<u32>) -> Change {
    let First { at, voter, weight, needed } = first_session(made, random)?;
    let near = neighbour(voter)?;
    if needed.get(&near).is_some_and(|&other| other != weight) {
        return None;
    }
    let mut pairs = pairs_of(&made.plan.roll);
    pairs.insert(near, weight);
    pairs.insert(voter, weight.wrapping_add(1 + random.word() / 2));
    if pairs.len() > MAX_VOTERS {
        return None;
    }
    with_roll(made, pairs, at)
}
fn weight_of_voter_before(made: &Made, _: u32, random: &mut Random) -> Change {
    weight_of(made, random, |voter| voter.checked_sub(1))
}
fn weight_of_voter_behind(made: &Made, _: u32, random: &mut Random) -> Change {
    weight_of(made, random, |voter| voter.checked_add(1))
}
/// The voter and another have each other's weight.
fn weights_exchanged(made: &Made, _: u32, random: &mut Random) -> Change {
    let First { at, voter, weight, needed } = first_session(made, random)?;
    let mut pairs = pairs_of(&made.plan.roll);
    let others: Vec<u32> = pairs.keys().copied().filter(|other| !needed.contains_key(other)).collect();
    let other = *random.pick(&others);
    if pairs[&other] == weight {
        return None;
    }
    pairs.insert(voter, pairs[&other]);
    pairs.insert(other, weight);
    with_roll(made, pairs, at)
}

/// The voter's number is some pair's weight, and the session's weight the next one's voter.
fn across_two_pairs(made: &Made, _: u32, random: &mut Random) -> Change {
    let at = first_of(made, SESSION)?;
    let (voter, weight) = (items(made)[at].content[0], items(made)[at].content[1]);
    let before = *random.pick(&[0, weight - 1]);
    if before == voter || weight == voter {
        return None;
    }
    with_roll(made, Pairs::from([(before, voter), (weight, random.word())]), at)
}
/// The voter's pair is the wrong way about.
fn turned_about(made: &Made, _: u32, random: &mut Random) -> Change {
    let First { at, voter, weight, needed } = first_session(made, random)?;
    if weight == voter || needed.contains_key(&weight) {
        return None;
    }
    let mut pairs = pairs_of(&made.plan.roll);
    pairs.remove(&voter);
    pairs.insert(weight, voter);
    with_roll(made, pairs, at)
}
/// The voter's number stands on the roll as a weight alone.
fn voter_only_a_weight(made: &Made, _: u32, random: &mut Random) -> Change {
    let First { at, voter, needed: mut pairs, .. } = first_session(made, random)?;
    let any = random.word();
    let other = *random.pick(&[voter.wrapping_add(1), any, 0]);
    if other == voter || pairs.contains_key(&other) {
        return None;
    }
    pairs.insert(other, voter);
    with_roll(made, pairs, at)
}

/// A session with another weight; the roll is as it was.
fn change_weight(made: &Made, at: usize, random: &mut Random) -> Change {
    let weight = items(made)[at].content[1];
    let any = random.word();
    let other = *random.pick(&[weight.wrapping_add(1), weight.wrapping_sub(1), 1, any]);
    if other == weight || other == 0 {
        return None;
    }
    change_item(made, at, |s| s.content[1] = other)
}
fn session_weight_changed(made: &Made, _: u32, random: &mut Random) -> Change {
    let at = pick(made, SESSION, random)?;
    change_weight(made, at, random)
}
fn second_session_weight_changed(made: &Made, _: u32, random: &mut Random) -> Change {
    let at = pick_where(made, random, |i, s| s.code == SESSION && !is_first(items(made), i))?;
    change_weight(made, at, random)
}
fn session_voter_changed(made: &Made, _: u32, random: &mut Random) -> Change {
    let at = pick(made, SESSION, random)?;
    let pairs = pairs_of(&made.plan.roll);
    let any = random.word();
    let other = *random.pick(&[items(made)[at].content[0].wrapping_add(1), any, 0, u32::MAX]);
    if pairs.contains_key(&other) {
        return None;
    }
    change_item(made, at, |s| s.content[0] = other)
}
/// A session of another voter of the roll, who has another weight.
fn session_voter_of_other_weight(made: &Made, _: u32, random: &mut Random) -> Change {
    let at = pick(made, SESSION, random)?;
    let weight = items(made)[at].content[1];
    let others: Vec<(u32, u32)> = pairs_of(&made.plan.roll).into_iter().filter(|pair| pair.1 != weight).collect();
    if others.is_empty() {
        return None;
    }
    let other = random.pick(&others).0;
    change_item(made, at, |s| s.content[0] = other)
}
/// One session more, of a voter who is not on the roll.
fn session_added(made: &Made, _: u32, random: &mut Random) -> Change {
    let like = pick(made, SESSION, random)?;
    let at = config_position(made, like + 1, random)?;
    let now = items(made)[last_main(made, at)?].time;
    let voter = random.word();
    if open(made, at, now).is_empty() || pairs_of(&made.plan.roll).contains_key(&voter) {
        return None;
    }
    let mut content = items(made)[like].content.clone();
    content[0] = voter;
    let key = authorizer(made, at)?;
    insert(made, at, new_item(made, SESSION, at, Link::Item(latest_config(made, at)), content, key))
}

// ---- what comes before 21, and what behind it ----

/// A session with another fault whose voter is not on the roll either.
fn also_missing(change: Change) -> Change {
    let (mut plan, at) = change?;
    if !is_first(&plan.items, at) {
        return None;
    }
    let mut pairs = pairs_of(&plan.roll);
    pairs.remove(&plan.items[at].content[0]);
    plan.roll = roll_of(pairs);
    Some((plan, at))
}

fn missing_and_torn(made: &Made, _: u32, random: &mut Random) -> Change {
    let at = pick(made, SESSION, random)?;
    let mut plan = made.plan.clone();
    plan.cut = Some((at, random.between(3, items(made)[at].content.len() + frame(made) - 1)));
    also_missing(Some((plan, at)))
}
fn missing_and_stranger(made: &Made, _: u32, random: &mut Random) -> Change {
    let at = pick(made, SESSION, random)?;
    also_missing(change_item(made, at, |s| s.kind = HIDDEN))
}
fn missing_and_misfit(made: &Made, _: u32, random: &mut Random) -> Change {
    also_missing(misfit_head(made, SESSION, random))
}
fn missing_and_false_address(made: &Made, _: u32, random: &mut Random) -> Change {
    also_missing(address_flipped(made, SESSION, random))
}
fn missing_and_broken_history(made: &Made, _: u32, random: &mut Random) -> Change {
    also_missing(previous_random(made, SESSION, random))
}
fn missing_and_orphan(made: &Made, _: u32, random: &mut Random) -> Change {
    also_missing(parent_unknown(made, SESSION, random))
}
fn missing_and_backward(made: &Made, _: u32, random: &mut Random) -> Change {
    also_missing(backward(made, SESSION, random))
}
fn missing_and_late(made: &Made, _: u32, random: &mut Random) -> Change {
    also_missing(late(made, SESSION, random))
}
fn missing_and_empty(made: &Made, _: u32, random: &mut Random) -> Change {
    also_missing(session_empty(made, 0, random))
}
fn missing_and_undefined(made: &Made, _: u32, random: &mut Random) -> Change {
    also_missing(session_undefined(made, 0, random))
}
fn missing_and_weight_0(made: &Made, _: u32, random: &mut Random) -> Change {
    also_missing(session_weight(made, 0, random))
}
/// The roll has the weight 0, too.
fn weight_0_on_the_roll(made: &Made, _: u32, random: &mut Random) -> Change {
    let (mut plan, at) = session_weight(made, 0, random)?;
    if !is_first(&plan.items, at) {
        return None;
    }
    let mut pairs = pairs_of(&plan.roll);
    pairs.insert(plan.items[at].content[0], 0);
    plan.roll = roll_of(pairs);
    Some((plan, at))
}

fn missing_without_verdict(made: &Made, _: u32, random: &mut Random) -> Change {
    let (mut plan, at) = voter_missing(made, 0, random)?;
    plan.verdicts_cut = Some(at * VERDICT_WORDS + random.below(VERDICT_WORDS));
    Some((plan, at))
}
fn missing_and_malformed(made: &Made, _: u32, random: &mut Random) -> Change {
    let (mut plan, at) = voter_missing(made, 0, random)?;
    plan.items[at].verdict = *random.pick(&[0, 0x4000_0001, GOOD | 2]);
    Some((plan, at))
}
fn missing_and_wrong_key(made: &Made, _: u32, random: &mut Random) -> Change {
    let (mut plan, at) = voter_missing(made, 0, random)?;
    plan.items[at].key = random.eight();
    Some((plan, at))
}
fn missing_and_bad_signature(made: &Made, _: u32, random: &mut Random) -> Change {
    let (mut plan, at) = voter_missing(made, 0, random)?;
    plan.items[at].verdict = VERDICT << 28;
    Some((plan, at))
}

// ---- rolls with which a board is sound ----

/// The board with a roll that has its voters.
fn sound_with(made: &Made, pairs: Pairs) -> Change {
    if pairs.len() > MAX_VOTERS {
        return None;
    }
    with_roll(made, pairs, items(made).len())
}
fn voters(made: &Made) -> Pairs {
    voters_of(items(made))
}

fn exactly_its_voters(made: &Made, _: u32, _: &mut Random) -> Change {
    sound_with(made, voters(made))
}
fn one_voter(made: &Made, _: u32, _: &mut Random) -> Change {
    Some(voters(made)).filter(|pairs| pairs.len() == 1).and_then(|pairs| sound_with(made, pairs))
}
fn no_voters(made: &Made, _: u32, _: &mut Random) -> Change {
    Some(voters(made)).filter(Pairs::is_empty).and_then(|pairs| sound_with(made, pairs))
}
fn several_sessions(made: &Made, _: u32, random: &mut Random) -> Change {
    pick_where(made, random, |i, s| s.code == SESSION && !is_first(items(made), i))?;
    sound_with(made, voters(made))
}
/// Voters of weight 0, who have no session, stand all around.
fn weights_of_0(made: &Made, _: u32, random: &mut Random) -> Change {
    let mut pairs = voters(made);
    for voter in voters(made).into_keys() {
        for other in [voter.wrapping_sub(1), voter.wrapping_add(1), random.word()] {
            pairs.entry(other).or_insert(0);
        }
    }
    sound_with(made, pairs)
}
/// Weights that fall while numbers rise.
fn falling_weights(made: &Made, _: u32, random: &mut Random) -> Change {
    let mut pairs = voters(made);
    let weights: Vec<u32> = pairs.values().copied().collect();
    if !weights.windows(2).all(|two| two[0] > two[1]) {
        return None;
    }
    let (&first, &most) = pairs.first_key_value()?;
    let (&last, &least) = pairs.last_key_value()?;
    for step in 1..=random.between(2, 9) as u32 {
        for (voter, weight) in
            [(first.checked_sub(step), most.checked_add(step)), (last.checked_add(step), least.checked_sub(step))]
        {
            if let (Some(voter), Some(weight)) = (voter, weight) {
                pairs.insert(voter, weight);
            }
        }
    }
    Some(pairs).filter(|pairs| pairs.len() > 3).and_then(|pairs| sound_with(made, pairs))
}
/// 2,048 pairs, the least and the greatest of the board's voters first and last among them.
fn voters_at_both_ends(made: &Made, _: u32, random: &mut Random) -> Change {
    let mut pairs = voters(made);
    let (first, last) = (*pairs.first_key_value()?.0, *pairs.last_key_value()?.0);
    if last - first < 3 * MAX_VOTERS as u32 {
        return None;
    }
    while pairs.len() < MAX_VOTERS {
        add_other(&mut pairs, first + random.word() % (last - first), random);
    }
    sound_with(made, pairs)
}
/// 2,048 pairs, and the board's voters all at the start, or all at the end.
fn voters_at_one_end(made: &Made, _: u32, random: &mut Random) -> Change {
    let mut pairs = voters(made);
    let (first, last) = (*pairs.first_key_value()?.0, *pairs.last_key_value()?.0);
    let after = random.chance(50);
    let room = if after { u32::MAX - last } else { first };
    if (room as usize) < 3 * MAX_VOTERS {
        return None;
    }
    while pairs.len() < MAX_VOTERS {
        let other = if after { last + 1 + random.word() % room } else { random.word() % room };
        add_other(&mut pairs, other, random);
    }
    sound_with(made, pairs)
}
/// Numbers that rise, though not as signed ones.
fn signs_change(made: &Made, _: u32, _: &mut Random) -> Change {
    let mut pairs = voters(made);
    for voter in [0, 1, 0x7fff_ffff, 0x8000_0000, u32::MAX] {
        pairs.entry(voter).or_insert(u32::MAX);
    }
    sound_with(made, pairs)
}
/// The neighbours of each voter are there with other weights.
fn other_weights_around(made: &Made, _: u32, _: &mut Random) -> Change {
    let mut pairs = voters(made);
    for (voter, weight) in voters(made) {
        for other in [voter.wrapping_sub(1), voter.wrapping_add(1)] {
            pairs.entry(other).or_insert(weight ^ 1);
        }
    }
    sound_with(made, pairs)
}

// ---- the lists ----

/// Sessions that are not on the roll, also with another fault.
const UNENROLLED: &[Way] = &[
    (21, "empty roll", empty_roll),
    (21, "voter missing", voter_missing),
    (21, "voter below all", voter_below_all),
    (21, "voter between two", voter_between),
    (21, "voter above all", voter_above_all),
    (21, "voter missing, the weight all around", voter_missing_among_weights),
    (21, "roll has more weight", weight_more),
    (21, "roll has less weight", weight_less),
    (21, "roll has weight 0", weight_zero),
    (21, "one bit of the weight", weight_bit),
    (21, "weight of the voter before", weight_of_voter_before),
    (21, "weight of the voter behind", weight_of_voter_behind),
    (21, "weights of two voters exchanged", weights_exchanged),
    (21, "across two pairs", across_two_pairs),
    (21, "pair turned about", turned_about),
    (21, "voter only as a weight", voter_only_a_weight),
    (21, "session's weight changed", session_weight_changed),
    (21, "second session's weight changed", second_session_weight_changed),
    (21, "session's voter changed", session_voter_changed),
    (21, "session of a voter with another weight", session_voter_of_other_weight),
    (21, "session added", session_added),
    (21, "voter missing, no verdict", missing_without_verdict),
    (21, "voter missing, verdict malformed", missing_and_malformed),
    (21, "voter missing, wrong key", missing_and_wrong_key),
    (21, "voter missing, bad signature", missing_and_bad_signature),
    (4, "voter missing, torn", missing_and_torn),
    (5, "voter missing, stranger", missing_and_stranger),
    (6, "voter missing, misfit", missing_and_misfit),
    (7, "voter missing, false address", missing_and_false_address),
    (8, "voter missing, broken history", missing_and_broken_history),
    (9, "voter missing, orphan", missing_and_orphan),
    (10, "voter missing, backward clock", missing_and_backward),
    (11, "voter missing, late", missing_and_late),
    (13, "voter missing, session without contests", missing_and_empty),
    (13, "voter missing, contest undefined", missing_and_undefined),
    (13, "voter missing, weight 0", missing_and_weight_0),
    (13, "weight 0 on the roll, too", weight_0_on_the_roll),
];

/// Rolls with which a board is accepted.
const SOUND: &[Way] = &[
    (0, "exactly its voters", exactly_its_voters),
    (0, "one voter", one_voter),
    (0, "no voters", no_voters),
    (0, "several sessions of a voter", several_sessions),
    (0, "weights of 0", weights_of_0),
    (0, "falling weights", falling_weights),
    (0, "2,048 pairs, voters at both ends", voters_at_both_ends),
    (0, "2,048 pairs, voters at one end", voters_at_one_end),
    (0, "signs change", signs_change),
    (0, "other weights around", other_weights_around),
];

fn listed(ways: &[Way]) -> impl Iterator<Item = Fault> + '_ {
    ways.iter().map(|&(number, reason, change)| Fault {
        number,
        reason: format!("{number}/roll, {reason}"),
        layouts: LAYOUTS.to_vec(),
        all_contests: false,
        code: 0,
        change,
    })
}

fn unenrolled_faults() -> Vec<Fault> {
    listed(UNENROLLED).collect()
}

/// All that is about the roll.
pub fn roll_faults() -> Vec<Fault> {
    let mut list: Vec<Fault> = Vec::new();
    let mut bad = |reason: String, code: u32, change: fn(&Made, u32, &mut Random) -> Change| {
        list.push(Fault { number: 20, reason, layouts: LAYOUTS.to_vec(), all_contests: false, code, change });
    };
    for (way, (reason, _)) in BAD.iter().enumerate() {
        bad(format!("20/roll, {reason}"), way as u32, bad_roll_alone);
    }
    for number in [3, 4, 5, 6, 7, 8, 9, 10, 11, 12, 13, 14, 15, 16, 18, 21] {
        bad(format!("20/roll, and {number}"), number, bad_roll_and);
    }
    list.extend(listed(UNENROLLED));
    list.extend(listed(SOUND));
    list
}
