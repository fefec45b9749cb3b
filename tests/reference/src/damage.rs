//! Random damage, with no word on which refusal it gives: to plans, so that hashes and links
//! stay right and the rules decide, to the words themselves, and to the roll.

use crate::format::*;
use crate::plan::{Laid, Link, Plan, Previous};
use crate::random::Random;

/// The plan with its items in another order; links follow the items they name.
fn reorder(plan: &mut Plan, order: &[usize]) {
    let mut position = vec![0; order.len()];
    for (new, &old) in order.iter().enumerate() {
        position[old] = new;
    }
    let mut items: Vec<_> = order.iter().map(|&old| plan.items[old].clone()).collect();
    for item in &mut items {
        if let Link::Item(i) = &mut item.parent {
            *i = position[*i];
        }
    }
    plan.items = items;
}

/// Some changes that leave every address right.
pub fn damage_plan(plan: &mut Plan, random: &mut Random) {
    for _ in 0..*random.pick(&[1, 1, 1, 2, 3, 6]) {
        let count = plan.items.len();
        let at = random.below(count);
        match random.below(16) {
            0 if at + 1 < count => {
                let mut order: Vec<usize> = (0..count).collect();
                order.swap(at, at + 1);
                reorder(plan, &order);
            }
            1 => {
                let mut order: Vec<usize> = (0..count).collect();
                let moved = order.remove(at);
                order.insert(random.below(count), moved);
                reorder(plan, &order);
            }
            2 => {
                let copy = plan.items[at].clone();
                plan.insert(random.between(at + 1, count), copy);
            }
            3 if count > 1 && at > 0 => plan.remove(at, at - 1),
            4 => {
                let code = *random.pick(&CODES);
                plan.items[at].code = code;
                plan.items[at].kind = kind_of(code).expect("a listed type");
            }
            5 | 6 if !plan.items[at].content.is_empty() => {
                let content = &mut plan.items[at].content;
                let word = random.below(content.len());
                content[word] = match random.below(6) {
                    0 => random.word(),
                    1 => random.below(35) as u32,
                    2 => random.below(260) as u32,
                    _ => content[word] ^ 1 << random.below(32),
                };
            }
            7 => {
                let time = &mut plan.items[at].time;
                *time = match random.below(5) {
                    0 => time.wrapping_sub(1),
                    1 => time.saturating_add(100_000),
                    2 => random.next(),
                    3 => time.saturating_sub(5_000),
                    _ => u64::MAX,
                };
            }
            8 => plan.items[at].parent = Link::Item(random.below(at + 1)),
            9 if at > 0 => plan.items[at].previous = Previous::Item(random.below(at)),
            10 => plan.items[at].key = plan.items[random.below(count)].key,
            11 => plan.items[at].verdict ^= 1 << random.below(32),
            12 => {
                let length = random.below(70);
                plan.items[at].content.resize(length, 0x0101_0000);
            }
            13 if random.chance(40) => damage_traits(&mut plan.items[0].content, random),
            13 => plan.closing = Some(Some(CLOSING << 28 | random.below(count + 2) as u32)),
            _ => damage_roll(&mut plan.roll, random),
        }
    }
}

/// Another traits word for a genesis, or none.
fn damage_traits(genesis: &mut Vec<u32>, random: &mut Random) {
    genesis.truncate(PLAIN_GENESIS);
    let any = random.word();
    let known = random.below(8) as u32;
    genesis.extend(*random.pick(&[None, Some(known), Some(known), Some(known), Some(any)]));
}

/// A change to a roll: a pair gone, the first moved to the end, two voter numbers exchanged, another weight or
/// number, the last word gone; a roll without a pair gets some other words.
pub fn damage_roll(roll: &mut Vec<u32>, random: &mut Random) {
    let pairs = roll.len() / ROLL_ROW;
    if pairs == 0 {
        *roll = vec![random.word(); random.between(1, 4)];
        return;
    }
    let at = ROLL_ROW * random.below(pairs);
    match random.below(6) {
        0 => {
            roll.drain(at..at + ROLL_ROW);
        }
        1 => roll[at + roll_row::WEIGHT] = random.between(0, 9) as u32,
        2 => roll[at + roll_row::VOTER] ^= 1 << random.below(32),
        3 => roll[..].rotate_left(ROLL_ROW),
        4 => {
            roll.pop();
        }
        _ => roll.swap(at, ROLL_ROW * random.below(pairs)),
    }
}

/// Some changes to the words alone.
pub fn damage_words(laid: &mut Laid, random: &mut Random) {
    for _ in 0..*random.pick(&[1, 1, 2, 5]) {
        let words = match random.below(8) {
            0..=4 => &mut laid.words,
            5 | 6 => &mut laid.verdicts,
            _ => &mut laid.roll,
        };
        if words.is_empty() {
            continue;
        }
        let count = words.len();
        let at = random.below(count);
        match random.below(8) {
            0 | 1 => words[at] ^= 1 << random.below(32),
            2 => words[at] = random.word(),
            3 => words.truncate(at),
            4 => {
                words.remove(at);
            }
            5 => words.insert(at, random.word()),
            6 => {
                let end = (at + random.between(1, 120)).min(count);
                let copy = words[at..end].to_vec();
                let to = random.below(count);
                words.splice(to..to, copy);
            }
            _ => words.swap(at, random.below(count)),
        }
    }
    // Two whole items change places, as words.
    if random.chance(15) && laid.places.len() > 3 {
        let i = random.below(laid.places.len() - 2);
        let (a, b, c) = (laid.places[i], laid.places[i + 1], laid.places[i + 2]);
        if c <= laid.words.len() {
            laid.words[a..c].rotate_left(b - a);
        }
    }
}

/// Words that never were a board, at most with heads that look like some; verdicts; and a roll that may rise.
pub fn no_board(random: &mut Random) -> (Vec<u32>, Vec<u32>, Vec<u32>) {
    let count = random.below(200);
    let mut words = random.words(count);
    if random.chance(60) {
        for word in &mut words {
            if random.chance(20) {
                let code = *random.pick(&CODES);
                *word = head(kind_of(code).expect("a listed type"), code, random.below(20));
            }
        }
    }
    if !words.is_empty() && random.chance(50) {
        let heads = [0x1001_0011, TRAITS_HEAD, TRAITS_HEAD, 0x1002_0000, 0x1014_0000, 0x2030_0000, 0xf000_0000];
        words[0] = *random.pick(&heads);
    }
    if words.len() > TRAITS_PLACE && random.chance(50) {
        words[TRAITS_PLACE] = random.below(9) as u32;
    }
    let count = random.below(40);
    let verdicts = random.words(count);
    let count = random.below(8);
    let mut roll = random.words(count);
    if random.chance(70) {
        roll.sort_unstable();
    }
    (words, verdicts, roll)
}
