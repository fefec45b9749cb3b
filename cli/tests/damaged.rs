//! 10,000 damaged boards, from fixed seeds: each answer, with its rows, is that of the reference, and for some of them what the auditor
//! prints is looked at, too. They are audited by few calls with many folders each, on all processors.

mod common;

use common::*;
use reference::checks::{case, Group, Makers};
use reference::program::{bytes, PROGRAM_WORDS};
use reference::random::Random;
use std::collections::BTreeMap;
use std::fs;
use std::path::Path;
use std::thread;

const BOARDS: usize = 10_000;
const BATCH: usize = 1_000;
/// One board of so many is given to the auditor, if it is not too long for it.
const TO_AUDITOR: usize = 20;

/// A board from a seed. Most are damaged here, as bytes; the rest have faults or damage of the reference's making.
fn damaged(makers: &Makers, seed: usize) -> Three {
    let random = &mut Random::new(0xda_3a_6e_d0 + seed as u64);
    let (group, more) = match seed % 20 {
        0..=9 => (Group::Sound, true),
        10..=12 => (Group::Faults, false),
        13 => (Group::Order, false),
        14..=15 => (Group::Rules, random.chance(20)),
        16..=17 => (Group::Words, random.chance(20)),
        18 => (Group::Faults, true),
        // Few are long: they take the most time.
        _ if seed % 200 == 19 => (*random.pick(&[Group::Long, Group::Full, Group::Ballots]), true),
        _ => (Group::Order, true),
    };
    let made = case(makers, group, 7_000_000 + seed as u64);
    let mut files = [bytes(&made.words), bytes(&made.verdicts), bytes(&made.roll)];
    if more {
        for _ in 0..*random.pick(&[1, 1, 1, 2, 4]) {
            damage(&mut files, random);
        }
    }
    files
}

/// One change to the bytes of the files.
fn damage(files: &mut Three, random: &mut Random) {
    let at = *random.pick(&[0, 0, 0, 0, 1, 1, 2]);
    let other = random.below(3);
    if random.chance(6) {
        match random.below(3) {
            0 => files.swap(at, other),
            1 => files[at] = files[other].clone(),
            _ => files[at].clear(),
        }
        return;
    }
    let file = &mut files[at];
    if file.is_empty() {
        *file = random.words(3).iter().map(|&word| word as u8).collect();
        return;
    }
    let place = random.below(file.len());
    match random.below(12) {
        0..=2 => file[place] ^= 1 << random.below(8),
        3 => file[place] = random.word() as u8,
        4 => file.truncate(place),
        5 => file.truncate(place - place % 4),
        6 => {
            let more = random.words(random_length(place));
            file.extend(bytes(&more));
        }
        7 => file.extend((0..place % 7 + 1).map(|b| b as u8)),
        8 => swap_words(file, place, random),
        9 => {
            let end = file.len().min(place - place % 4 + 4 * (1 + place % 50));
            let copy = file[place - place % 4..end].to_vec();
            file.extend(copy);
        }
        10 => {
            let end = file.len().min(place + 4 * (1 + place % 50));
            file[place..end].fill(0);
        }
        _ => {
            let from = place - place % 4;
            let end = file.len().min(from + 4 * (1 + place % 60));
            file.drain(from..end);
        }
    }
}

fn random_length(place: usize) -> usize {
    1 + place % 40
}

fn swap_words(file: &mut [u8], place: usize, random: &mut Random) {
    let words = file.len() / 4;
    if words > 1 {
        let (a, b) = (4 * (place / 4).min(words - 1), 4 * random.below(words));
        (0..4).for_each(|byte| file.swap(a + byte, b + byte));
    }
}

/// Writes the boards of a batch, on all processors. Gives what is expected of each.
fn write_batch(folder: &Path, makers: &Makers, from: usize) -> Vec<String> {
    let processors = thread::available_parallelism().map_or(1, |n| n.get());
    let mut answers = vec![String::new(); BATCH];
    let part = BATCH.div_ceil(processors);
    thread::scope(|scope| {
        for (turn, answers) in answers.chunks_mut(part).enumerate() {
            scope.spawn(move || {
                for (at, answer) in answers.iter_mut().enumerate() {
                    let seed = from + turn * part + at;
                    let files = damaged(makers, seed);
                    write(&folder.join(format!("{seed:05}")), &files);
                    *answer = expected(&files);
                }
            });
        }
    });
    answers
}

/// The refusal, or 0.
fn number(answer: &str) -> u32 {
    match answer.split(' ').collect::<Vec<_>>()[..] {
        ["refused", number, ..] => number.parse().expect("a number"),
        _ => 0,
    }
}

#[test]
fn ten_thousand_damaged_boards() {
    let makers = Makers::default();
    let mut seen: BTreeMap<u32, usize> = BTreeMap::new();
    let mut to_auditor = 0;
    for from in (0..BOARDS).step_by(BATCH) {
        let temp = Temp::new("damaged");
        let answers = write_batch(temp.path(), &makers, from);
        let ran = tirfolma(words_of(&["audit", "--rows"], [temp.path()]));
        let mut rest = ran.text();
        for (seed, answer) in (from..).zip(&answers) {
            let folder = temp.join(format!("{seed:05}"));
            let said = format!("{}\t{answer}", folder.display());
            rest = rest.strip_prefix(&said).unwrap_or_else(|| {
                panic!("seed {seed}: expected {said:?}, not {:?}", &rest[..rest.len().min(200)]);
            });
            *seen.entry(number(answer)).or_default() += 1;
            let size = fs::metadata(folder.join(NAMES[0])).expect("a file").len();
            if seed % TO_AUDITOR == seed / TO_AUDITOR % TO_AUDITOR && size <= 4 * PROGRAM_WORDS as u64 {
                to_auditor += 1;
                assert_eq!(auditor(&folder), *answer, "the auditor, seed {seed}");
            }
        }
        assert_eq!((rest, ran.errors(), ran.status), ("", "", 1));
    }
    println!("answers by number, 0 for accepted: {seen:?}; {to_auditor} by the auditor");
    assert_eq!(seen.values().sum::<usize>(), BOARDS);
    let refusals = seen.keys().filter(|&&number| number != 0).count();
    assert!(refusals >= 17, "only {refusals} different refusals: {seen:?}");
    assert!(seen.get(&0).is_some_and(|&accepted| accepted >= 100), "too few are accepted: {seen:?}");
    assert!(to_auditor >= 300, "only {to_auditor} were given to the auditor");
}
