//! Times the audit: the reference, the hashes alone, and the library where it is linked.
//!
//!   bench-audit [--write FOLDER]     FOLDER gets the boards, for other programs to time
//!
//! Every run finds its tables full of an earlier run's words; the audit clears them itself. The roll is full,
//! 2,048 pairs, and has the board's voters spread over it.
//!
//! Times are of the processor (Linux), not of the wall clock: on a busy machine a run of some
//! milliseconds is nearly always interrupted. `spread` is the reference's median over its best.
//! Where it is far from 1 the machine was too busy, and the row's ratios say little.
//! `us/item` is the library's time for an item: boards of one kind have about as many words to
//! an item, so it stays where the cost grows with the items and no faster. `ns/word` is its time for a word of the
//! board: the last four boards are as long, one on each curve, and one with contest sets of eight words.
//! `ref/hash` is the reference's time over that of its own hash of the board's curve, on the items alone.
//!
//! `full/own` is the library's time with the full roll over that with a roll of the board's voters alone.
//!
//! Ends with status 1 where the library misses a bar: the reference's time on every board, and on boards of
//! 2,048 items one and a half times the hashes alone, and hardly more with the full roll than with its own.

use reference::audit::{audit_with, hashed, Board, RULES};
use reference::format::*;
use reference::interface::{audit_answer, library, Interface, AUDIT_ANSWER};
use reference::plan::Laid;
use reference::program::bytes;
use reference::random::Random;
use reference::roll::{full_around, roll_of, voters_of};
use reference::sound::{make_with, Shape, Traits};
use std::fs;
use std::hint::black_box;
use std::path::Path;
use std::time::Instant;

/// C's `struct timespec` on 64-bit Linux.
#[repr(C)]
struct Timespec {
    seconds: i64,
    nanoseconds: i64,
}

extern "C" {
    fn clock_gettime(clock: i32, time: *mut Timespec) -> i32;
}

/// The processor time that this thread has used, in microseconds.
fn now() -> f64 {
    const THREAD_CPU_TIME: i32 = 3;
    let mut time = Timespec { seconds: 0, nanoseconds: 0 };
    let failed = unsafe { clock_gettime(THREAD_CPU_TIME, &mut time) };
    assert_eq!(failed, 0, "the thread's clock can be read");
    time.seconds as f64 * 1e6 + time.nanoseconds as f64 / 1e3
}

/// The most time that the library may take, over the reference's.
const BAR_TO_REFERENCE: f64 = 1.0;
/// And over the hashes alone, on boards with as many items as there may be.
const BAR_TO_HASHES: f64 = 1.5;
/// And with a full roll, over the time with a roll of the board's voters alone, on the same boards.
const BAR_TO_OWN_ROLL: f64 = 1.02;

fn main() {
    let mut args = std::env::args().skip(1);
    let folder = match args.next().as_deref() {
        None => None,
        Some("--write") => Some(args.next().expect("--write FOLDER")),
        Some(_) => panic!("usage: bench-audit [--write FOLDER]"),
    };
    println!(
        "times in microseconds, the best of several runs; the library {}",
        match library() {
            Some(_) => "is linked",
            None => "is NOT linked",
        }
    );
    println!(
        "   items    words      curve    sets  reference   spread  hash only  ref/hash    library  lib/ref  lib/hash  \
         us/item  ns/word  full/own"
    );
    let plain = |(items, words)| (items, words, Traits::Unsaid);
    let [secp384r1, secp521r1] =
        [Curve::Secp384r1, Curve::Secp521r1].map(|curve| Traits::Said(Layout { curve, sets: Width::Narrow }));
    let wide = Traits::Said(Layout { sets: Width::Wide, ..Layout::PLAIN });
    let ordinary = [(100, None), (500, None), (2_048, None)].map(plain);
    // With as many items on larger curves.
    let as_many = [secp384r1, secp521r1].map(|traits| (2_048, None, traits));
    let long = [(230, Some(16_384)), (2_048, Some(MAX_WORDS))].map(plain);
    // As long on larger curves, and with wide sets.
    let as_long = [secp384r1, secp521r1, wide].map(|traits| (2_048, Some(MAX_WORDS), traits));
    let mut met = true;
    for (items, words, traits) in ordinary.into_iter().chain(as_many).chain(long).chain(as_long) {
        let (board, own_roll) = board(items, words, traits);
        if let Some(folder) = &folder {
            write(Path::new(folder), items, &board);
        }
        met &= row(items, &board, &own_roll);
    }
    if !met {
        println!(
            "a bar is missed: lib/ref {BAR_TO_REFERENCE:.2}; at {MAX_ITEMS} items lib/hash {BAR_TO_HASHES:.2}, \
             full/own {BAR_TO_OWN_ROLL:.2}"
        );
        std::process::exit(1);
    }
}

/// A board with a full roll, and the roll of its voters alone.
fn board(items: usize, words: Option<usize>, traits: Traits) -> (Laid, Vec<u32>) {
    let shape = Shape { items, words, long: 10, voters: items / 8, extraction: true };
    let random = &mut Random::new(2026);
    let mut plan = make_with(random, shape, traits).plan;
    let voters = voters_of(&plan.items);
    plan.roll = full_around(&voters, random);
    (plan.lay(), roll_of(voters))
}

/// How a board's contest sets are named.
fn sets(words: &[u32]) -> &'static str {
    match Layout::of(words).sets {
        Width::Narrow => "narrow",
        Width::Wide => "wide",
    }
}

/// Prints a board's row. Whether the library, where it is linked, keeps within the bars.
fn row(items: usize, laid: &Laid, own_roll: &[u32]) -> bool {
    let (board, words) = (laid.board(), &laid.words);
    let own = Board { roll: own_roll, ..board };
    let (mut index, mut ballots) = (vec![7; INDEX_NEED], vec![7; BALLOTS_NEED]);
    let (report, history) = audit_with(RULES, board, &mut index, &mut ballots);
    assert_eq!(report.number, 0, "the board is sound");
    let history = history.expect("a history");
    let curve = history.layout().curve;
    let (mut by_reference, mut hashes) = (Vec::new(), f64::MAX);
    let (mut by_library, mut with_own) = (f64::MAX, f64::MAX);
    let start = Instant::now();
    let mut rounds = 0;
    let over_own = |full: f64, own: f64| items == MAX_ITEMS && full > BAR_TO_OWN_ROLL * own;
    // In turns, so that what else the machine does falls on all alike.
    // Where the full roll seems to cost more than its bar, the row is run on: both times are small beside what
    // a busy machine takes off them.
    let seconds = |full, own| if library().is_some() && over_own(full, own) { 20.0 } else { 2.0 };
    while rounds < 20 || (start.elapsed().as_secs_f64() < seconds(by_library, with_own) && rounds < 5_000) {
        rounds += 1;
        let run = now();
        black_box(audit_with(RULES, black_box(board), &mut index, &mut ballots).0);
        by_reference.push(now() - run);
        let run = now();
        for number in 1..=history.items() {
            black_box(curve.hash(black_box(hashed(words, curve, history.item(number)))));
        }
        hashes = hashes.min(now() - run);
        if let Some(library) = library() {
            by_library = by_library.min(time_library(&library, board, items, &mut index, &mut ballots));
            with_own = with_own.min(time_library(&library, own, items, &mut index, &mut ballots));
        }
    }
    by_reference.sort_by(f64::total_cmp);
    let reference = by_reference[0];
    let spread = by_reference[rounds / 2] / reference;
    let (count, name, sets, over_hashes) = (words.len(), curve.name(), sets(words), reference / hashes);
    print!(
        "{items:>8} {count:>8} {name:>10} {sets:>7} {reference:>10.1} {spread:>8.2} {hashes:>10.1} {over_hashes:>9.2}"
    );
    match library() {
        None => {
            println!("          -        -         -        -        -         -");
            true
        }
        Some(_) => within_bars(items, count, by_library, [reference, hashes, with_own]),
    }
}

/// Prints the library's part of a row. Whether its time, beside those of the reference, of the hashes alone and of its
/// own roll alone, keeps within the bars.
fn within_bars(items: usize, words: usize, time: f64, beside: [f64; 3]) -> bool {
    let [to_reference, to_hashes, to_own] = beside.map(|other| time / other);
    let (each, word) = (time / items as f64, 1e3 * time / words as f64);
    println!(" {time:>10.1} {to_reference:>8.2} {to_hashes:>9.2} {each:>8.2} {word:>8.2} {to_own:>9.3}");
    let most_items = to_hashes <= BAR_TO_HASHES && to_own <= BAR_TO_OWN_ROLL;
    to_reference <= BAR_TO_REFERENCE && (items < MAX_ITEMS || most_items)
}

/// The time of one audit by the library, which is to accept the board.
fn time_library(library: &Interface, board: Board, items: usize, index: &mut [u32], ballots: &mut [u32]) -> f64 {
    let mut answer = [0u32; AUDIT_ANSWER];
    let run = now();
    // The buffers live here and have the lengths given with them.
    #[rustfmt::skip]
    let written = unsafe {
        (library.audit)(
            black_box(board.words.as_ptr()), board.words.len(), board.verdicts.as_ptr(), board.verdicts.len(),
            board.roll.as_ptr(), board.roll.len(),
            index.as_mut_ptr(), index.len(), ballots.as_mut_ptr(), ballots.len(),
            answer.as_mut_ptr(), answer.len())
    };
    let time = now() - run;
    assert!(written, "the answer has room");
    let given = [answer[audit_answer::NUMBER], answer[audit_answer::ITEMS]];
    assert_eq!(given, [0, items as u32], "the library accepts the board");
    time
}

fn write(folder: &Path, items: usize, board: &Laid) {
    let (curve, sets) = (Layout::of(&board.words).curve.name(), sets(&board.words));
    let folder = folder.join(format!("{items}-items-{}-words-{curve}-{sets}", board.words.len()));
    fs::create_dir_all(&folder).expect("a folder for the board");
    fs::write(folder.join("board.words"), bytes(&board.words)).expect("board.words");
    fs::write(folder.join("verdicts.words"), bytes(&board.verdicts)).expect("verdicts.words");
    fs::write(folder.join("roll.words"), bytes(&board.roll)).expect("roll.words");
}
