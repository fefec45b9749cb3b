//! The table of item types, held to the library: a board that ends with a head is refused by 5 where the head's type is not listed under
//! its kind, by 6 where its count is not in the table for the board's curve and the width of its sets, and by 4 where both are good.

#[path = "common/widths.rs"]
mod widths;

use tirfolma::format::Format;
use tirfolma::library::{audit, Answer, Board, Refusal, Tables};
use tirfolma::types::code::BALLOT;
use tirfolma::types::{of_code, TYPES};
use widths::Widths;

/// The words and verdicts before the head, and how many items they are.
struct Before {
    words: Vec<u32>,
    verdicts: Vec<u32>,
    items: u32,
}

/// A sound genesis, with a traits word or without.
fn genesis(traits: Option<u32>) -> Before {
    let key = [7; 8];
    let content = [&[1][..], &key, &[9; 8], traits.as_slice()].concat();
    let mut words = vec![1 << 28 | 1 << 16 | content.len() as u32];
    words.extend(&content);
    let widths = Widths::of(&words);
    // Parent, previous, time.
    words.resize(content.len() + widths.hashed_frame(), 0);
    let address = widths.hashed(&words);
    words.resize(words.len() + widths.signature, 0);
    words.extend(address);
    Before { words, verdicts: [&[0x3000_0001][..], &key].concat(), items: 1 }
}

/// Nothing, and each genesis that opens a board.
fn befores() -> impl Iterator<Item = Before> {
    let nothing = Before { words: Vec::new(), verdicts: Vec::new(), items: 0 };
    [nothing, genesis(None)].into_iter().chain((0..6).map(|traits| genesis(Some(traits))))
}

/// The refusal of the board that ends with this head.
fn refusal(before: &mut Before, kind: u32, code: u32, count: u32, tables: &mut Tables) -> u32 {
    let head = kind << 28 | code << 16 | count;
    before.words.push(head);
    let answer = audit(Board { words: &before.words, verdicts: &before.verdicts, roll: &[] }, tables);
    before.words.pop();
    match answer {
        Answer::Refused(Refusal { number, items }) if items == before.items => number,
        other => panic!("head {head:08x}: {other:?}"),
    }
}

/// What the table of the program says.
fn told(before: &Before, kind: u32, code: u32, count: u32) -> u32 {
    match of_code(code).filter(|row| kind == if row.hidden { 2 } else { 1 }) {
        _ if kind == 15 => {
            if before.items == 0 {
                3
            } else {
                18
            }
        }
        None => 5,
        Some(row) if !row.counts.fit(Format::of(&before.words), count as usize) => 6,
        Some(_) => 4,
    }
}

#[test]
fn every_kind_and_type() {
    let tables = &mut Tables::default();
    for mut before in befores() {
        let mut listed = 0;
        for (kind, code) in (0..16).flat_map(|kind| (0..4096).map(move |code| (kind, code))) {
            let number = refusal(&mut before, kind, code, 0, tables);
            assert_eq!(number, told(&before, kind, code, 0), "kind {kind}, type {code}");
            listed += usize::from(matches!(number, 4 | 6));
        }
        assert_eq!(listed, TYPES.len());
    }
}

/// How many counts fit a type and how many don't, of those that are tried.
fn count_counts(before: &mut Before, code: u32, hidden: bool, tables: &mut Tables) -> (usize, usize) {
    let kind = if hidden { 2 } else { 1 };
    let far = (10..16).map(|bit| 1 << bit).chain(65_000..65_536);
    // The most that a ballot has are 8 + 34 * 256.
    let near = if code == BALLOT { 9_000 } else { 700 };
    let (mut fit, mut misfit) = (0, 0);
    for count in (0..=near).chain(far) {
        let number = refusal(before, kind, code, count, tables);
        assert_eq!(number, told(before, kind, code, count), "type {code}, count {count}");
        // And to the papers, which these tests read for themselves.
        let is_papers = Widths::of(&before.words).fits(code, count as usize);
        assert_eq!(number, if is_papers { 4 } else { 6 }, "type {code}, count {count}, by the papers");
        fit += usize::from(number == 4);
        misfit += usize::from(number == 6);
    }
    (fit, misfit)
}

#[test]
fn every_count_of_a_listed_type() {
    let tables = &mut Tables::default();
    for row in TYPES {
        for mut before in befores() {
            let (fit, misfit) = count_counts(&mut before, row.code, row.hidden, tables);
            assert!(fit > 0 && misfit > 0, "type {} has counts of both kinds", row.code);
        }
    }
}

/// Each code once, and each name once, so that a reader can tell them apart.
#[test]
fn no_row_twice() {
    for (at, row) in TYPES.iter().enumerate() {
        for other in &TYPES[..at] {
            assert!(row.code > other.code && row.name != other.name, "{row:?} and {other:?}");
        }
    }
}

/// What the paper's table lists beside kind and counts, written out a second time.
#[test]
fn writers_and_parents_are_the_papers() {
    use reference::format::{parent_of, writer_of, Parent as P, Writer as W};
    use tirfolma::types::{Parent, Writer};
    for row in TYPES {
        let writer = match writer_of(row.code) {
            W::Administrator => Writer::Administrator,
            W::BallotBox => Writer::BallotBox,
            W::Authorizer => Writer::Authorizer,
            W::Voter => Writer::Voter,
            W::Verifier => Writer::Verifier,
        };
        let parent = match parent_of(row.code) {
            P::Zeros => Parent::Zeros,
            P::LatestConfig => Parent::LatestConfig,
            P::Type(code) => Parent::OfType(code),
        };
        assert_eq!((row.writer, row.parent), (writer, parent), "type {}", row.code);
    }
}
