//! `tirfolma ancestry`, held to the reference: the numbers; types and times are told here from the board's words.

mod common;

use common::json::objects;
use common::*;
use reference::ancestry::ancestry;
use reference::checks::{case, Group, Makers};
use reference::format::*;
use reference::plan::Link;
use reference::program::{bytes, words};
use reference::random::Random;
use reference::sound::{make, Shape};
use std::path::Path;

/// The paper's names of the types.
const TYPES: [(u32, &str); 19] = [
    (1, "genesis"),
    (2, "election text"),
    (3, "contest"),
    (4, "threshold"),
    (5, "authorizer"),
    (6, "round"),
    (16, "session"),
    (17, "voter commitment"),
    (18, "server commitment"),
    (19, "ballot"),
    (20, "cast"),
    (21, "spoil"),
    (32, "extraction intent"),
    (33, "extraction data"),
    (34, "confirmation"),
    (48, "track start"),
    (49, "verifier"),
    (50, "voter opening"),
    (51, "server opening"),
];

/// Type code and time of each item, from the words.
fn items(board: &[u32]) -> Vec<(u32, u64)> {
    let (mut place, mut found, curve) = (0, Vec::new(), Layout::of(board).curve);
    while kind(board[place]) != CLOSING {
        let n = count(board[place]);
        // Behind parent and previous.
        found.push((code(board[place]), time(board, place + 1 + n + 2 * curve.widths().address)));
        place += n + curve.frame();
    }
    found
}

/// The numbers that the reference lists, or its refusal.
fn told(files: &Three, item: usize) -> Result<Vec<u32>, String> {
    if files.iter().any(|file| file.len() % 4 != 0) {
        return Err("refused 4 at 0\n".to_string());
    }
    let [board, verdicts, roll] = files.each_ref().map(|file| words(file));
    let (mut index, mut ballots, mut list) = (vec![0; INDEX_NEED], vec![0; BALLOTS_NEED], vec![0; LIST_NEED]);
    let answer = ancestry(&board, &verdicts, &roll, item, &mut index, &mut ballots, &mut list);
    match answer.number {
        0 => Ok(list[..answer.count as usize].to_vec()),
        number => Err(format!("refused {number} at {}\n", answer.count)),
    }
}

/// Milliseconds since 1970 of a date as 2026-05-01T08:00:00.000Z, counted by years and months.
fn milliseconds(date: &str) -> u64 {
    let (day, clock) = date.strip_suffix('Z').and_then(|date| date.split_once('T')).expect("a date and a time");
    let numbers = |text: &str, parts: &[char]| -> Vec<u64> {
        text.split(parts).map(|part| part.parse().unwrap_or_else(|_| panic!("{date}"))).collect()
    };
    let [year, month, day] = numbers(day.trim_start_matches('+'), &['-'])[..] else { panic!("{date}") };
    let [hours, minutes, seconds, thousandths] = numbers(clock, &[':', '.'])[..] else { panic!("{date}") };
    assert!((1..=12).contains(&month) && hours < 24 && minutes < 60 && seconds < 60 && thousandths < 1000, "{date}");
    let is_leap = |year: u64| year.is_multiple_of(if year.is_multiple_of(100) { 400 } else { 4 });
    let turns = (year - 1970) / 400;
    let mut days = turns * 146_097;
    for year in 1970 + turns * 400..year {
        days += if is_leap(year) { 366 } else { 365 };
    }
    let lengths = [31, 28 + u64::from(is_leap(year)), 31, 30, 31, 30, 31, 31, 30, 31, 30, 31];
    assert!((1..=lengths[month as usize - 1]).contains(&day), "{date}");
    days += lengths[..month as usize - 1].iter().sum::<u64>() + day - 1;
    (((days * 24 + hours) * 60 + minutes) * 60 + seconds) * 1000 + thousandths
}

/// A line: item number, type, and the date's milliseconds.
fn parted(line: &str) -> (u32, &str, u64) {
    let (number, rest) = line.split_once(' ').unwrap_or_else(|| panic!("{line}"));
    let (name, date) = rest.rsplit_once(' ').unwrap_or_else(|| panic!("{line}"));
    (number.parse().unwrap_or_else(|_| panic!("{line}")), name, milliseconds(date))
}

/// Asks for an item, with lines and with JSON. Gives how many are listed.
fn check(folder: &Path, files: &Three, item: usize) -> usize {
    let mut asked = words_of(&["ancestry"], [folder.as_os_str(), item.to_string().as_ref()]);
    let ran = tirfolma(&asked);
    asked.push("--json".into());
    let json = tirfolma(&asked);
    assert_eq!((ran.errors(), json.errors(), ran.status), ("", "", json.status), "{asked:?}");
    let [object] = &objects(json.text())[..] else { panic!("{asked:?}: {}", json.text()) };
    let numbers = match told(files, item) {
        Ok(numbers) => numbers,
        Err(refusal) => {
            assert_eq!((ran.text(), ran.status), (refusal.as_str(), 1), "{asked:?}");
            let said = format!("refused {} at {}\n", object.number("number"), object.number("passed"));
            assert_eq!((object.text("answer"), said), ("refused", refusal), "{asked:?}");
            assert_eq!(object.keys(), ["answer", "number", "passed"]);
            return 0;
        }
    };
    assert_eq!((ran.status, object.text("answer")), (0, "listed"), "{asked:?}");
    assert_eq!(object.keys(), ["answer", "list"]);
    let all = items(&words(&files[0]));
    let (lines, listed) = (ran.lines(), object.list("list"));
    assert_eq!((lines.len(), listed.len()), (numbers.len(), numbers.len()), "{asked:?}");
    for ((number, line), object) in numbers.iter().zip(lines).zip(listed) {
        let (code, time) = all[*number as usize - 1];
        let name = TYPES.iter().find(|row| row.0 == code).expect("a listed type").1;
        assert_eq!(parted(line), (*number, name, time), "{asked:?}");
        assert_eq!(object.keys(), ["code", "date", "item", "time", "type"]);
        let found = (object.number("item"), object.number("code"), object.text("type"), object.number("time"));
        assert_eq!(found, (u64::from(*number), u64::from(code), name, time), "{asked:?}");
        assert_eq!(milliseconds(object.text("date")), time, "{asked:?}");
    }
    numbers.len()
}

#[test]
fn each_item_of_the_sample() {
    let files = sample("election");
    let folder = root().join("samples/election");
    let listed: Vec<usize> = (1..=48).map(|item| check(&folder, &files, item)).collect();
    assert_eq!(listed[0], 1, "genesis has no parent");
    assert!(listed.iter().all(|&count| count > 0) && listed.iter().any(|&count| count > 8), "{listed:?}");
}

#[test]
fn each_item_of_boards_from_seeds() {
    let temp = Temp::new("seeds");
    let makers = Makers::default();
    let mut sound = 0;
    for seed in 0..12 {
        let made = case(&makers, Group::Sound, 50_000 + seed);
        let files = [bytes(&made.words), bytes(&made.verdicts), bytes(&made.roll)];
        let folder = temp.board(seed.to_string(), &files);
        let all = items(&made.words).len();
        for item in (1..=all).step_by(1 + all / 12) {
            sound += usize::from(check(&folder, &files, item) > 0);
        }
        check(&folder, &files, all + 1);
    }
    assert!(sound > 50, "only {sound} items");
}

/// As many items as there may be, each under the one before.
#[test]
fn the_longest_ancestry() {
    let random = &mut Random::new(1);
    let shape = Shape { items: 1, words: None, long: 0, voters: 1, extraction: false };
    let mut plan = make(random, shape).plan;
    for at in 1..MAX_ITEMS {
        let mut text = plan.items[at - 1].clone();
        (text.code, text.content, text.parent) = (TEXT, Vec::new(), Link::Item(at - 1));
        plan.items.push(text);
    }
    let files = files(&plan.lay());
    let temp = Temp::new("longest");
    let folder = temp.board("board", &files);
    for item in [1, 2, 1_024, 2_047, 2_048] {
        assert_eq!(check(&folder, &files, item), item);
    }
    assert_eq!(check(&folder, &files, 2_049), 0);
}

#[test]
fn no_such_item() {
    let files = sample("election");
    let folder = root().join("samples/election");
    // 2^32 + 1 is not item 1.
    for item in [0, 49, 50, 2_048, 2_049, 1 << 32, (1 << 32) + 1, usize::MAX - 1, usize::MAX] {
        assert_eq!(told(&files, item), Err("refused 19 at 48\n".to_string()));
        assert_eq!(check(&folder, &files, item), 0);
    }
    for word in ["x", "", " ", "1x", "+1", "-1", "1.0", "0x1", " 1", "1 ", "one", "１", "1,2", "--1"] {
        tirfolma(words_of(&["ancestry"], [folder.as_os_str(), word.as_ref()])).assert_failed(word);
    }
    // More than 64 bits, with 1 in the low ones.
    let ran = tirfolma(words_of(&["ancestry"], [folder.as_os_str(), "18446744073709551617".as_ref()]));
    assert!(ran.status != 0 && !ran.text().contains("genesis"), "{ran:?}");
}

#[test]
fn refused_boards() {
    let temp = Temp::new("refused");
    for name in ["tampered-ballot", "wrong-key", "truncated", "roll-not-rising", "not-on-roll"] {
        for item in [0, 1, 5, 1_000] {
            assert_eq!(check(&root().join("samples").join(name), &sample(name), item), 0);
        }
    }
    for at in 0..3 {
        let mut files = sample("election");
        files[at].push(0);
        let folder = temp.board(at.to_string(), &files);
        assert_eq!(check(&folder, &files, 1), 0);
    }
    let empty: Three = Default::default();
    check(&temp.board("empty", &empty), &empty, 1);
}

#[test]
fn folders_that_cannot_be_read() {
    let temp = Temp::new("unread");
    write(&temp.join("many/1"), &sample("election"));
    for name in ["missing", "many"] {
        for words in [&["ancestry"][..], &["ancestry", "--json"]] {
            let ran = tirfolma(words_of(words, [temp.join(name).as_os_str(), "1".as_ref()]));
            ran.assert_failed(name);
        }
    }
}

/// The conversion above, beside known dates.
#[test]
fn dates_are_read_right() {
    for (date, known) in [
        ("1970-01-01T00:00:00.000Z", 0),
        ("2000-02-29T23:59:59.999Z", 951_868_799_999),
        ("2024-02-29T00:00:00.000Z", 1_709_164_800_000),
        ("+10000-01-01T00:00:00.000Z", 253_402_300_800_000),
        ("+584556019-04-03T14:25:51.615Z", u64::MAX),
    ] {
        assert_eq!(milliseconds(date), known, "{date}");
    }
}
