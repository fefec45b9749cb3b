//! `tirfolma compare`, held to the reference: boards and those that they grew to, other boards, refused ones on either side, and every
//! kind of MAIN. A collision can't be made: tests/stand_in.rs has a stand-in for the library say that there is one.

mod common;

use common::json::{objects, Json};
use common::*;
use reference::audit::Board;
use reference::checks::{case, Group, Makers};
use reference::compare::{compare, Comparison, Side, Tables};
use reference::format::*;
use reference::program::{bytes, words};
use std::collections::BTreeMap;
use std::path::Path;

fn is_odd(files: &Three) -> bool {
    files.iter().any(|file| file.len() % 4 != 0)
}

fn board(words: &[Vec<u32>; 3]) -> Board<'_> {
    Board { words: &words[0], verdicts: &words[1], roll: &words[2] }
}

/// What the reference says of two boards.
fn told(kept: &Three, later: &Three, main: usize) -> Comparison {
    let [kept, later] = [kept, later].map(|files| files.each_ref().map(|file| words(file)));
    let mut tables = [vec![0; INDEX_NEED], vec![0; BALLOTS_NEED], vec![0; INDEX_NEED], vec![0; BALLOTS_NEED]];
    let [a, b, c, d] = &mut tables;
    compare(board(&kept), board(&later), main, Tables { index: a, ballots: b }, Tables { index: c, ballots: d })
}

/// What the program must print, as --help has it: the kept board's audit comes before anything of the later one.
fn right(kept: &Three, later: &Three, main: Option<usize>) -> String {
    let answer = expected(kept);
    if let Some(refusal) = answer.strip_prefix("refused") {
        return format!("kept refused{refusal}");
    }
    if is_odd(later) {
        return "later refused 4 at 0\n".to_string();
    }
    let mains = answer.split(' ').nth(2).and_then(|mains| mains.parse().ok()).expect("a number of main items");
    match told(kept, later, main.unwrap_or(mains)) {
        Comparison::Same => "same\n".to_string(),
        Comparison::Apart => "apart\n".to_string(),
        Comparison::Collision { kept, later } => format!("collision {kept} {later}\n"),
        Comparison::Refused { side, number, items } => {
            let side = if side == Side::Kept { "kept" } else { "later" };
            format!("{side} refused {number} at {items}\n")
        }
    }
}

/// Runs it, with lines and with JSON, and holds both to what is right. Gives the answer.
fn check(kept: &Path, later: &Path, main: Option<&str>, right: &str) -> String {
    let mut words = words_of(&["compare"], [kept, later]);
    words.extend(main.map(|main| main.into()));
    let ran = tirfolma(&words);
    assert_eq!((ran.text(), ran.errors()), (right, ""), "{words:?}");
    assert_eq!(ran.status, i32::from(right != "same\n"), "{words:?}");
    words.push("--json".into());
    let ran = tirfolma(&words);
    assert_eq!((ran.status, ran.errors()), (i32::from(right != "same\n"), ""), "{words:?}");
    let found = objects(ran.text());
    assert_eq!(found.len(), 1);
    let curves = [kept, later].map(|folder| Layout::of(&reference::program::words(&read(folder)[0])).curve.name());
    assert_eq!(in_line(&found[0], curves), right, "{words:?}");
    if let Some(main) = main.filter(|_| found[0].find("main").is_some()) {
        assert_eq!(found[0].number("main").to_string(), main, "{words:?}");
    }
    right.to_string()
}

/// The line that an object stands for. It has no keys but those that are documented for its answer; the boards' curves if they differ.
fn in_line(object: &Json, curves: [&str; 2]) -> String {
    let mut keys = object.keys();
    keys.retain(|&key| key != "answer" && key != "main");
    match (object.text("answer"), &keys[..]) {
        ("apart", ["kept_curve", "later_curve"]) if curves[0] != curves[1] => {
            object.number("main");
            assert_eq!(["kept_curve", "later_curve"].map(|key| object.text(key)), curves);
            "apart\n".to_string()
        }
        (answer @ ("same" | "apart"), []) if curves[0] == curves[1] => {
            object.number("main");
            format!("{answer}\n")
        }
        ("refused", ["board", "number", "passed"]) => {
            let board = object.text("board");
            assert!(board == "kept" || object.find("main").is_some(), "{object:?}");
            format!("{board} refused {} at {}\n", object.number("number"), object.number("passed"))
        }
        _ => panic!("{object:?}"),
    }
}

/// A board that was kept when this one had so many main items, and their number of all.
fn cut(files: &Three, mains: usize) -> Three {
    let board = words(&files[0]);
    let (mut place, mut items, mut seen) = (0, 0, 0);
    while seen < mains {
        assert_ne!(kind(board[place]), CLOSING, "so many main items are there");
        seen += usize::from(kind(board[place]) == MAIN);
        place += count(board[place]) + Layout::of(&board).curve.frame();
        items += 1;
    }
    let mut kept = board[..place].to_vec();
    kept.push(CLOSING << 28 | items as u32);
    [bytes(&kept), files[1][..4 * VERDICT_WORDS * items].to_vec(), files[2].clone()]
}

#[test]
fn a_board_and_what_it_grew_to() {
    let temp = Temp::new("grown");
    let whole = sample("election");
    let later = temp.board("later", &whole);
    for mains in 1..=42 {
        let kept = temp.board("kept", &cut(&whole, mains));
        check(&kept, &later, None, "same\n");
        check(&kept, &later, Some(&mains.to_string()), "same\n");
        let other = if mains == 42 { 1 } else { mains + 1 };
        check(&kept, &later, Some(&other.to_string()), "apart\n");
        // The other way round: the kept board has more than the later one, up to the last.
        let turned = if mains == 42 { "same\n".to_string() } else { right(&whole, &cut(&whole, mains), None) };
        assert_eq!(turned.starts_with("later refused 19"), mains != 42, "{turned}");
        check(&later, &kept, None, &turned);
    }
}

#[test]
fn numbers_that_are_no_main_item() {
    let temp = Temp::new("main");
    let whole = sample("election");
    let (kept, later) = (temp.board("kept", &cut(&whole, 20)), temp.board("later", &whole));
    // 20 is right; numbers that have it in their low bits are not.
    for main in [0, 43, 1 << 20, u64::from(u32::MAX), (1 << 32) + 20, (1 << 63) + 20, u64::MAX - 1, u64::MAX] {
        check(&kept, &later, Some(&main.to_string()), "later refused 19 at 48\n");
    }
    for word in [
        "x", "", " ", "20x", "x20", "+20", "-20", "20.0", "0x14", "2e1", " 20", "20 ", "twenty", "２０", "20,0", "--20",
    ] {
        let ran = tirfolma(words_of(&["compare"], [kept.as_os_str(), later.as_os_str(), word.as_ref()]));
        ran.assert_failed(word);
    }
    // More than 64 bits, with 20 in the low ones: whatever is said, it is not that they are the same.
    for word in ["18446744073709551636", "340282366920938463463374607431768211476"] {
        let ran = tirfolma(words_of(&["compare"], [kept.as_os_str(), later.as_os_str(), word.as_ref()]));
        assert_ne!(ran.status, 0, "{word}");
        assert!(ran.text().is_empty() || ran.text().starts_with("later refused 19"), "{word}: {}", ran.text());
    }
}

#[test]
fn refused_boards_on_either_side() {
    let temp = Temp::new("sides");
    let good = sample("election");
    let mut odd = good.clone();
    odd[2].push(0);
    let mut boards = vec![("good", good.clone()), ("odd", odd), ("empty", Default::default())];
    for name in ["tampered-ballot", "truncated", "not-on-roll", "roll-not-rising", "genesis-alone"] {
        boards.push((name, sample(name)));
    }
    for at in 0..3 {
        let mut odd = good.clone();
        odd[at].truncate(good[at].len() - 1);
        boards.push((["odd board", "odd verdicts", "odd roll"][at], odd));
    }
    let mut answers: BTreeMap<String, usize> = BTreeMap::new();
    for (kept_name, kept) in &boards {
        for (later_name, later) in &boards {
            let (a, b) = (temp.board(kept_name, kept), temp.board(later_name, later));
            for main in [None, Some(0), Some(1), Some(42), Some(1_000_000)] {
                let text = main.map(|main: usize| main.to_string());
                let answer = check(&a, &b, text.as_deref(), &right(kept, later, main));
                *answers.entry(answer.split(" at ").next().expect("a part").trim().to_string()).or_default() += 1;
            }
        }
    }
    for number in [3, 4, 7, 20, 21] {
        for side in ["kept", "later"] {
            assert!(answers.contains_key(&format!("{side} refused {number}")), "no {side} {number}: {answers:?}");
        }
    }
    assert!(["same", "apart", "later refused 19"].iter().all(|answer| answers.contains_key(*answer)), "{answers:?}");
    assert!(!answers.contains_key("kept refused 19"), "{answers:?}");
}

#[test]
fn boards_from_seeds() {
    let temp = Temp::new("seeds");
    let makers = Makers::default();
    let mut answers: BTreeMap<&str, usize> = BTreeMap::new();
    for seed in 0..120 {
        let group = [Group::Sound, Group::Sound, Group::Sound, Group::Rules][seed as usize % 4];
        let made = case(&makers, group, 40_000 + seed);
        let one = [bytes(&made.words), bytes(&made.verdicts), bytes(&made.roll)];
        let other = files(&made.other);
        let (kept, later) = if made.kept { (one, other) } else { (other, one) };
        let (a, b) = (temp.board("kept", &kept), temp.board("later", &later));
        for main in [None, Some(1 + seed as usize % 60)] {
            let text = main.map(|main| main.to_string());
            let answer = check(&a, &b, text.as_deref(), &right(&kept, &later, main));
            let first = ["same", "apart", "kept", "later"].into_iter().find(|word| answer.starts_with(word));
            *answers.entry(first.expect("an answer")).or_default() += 1;
        }
    }
    assert!(answers.len() == 4 && answers.values().all(|&count| count >= 5), "{answers:?}");
}

/// Where a folder can't be read there is no answer, not even about the other board.
#[test]
fn folders_that_cannot_be_read() {
    let temp = Temp::new("unread");
    let good = temp.board("good", &sample("election"));
    let bad = temp.board("bad", &sample("truncated"));
    let missing = temp.join("missing");
    let many = temp.join("many");
    write(&many.join("1"), &sample("election"));
    for (kept, later) in
        [(&missing, &good), (&good, &missing), (&bad, &missing), (&missing, &missing), (&many, &good), (&good, &many)]
    {
        for options in [&["compare"][..], &["compare", "--json"]] {
            let ran = tirfolma(words_of(options, [kept, later]));
            ran.assert_failed("a folder without a board");
        }
    }
    for file in NAMES {
        let lacking = temp.board(format!("lacking-{file}"), &sample("election"));
        std::fs::remove_file(lacking.join(file)).expect("removed");
        tirfolma(words_of(&["compare"], [&lacking, &good])).assert_failed(file);
        tirfolma(words_of(&["compare"], [&good, &lacking])).assert_failed(file);
    }
}
