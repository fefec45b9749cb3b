//! The stored boards: on each the program says what the auditor prints, and of a folder without a file that it was not audited. The stored
//! comparisons, receipts and notes: of each it says what is expected.

mod common;

use common::*;
use reference::program::PROGRAM_WORDS;
use std::collections::BTreeSet;
use std::fs;
use std::os::unix::ffi::OsStrExt;
use std::path::{Path, PathBuf};

/// The folders with a board in a folder, in the order of their names.
fn stored(folder: &str) -> Vec<PathBuf> {
    let entries = fs::read_dir(root().join(folder)).expect("the folder can be read");
    let mut paths: Vec<PathBuf> = entries.map(|entry| entry.expect("an entry").path()).filter(|p| p.is_dir()).collect();
    paths.sort_by(|a, b| a.as_os_str().as_bytes().cmp(b.as_os_str().as_bytes()));
    paths
}

fn missing(folder: &Path) -> Vec<&'static str> {
    NAMES.into_iter().filter(|name| !folder.join(name).exists()).collect()
}

/// What the program must print: what the auditor prints, but that more words are no reason to refuse.
fn right(folder: &Path) -> String {
    let printed = fs::read_to_string(folder.join("expected")).expect("what is expected is stored");
    assert_eq!(auditor(folder), printed, "the auditor in {}", folder.display());
    let files = read(folder);
    if files[0].len() > 4 * PROGRAM_WORDS {
        assert_eq!(printed, "refused 1 at 0\n");
        assert_ne!(expected(&files), printed, "{}: no board for the library's limits", folder.display());
        return expected(&files);
    }
    printed
}

fn status_of(answer: &str) -> i32 {
    i32::from(!answer.starts_with("accepted "))
}

#[test]
fn each_board_is_answered_as_by_the_auditor() {
    let (mut whole, mut lacking, mut long) = (0, 0, 0);
    for folder in stored("tests/boards").into_iter().chain(stored("samples")) {
        let right = right(&folder);
        let ran = tirfolma(words_of(&["audit", "--rows"], [&folder]));
        if let Some(file) = missing(&folder).first() {
            lacking += 1;
            assert_eq!(ran.text(), format!("{}\tnot audited\n", folder.display()));
            assert_eq!(ran.status, 2);
            ran.assert_message("a missing file");
            assert!(ran.errors().contains(&folder.join(file).display().to_string()), "{}", ran.errors());
            with_empty_files(&folder, &right);
        } else {
            whole += 1;
            long += usize::from(fs::metadata(folder.join(NAMES[0])).expect("a file").len() > 4 * PROGRAM_WORDS as u64);
            assert_eq!(ran.text(), format!("{}\t{right}", folder.display()));
            assert_eq!((ran.status, ran.errors()), (status_of(&right), ""), "{}", folder.display());
        }
    }
    assert!(whole > 170 && lacking >= 3 && long >= 2, "{whole} boards, {lacking} without a file, {long} long ones");
}

/// With empty files in the place of those that are missing the answer is the auditor's.
fn with_empty_files(folder: &Path, right: &str) {
    let temp = Temp::new("filled");
    let filled = temp.board("filled", &read(folder));
    let ran = tirfolma(words_of(&["audit", "--rows"], [&filled]));
    assert_eq!(ran.text(), format!("{}\t{right}", filled.display()));
    assert_eq!((ran.status, ran.errors()), (status_of(right), ""));
}

/// The lines of one call for a whole folder, and what they must be.
fn all_at_once(folder: &str) -> (Ran, String) {
    let mut all = String::new();
    for path in stored(folder) {
        let right = right(&path);
        let first = if missing(&path).is_empty() { right.lines().next().expect("a line") } else { "not audited" };
        all += &format!("{}\t{first}\n", path.display());
    }
    (tirfolma(words_of(&["audit"], [root().join(folder)])), all)
}

#[test]
fn all_boards_in_one_call() {
    let (ran, all) = all_at_once("tests/boards");
    assert!(all.lines().count() > 150, "only {} boards", all.lines().count());
    assert_eq!(ran.text(), all);
    assert_eq!(ran.status, 2, "there are boards without a file");
    assert_eq!(ran.errors().lines().count(), all.matches("\tnot audited\n").count(), "{}", ran.errors());
}

#[test]
fn all_samples_in_one_call() {
    let (ran, all) = all_at_once("samples");
    assert_eq!(ran.text(), all);
    assert_eq!((ran.status, ran.errors()), (1, ""));
    let [accepted, refused] = ["\taccepted ", "\trefused "].map(|answer| all.matches(answer).count());
    assert!(accepted >= 2 && refused >= 9, "{accepted} are accepted, {refused} refused");
}

#[test]
fn sound_boards_alone_are_all_accepted() {
    let sound: Vec<PathBuf> = stored("tests/boards")
        .into_iter()
        .filter(|path| missing(path).is_empty() && right(path).starts_with("accepted"))
        .collect();
    assert!(sound.len() > 10, "only {} sound boards", sound.len());
    let ran = tirfolma(words_of(&["audit"], &sound));
    assert_eq!((ran.status, ran.errors()), (0, ""));
    assert_eq!(ran.lines().len(), sound.len());
}

/// What is printed of a stored comparison, and the main number that is asked for.
fn compared(folder: &Path) -> (String, String) {
    let text = fs::read_to_string(folder.join("expected")).expect("what is expected is stored");
    let lines: Vec<&str> = text.lines().collect();
    let [Some(number), Some(answer)] = [("number ", 0), ("answer ", 1)].map(|(key, at)| lines[at].strip_prefix(key))
    else {
        panic!("{text}");
    };
    let answer = match answer.split(' ').collect::<Vec<_>>()[..] {
        ["refused", board, number, items] => format!("{board} refused {number} at {items}\n"),
        _ => format!("{answer}\n"),
    };
    (answer, number.to_string())
}

#[test]
fn each_comparison_is_answered_as_expected() {
    let temp = Temp::new("compared");
    let mut answers = BTreeSet::new();
    for folder in stored("tests/comparisons") {
        let board = |which: &str| {
            let file = |name: &str| folder.join(format!("{which}-{name}"));
            temp.board(which, &NAMES.map(|name| fs::read(file(name)).unwrap_or_default()))
        };
        let folders = [board("kept"), board("later")];
        let (answer, number) = compared(&folder);
        let mut words = words_of(&["compare"], &folders);
        words.push(number.into());
        let ran = tirfolma(&words);
        assert_eq!((ran.text(), ran.errors()), (answer.as_str(), ""), "{}", folder.display());
        assert_eq!(ran.status, i32::from(answer != "same\n"), "{}", folder.display());
        answers.insert(answer.split(' ').next().expect("a word").trim().to_string());
    }
    assert_eq!(answers, ["apart", "kept", "later", "same"].map(String::from).into());
}

/// What a line of `expected` has behind its key.
fn stored_line(folder: &Path, key: &str) -> String {
    let text = fs::read_to_string(folder.join("expected")).expect("what is expected is stored");
    let found = text.lines().find_map(|line| line.strip_prefix(key));
    found.unwrap_or_else(|| panic!("no {key}in {text}")).to_string()
}

/// What is printed first of stored receipts: a line for each, or the refusal. None where a buffer is too short, which the program's is not.
fn answered(folder: &Path) -> Option<String> {
    let answer = stored_line(folder, "answer ");
    let (number, items) = answer.split_once(' ').expect("two numbers");
    match number {
        "0" => {
            // Behind the answers the buffer has zeros.
            let answers = stored_line(folder, "answers");
            let mains = answers.split_whitespace().take_while(|&word| word != "0").enumerate();
            let line = |(at, main)| format!("{} {}\n", at + 1, if main == "4294967295" { "none" } else { main });
            Some(mains.map(line).collect())
        }
        "2" => None,
        _ => Some(format!("refused {number} at {items}\n")),
    }
}

#[test]
fn each_receipt_is_answered_as_expected() {
    let temp = Temp::new("answered");
    let file = temp.join("receipts.words");
    let (mut refused, mut statuses) = (BTreeSet::new(), [0; 2]);
    for folder in stored("tests/receipts") {
        let board = temp.board("board", &read(&folder));
        fs::write(&file, fs::read(folder.join("receipts.words")).unwrap_or_default()).expect("written");
        let ran = tirfolma(words_of(&["receipts"], [&board, &file]));
        let Some(right) = answered(&folder) else {
            assert!(!ran.text().starts_with("refused 2 "), "{}", folder.display());
            continue;
        };
        let status = i32::from(right.contains("none") || right.starts_with("refused"));
        assert_eq!((ran.status, ran.errors()), (status, ""), "{}", folder.display());
        statuses[status as usize] += 1;
        match right.starts_with("refused") {
            true => {
                assert!(ran.text().starts_with(&right), "{}: {}", folder.display(), ran.text());
                refused.insert(right.split(' ').nth(1).expect("a number").to_string());
            }
            false => assert_eq!(ran.text(), right, "{}", folder.display()),
        }
    }
    assert!(statuses[0] > 0 && statuses[1] > 20 && refused.contains("22"), "{statuses:?}, {refused:?}");
}

/// What is printed first of stored notes: the refusal, that they agree, or what stands before the colon.
fn held(folder: &Path) -> String {
    let answer = stored_line(folder, "answer ");
    match (answer.split_once(' ').expect("two numbers"), stored_line(folder, "notes ").as_str()) {
        (("0", _), "all agree") => "agree\n".to_string(),
        (("0", _), disagreement) => format!("{disagreement}: "),
        ((number, items), _) => format!("refused {number} at {items}\n"),
    }
}

#[test]
fn each_note_is_answered_as_expected() {
    let temp = Temp::new("held");
    let file = temp.join("notes.words");
    let mut answers = BTreeSet::new();
    for folder in stored("tests/notes") {
        let board = temp.board("board", &read(&folder));
        fs::write(&file, fs::read(folder.join("notes.words")).unwrap_or_default()).expect("written");
        let ran = tirfolma(words_of(&["notes"], [&board, &file]));
        let right = held(&folder);
        assert_eq!((ran.status, ran.errors()), (i32::from(right != "agree\n"), ""), "{}", folder.display());
        assert!(ran.text().starts_with(&right), "{}: {}", folder.display(), ran.text());
        assert_eq!(ran.lines().len(), if right.starts_with("refused") { 3 } else { 1 }, "{}", folder.display());
        answers.insert(right.trim_start_matches(|c: char| c.is_ascii_digit()).to_string());
    }
    for answer in ["agree\n", " no main item: ", " out of order: ", " too early: ", "refused 23 at 0\n"] {
        assert!(answers.contains(answer), "{answer:?} is not among {answers:?}");
    }
}
