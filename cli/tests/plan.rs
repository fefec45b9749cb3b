//! `tirfolma plan` without machines: each line held to the words of the board, read plainly by the papers, and to the audit's answer; only
//! board.words is read; files and folders of every kind. tests/machines.rs has the rest.

#[path = "common/traits.rs"]
mod boards;
mod common;
#[path = "common/planned.rs"]
mod planned;
#[path = "common/widths.rs"]
mod widths;

use boards::made;
use common::json::objects;
use common::*;
use planned::{answer_of, plan_of, Plan};
use reference::format::{MAX_ITEMS, MAX_WORDS};
use reference::program::{bytes, words};
use reference::random::Random;
use reference::sound::{make, Shape, Traits};
use std::fs;
use std::os::unix::fs::symlink;
use std::path::{Path, PathBuf};

/// The sum of some plans, as the last line has it behind the counts.
fn sum(plans: &[Plan]) -> String {
    let all = plans.iter().filter_map(|plan| plan.as_ref().ok());
    let [items, index, blocks] = all.fold([0u64; 3], |sum, plan| std::array::from_fn(|at| sum[at] + plan[at]));
    format!("{items} items, {index} index words, {blocks} blocks")
}

/// Plans these folders in one call, and holds each line and the sum to what is expected. Gives what stands below refused boards.
fn check(folders: &[(PathBuf, Vec<u8>)]) -> Vec<String> {
    let ran = tirfolma(words_of(&["plan"], folders.iter().map(|(path, _)| path)));
    let plans: Vec<Plan> = folders.iter().map(|(_, board)| plan_of(board)).collect();
    let refused = plans.iter().filter(|plan| plan.is_err()).count();
    assert_eq!((ran.errors(), ran.status), ("", i32::from(refused > 0)));
    let mut lines = ran.lines();
    let right =
        format!("{} boards: {} planned, {refused} refused; {}", plans.len(), plans.len() - refused, sum(&plans));
    assert_eq!(lines.pop(), Some(right.as_str()));
    if refused > 0 {
        assert!(lines.pop().is_some_and(|note| note.starts_with("(Explanations ")), "a note below explanations");
    }
    let (below, lines): (Vec<&str>, Vec<&str>) = lines.into_iter().partition(|line| line.starts_with("    "));
    assert_eq!((lines.len(), below.len()), (plans.len(), refused));
    for ((line, (path, _)), plan) in lines.iter().zip(folders).zip(&plans) {
        assert_eq!(parted(line), (path.clone(), answer_of(plan).as_str()));
    }
    below.into_iter().map(String::from).collect()
}

/// The folders with a board in a folder, in the order of their names, and the bytes of board.words.
fn stored(folder: &str) -> Vec<(PathBuf, Vec<u8>)> {
    let entries = fs::read_dir(root().join(folder)).expect("the folder can be read");
    let mut paths: Vec<PathBuf> = entries.map(|entry| entry.expect("an entry").path()).collect();
    paths.retain(|path| path.join(NAMES[0]).is_file());
    paths.sort();
    paths.into_iter().map(|path| (path.clone(), read(&path)[0].clone())).collect()
}

#[test]
fn stored_boards_and_samples() {
    let boards = stored("tests/boards");
    assert!(boards.len() > 150, "only {} boards", boards.len());
    check(&boards);
    let samples = stored("samples");
    check(&samples);
    // One folder for all: the same lines.
    let all = tirfolma(words_of(&["plan"], [root().join("samples")]));
    assert_eq!(all.text(), tirfolma(words_of(&["plan"], samples.iter().map(|(path, _)| path))).text());
    assert_eq!(all.status, 1);
}

/// What the plan says beside what the audit says: an accepted board is planned with as many items, and what is refused for its heads alone
/// by both is refused by the same words.
#[test]
fn beside_the_audit() {
    let [mut accepted, mut alike, mut later] = [0; 3];
    for (path, board) in
        stored("tests/boards").into_iter().filter(|(path, _)| NAMES.iter().all(|name| path.join(name).is_file()))
    {
        let audited = expected(&read(&path));
        let audited = audited.lines().next().expect("a line");
        let number = |at: usize| audited.split(' ').nth(at).expect("a word").parse::<u64>().expect("a number");
        match (plan_of(&board), audited.starts_with("accepted")) {
            (Ok([items, ..]), true) => assert_eq!((number(1), accepted += 1), (items, ()), "{path:?}"),
            (plan, true) => panic!("{path:?} is accepted, and its plan is {plan:?}"),
            (Err(_), false) if [1, 3, 4, 5, 6].contains(&number(1)) => {
                assert_eq!(answer_of(&plan_of(&board)), audited, "{path:?}");
                alike += 1;
            }
            (_, false) => later += 1,
        }
    }
    assert!(accepted > 10 && alike > 10 && later > 50, "{accepted}, {alike}, {later}");
}

/// On each curve with sets of either width; one of the most items and words.
#[test]
fn made_boards() {
    let temp = Temp::new("made");
    let mut folders = Vec::new();
    let mut add = |name: String, files: &Three| folders.push((temp.board(name, files), files[0].clone()));
    for (at, traits) in Traits::ALL.into_iter().enumerate() {
        (0..6).for_each(|seed| add(format!("{at}-{seed}"), &files(&made(92_000 + seed, 120, traits).plan.lay())));
    }
    let shape = Shape { items: MAX_ITEMS, words: Some(MAX_WORDS), long: 20, voters: 40, extraction: true };
    add("most".to_string(), &files(&make(&mut Random::new(8), shape).plan.lay()));
    check(&folders);
}

/// A board cut at each of its words, with another word at each place of a head, and with words behind it: each refusal comes, and what is
/// wrong is told from the words as the audit tells it.
#[test]
fn every_refusal() {
    let temp = Temp::new("every");
    let whole = words(&files(&made(92_100, 12, Traits::ALL[3]).plan.lay())[0]);
    let mut boards: Vec<Vec<u32>> = (0..whole.len()).map(|end| whole[..end].to_vec()).collect();
    for (place, word) in [(0, 0xf000_0000), (0, 0x1002_0041), (0, 0x3001_0012), (whole.len() - 1, 0xf000_0001)] {
        boards.push(whole.clone());
        boards.last_mut().expect("a board")[place] = word;
    }
    boards.push([whole.clone(), vec![0]].concat());
    boards.push(vec![0; MAX_WORDS + 1]);
    // Casts, one more than a board may have.
    boards.push((0..=MAX_ITEMS).flat_map(|_| [vec![0x1014_0000], vec![0; 42]].concat()).collect());
    let folder = |(at, board): (usize, &Vec<u32>)| {
        let path = temp.join(format!("{at:05}"));
        fs::create_dir(&path).expect("made");
        fs::write(path.join(NAMES[0]), bytes(board)).expect("written");
        (path, bytes(board))
    };
    let folders: Vec<(PathBuf, Vec<u8>)> = boards.iter().enumerate().map(folder).collect();
    let below = check(&folders);
    let numbers: std::collections::BTreeSet<u32> =
        folders.iter().filter_map(|(_, board)| plan_of(board).err()).map(|(number, _)| number).collect();
    assert_eq!(numbers, [1, 3, 4, 5, 6, 18].into());
    // What the refusal is about in general is said only where the words show no more.
    assert!(below.iter().all(|text| !text.contains(" is refused: ")), "{below:?}");
    assert!(below.iter().all(|text| !text.contains("verdicts") && !text.contains("both files")), "{below:?}");
}

#[test]
fn with_json() {
    let temp = Temp::new("json");
    let missing = temp.join("missing");
    let folders = [root().join("samples/election"), root().join("samples/truncated"), missing.clone()];
    let ran = tirfolma(words_of(&["plan", "--json"], &folders));
    assert_eq!((ran.status, ran.errors().lines().count()), (2, 1));
    let [planned, refused, failed, last] = &objects(ran.text())[..] else { panic!("{}", ran.text()) };
    let [right, wrong] = ["election", "truncated"].map(|name| plan_of(&sample(name)[0]));
    let numbers = ["items", "index_words", "blocks"];
    assert_eq!((planned.text("answer"), numbers.map(|key| planned.number(key))), ("planned", right.expect("planned")));
    let (number, passed) = wrong.expect_err("truncated");
    assert_eq!(refused.text("answer"), "refused");
    assert_eq!([refused.number("number"), refused.number("passed")], [u64::from(number), passed]);
    let explained = &objects(tirfolma(words_of(&["audit", "--explain", "--json"], [&folders[1]])).text())[0];
    assert_eq!(refused.text("explanation"), explained.text("explanation"));
    assert_eq!((failed.text("answer"), failed.text("folder")), ("not planned", missing.to_str().expect("text")));
    assert!(ran.errors().ends_with(&format!("{}\n", failed.text("error"))), "{}", ran.errors());
    assert_eq!(numbers.map(|key| last.number(key)), right.expect("planned"));
    assert_eq!(["boards", "planned", "refused", "not_planned"].map(|key| last.number(key)), [3, 1, 1, 1]);
}

// ---- files and folders ----

/// A line of its own for a folder, and the exit status.
fn one(folder: &Path) -> (String, i32) {
    let ran = tirfolma(words_of(&["plan"], [folder]));
    let (path, answer) = parted(ran.lines()[0]);
    assert_eq!(path, folder);
    let said = ran.errors().lines().count();
    assert_eq!(said, usize::from(answer == "not planned"), "{}", ran.errors());
    (answer.to_string(), ran.status)
}

/// What the other two files are has no part in it.
#[test]
fn the_board_alone_is_read() {
    let temp = Temp::new("alone");
    let whole = sample("election");
    let right = (answer_of(&plan_of(&whole[0])), 0);
    for (at, put) in [None, Some(vec![]), Some(vec![1]), Some(vec![255; 4 * 5000])].into_iter().enumerate() {
        for name in &NAMES[1..] {
            let folder = temp.board(format!("{at}-{name}"), &whole);
            match &put {
                None => fs::remove_file(folder.join(name)).expect("removed"),
                Some(bytes) => fs::write(folder.join(name), bytes).expect("written"),
            }
            assert_eq!(one(&folder), right, "{at} {name}");
        }
    }
    let lone = temp.join("lone");
    fs::create_dir(&lone).expect("made");
    fs::write(lone.join(NAMES[0]), &whole[0]).expect("written");
    assert_eq!(one(&lone), right);
    // With folders in it, it is the board, too.
    temp.board("lone/inner", &sample("truncated"));
    assert_eq!(one(&lone), right);
}

/// The answer of a file that is no whole words, or too long, is the audit's.
#[test]
fn sizes() {
    let temp = Temp::new("sizes");
    for (size, right) in [
        (0, "refused 3 at 0"),
        (1, "refused 4 at 0"),
        (4 * MAX_WORDS + 1, "refused 4 at 0"),
        (4 * MAX_WORDS + 3, "refused 4 at 0"),
        (4 * MAX_WORDS + 4, "refused 1 at 0"),
        (1 << 32, "refused 1 at 0"),
        ((1 << 32) + 2, "refused 4 at 0"),
    ] {
        let folder = temp.board(size.to_string(), &[vec![], vec![], vec![]]);
        let file = fs::File::options().write(true).open(folder.join(NAMES[0])).expect("opened");
        file.set_len(size as u64).expect("as long");
        assert_eq!(one(&folder), (right.to_string(), 1), "{size}");
        let audited = tirfolma(words_of(&["audit", "--explain"], [&folder]));
        let planned = tirfolma(words_of(&["plan"], [&folder]));
        assert_eq!(audited.lines()[..2], planned.lines()[..2], "{size}");
    }
    let mut odd = sample("election");
    odd[0].push(0);
    assert_eq!(one(&temp.board("odd", &odd)), ("refused 4 at 0".to_string(), 1));
}

#[test]
fn boards_that_cannot_be_read() {
    let temp = Temp::new("unread");
    let folder = |name: &str| {
        let folder = temp.board(name, &sample("election"));
        fs::remove_file(folder.join(NAMES[0])).expect("removed");
        folder
    };
    let (none, folded, dangling, device) = (folder("none"), folder("folder"), folder("dangling"), folder("device"));
    fs::create_dir(folded.join(NAMES[0])).expect("made");
    symlink("nowhere", dangling.join(NAMES[0])).expect("linked");
    symlink("/dev/zero", device.join(NAMES[0])).expect("linked");
    let empty = temp.join("empty");
    fs::create_dir(&empty).expect("made");
    let lost = temp.board("outer/lost/inner", &sample("election"));
    let all = [&none, &folded, &dangling, &device, &empty, &temp.join("missing")];
    for folder in all {
        assert_eq!(one(folder), ("not planned".to_string(), 2), "{folder:?}");
    }
    // A folder in a DIR is a board: one that has lost its files is not taken for the folders in it.
    let ran = tirfolma(words_of(&["plan"], [temp.join("outer")]));
    assert_eq!((parted(ran.lines()[0]).1, ran.status), ("not planned", 2));
    assert_eq!(one(&lost).1, 0);
    // The others of the same call are planned, in order, and the message names the file.
    let good = root().join("samples/election");
    let ran = tirfolma(words_of(&["plan"], [&good, &none, &good]));
    let answers: Vec<&str> = ran.lines()[..3].iter().map(|line| parted(line).1).collect();
    let right = answer_of(&plan_of(&sample("election")[0]));
    assert_eq!(answers, [right.as_str(), "not planned", right.as_str()]);
    assert!(ran.errors().contains(&none.join(NAMES[0]).display().to_string()), "{}", ran.errors());
    assert!(ran.lines()[3].starts_with("3 boards: 2 planned, 0 refused, 1 not planned; "), "{}", ran.text());
}
