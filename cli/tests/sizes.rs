//! Files of all sizes: odd ones, empty ones, the limits to the word, and files so long that reading them whole would not fit in memory.

mod common;

use common::*;
use reference::checks::long_shape;
use reference::format::{Curve, MAX_WORDS};
use reference::program::PROGRAM_WORDS;
use reference::random::Random;
use reference::sound::make;
use std::fs;
use std::path::{Path, PathBuf};

/// Writes each as a folder and audits all in one call: the answers must be those that are expected. Within the limits of the auditing
/// program they are held to what it prints, too.
fn check(name: &str, cases: &[(String, Three)]) -> Vec<String> {
    let temp = Temp::new(name);
    let folders: Vec<PathBuf> = (0..cases.len()).map(|at| temp.board(format!("{at:04}"), &cases[at].1)).collect();
    let ran = tirfolma(words_of(&["audit"], &folders));
    assert_eq!(ran.errors(), "");
    let lines = ran.lines();
    assert_eq!(lines.len(), cases.len());
    let mut answers = Vec::new();
    for ((folder, (what, files)), line) in folders.iter().zip(cases).zip(lines) {
        let answer = expected(files);
        assert_eq!(parted(line), (folder.clone(), answer.lines().next().expect("a line")), "{what}");
        if files[0].len() <= 4 * PROGRAM_WORDS {
            assert_eq!(auditor(folder), answer, "the auditor, {what}");
        }
        answers.push(answer.lines().next().expect("a line").to_string());
    }
    answers
}

#[test]
fn a_few_bytes_of_each_file() {
    let whole = sample("election");
    let mut cases = Vec::new();
    for at in 0..3 {
        for size in 0..10 {
            let mut files = whole.clone();
            files[at].truncate(size);
            cases.push((format!("{size} bytes of {}", NAMES[at]), files));
        }
        for more in 1..10 {
            let mut files = whole.clone();
            files[at].resize(whole[at].len() + more, 0);
            cases.push((format!("{more} bytes more of {}", NAMES[at]), files));
        }
        for less in 1..10 {
            let mut files = whole.clone();
            files[at].truncate(whole[at].len() - less);
            cases.push((format!("{less} bytes less of {}", NAMES[at]), files));
        }
    }
    let answers = check("few", &cases);
    for ((what, files), answer) in cases.iter().zip(&answers) {
        let odd = files.iter().any(|file| file.len() % 4 != 0);
        assert!(!odd || answer == "refused 4 at 0", "{what}: {answer}");
        assert!(answer.starts_with("refused"), "{what}: {answer}");
    }
    assert_eq!(answers[0], "refused 3 at 0", "no board");
}

/// What is refused for its contents with each number that is given before or at the first item, and too long a board: with one odd
/// file more the answer is 4 at 0.
#[test]
fn an_odd_size_comes_before_all_else() {
    let whole = sample("election");
    let with = |at: usize, bytes: Vec<u8>| {
        let mut files = whole.clone();
        files[at] = bytes;
        files
    };
    let mut too_long = whole[0].clone();
    too_long.resize(4 * (MAX_WORDS + 1), 0);
    let bases = [
        ("refused 1 at 0", with(0, too_long)),
        ("refused 20 at 0", with(2, vec![0; 4])),
        ("refused 3 at 0", with(0, Vec::new())),
        ("refused 5 at 0", with(0, vec![0; 4])),
        ("refused 14 at 0", with(1, Vec::new())),
        ("accepted 48 42 3 17", whole.clone()),
    ];
    let mut cases: Vec<(String, Three)> =
        bases.iter().map(|(answer, files)| (answer.to_string(), files.clone())).collect();
    for (answer, files) in &bases {
        for at in 0..3 {
            for more in 1..4 {
                let mut files = files.clone();
                let size = files[at].len() + more;
                files[at].resize(size, 0);
                cases.push((format!("{answer}, {more} bytes more of {}", NAMES[at]), files));
            }
        }
    }
    let answers = check("odd", &cases);
    for (at, ((what, _), answer)) in cases.iter().zip(&answers).enumerate() {
        assert_eq!(answer, if at < bases.len() { bases[at].0 } else { "refused 4 at 0" }, "{what}");
    }
}

/// Empty files are there, and so are audited: no board is 3, but a bad roll comes first.
#[test]
fn empty_files() {
    let whole = sample("election");
    let mut cases = Vec::new();
    for set in 0..8 {
        let files = std::array::from_fn(|at| if set >> at & 1 == 1 { Vec::new() } else { whole[at].clone() });
        cases.push((format!("empty files {set:03b}"), files));
    }
    cases.push(("a bad roll".to_string(), [Vec::new(), Vec::new(), vec![0; 4]]));
    cases.push(("a roll that does not rise".to_string(), [Vec::new(), Vec::new(), vec![0; 16]]));
    let answers = check("empty", &cases);
    assert_eq!(answers[0], "accepted 48 42 3 17");
    assert_eq!(answers[7], "refused 3 at 0", "all three are empty");
    assert_eq!(answers[1], "refused 3 at 0", "the board is empty");
    assert_eq!(answers[8..], ["refused 20 at 0", "refused 20 at 0"]);
}

/// More verdicts than there are items are left over, however many; a roll has at most 4,096 words.
#[test]
fn long_verdicts_and_rolls() {
    let whole = sample("election");
    let mut cases = Vec::new();
    for length in [433, 3_429, 3_430, 3_431, 16_385, 18_432, 18_433, 262_144, 262_145, 262_146, 1_000_000] {
        let mut files = whole.clone();
        files[1].resize(4 * length, 0);
        cases.push((format!("refused 18 at 48 with {length} verdict words"), files));
    }
    for length in [4_098, 5_000, 16_386, 262_144, 262_146, 1_000_000] {
        let mut files = whole.clone();
        files[2] = (0..length as u32).flat_map(|word| (word + 1_000_000).to_be_bytes()).collect();
        cases.push((format!("refused 20 at 0 with {length} roll words"), files));
    }
    let roll = |pairs: u32| (0..pairs).flat_map(|voter| [voter.to_be_bytes(), 1u32.to_be_bytes()]).flatten().collect();
    let genesis = sample("genesis-alone");
    cases
        .push(("accepted 1 1 0 0 with 2,048 pairs".to_string(), [genesis[0].clone(), genesis[1].clone(), roll(2_048)]));
    cases.push(("refused 20 at 0 with 2,049 pairs".to_string(), [genesis[0].clone(), genesis[1].clone(), roll(2_049)]));
    let answers = check("long", &cases);
    for ((what, _), answer) in cases.iter().zip(&answers) {
        assert!(what.starts_with(&format!("{answer} with ")), "{what}: {answer}");
    }
}

/// A sound board of as many words as there may be, and what becomes of it with one more.
#[test]
fn the_library_s_limit_to_the_word() {
    let random = &mut Random::new(262_144);
    let shape = long_shape(1, Curve::Secp256r1, random);
    let full = files(&make(random, shape).plan.lay());
    assert_eq!(full[0].len(), 4 * MAX_WORDS);
    let longer = |words: usize| {
        let mut files = full.clone();
        files[0].resize(4 * (MAX_WORDS + words), 0);
        files
    };
    let mut bad_roll = longer(1);
    bad_roll[2] = vec![0; 4];
    let mut shorter = full.clone();
    shorter[0].truncate(4 * (MAX_WORDS - 1));
    let (mut verdicts, mut roll) = (full.clone(), full.clone());
    verdicts[1].resize(4 * 300_000, 0);
    roll[2].resize(4 * 300_000, 0);
    let cases = [
        ("as long as it may be", full.clone()),
        ("a word too many", longer(1)),
        ("two words too many", longer(2)),
        ("a chunk too many", longer(32_768)),
        ("a word too many, and a bad roll", bad_roll),
        ("a word too few", shorter),
        ("many verdicts", verdicts),
        ("many pairs", roll),
    ];
    let answers = check("limit", &cases.map(|(what, files)| (what.to_string(), files)));
    assert!(answers[0].starts_with("accepted 2048 "), "{}", answers[0]);
    assert_eq!(answers[1..5], ["refused 1 at 0"; 4]);
    assert_eq!(answers[5..], ["refused 4 at 2048", "refused 18 at 2048", "refused 20 at 0"]);
}

/// Makes a file longer, without writing: it has a hole.
fn stretch(path: &Path, bytes: u64) {
    fs::OpenOptions::new().write(true).open(path).and_then(|file| file.set_len(bytes)).expect("a file can be longer");
}

/// Files of a GiB, with the memory that the program may have so bounded that it can't hold one of them.
#[test]
fn files_of_a_gib_take_little_memory() {
    const GIB: u64 = 1 << 30;
    let temp = Temp::new("gib");
    let whole = sample("election");
    let cases: [(&str, [u64; 3]); 7] = [
        ("refused 1 at 0", [GIB, 0, 0]),
        ("refused 18 at 48", [0, GIB, 0]),
        ("refused 20 at 0", [0, 0, GIB]),
        ("refused 1 at 0", [GIB, GIB, GIB]),
        ("refused 4 at 0", [GIB + 1, 0, 0]),
        ("refused 4 at 0", [0, GIB + 2, 0]),
        ("refused 4 at 0", [GIB, GIB, GIB + 3]),
    ];
    let mut folders = Vec::new();
    for (at, (_, sizes)) in cases.iter().enumerate() {
        let folder = temp.board(at.to_string(), &whole);
        for (name, size) in NAMES.iter().zip(sizes).filter(|(_, size)| **size > 0) {
            stretch(&folder.join(name), *size);
        }
        folders.push(folder);
    }
    let words = words_of(&[PROGRAM, "audit", "--jobs", "2"], &folders);
    let ran = run(shell("ulimit -v 300000 && exec \"$@\"", words));
    assert_eq!((ran.status, ran.errors()), (1, ""));
    let answers: Vec<String> = ran.lines().iter().map(|line| parted(line).1.to_string()).collect();
    assert_eq!(answers, cases.map(|(answer, _)| answer));
    // The same through the other commands, and the bound is one: a program that reads it all does not pass.
    for words in [
        words_of(&[PROGRAM, "compare"], [&folders[0], &folders[1]]),
        words_of(&[PROGRAM, "ancestry"], [folders[1].as_os_str(), "1".as_ref()]),
    ] {
        let ran = run(shell("ulimit -v 300000 && exec \"$@\"", &words));
        assert_eq!((ran.status, ran.errors()), (1, ""), "{words:?}");
        assert!(ran.text().contains("refused"), "{words:?}: {}", ran.text());
    }
    let reads = run(shell(
        "ulimit -v 300000 && x=$(tr '\\0' x <\"$1\") 2>/dev/null && echo \"${#x}\"",
        [folders[0].join(NAMES[0])],
    ));
    assert_ne!(reads.status, 0, "300,000 KiB are enough for a GiB");
}
