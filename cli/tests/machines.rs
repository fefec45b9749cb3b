//! Boards dealt to machines: the dealing held to a plain one on many sets of boards, what `tirfolma plan --machines` prints and writes held
//! to it, and `tirfolma audit --from`, which takes what it writes.

mod common;
#[path = "common/planned.rs"]
mod planned;
#[path = "common/widths.rs"]
mod widths;

use common::json::objects;
use common::*;
use planned::{answer_of, plan_of, Plan};
use reference::random::Random;
use std::collections::BTreeMap;
use std::fs::{self, Permissions};
use std::os::unix::fs::{symlink, PermissionsExt};
use std::path::{Path, PathBuf};
use tirfolma::deal::deal;

// ---- dealing ----

/// What the machines have, dealt plainly: their boards, by place, and the blocks of these.
fn plainly(boards: &[Option<u64>], machines: usize) -> Vec<(Vec<usize>, u64)> {
    let mut shares = vec![(Vec::new(), 0, 0); machines];
    let mut left: Vec<usize> = (0..boards.len()).collect();
    while !left.is_empty() {
        // The first of the largest; then those that have no plan.
        let most = left.iter().map(|&board| boards[board]).max().expect("one is left");
        let board = left.remove(left.iter().position(|&board| boards[board] == most).expect("there is one"));
        let least = shares.iter().map(|share| (share.2, share.1)).min().expect("a machine");
        let share = shares.iter_mut().find(|share| (share.2, share.1) == least).expect("there is one");
        share.0.push(board);
        match most {
            Some(blocks) => share.1 += blocks,
            None => share.2 += 1,
        }
    }
    shares.into_iter().map(|(boards, blocks, _)| (boards, blocks)).collect()
}

/// Each board once, and no machine with more than an even share and the largest board; those without a plan evenly.
fn check_fair(boards: &[Option<u64>], shares: &[(Vec<usize>, u64)]) {
    let mut all: Vec<usize> = shares.iter().flat_map(|(boards, _)| boards.clone()).collect();
    all.sort();
    assert_eq!(all, (0..boards.len()).collect::<Vec<_>>());
    let (sum, most) = (boards.iter().flatten().sum::<u64>(), boards.iter().flatten().max().copied().unwrap_or(0));
    let machines = shares.len() as u64;
    let counts: Vec<usize> =
        shares.iter().map(|(dealt, _)| dealt.iter().filter(|&&board| boards[board].is_none()).count()).collect();
    assert!(counts.iter().max().expect("a machine") - counts.iter().min().expect("a machine") <= 1, "{counts:?}");
    for (dealt, blocks) in shares {
        assert_eq!(dealt.iter().filter_map(|&board| boards[board]).sum::<u64>(), *blocks);
        assert!(machines * (blocks - most.min(*blocks)) <= sum, "{blocks} of {sum}, with {most} at once");
    }
}

#[test]
fn dealt_as_plainly() {
    let random = &mut Random::new(71);
    for turn in 0..3_000u64 {
        let below = |random: &mut Random, most: u64| random.below(most as usize) as u64;
        let (count, machines) = (below(random, 40), 1 + below(random, 12) as usize);
        // Few sizes, so that many are equal; one that is larger than all others; sizes near the most that there is.
        let (sizes, base) =
            ([3, 100, 100_000][turn as usize % 3], [1, 1, u64::from(u32::MAX) - 100_000][turn as usize / 3 % 3]);
        let mut boards: Vec<Option<u64>> = (0..count)
            .map(|_| Some(base + below(random, sizes)).filter(|_| turn % 4 == 0 || below(random, 6) > 0))
            .collect();
        if turn % 5 == 0 {
            boards.push(Some(u64::from(u32::MAX)));
        }
        let given: Vec<Option<u32>> = boards.iter().map(|blocks| blocks.map(|blocks| blocks as u32)).collect();
        let shares: Vec<(Vec<usize>, u64)> =
            deal(&given, machines).into_iter().map(|share| (share.boards, share.blocks)).collect();
        assert_eq!(shares, plainly(&boards, machines), "{boards:?} to {machines}");
        check_fair(&boards, &shares);
    }
}

// ---- what is printed and written ----

/// Folders with boards of many sizes, some of them equal, refused and unreadable ones, and names with spaces and line ends.
fn day() -> (Temp, Vec<(PathBuf, Plan)>) {
    let temp = Temp::new("day");
    let samples =
        ["election", "county", "genesis-alone", "nation", "truncated", "wrong-key", "federation", "missing-cast"];
    let mut boards = Vec::new();
    for at in 0..40 {
        let name = ["plain", "a name", "two\nlines", "back\\slash", "-dash"][at % 5];
        let files = sample(samples[at * 7 % samples.len()]);
        boards.push((temp.board(format!("{at:02} {name}"), &files), plan_of(&files[0])));
    }
    (temp, boards)
}

/// The parts of what is printed for machines: for each its line, and the rest of the lines of its boards; then what stands below.
fn machines_of(text: &str) -> (Vec<(String, Vec<String>)>, Vec<String>) {
    let (mut machines, mut below): (Vec<(String, Vec<String>)>, Vec<String>) = (Vec::new(), Vec::new());
    for line in text.lines() {
        let number = machines.len();
        if line.starts_with(&format!("machine {}: ", number + 1)) {
            machines.push((line.to_string(), Vec::new()));
        } else if let Some(board) = line.strip_prefix(&format!("{number}\t")).filter(|_| below.is_empty()) {
            machines[number - 1].1.push(board.to_string());
        } else {
            below.push(line.to_string());
        }
    }
    (machines, below)
}

fn percent(blocks: u64, sum: u64) -> String {
    format!("{:.1} %", 100.0 * blocks as f64 / sum as f64)
}

#[test]
fn each_machine_with_its_boards() {
    let (temp, boards) = day();
    let blocks: Vec<Option<u64>> = boards.iter().map(|(_, plan)| plan.ok().map(|plan| plan[2])).collect();
    let sum: u64 = blocks.iter().flatten().sum();
    let plain = tirfolma(words_of(&["plan"], [temp.path()]));
    let (refused, sums): (Vec<&str>, &str) = {
        let mut lines = plain.lines();
        let sums = lines.pop().expect("a sum");
        (lines.into_iter().filter(|line| !line.contains("\tplanned ")).collect(), sums)
    };
    for count in [1, 2, 3, 7, 40, 100] {
        let ran = tirfolma(words_of(&["plan", "--machines", &count.to_string()], [temp.path()]));
        assert_eq!((ran.errors(), ran.status), ("", 1));
        let (machines, below) = machines_of(ran.text());
        let right = plainly(&blocks, count);
        check_fair(&blocks, &right);
        let dealt: Vec<(String, Vec<String>)> = (1..)
            .zip(&right)
            .map(|(machine, (dealt, most)): (usize, _)| {
                let part = percent(*most, sum);
                let line = format!("machine {machine}: {} boards, {most} blocks, {part}", dealt.len());
                let board = |&at: &usize| (boards[at].0.clone(), answer_of(&boards[at].1));
                (line, dealt.iter().map(board).map(|(path, answer)| printed(&path, &answer)).collect())
            })
            .collect();
        assert_eq!(machines, dealt);
        // Below the machines, the boards that have no plan, as without machines; the sum, and the heaviest.
        let most = right.iter().map(|(_, blocks)| *blocks).max().expect("a machine");
        let machine = 1 + right.iter().position(|(_, blocks)| *blocks == most).expect("there is one");
        let heaviest = format!("heaviest: machine {machine}, {most} blocks, {}", percent(most, sum));
        let right = [vec![below[0].as_str()], refused.clone(), vec![sums, &heaviest]].concat();
        assert!(below[0].contains("0 blocks"), "{}", below[0]);
        assert_eq!(below, right);
    }
}

/// As the command prints it: a name of these tests has nothing but line ends and backslashes that need care.
fn printed(path: &Path, answer: &str) -> String {
    let name = path.to_str().expect("text").replace('\\', "\\\\").replace('\n', "\\n");
    format!("{name}\t{answer}")
}

#[test]
fn with_json() {
    let (temp, boards) = day();
    fs::remove_file(boards[0].0.join(NAMES[0])).expect("removed");
    let ran = tirfolma(words_of(&["plan", "--machines", "3"], [temp.path()]));
    let (machines, below) = machines_of(ran.text());
    let ran = tirfolma(words_of(&["plan", "--machines", "3", "--json"], [temp.path()]));
    let mut found = objects(ran.text());
    let last = found.pop().expect("a sum");
    let mut dealt: BTreeMap<u64, Vec<String>> = BTreeMap::new();
    for object in &found {
        let names = dealt.entry(object.number("machine")).or_default();
        match object.find("folder") {
            Some(_) => names.push(object.text("folder").to_string()),
            None => {
                let line = &machines[object.number("machine") as usize - 1].0;
                let start = format!("{} boards, {} blocks, ", object.number("boards"), object.number("blocks"));
                assert!(line.contains(&start) && names.is_empty(), "{line}");
            }
        }
    }
    assert_eq!((found.len(), dealt.len(), ran.status), (boards.len() + 3, 3, 2));
    for ((_, lines), names) in machines.iter().zip(dealt.values()) {
        let paths: Vec<PathBuf> = lines.iter().map(|line| parted(line).0).collect();
        assert_eq!(paths, names.iter().map(PathBuf::from).collect::<Vec<_>>());
    }
    let heaviest = format!("machine {}, {} blocks", last.number("heaviest"), last.number("heaviest_blocks"));
    assert!(below.last().expect("a line").contains(&heaviest));
    assert_eq!(last.number("boards"), boards.len() as u64);
}

/// What each machine audits together is what one audit of all says: no board is left out, and none is there twice.
#[test]
fn the_lists_are_audited() {
    let (temp, boards) = day();
    // Without a file, and a folder of folders: they are dealt, too, and their audit says that there was none.
    fs::remove_file(boards[0].0.join(NAMES[0])).expect("removed");
    fs::create_dir_all(temp.join("zz/inner")).expect("made");
    write(&temp.join("zz/inner"), &sample("election"));
    let lists = Temp::new("lists");
    let mut right: Vec<String> =
        tirfolma(words_of(&["audit"], [temp.path()])).lines().into_iter().map(String::from).collect();
    right.sort();
    for count in [1, 3, 41] {
        let out = lists.join(count.to_string());
        let printed = tirfolma(words_of(&["plan", "--machines", &count.to_string()], [temp.path()]));
        let ran = tirfolma(words_of(&["plan", "--machines", &count.to_string(), "--out"], [&out, temp.path()]));
        assert_eq!((ran.text(), ran.status), (printed.text(), 2), "the same is printed");
        let (machines, _) = machines_of(ran.text());
        let mut lines = Vec::new();
        for (machine, (_, boards)) in (1..).zip(&machines) {
            let list = out.join(format!("machine-{machine}.list"));
            let names: String =
                boards.iter().map(|line| line.split('\t').next().expect("a name").to_string() + "\n").collect();
            assert_eq!(fs::read_to_string(&list).expect("a list"), names);
            let ran = tirfolma(words_of(&["audit", "--from"], [&list]));
            lines.extend(ran.lines().into_iter().map(String::from));
            let status = ["\tnot audited", "\trefused "].map(|answer| ran.text().contains(answer));
            assert_eq!(ran.status, if status[0] { 2 } else { i32::from(status[1]) });
        }
        assert_eq!(fs::read_dir(&out).expect("a folder").count(), count);
        lines.sort();
        assert_eq!(lines, right);
    }
}

/// A list whose names have nothing but plain text goes to xargs, too.
#[test]
fn lists_for_other_tools() {
    let temp = Temp::new("tools");
    for name in ["a b", "c", "d  e"] {
        temp.board(format!("all/{name}"), &sample("genesis-alone"));
    }
    let script = "cd \"$2\" && \"$1\" plan --machines 2 --out lists all >lines && xargs -d '\\n' \"$1\" audit -- <lists/machine-1.list";
    let ran = run(shell(script, [Path::new(PROGRAM), temp.path()]));
    assert_eq!((ran.text(), ran.errors()), ("all/a b\taccepted 1 1 0 0\nall/d  e\taccepted 1 1 0 0\n", ""));
}

#[test]
fn machines_without_boards() {
    let temp = Temp::new("few");
    let out = temp.join("out");
    let good = root().join("samples/genesis-alone");
    let ran = tirfolma(words_of(&["plan", "--machines", "10000"], [&good]));
    assert_eq!((ran.status, ran.errors(), ran.lines().len()), (0, "", 10_000 + 1 + 2));
    assert_eq!(ran.lines()[10_000], "machine 10000: 0 boards, 0 blocks, 0.0 %");
    assert_eq!(tirfolma(words_of(&["plan", "--machines", "12", "--out"], [&out, &good])).status, 0);
    assert_eq!(fs::read(out.join("machine-12.list")).expect("a list"), b"");
    assert_eq!(fs::read_dir(&out).expect("a folder").count(), 12);
    let ran = tirfolma(words_of(&["audit", "--from"], [out.join("machine-2.list")]));
    ran.assert_failed("no folder");
    assert!(ran.errors().ends_with("machine-2.list: names no folder\n"), "{}", ran.errors());
}

#[test]
fn lists_that_cannot_be_written() {
    let temp = Temp::new("closed");
    fs::set_permissions(temp.path(), Permissions::from_mode(0o755)).expect("opened");
    let good = temp.board("good", &sample("election"));
    fs::create_dir(temp.join("full")).expect("made");
    fs::write(temp.join("full/machine-1.list"), "kept").expect("written");
    fs::write(temp.join("file"), "kept").expect("written");
    symlink("nowhere", temp.join("dangling")).expect("linked");
    let call = |out: &str| words_of(&["plan", "--machines", "2", "--out"], [&temp.join(out), &good]);
    for out in ["full", "file", "dangling", "missing/out", "good"] {
        tirfolma(call(out)).assert_failed(out);
    }
    assert_eq!(fs::read(temp.join("full/machine-1.list")).expect("a file"), b"kept");
    // Into a folder that is closed, and with no room for a byte: nothing stays.
    let closed = temp.join("closed");
    fs::create_dir(&closed).expect("made");
    fs::set_permissions(&closed, Permissions::from_mode(0o555)).expect("closed");
    as_other(":", call("closed/new")).assert_failed("a closed folder");
    assert_eq!(fs::read_dir(&closed).expect("a folder").count(), 0);
    let before = fs::read_dir(temp.path()).expect("a folder").count();
    let mut limited = shell("ulimit -f 0; trap '' XFSZ; exec \"$@\"", [vec![PROGRAM.into()], call("new")].concat());
    limited.current_dir(temp.path());
    run(limited).assert_failed("no room");
    assert_eq!(fs::read_dir(temp.path()).expect("a folder").count(), before);
    // One that is empty is used.
    fs::create_dir(temp.join("empty")).expect("made");
    assert_eq!(tirfolma(call("empty")).status, 0);
    assert_eq!(fs::read_dir(temp.join("empty")).expect("a folder").count(), 2);
}

// ---- audit --from ----

/// A list as it was not written by plan: what may have been lost or changed is an error, and nothing is audited.
#[test]
fn lists_that_are_not_whole() {
    let temp = Temp::new("broken");
    let good = root().join("samples/election").display().to_string();
    let list = temp.join("list");
    for (text, why) in [
        (String::new(), "names no folder"),
        (good.clone(), "its last line has no end"),
        (format!("{good}\n{good}"), "its last line has no end"),
        ("\n".to_string(), "line 1 is no folder's name, as audit prints names"),
        (format!("{good}\n\n"), "line 2 is no folder's name, as audit prints names"),
        (format!("{good}\n{good}\\\n"), "line 2 is no folder's name, as audit prints names"),
        (format!("{good}\\a\n"), "line 1 is no folder's name, as audit prints names"),
        (format!("{good}\\x4\n"), "line 1 is no folder's name, as audit prints names"),
        (format!("{good}\\xg0\n"), "line 1 is no folder's name, as audit prints names"),
    ] {
        fs::write(&list, &text).expect("written");
        let ran = tirfolma(words_of(&["audit", "--from"], [&list]));
        ran.assert_failed(&text);
        assert_eq!(ran.errors(), format!("tirfolma: {}: {why}\n", list.display()));
    }
    for path in [temp.join("none"), temp.path().to_path_buf(), "/dev/zero".into()] {
        tirfolma(words_of(&["audit", "--from"], [&path])).assert_failed("no file");
    }
    // A pipe is not waited for, nor is one read, as that of standard input.
    let script =
        "mkfifo \"$2\"; timeout 9 \"$1\" audit --from \"$2\"; echo \"$3\" | \"$1\" audit --from /dev/stdin; exit $?";
    let ran = run(shell(script, [PROGRAM.as_ref(), temp.join("pipe").as_os_str(), good.as_ref()]));
    assert_eq!(
        (ran.text(), ran.status, ran.errors().matches(": not a regular file\n").count()),
        ("", 2, 2),
        "{}",
        ran.errors()
    );
}

/// With the other options as for folders that are given; in the order of the list, a folder that is there twice twice.
#[test]
fn lists_with_options() {
    let temp = Temp::new("options");
    let names = ["wrong-key", "election", "election", "truncated", "election"];
    let folders: Vec<PathBuf> = names.iter().map(|name| root().join("samples").join(name)).collect();
    let list = temp.join("list");
    let text: String = folders.iter().map(|folder| format!("{}\n", folder.display())).collect();
    fs::write(&list, text).expect("written");
    for options in
        [&[][..], &["--rows", "--summary"], &["--explain", "--jobs", "1"], &["--json", "--rows", "--explain"]]
    {
        let given = tirfolma(words_of(&[&["audit"], options].concat(), &folders));
        let listed = tirfolma(words_of(&[&["audit"], options, &["--from"]].concat(), [&list]));
        assert_eq!((listed.text(), listed.errors(), listed.status), (given.text(), "", 1), "{options:?}");
    }
    // A DIR beside it would be forgotten, or not: it is an error.
    tirfolma(words_of(&["audit", "--from"], [&list, &folders[0]])).assert_failed("both");
}
