//! What is written where: the options of audit, JSON with its documented keys, standard output that is closed or full, and the progress
//! line, which is for terminals alone.

mod common;

use common::json::{objects, Json};
use common::*;
use reference::checks::{case, Group, Makers};
use reference::format::*;
use reference::program::{bytes, words};
use reference::random::Random;
use reference::sound::{make, make_with, Shape, Traits};
use std::collections::BTreeSet;
use std::ffi::OsString;
use std::fs;
use std::io::Write;
use std::os::unix::fs::{symlink, PermissionsExt};
use std::path::{Path, PathBuf};
use std::process::{Command, Stdio};
use std::time::Instant;
use tirfolma::help::COMMANDS;

/// Accepted boards with and without rows, refused ones by several numbers, folders that can't be read.
fn mixed() -> (Temp, Vec<(PathBuf, Three, String)>) {
    let temp = Temp::new("mixed");
    let mut found = Vec::new();
    let makers = Makers::default();
    let mut add = |name: &str, files: Three| {
        let answer = expected(&files);
        found.push((temp.board(name, &files), files, answer));
    };
    for (at, name) in ["election", "genesis-alone", "tampered-ballot", "truncated", "roll-not-rising", "not-on-roll"]
        .iter()
        .enumerate()
    {
        add(&format!("{at}"), sample(name));
    }
    // Weights past 32 bits, 408 rows.
    let full = case(&makers, Group::Full, 0);
    add("6", [bytes(&full.words), bytes(&full.verdicts), bytes(&full.roll)]);
    add("7", Default::default());
    for (name, file) in [("8", 0), ("9", 2)] {
        add(name, sample("election"));
        fs::remove_file(temp.join(name).join(NAMES[file])).expect("removed");
    }
    for entry in &mut found[8..] {
        entry.2 = "not audited\n".to_string();
    }
    (temp, found)
}

#[test]
fn rows() {
    let (temp, boards) = mixed();
    let ran = tirfolma(words_of(&["audit", "--rows"], [temp.path()]));
    let right: String = boards.iter().map(|(path, _, answer)| format!("{}\t{answer}", path.display())).collect();
    assert_eq!((ran.text(), ran.status), (right.as_str(), 2));
    assert!(right.lines().count() > 400, "a full board has rows");
    let ran = tirfolma(words_of(&["audit"], [temp.path()]));
    let first = |answer: &str| answer.lines().next().expect("a line").to_string();
    let right: String =
        boards.iter().map(|(path, _, answer)| format!("{}\t{}\n", path.display(), first(answer))).collect();
    assert_eq!(ran.text(), right);
}

/// The numbers in a line.
fn numbers(line: &str) -> Vec<usize> {
    line.split(|c: char| !c.is_ascii_digit()).filter_map(|part| part.parse().ok()).collect()
}

#[test]
fn summary() {
    let (temp, boards) = mixed();
    let plain = tirfolma(words_of(&["audit"], [temp.path()]));
    let ran = tirfolma(words_of(&["audit", "--summary"], [temp.path()]));
    let last = ran.text().strip_prefix(plain.text()).expect("the same lines, and more");
    assert_eq!(last.lines().count(), 1);
    let count = |start: &str| boards.iter().filter(|(_, _, answer)| answer.starts_with(start)).count();
    let counts = [count(""), count("accepted"), count("refused"), count("not audited")];
    assert_eq!(counts, [10, 3, 5, 2]);
    assert_eq!(numbers(last), counts, "{last}");
    assert!(last.contains("not audited"), "{last}");
    assert_eq!(ran.status, 2);
    // Where all were audited.
    let ran = tirfolma(words_of(&["audit", "--summary"], [root().join("samples")]));
    let lines = ran.lines();
    let (last, samples) = lines.split_last().expect("a summary");
    let count = |answer: &str| samples.iter().filter(|line| line.contains(answer)).count();
    assert_eq!(numbers(last)[..3], [samples.len(), count("\taccepted "), count("\trefused ")], "{lines:?}");
    assert_eq!((samples.len() >= 11, ran.status), (true, 1));
    let json = tirfolma(words_of(&["audit", "--summary", "--json"], [temp.path()]));
    let found = objects(json.text());
    assert_eq!((found.len(), json.status), (11, 2));
    let keys = ["boards", "accepted", "refused", "not_audited"];
    assert_eq!(keys.map(|key| found[10].number(key) as usize), counts);
    assert_eq!(found[10].keys().len(), 4);
}

/// Explanations change no answer, and each refused board has one.
#[test]
fn explain() {
    let (temp, _) = mixed();
    let plain = tirfolma(words_of(&["audit"], [temp.path()]));
    let ran = tirfolma(words_of(&["audit", "--explain"], [temp.path()]));
    assert_eq!((ran.status, ran.errors()), (plain.status, plain.errors()));
    let (answers, words): (Vec<&str>, Vec<&str>) = ran.lines().into_iter().partition(|line| line.contains('\t'));
    assert_eq!(answers, plain.lines());
    let lines = ran.lines();
    for (at, line) in lines.iter().enumerate().filter(|(_, line)| line.contains('\t')) {
        let next = lines.get(at + 1).is_some_and(|next| next.starts_with(' '));
        assert_eq!(next, line.contains("\trefused "), "{line}");
    }
    assert!(words.len() >= 5, "{words:?}");
}

/// The address of the last main item, from the words.
fn end_address(board: &[u32]) -> String {
    let (mut place, mut end, curve) = (0, String::new(), Layout::of(board).curve);
    while kind(board[place]) != CLOSING {
        let next = place + count(board[place]) + curve.frame();
        if kind(board[place]) == MAIN {
            let address = &board[next - curve.widths().address..next];
            end = address.iter().map(|word| format!("{word:08x}")).collect();
        }
        place = next;
    }
    end
}

/// One object, held to the line and rows of the same board.
fn check_object(object: &Json, path: &Path, files: &Three, answer: &str) {
    assert_eq!(object.text("folder"), path.display().to_string());
    let mut lines = answer.lines();
    let first = lines.next().expect("a line");
    let keys: BTreeSet<&str> = object.keys().into_iter().collect();
    let said = match object.text("answer") {
        "accepted" => {
            assert_eq!(
                keys,
                ["folder", "answer", "items", "mains", "ballots", "weight", "curve", "end", "rows"].into()
            );
            let board = words(&files[0]);
            assert_eq!(object.text("curve"), Layout::of(&board).curve.name());
            assert_eq!(object.text("end"), end_address(&board));
            let rows: Vec<String> = object.list("rows").iter().map(row).collect();
            assert_eq!(rows, lines.collect::<Vec<_>>());
            let [a, b, c, d] = ["items", "mains", "ballots", "weight"].map(|key| object.number(key));
            format!("accepted {a} {b} {c} {d}")
        }
        "refused" => {
            assert_eq!(keys, ["folder", "answer", "number", "passed", "explanation"].into());
            assert!(!object.text("explanation").trim().is_empty());
            format!("refused {} at {}", object.number("number"), object.number("passed"))
        }
        answer => {
            assert_eq!(keys, ["folder", "answer", "error"].into());
            assert!(object.text("error").contains(&path.display().to_string()));
            answer.to_string()
        }
    };
    assert_eq!(said, first);
}

fn row(object: &Json) -> String {
    assert_eq!(object.keys(), ["ballot", "voter", "weight"]);
    format!("{} {} {}", object.number("ballot"), object.number("voter"), object.number("weight"))
}

/// Each key that was seen is documented, and each that is documented was seen.
fn check_documented(name: &str, seen: &BTreeSet<&str>) {
    let command = COMMANDS.iter().find(|command| command.name == name).expect("a command");
    let documented: BTreeSet<&str> = command.keys.iter().flat_map(|(names, _)| names.split(", ")).collect();
    assert_eq!(*seen, documented, "{name}");
}

#[test]
fn other_commands_have_the_documented_keys() {
    let sample = |name: &str| root().join("samples").join(name).display().to_string();
    let (good, bad) = (sample("election"), sample("wrong-key"));
    let keys = |words: &[&str]| -> Vec<String> {
        let ran = tirfolma([words, &["--json"]].concat());
        let found = objects(ran.text());
        assert_eq!(found.len(), 1, "{words:?}");
        found[0].keys().into_iter().map(String::from).collect()
    };
    // A collision can't be made; tests/stand_in.rs has one.
    let of_collision = ["kept_main", "later_main"].map(String::from);
    let temp = Temp::new("traits");
    let other_curve = Traits::Said(Layout { curve: Curve::Secp384r1, sets: Width::Narrow });
    let genesis = Shape { items: 1, words: None, long: 0, voters: 1, extraction: false };
    let other = make_with(&mut Random::new(4), genesis, other_curve).plan.lay();
    let other = temp.board("other", &files(&other)).display().to_string();
    let pairs = [[&good, &good], [&good, &bad], [&good, &other]];
    let compared = pairs.map(|[kept, later]| keys(&["compare", kept, later, "1"])).concat();
    let compared = [compared, of_collision.to_vec()].concat();
    let listed = [keys(&["ancestry", &good, "9"]), keys(&["ancestry", &good, "0"])].concat();
    // No more than the head of a genesis with a traits word, and that word.
    let mut traits = [0; 19];
    traits[0] = 0x1001_0012;
    let traits = temp.board("cut", &[bytes(&traits), vec![], vec![]]).display().to_string();
    let shown = [&good, &bad, &traits].map(|folder| keys(&["show", folder])).concat();
    let shown = [shown, vec!["folder_hex".to_string()]].concat();
    let file = |name: &str, bytes: usize| {
        fs::write(temp.join(name), vec![0; bytes]).expect("written");
        temp.join(name).display().to_string()
    };
    let (one, none) = (file("one", 4 * 24), file("none", 4));
    let answered = [keys(&["receipts", &good, &one]), keys(&["receipts", &good, &none])].concat();
    let noted = [keys(&["notes", &good, &file("note", 4 * 10)]), keys(&["notes", &good, &none])].concat();
    let out = temp.join("out").display().to_string();
    let cut = [keys(&["cut", &bad, "1", &out]), keys(&["cut", &good, "1", &out])].concat();
    for (name, seen) in [
        ("compare", compared),
        ("ancestry", listed),
        ("receipts", answered),
        ("notes", noted),
        ("cut", cut),
        ("show", shown),
    ] {
        check_documented(name, &seen.iter().map(String::as_str).collect());
    }
}

#[test]
fn json_has_the_documented_keys() {
    let (temp, boards) = mixed();
    let ran = tirfolma(words_of(&["audit", "--json", "--rows", "--explain", "--summary"], [temp.path()]));
    assert_eq!(ran.status, 2);
    assert_eq!(ran.errors().lines().count(), 2, "what can't be read is said on standard error as well");
    let found = objects(ran.text());
    assert_eq!(found.len(), boards.len() + 1);
    for (object, (path, files, answer)) in found.iter().zip(&boards) {
        check_object(object, path, files, answer);
    }
    let heavy = found
        .iter()
        .filter_map(|object| object.find("weight"))
        .any(|weight| matches!(weight, Json::Number(n) if *n > u64::from(u32::MAX)));
    assert!(heavy, "a weight of more than 32 bits");
    // Names of bytes that are no text aside.
    let seen: BTreeSet<&str> = found.iter().flat_map(Json::keys).chain(["folder_hex"]).collect();
    check_documented("audit", &seen);
    // Without the options their keys are not there.
    let ran = tirfolma(words_of(&["audit", "--json"], [temp.path()]));
    let found = objects(ran.text());
    assert_eq!(found.len(), boards.len());
    assert!(found.iter().all(|object| object.find("rows").is_none() && object.find("explanation").is_none()));
}

#[test]
fn a_plan_has_the_documented_keys() {
    let (temp, _) = mixed();
    let mut seen: BTreeSet<String> = ["folder_hex".to_string()].into();
    for options in [&["plan", "--json"][..], &["plan", "--json", "--machines", "3"]] {
        let ran = tirfolma(words_of(options, [temp.path()]));
        assert_eq!((ran.status, ran.errors().lines().count()), (2, 1), "{}", ran.errors());
        seen.extend(objects(ran.text()).iter().flat_map(Json::keys).map(String::from));
    }
    check_documented("plan", &seen.iter().map(String::as_str).collect());
}

/// A reader that goes away: an end without a word, and not as if all were well.
#[test]
fn output_that_is_closed_early() {
    let temp = Temp::new("closed");
    let board = temp.board("board", &sample("election"));
    let all = temp.join("all");
    fs::create_dir(&all).expect("made");
    (0..3_000).for_each(|at| symlink(&board, all.join(format!("{at:05}"))).expect("linked"));
    for options in [
        &["audit", "--rows"][..],
        &["audit", "--json", "--rows"],
        &["plan"],
        &["plan", "--json"],
        &["plan", "--machines", "7"],
    ] {
        let words = words_of(&[&[PROGRAM], options].concat(), [&all]);
        let ran = run(shell("set -o pipefail; \"$@\" | head -n 1", words));
        assert_eq!((ran.lines().len(), ran.errors()), (1, ""));
        assert_ne!(ran.status, 0);
    }
    let ran = run(shell("\"$@\" | true; exit ${PIPESTATUS[0]}", words_of(&[PROGRAM, "audit"], [&all])));
    assert_eq!((ran.errors(), ran.status), ("", 2));
}

/// Lines that could not be written are not lost without a word.
#[test]
fn output_that_is_for_reading_alone() {
    let ran = run(shell("exec \"$@\" 1</dev/null", words_of(&[PROGRAM, "audit"], [root().join("samples/election")])));
    assert_eq!(ran.status, 2, "{}", ran.errors());
    assert!(ran.errors().contains("standard output"), "{}", ran.errors());
}

/// An audit has the stack that it needs, whatever the environment says of threads.
#[test]
fn the_stack_does_not_depend_on_the_environment() {
    let words = words_of(&[PROGRAM, "audit"], [root().join("samples/election")]);
    let ran = run(shell("RUST_MIN_STACK=1 exec \"$@\"", words));
    assert_eq!((ran.status, ran.errors()), (0, ""));
}

#[test]
fn output_that_is_full() {
    let good = root().join("samples/election").display().to_string();
    let temp = Temp::new("full");
    let receipts = temp.join("receipts").display().to_string();
    fs::write(&receipts, [0; 4 * 24]).expect("written");
    let notes = temp.join("notes").display().to_string();
    fs::write(&notes, [0; 4 * 10]).expect("written");
    for words in [
        &["audit", &good][..],
        &["audit", "--json", "--summary", &good],
        &["plan", &good],
        &["plan", "--machines", "2", "--json", &good],
        &["compare", &good, &good],
        &["ancestry", &good, "9"],
        &["receipts", &good, &receipts],
        &["notes", &good, &notes],
        &["--help"],
        &["--version"],
        &["--man"],
        &["--completion"],
        &["audit", "--help"],
    ] {
        let all = words_of(&[PROGRAM], words);
        let ran = run(shell("\"$@\" >/dev/full", &all));
        assert_eq!(ran.status, 2, "{words:?}");
        ran.assert_message("a full device");
        let ran = run(shell("\"$@\" >/dev/full 2>&1", &all));
        assert_eq!(ran.status, 2, "{words:?}, no room for the message either");
    }
}

/// The files of a cut stay where only its answer can't be printed: on a full device, with no room for the message either, and where the
/// reader went away.
#[test]
fn a_cut_whose_answer_is_lost() {
    let temp = Temp::new("lost");
    let cut = |out: &str| words_of(&["cut"], [root().join("samples/election"), "16".into(), temp.join(out)]);
    let files = |out: &str| NAMES.map(|name| fs::read(temp.join(out).join(name)).expect("a file"));
    assert_eq!(tirfolma(cut("right")).status, 0);
    let full = "tirfolma: standard output: No space left on device\n";
    for (out, script, message) in [
        ("full", "exec \"$@\" >/dev/full", full),
        ("mute", "exec \"$@\" >/dev/full 2>&1", ""),
        // The pipe has a reader only until it is open for writing.
        ("closed", "mkfifo pipe; exec 3<>pipe 4>pipe 3<&-; exec \"$@\" >&4", ""),
    ] {
        let mut command = shell(script, [vec![PROGRAM.into()], cut(out)].concat());
        command.current_dir(temp.path());
        let ran = run(command);
        assert_eq!((ran.status, ran.text(), ran.errors()), (2, "", message), "{out}");
        assert!(files(out) == files("right"), "{out}: other files");
    }
}

/// What a terminal shows at the end: lines, after returns and erased parts.
fn shown(bytes: &[u8]) -> Vec<String> {
    let text = String::from_utf8_lossy(bytes).replace("\x1b[K", "\u{1}");
    let (mut lines, mut line, mut column) = (Vec::new(), Vec::new(), 0);
    for c in text.chars() {
        match c {
            '\r' => column = 0,
            '\u{1}' => line.truncate(column),
            '\n' => {
                lines.push(line.drain(..).collect());
                column = 0;
            }
            c => {
                if column < line.len() {
                    line[column] = c;
                } else {
                    line.push(c);
                }
                column += 1;
            }
        }
    }
    if !line.is_empty() {
        lines.push(line.into_iter().collect());
    }
    lines
}

/// Many links to one long board, which take more than a second with one worker.
fn long_work(temp: &Temp) -> (PathBuf, usize) {
    let random = &mut Random::new(3);
    let shape = Shape { items: MAX_ITEMS, words: Some(MAX_WORDS), long: 20, voters: 40, extraction: true };
    let board = temp.board("board", &files(&make(random, shape).plan.lay()));
    let one = |count: usize| {
        let all = temp.join(count.to_string());
        fs::create_dir(&all).expect("made");
        (0..count).for_each(|at| symlink(&board, all.join(format!("{at:05}"))).expect("linked"));
        all
    };
    let sample = one(50);
    let taken = || {
        let began = Instant::now();
        assert_eq!(tirfolma(words_of(&["audit", "--jobs", "1"], [&sample])).status, 0);
        began.elapsed().as_secs_f64()
    };
    let least = (0..4).map(|_| taken()).fold(f64::INFINITY, f64::min);
    // Some two seconds and a half, however fast this machine is.
    let count = (50.0 * 2.5 / least).clamp(500.0, 20_000.0) as usize;
    (one(count), count)
}

/// Runs words of the shell on a terminal of its own; what they write there.
fn on_a_terminal(script: &str, all: &Path) -> Vec<u8> {
    let mut command = std::process::Command::new("script");
    command.args(["-qec", script, "/dev/null"]).env("PROGRAM", PROGRAM).env("ALL", all);
    let ran = run(command);
    assert_eq!((ran.status, ran.errors()), (0, ""), "{}", String::from_utf8_lossy(&ran.out));
    ran.out
}

#[test]
fn the_progress_line_is_for_terminals() {
    need("script");
    let temp = Temp::new("progress");
    let (all, count) = long_work(&temp);
    let out = temp.join("out");
    let to_file = format!("exec \"$PROGRAM\" audit --jobs 1 \"$ALL\" >{}", out.display());
    let terminal = on_a_terminal(&to_file, &all);
    let text = String::from_utf8_lossy(&terminal);
    assert!(text.contains(&format!("of {count} boards")), "no progress in {text:?}");
    let visible: String = shown(&terminal).concat();
    assert_eq!(visible.trim(), "", "it is cleared at the end");
    let lines = fs::read_to_string(&out).expect("the lines");
    assert_eq!(lines.lines().count(), count);
    assert!(
        !lines.contains('\u{1b}')
            && !lines.contains('\r')
            && lines.lines().all(|line| line.contains("\taccepted 2048 "))
    );
    // With the lines on the terminal, too, nothing of the progress is left between them.
    let terminal = on_a_terminal("exec \"$PROGRAM\" audit --jobs 1 \"$ALL\"", &all);
    assert!(String::from_utf8_lossy(&terminal).contains(&format!("of {count} boards")));
    let visible: Vec<String> = shown(&terminal).into_iter().filter(|line| !line.is_empty()).collect();
    assert_eq!(visible, lines.lines().collect::<Vec<_>>());
    // No terminal, no line.
    let ran = tirfolma(words_of(&["audit", "--jobs", "1"], [&all]));
    assert_eq!((ran.status, ran.errors(), ran.text()), (0, "", lines.as_str()));
}

/// What takes less than a second has none.
#[test]
fn no_progress_line_for_short_work() {
    need("script");
    let all = root().join("samples/election");
    let terminal = on_a_terminal("exec \"$PROGRAM\" audit \"$ALL\" >/dev/null", &all);
    assert_eq!(String::from_utf8_lossy(&terminal), "");
}

/// The most threads that a run has, looked at again and again until it ends.
fn most_threads(words: &[OsString]) -> usize {
    let mut child = Command::new(PROGRAM).args(words).stdout(Stdio::null()).spawn().expect("it runs");
    let tasks = format!("/proc/{}/task", child.id());
    let mut most = 0;
    while child.try_wait().expect("it can be waited for").is_none() {
        most = most.max(fs::read_dir(&tasks).map_or(0, |tasks| tasks.count()));
    }
    most
}

/// A worker for each processor, or as many as were asked for, beside the one that prints.
#[test]
fn all_processors_work() {
    let temp = Temp::new("processors");
    let full = case(&Makers::default(), Group::Full, 0);
    let board = temp.board("board", &[bytes(&full.words), bytes(&full.verdicts), bytes(&full.roll)]);
    let all = temp.join("all");
    fs::create_dir(&all).expect("made");
    (0..300).for_each(|at| symlink(&board, all.join(format!("{at:05}"))).expect("linked"));
    // With very many processors the boards may be done before the last worker has begun.
    let processors = std::thread::available_parallelism().map_or(1, |n| n.get());
    let threads = most_threads(&words_of(&["audit"], [&all]));
    assert!(threads <= 1 + processors && threads >= 1 + processors.min(8), "{threads} with {processors} processors");
    assert_eq!(most_threads(&words_of(&["audit", "--jobs", "1"], [&all])), 2);
    assert_eq!(most_threads(&words_of(&["audit", "--jobs", "5"], [&all])), 6);
}

/// Where there are not so many threads as were asked for, those that there are do all.
#[test]
fn too_few_threads() {
    // The limit counts all processes of a user: only one who has no other can be told, and only root can be another.
    if !is_root() {
        let _ = writeln!(std::io::stderr(), "too_few_threads: left out, since it takes root");
        return;
    }
    let temp = Temp::new("threads");
    fs::set_permissions(temp.path(), fs::Permissions::from_mode(0o755)).expect("opened");
    let board = temp.board("board", &sample("genesis-alone"));
    let all = temp.join("all");
    fs::create_dir(&all).expect("made");
    // More than the results that may wait for forty workers.
    (0..1_500).for_each(|at| symlink(&board, all.join(format!("{at:05}"))).expect("linked"));
    for most in [1, 20] {
        let ran = as_other(&format!("ulimit -u {most}"), words_of(&["audit", "--jobs", "40"], [&all]));
        assert_eq!((ran.lines().len(), ran.status, ran.errors()), (1_500, 0, ""), "with {most} threads");
    }
}
