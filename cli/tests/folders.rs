//! Folders: which boards an argument stands for and in which order, and what can't be read: an error with exit status 2, never an empty
//! board, and the other boards of the call are audited all the same.

mod common;

use common::*;
use std::ffi::CString;
use std::fs::{self, Permissions};
use std::os::unix::fs::{symlink, PermissionsExt};
use std::path::{Path, PathBuf};

const SOUND: &str = "accepted 48 42 3 17";
const BAD: &str = "refused 7 at 38";
const NOT: &str = "not audited";

fn sound() -> Three {
    sample("election")
}

fn bad() -> Three {
    sample("tampered-ballot")
}

/// Audits, and holds names, answers and exit status to what is expected; for each board that is not audited there is a message that
/// names it.
fn check(arguments: &[&Path], right: &[(PathBuf, &str)]) -> Ran {
    let ran = tirfolma(words_of(&["audit"], arguments));
    let lines: Vec<(PathBuf, &str)> = ran.lines().into_iter().map(parted).collect();
    assert_eq!(lines, right, "{}", ran.errors());
    let has = |start: &str| right.iter().any(|(_, answer)| answer.starts_with(start));
    let status = if has(NOT) { 2 } else { i32::from(has("refused")) };
    assert_eq!(ran.status, status, "{ran:?}");
    ran.assert_no_panic("an audit");
    let messages: Vec<&str> = ran.errors().lines().collect();
    let failed: Vec<&PathBuf> = right.iter().filter(|(_, answer)| *answer == NOT).map(|(path, _)| path).collect();
    assert_eq!(messages.len(), failed.len(), "{messages:?}");
    for (message, path) in messages.iter().zip(failed) {
        let about = message.strip_prefix("tirfolma: ").unwrap_or_else(|| panic!("{message}"));
        let (name, why) = about.rsplit_once(": ").unwrap_or_else(|| panic!("{message}"));
        let name = name_back(name).unwrap_or_else(|| panic!("{message}"));
        assert!(name.starts_with(path.as_os_str().as_encoded_bytes()), "{message} about {path:?}");
        assert!(!why.is_empty(), "{message}");
    }
    ran
}

/// The folder of a case between two good ones, so that others of the same call are seen to be audited, in order.
fn check_between(temp: &Temp, folder: &Path, answer: &str) -> Ran {
    let before = temp.board("before", &bad());
    let after = temp.board("after", &sound());
    let right = [(before.clone(), BAD), (folder.to_path_buf(), answer), (after.clone(), SOUND)];
    check(&[&before, folder, &after], &right)
}

fn pipe(path: &Path) {
    extern "C" {
        fn mkfifo(path: *const std::ffi::c_char, mode: u32) -> i32;
    }
    let path = CString::new(path.as_os_str().as_encoded_bytes()).expect("no zero in it");
    assert_eq!(unsafe { mkfifo(path.as_ptr(), 0o644) }, 0, "a pipe can be made");
}

#[test]
fn one_board_and_several() {
    let temp = Temp::new("several");
    let (b, a) = (temp.board("b", &sound()), temp.board("a", &bad()));
    check(&[&b], &[(b.clone(), SOUND)]);
    check(&[&a], &[(a.clone(), BAD)]);
    // As they are given, also twice.
    check(&[&b, &a, &b], &[(b.clone(), SOUND), (a.clone(), BAD), (b.clone(), SOUND)]);
}

#[test]
fn a_folder_of_folders_in_the_order_of_names() {
    let temp = Temp::new("order");
    let all = temp.join("all");
    // By their bytes: not by length, by case or by number.
    let mut names =
        ["10", "9", "B", "a", "a-b", "a b", "a.b", "ab", "é", "z", "Z", "_", "~", "2", "zz"].map(String::from);
    for (at, name) in names.iter().enumerate() {
        write(&all.join(name), &if at % 3 == 0 { bad() } else { sound() });
    }
    // Files beside them are no boards.
    fs::write(all.join("index.txt"), "no board").expect("written");
    fs::write(all.join("board.words.txt"), "no board").expect("written");
    let answer = |name: &String| if read(&all.join(name)) == bad() { BAD } else { SOUND };
    names.sort();
    let right: Vec<(PathBuf, &str)> = names.iter().map(|name| (all.join(name), answer(name))).collect();
    check(&[&all], &right);
    let twice: Vec<(PathBuf, &str)> = right.iter().chain(&right).cloned().collect();
    check(&[&all, &all], &twice);
}

/// A folder in a DIR is a board: one that has lost its files is not taken for the folders in it.
#[test]
fn folders_in_folders() {
    let temp = Temp::new("nested");
    let all = temp.join("all");
    for (path, files) in [("1/x", sound()), ("1/y", bad()), ("2", sound()), ("3/backup", sound())] {
        write(&all.join(path), &files);
    }
    check(&[&all], &[(all.join("1"), NOT), (all.join("2"), SOUND), (all.join("3"), NOT)]);
    // As a DIR of its own it stands for them.
    check(&[&all.join("1")], &[(all.join("1/x"), SOUND), (all.join("1/y"), BAD)]);
}

/// As deep as names can be, and deeper: that is an error, like all that can't be read.
#[test]
fn far_down() {
    let temp = Temp::new("deep");
    let mut path = temp.path().to_path_buf();
    (0..1_500).for_each(|_| path.push("d"));
    write(&path, &sound());
    check(&[&path], &[(path.clone(), SOUND)]);
    let mut longer = path;
    (0..3_000).for_each(|_| longer.push("d"));
    check(&[&longer], &[(longer.clone(), NOT)]);
}

/// A folder with a board and folders is the board.
#[test]
fn files_beside_folders() {
    let temp = Temp::new("beside");
    let board = temp.board("board", &sound());
    write(&board.join("inner"), &bad());
    check_between(&temp, &board, SOUND);
    // Also where only one of its files is there: that is a board with two files missing.
    for name in NAMES {
        let lone = temp.join(format!("lone-{name}"));
        write(&lone.join("inner"), &sound());
        fs::write(lone.join(name), []).expect("written");
        check_between(&temp, &lone, NOT);
    }
}

#[test]
fn many_folders_on_all_processors_keep_their_order() {
    let temp = Temp::new("many");
    let all = temp.join("all");
    let mut right = Vec::new();
    for at in 0..700 {
        let (name, answer) = (all.join(format!("{at:04}")), [SOUND, BAD, "refused 4 at 0", NOT][at % 4]);
        let files = if answer == BAD { bad() } else { sound() };
        write(&name, &files);
        match answer {
            NOT => fs::remove_file(name.join(NAMES[at / 4 % 3])).expect("removed"),
            "refused 4 at 0" => fs::write(name.join(NAMES[at / 4 % 3]), [1]).expect("written"),
            _ => {}
        }
        right.push((name, answer));
    }
    let ran = check(&[&all], &right);
    for jobs in ["1", "2", "3", "64", "1000"] {
        let again = tirfolma(words_of(&["audit", "--jobs", jobs], [&all]));
        assert_eq!((again.text(), again.errors(), again.status), (ran.text(), ran.errors(), 2), "--jobs {jobs}");
    }
}

#[test]
fn no_folder_at_all() {
    let temp = Temp::new("none");
    let missing = temp.join("missing");
    check_between(&temp, &missing, NOT);
    check_between(&temp, &missing.join("in/missing"), NOT);
    let file = temp.join("file");
    fs::write(&file, sound()[0].clone()).expect("written");
    check_between(&temp, &file, NOT);
    check_between(&temp, &file.join("inside a file"), NOT);
    // A file of a board is no folder.
    check_between(&temp, &temp.join("before").join(NAMES[0]), NOT);
    check_between(&temp, Path::new("/dev/null"), NOT);
    let pipe_path = temp.join("pipe");
    pipe(&pipe_path);
    check_between(&temp, &pipe_path, NOT);
}

/// An empty word is no folder's name, least of all that of the folder in which the program runs.
#[test]
fn an_empty_name_is_a_missing_folder() {
    let temp = Temp::new("nameless");
    let here = temp.board("here", &sound());
    for words in [
        &["audit", ""][..],
        &["compare", "", ""],
        &["compare", ".", ""],
        &["ancestry", "", "1"],
        &["receipts", "", NAMES[0]],
        &["notes", "", NAMES[0]],
        &["cut", "", "1", "out"],
        &["cut", ".", "1", ""],
        &["plan", ""],
        &["audit", "--from", ""],
    ] {
        let mut command = std::process::Command::new(PROGRAM);
        command.current_dir(&here).args(words);
        let ran = run(command);
        assert_eq!(ran.status, 2, "{words:?}: {ran:?}");
        assert!(!ran.text().contains("accepted") && !ran.text().contains("same"), "{words:?}: {}", ran.text());
        ran.assert_message("no name");
    }
}

#[test]
fn the_folder_in_which_it_runs() {
    let temp = Temp::new("here");
    let here = temp.board("here", &sound());
    for (name, place) in [(".", &here), ("here", &temp.path().to_path_buf()), ("./here/", &temp.path().to_path_buf())] {
        let mut command = std::process::Command::new(PROGRAM);
        command.current_dir(place).args(["audit", name]);
        let ran = run(command);
        assert_eq!((ran.text(), ran.status), (format!("{name}\t{SOUND}\n").as_str(), 0));
    }
}

#[test]
fn an_empty_folder() {
    let temp = Temp::new("empty");
    let empty = temp.join("empty");
    fs::create_dir(&empty).expect("made");
    check_between(&temp, &empty, NOT);
    fs::write(empty.join("notes"), "no board").expect("written");
    check_between(&temp, &empty, NOT);
    // In a folder of folders it is not passed over.
    let all = temp.join("all");
    fs::create_dir_all(all.join("b")).expect("made");
    write(&all.join("a"), &sound());
    write(&all.join("c"), &bad());
    check(&[&all], &[(all.join("a"), SOUND), (all.join("b"), NOT), (all.join("c"), BAD)]);
}

/// Puts something in the place of each file in turn. The message must name the file.
fn in_place_of_each(name: &str, put: impl Fn(&Path)) {
    let temp = Temp::new(name);
    for file in NAMES {
        let folder = temp.board(format!("without-{file}"), &sound());
        fs::remove_file(folder.join(file)).expect("removed");
        put(&folder.join(file));
        let ran = check_between(&temp, &folder, NOT);
        let path = folder.join(file).display().to_string();
        assert!(ran.errors().contains(&path), "{} does not name {path}", ran.errors());
        // The other commands say so, too: no answer, exit status 2.
        let good = temp.join("after");
        for (kept, later) in [(&folder, &good), (&good, &folder)] {
            let ran = tirfolma(words_of(&["compare"], [kept, later]));
            ran.assert_failed(name);
            assert!(ran.errors().contains(&path), "{}", ran.errors());
        }
        let ran = tirfolma([folder.as_os_str(), "1".as_ref()].iter().fold(
            words_of(&["ancestry"], [] as [&str; 0]),
            |mut all, word| {
                all.push(word.to_os_string());
                all
            },
        ));
        ran.assert_failed(name);
        assert!(ran.errors().contains(&path), "{}", ran.errors());
        let beside = temp.join("beside");
        fs::write(&beside, []).expect("written");
        for command in ["receipts", "notes"] {
            let ran = tirfolma(words_of(&[command], [&folder, &beside]));
            ran.assert_failed(name);
            assert!(ran.errors().contains(&path), "{}", ran.errors());
        }
        let ran = tirfolma(words_of(&["cut"], [folder.as_path(), Path::new("1"), &temp.join("out")]));
        ran.assert_failed(name);
        assert!(ran.errors().contains(&path) && !temp.join("out").exists(), "{}", ran.errors());
    }
}

#[test]
fn a_missing_file() {
    in_place_of_each("missing", |_| {});
}

#[test]
fn a_folder_in_place_of_a_file() {
    in_place_of_each("folder", |path| fs::create_dir(path).expect("made"));
    // Also one that has a board in it.
    in_place_of_each("board", |path| write(path, &sound()));
}

#[test]
fn a_pipe_in_place_of_a_file() {
    in_place_of_each("pipe", pipe);
}

#[test]
fn links_that_lead_nowhere_or_round() {
    in_place_of_each("dangling", |path| symlink("nowhere", path).expect("linked"));
    in_place_of_each("round", |path| symlink(path.file_name().expect("a name"), path).expect("linked"));
}

#[test]
fn devices_in_place_of_a_file() {
    for device in ["/dev/null", "/dev/zero", "/dev/tty", "/dev/full"] {
        in_place_of_each("device", |path| symlink(device, path).expect("linked"));
    }
}

/// Files that say that they have no bytes: one gives an error when it is read, also to root; the others have bytes.
#[test]
fn files_that_look_empty_but_are_not() {
    for file in ["/proc/self/mem", "/proc/version", "/proc/self/status"] {
        assert!(fs::metadata(file).is_ok_and(|about| about.is_file() && about.len() == 0), "{file}");
        in_place_of_each("proc", |path| symlink(file, path).expect("linked"));
    }
}

#[test]
fn closed_files_and_folders() {
    let temp = Temp::new("closed");
    fs::set_permissions(temp.path(), Permissions::from_mode(0o755)).expect("opened");
    let all = temp.join("all");
    let mut right = Vec::new();
    for (at, file) in NAMES.iter().enumerate() {
        let folder = all.join(format!("{at}-file"));
        write(&folder, &sound());
        fs::set_permissions(folder.join(file), Permissions::from_mode(0o000)).expect("closed");
        right.push((folder, NOT));
    }
    for mode in [0o000, 0o444, 0o111] {
        let folder = all.join(format!("{mode:03o}-folder"));
        write(&folder, &sound());
        fs::set_permissions(&folder, Permissions::from_mode(mode)).expect("closed");
        // Who may not list a folder may read the files of which the names are known.
        right.push((folder, if mode == 0o111 { SOUND } else { NOT }));
    }
    let outer = all.join("outer");
    write(&outer.join("inner"), &sound());
    fs::set_permissions(&outer, Permissions::from_mode(0o000)).expect("closed");
    right.push((outer.clone(), NOT));
    write(&all.join("z"), &bad());
    right.push((all.join("z"), BAD));
    right.sort();
    let ran = as_other(":", words_of(&["audit"], [&all]));
    let lines: Vec<(PathBuf, &str)> = ran.lines().into_iter().map(parted).collect();
    assert_eq!(lines, right, "{}", ran.errors());
    assert_eq!((ran.status, ran.errors().lines().count()), (2, 6), "{}", ran.errors());
    assert_eq!(ran.errors().to_lowercase().matches("permission denied").count(), 6, "{}", ran.errors());
    for (folder, _) in right {
        let _ = fs::set_permissions(&folder, Permissions::from_mode(0o755));
    }
}

#[test]
fn links_to_folders() {
    let temp = Temp::new("links");
    let all = temp.join("all");
    let board = temp.board("board", &sound());
    let more = temp.join("more");
    write(&more.join("1"), &bad());
    write(&more.join("2"), &sound());
    fs::create_dir(&all).expect("made");
    symlink(&board, all.join("a")).expect("linked");
    symlink("../more", all.join("b")).expect("linked");
    symlink("nowhere", all.join("c")).expect("linked");
    symlink(board.join(NAMES[0]), all.join("link to a file")).expect("linked");
    check(&[&all], &[(all.join("a"), SOUND), (all.join("b"), NOT), (all.join("c"), NOT)]);
    check(&[&all.join("b")], &[(all.join("b/1"), BAD), (all.join("b/2"), SOUND)]);
    // A link as the argument itself, and files that are links.
    check_between(&temp, &all.join("a"), SOUND);
    check_between(&temp, &all.join("c"), NOT);
    let linked = temp.join("linked");
    fs::create_dir(&linked).expect("made");
    NAMES.iter().for_each(|name| symlink(board.join(name), linked.join(name)).expect("linked"));
    check_between(&temp, &linked, SOUND);
}

/// It is a folder without a board, like others.
#[test]
fn a_folder_that_holds_itself() {
    let temp = Temp::new("itself");
    let all = temp.join("all");
    write(&all.join("a"), &sound());
    symlink(".", all.join("m")).expect("linked");
    symlink("..", all.join("z")).expect("linked");
    check(&[&all], &[(all.join("a"), SOUND), (all.join("m"), NOT), (all.join("z"), NOT)]);
}
