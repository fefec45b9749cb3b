//! `tirfolma cut`, held to the words of each board: cuts at every main item, byte for byte, audited and compared; folders that are there
//! already or can't be written, boards and numbers that can't be cut; and that what fails leaves nothing behind.

#[path = "common/traits.rs"]
mod boards;
mod common;
#[path = "common/items.rs"]
mod items;
#[path = "common/widths.rs"]
mod widths;

use boards::made;
use common::json::objects;
use common::*;
use items::{items, Item};
use reference::program::{bytes, words};
use reference::sound::Traits;
use std::ffi::{OsStr, OsString};
use std::fs::{self, Permissions};
use std::os::unix::ffi::OsStrExt;
use std::os::unix::fs::{symlink, MetadataExt, PermissionsExt};
use std::path::{Path, PathBuf};
use std::process::Command;

/// The words behind `tirfolma`.
fn call(folder: &Path, main: impl ToString, out: &Path) -> Vec<OsString> {
    vec!["cut".into(), folder.into(), main.to_string().into(), out.into()]
}

/// What a board's files are when it is cut at an item, by its number.
fn cut_at(files: &Three, items: &[Item], number: usize) -> Three {
    let mut board = words(&files[0])[..items[number - 1].end].to_vec();
    board.push(0xf000_0000 + number as u32);
    [bytes(&board), files[1][..4 * 9 * number].to_vec(), files[2].clone()]
}

/// The names in a folder, sorted.
fn names_in(folder: &Path) -> Vec<OsString> {
    let mut names: Vec<OsString> =
        fs::read_dir(folder).expect("a folder").map(|entry| entry.expect("an entry").file_name()).collect();
    names.sort();
    names
}

/// The files of a folder that has these three and nothing else.
fn written(folder: &Path) -> Three {
    let mut names = NAMES.map(OsString::from);
    names.sort();
    assert_eq!(names_in(folder), names, "{}", folder.display());
    NAMES.map(|name| fs::read(folder.join(name)).expect("a file"))
}

/// Cuts a board at a main number, and checks what is written and what is said of it.
fn check(folder: &Path, files: &Three, main: u32, temp: &Temp) {
    let (out, json) = (temp.join("out"), temp.join("json"));
    let about = format!("{} at {main}", folder.display());
    let items = items(&words(&files[0]));
    let number = 1 + items.iter().position(|item| item.main == Some(main)).expect("a main item");
    let end: String = items[number - 1].address.iter().map(|word| format!("{word:08x}")).collect();
    let ran = tirfolma(call(folder, main, &out));
    assert_eq!((ran.text(), ran.errors(), ran.status), (format!("{number} {main} {end}\n").as_str(), "", 0), "{about}");
    let cut = cut_at(files, &items, number);
    assert!(written(&out) == cut, "{about}: other files");
    // The reference accepts it, with these counts; so does the command, which also says that its main items are those of the board.
    let right = expected(&cut);
    assert!(right.starts_with(&format!("accepted {number} {main} ")), "{about}: {right}");
    let ran = tirfolma(words_of(&["audit", "--rows"], [&out]));
    assert_eq!((ran.text(), ran.status), (format!("{}\t{right}", out.display()).as_str(), 0), "{about}");
    let audited = &objects(tirfolma(words_of(&["audit", "--json"], [&out])).text())[0];
    assert_eq!(audited.text("end"), end, "{about}");
    let mut compared = words_of(&["compare"], [&out, folder]);
    compared.push(main.to_string().into());
    let ran = tirfolma(compared);
    assert_eq!((ran.text(), ran.errors(), ran.status), ("same\n", "", 0), "{about}");
    let ran = tirfolma([call(folder, main, &json), vec!["--json".into()]].concat());
    let [object] = &objects(ran.text())[..] else { panic!("{about}: {}", ran.text()) };
    assert_eq!(object.keys(), ["answer", "end", "items", "mains"]);
    assert_eq!((object.text("answer"), object.text("end")), ("cut", end.as_str()), "{about}");
    assert_eq!((object.number("items"), object.number("mains")), (number as u64, main.into()), "{about}");
    assert!(written(&json) == cut, "{about}: other files with --json");
    for folder in [out, json] {
        fs::remove_dir_all(folder).expect("removed");
    }
    assert_eq!(names_in(temp.path()), [] as [&str; 0], "{about}: something else was written");
}

fn mains_of(files: &Three) -> u32 {
    items(&words(&files[0])).iter().filter_map(|item| item.main).max().expect("a main item")
}

#[test]
fn every_main_item_of_the_samples() {
    let temp = Temp::new("every");
    let mut mains = Vec::new();
    for name in ["genesis-alone", "election", "county"] {
        let files = sample(name);
        mains.push(mains_of(&files));
        for main in 1..=mains_of(&files) {
            check(&root().join("samples").join(name), &files, main, &temp);
        }
    }
    assert_eq!(mains, [1, 42, 49]);
}

/// On each curve with sets of either width, at some main items and at the last.
#[test]
fn made_boards() {
    let boards = Temp::new("boards");
    let temp = Temp::new("made");
    for (at, traits) in Traits::ALL.into_iter().enumerate() {
        for seed in 0..4 {
            let files = files(&made(91_000 + seed, 90, traits).plan.lay());
            let folder = boards.board(format!("{at}-{seed}"), &files);
            let last = mains_of(&files);
            for main in [1, 1 + last / 3, last - 1, last] {
                check(&folder, &files, main, &temp);
            }
        }
    }
}

/// Hidden items behind the last main item go with a cut there; those before it stay.
#[test]
fn boards_that_end_with_hidden_items() {
    let boards = Temp::new("boards");
    let temp = Temp::new("hidden");
    for name in ["election", "federation", "county", "nation"] {
        let whole = sample(name);
        let items = items(&words(&whole[0]));
        let hidden: Vec<usize> = (1..=items.len()).filter(|number| items[number - 1].main.is_none()).collect();
        assert!(hidden.len() > 4, "{name}");
        for number in hidden {
            let files = cut_at(&whole, &items, number);
            let folder = boards.board(format!("{name}-{number}"), &files);
            let last = mains_of(&files);
            check(&folder, &files, last, &temp);
            check(&folder, &files, last - 1, &temp);
        }
    }
}

/// Stored boards, the longest among them, at the last main item and before.
#[test]
fn stored_boards() {
    let temp = Temp::new("stored");
    let mut boards = 0;
    for entry in fs::read_dir(root().join("tests/boards")).expect("a folder") {
        let folder = entry.expect("an entry").path();
        let files = read(&folder);
        if NAMES.iter().any(|name| !folder.join(name).is_file()) || !expected(&files).starts_with("accepted") {
            continue;
        }
        let last = mains_of(&files);
        check(&folder, &files, last, &temp);
        check(&folder, &files, 1 + last / 2, &temp);
        boards += 1;
    }
    assert!(boards > 10, "only {boards} boards");
}

/// A cut of a cut is that of the board, and all of the board is cut where no item is hidden behind the last main one.
#[test]
fn cuts_of_cuts() {
    let temp = Temp::new("twice");
    let election = root().join("samples/election");
    for (folder, main, out) in
        [(&election, 30, "a"), (&temp.join("a"), 12, "b"), (&election, 12, "c"), (&election, 42, "d")]
    {
        assert_eq!(tirfolma(call(folder, main, &temp.join(out))).status, 0);
    }
    assert!(written(&temp.join("b")) == written(&temp.join("c")));
    assert!(written(&temp.join("d")) == sample("election"));
}

/// The main number of an address, found as the README says: by its first digits in the lines of `show`, by all in its JSON.
fn main_of(folder: &Path, address: &str) -> u32 {
    let script = "set -o pipefail; \"$1\" show \"$2\" | grep \"${3::16}\"; \"$1\" show --json \"$2\" | tr '{' '\\n' | grep \"$3\"";
    let ran = run(shell(script, [OsStr::new(PROGRAM), folder.as_os_str(), OsStr::new(address)]));
    let [line, object] = ran.lines()[..] else { panic!("{address}: {ran:?}") };
    let main = line.split_whitespace().nth(1).expect("a second column");
    assert!(object.contains(&format!("\"main\":{main},")), "{address}: {object}");
    main.parse().expect("a main number")
}

/// If notes agree, the board cut at each noted item has the noted address as its end: as the sample's watcher noted it.
#[test]
fn what_was_noted_is_the_end_of_a_cut() {
    let temp = Temp::new("noted");
    let election = root().join("samples/election");
    let notes = words(&fs::read(election.join("notes.words")).expect("the sample"));
    let items = items(&words(&sample("election")[0]));
    for (at, note) in notes.chunks(10).enumerate() {
        let item = items.iter().find(|item| item.address == note[2..]).expect("an item");
        let out = temp.join(format!("{at}"));
        let end: String = note[2..].iter().map(|word| format!("{word:08x}")).collect();
        let main = main_of(&election, &end);
        assert_eq!(Some(main), item.main);
        let ran = tirfolma(call(&election, main, &out));
        assert!(ran.text().ends_with(&format!(" {end}\n")), "{}", ran.text());
    }
}

// ---- what can't be cut ----

#[test]
fn a_refused_board() {
    let temp = Temp::new("refused");
    let out = temp.join("out");
    for name in ["wrong-key", "truncated", "roll-not-rising", "tampered-ballot"] {
        let folder = root().join("samples").join(name);
        let explained = &objects(tirfolma(words_of(&["audit", "--explain", "--json"], [&folder])).text())[0];
        let (why, answer) = (explained.text("explanation"), expected(&sample(name)));
        let note = "(Explanations are told from the words and, after an audit, its tables; no answer depends on them.)";
        for main in [0, 1, 5000] {
            let ran = tirfolma(call(&folder, main, &out));
            assert_eq!((ran.text(), ran.status), (format!("{answer}    {why}\n{note}\n").as_str(), 1), "{name}");
            assert_eq!((ran.errors(), names_in(temp.path())), ("", vec![]), "{name}");
        }
        let ran = tirfolma([call(&folder, 1, &out), vec!["--json".into()]].concat());
        let object = &objects(ran.text())[0];
        assert_eq!((object.text("answer"), object.text("explanation"), ran.status), ("refused", why, 1));
        assert_eq!(object.keys(), ["answer", "explanation", "number", "passed"]);
    }
    let mut odd = sample("election");
    odd[2].push(0);
    let boards = Temp::new("odd");
    let ran = tirfolma(call(&boards.board("odd", &odd), 1, &out));
    assert_eq!((ran.lines()[0], ran.status, names_in(temp.path())), ("refused 4 at 0", 1, vec![]));
}

#[test]
fn a_number_that_the_board_does_not_have() {
    let temp = Temp::new("numbers");
    for (name, mains) in [("election", 42), ("genesis-alone", 1)] {
        let folder = root().join("samples").join(name);
        for main in ["0".to_string(), (mains + 1).to_string(), "48".to_string(), u64::MAX.to_string()] {
            let ran = tirfolma(call(&folder, &main, &temp.join("out")));
            ran.assert_failed(&main);
            let right =
                format!("tirfolma: {}: has main items 1 to {mains}, and no main item {main}\n", folder.display());
            assert_eq!(ran.errors(), right);
        }
        for main in ["", "x", "-1", "1.5", "0x1", " 1"] {
            tirfolma(call(&folder, main, &temp.join("out"))).assert_failed(main);
        }
        for main in ["18446744073709551616".to_string(), "9".repeat(300)] {
            let ran = tirfolma(call(&folder, &main, &temp.join("out")));
            ran.assert_failed(&main);
            assert_eq!(ran.errors(), format!("tirfolma: MAIN is at most 18446744073709551615, not {main}\n"));
        }
    }
    assert_eq!(names_in(temp.path()), [] as [&str; 0]);
}

#[test]
fn a_board_that_cannot_be_read() {
    let temp = Temp::new("unread");
    for name in ["missing", "file"] {
        fs::write(temp.join("file"), []).expect("written");
        tirfolma(call(&temp.join(name), 1, &temp.join("out"))).assert_failed(name);
        assert!(!temp.join("out").exists());
    }
}

// ---- folders ----

#[test]
fn nothing_is_written_over() {
    let temp = Temp::new("over");
    let election = root().join("samples/election");
    let at = |name: &str| temp.join(name);
    let own = temp.board("board", &sample("election"));
    fs::write(at("file"), "kept").expect("written");
    fs::create_dir(at("full")).expect("made");
    fs::write(at("full/other"), "kept").expect("written");
    symlink("nowhere", at("dangling")).expect("linked");
    symlink("full", at("to-full")).expect("linked");
    symlink("round", at("round")).expect("linked");
    let before = names_in(temp.path());
    for (name, why) in [
        ("file", "exists already, and is no folder"),
        ("full", "exists already, and is not empty"),
        ("full/", "exists already, and is not empty"),
        ("full/other", "exists already, and is no folder"),
        ("to-full", "exists already, and is not empty"),
        ("dangling", "exists already, a link that leads nowhere"),
        ("board", "exists already, and is not empty"),
        ("round", "Too many levels of symbolic links"),
        ("file/out", "Not a directory"),
        ("file/", "Not a directory"),
        ("missing/out", "No such file or directory"),
        ("missing/..", "No such file or directory"),
        (".", "exists already, and is not empty"),
    ] {
        for folder in [&election, &own] {
            let ran = tirfolma(call(folder, 16, &at(name)));
            ran.assert_failed(name);
            assert_eq!(ran.errors(), format!("tirfolma: {}: {why}\n", at(name).display()));
        }
    }
    assert_eq!((names_in(temp.path()), names_in(&at("full"))), (before, vec![OsString::from("other")]));
    assert!(written(&own) == sample("election"));
    assert_eq!(
        fs::read_to_string(at("file")).expect("a file") + &fs::read_to_string(at("full/other")).expect("a file"),
        "keptkept"
    );
}

/// A folder that is empty is used as it is: it may be the one in which the program runs, a link, or a folder with rights of its own.
#[test]
fn an_empty_folder() {
    let temp = Temp::new("empty");
    let (election, files) = (root().join("samples/election"), sample("election"));
    let right = cut_at(&files, &items(&words(&files[0])), 18);
    let here = temp.join("here");
    fs::create_dir(&here).expect("made");
    fs::set_permissions(&here, Permissions::from_mode(0o710)).expect("set");
    symlink("here", temp.join("link")).expect("linked");
    let about = |path: &Path| fs::metadata(path).map(|about| (about.ino(), about.mode())).expect("a folder");
    let before = about(&here);
    for out in [".", "../here", "../here/", "../link", "../link/"] {
        let mut command = Command::new(PROGRAM);
        command.current_dir(&here).args(call(&election, 16, Path::new(out)));
        let ran = run(command);
        assert_eq!((ran.errors(), ran.status, about(&here)), ("", 0, before), "{out}");
        assert!(written(&here) == right, "{out}");
        for name in NAMES {
            fs::remove_file(here.join(name)).expect("removed");
        }
    }
    assert_eq!(names_in(temp.path()), ["here", "link"]);
}

/// A name is a folder's, whatever it looks like.
#[test]
fn names_of_folders() {
    let temp = Temp::new("names");
    let election = root().join("samples/election");
    for name in [
        &b"plain"[..],
        b"with/",
        b"--json",
        b"-",
        b"a b",
        b"a\nb",
        b"a\x1b[31mb",
        b"a\xffb",
        b"./under/../x",
        &[b'n'; 255],
    ] {
        let name = OsStr::from_bytes(name);
        fs::create_dir_all(temp.join("under")).expect("made");
        let mut command = Command::new(PROGRAM);
        command.current_dir(temp.path()).args(["cut", "--"]).arg(&election).arg("16").arg(name);
        let ran = run(command);
        assert_eq!((ran.errors(), ran.status), ("", 0), "{name:?}");
        assert!(written(&temp.join(name))[0].len() > 43, "{name:?}");
        fs::remove_dir_all(temp.join(name)).expect("removed");
        fs::remove_dir(temp.join("under")).expect("removed");
        assert_eq!(names_in(temp.path()), [] as [&str; 0], "{name:?}");
    }
    let long = temp.join("n".repeat(256));
    let ran = tirfolma(call(&election, 16, &long));
    ran.assert_failed("a name that is too long");
    assert_eq!(ran.errors(), format!("tirfolma: {}: File name too long\n", long.display()));
}

// ---- writes that fail ----

/// The program with files of at most so many KiB: what is more is an error of the write.
fn with_small_files(kib: usize, words: Vec<OsString>) -> Ran {
    let script = format!("trap '' XFSZ; ulimit -f {kib}; exec \"$@\"");
    run(shell(&script, [OsString::from(PROGRAM)].into_iter().chain(words)))
}

/// A board of one item, of which the roll has more bytes than the other files.
fn with_long_roll(boards: &Temp) -> PathBuf {
    let mut alone = sample("genesis-alone");
    alone[2] = (0..2048).flat_map(|voter| bytes(&[voter, 1])).collect();
    boards.board("alone", &alone)
}

/// Nothing stays of a cut that can't be written, whichever file it is, in a new folder and in an empty one.
#[test]
fn a_write_that_fails() {
    let temp = Temp::new("fails");
    let boards = Temp::new("boards");
    let election = root().join("samples/election");
    let alone = with_long_roll(&boards);
    fs::create_dir(temp.join("empty")).expect("made");
    for (folder, main, kib, file) in
        [(&election, 42, 1, NAMES[0]), (&election, 42, 4, NAMES[0]), (&alone, 1, 4, NAMES[2])]
    {
        for out in ["new", "empty", "empty/new"] {
            let ran = with_small_files(kib, call(folder, main, &temp.join(out)));
            ran.assert_failed(out);
            let right = format!("tirfolma: {}: File too large\n", temp.join(out).join(file).display());
            assert_eq!(ran.errors(), right);
            assert_eq!((names_in(temp.path()), names_in(&temp.join("empty"))), (vec!["empty".into()], vec![]), "{out}");
        }
    }
    // With room it is written.
    let ran = with_small_files(64, call(&alone, 1, &temp.join("new")));
    assert_eq!((ran.errors(), ran.status), ("", 0));
}

/// A run that is killed while it writes: a new folder gets its name only when all is written, so there is none, but the one beside it.
#[test]
fn a_run_that_is_killed() {
    let boards = Temp::new("boards");
    for (folder, main, kib, begun) in [(root().join("samples/election"), 42, 1, 1), (with_long_roll(&boards), 1, 4, 3)]
    {
        let temp = Temp::new("killed");
        let words = call(&folder, main, &temp.join("new"));
        // The signal for a file that is too large ends it, in the first file or in the last.
        let script = format!("ulimit -c 0; ulimit -f {kib}; \"$@\"; exit $?");
        let ran = run(shell(&script, [OsString::from(PROGRAM)].into_iter().chain(words.clone())));
        assert_eq!((ran.text(), ran.status), ("", 128 + 25), "{ran:?}");
        let names = names_in(temp.path());
        let [left] = &names[..] else { panic!("{names:?}") };
        assert!(left.as_bytes().starts_with(b".tirfolma-"), "{names:?}");
        assert_eq!(names_in(&temp.join(left)).len(), begun);
        // What is left is in nobody's way.
        assert_eq!((tirfolma(words).status, names_in(temp.path()).len()), (0, 2));
        assert!(!written(&temp.join("new"))[0].is_empty());
    }
}

#[test]
fn a_folder_that_is_closed() {
    let temp = Temp::new("closed");
    let boards = Temp::new("boards");
    for folder in [temp.path(), boards.path()] {
        fs::set_permissions(folder, Permissions::from_mode(0o755)).expect("opened");
    }
    let board = boards.board("board", &sample("election"));
    fs::create_dir(temp.join("empty")).expect("made");
    for (name, mode) in [("new", 0o755), ("empty", 0o755), ("empty", 0o700)] {
        fs::set_permissions(temp.join("empty"), Permissions::from_mode(mode)).expect("set");
        if !is_root() {
            fs::set_permissions(temp.path(), Permissions::from_mode(0o555)).expect("closed");
            fs::set_permissions(temp.join("empty"), Permissions::from_mode(mode & 0o555)).expect("closed");
        }
        let ran = as_other(":", call(&board, 16, &temp.join(name)));
        ran.assert_failed(name);
        assert!(ran.errors().contains("Permission denied") && ran.errors().contains(name), "{}", ran.errors());
        fs::set_permissions(temp.path(), Permissions::from_mode(0o755)).expect("opened");
        fs::set_permissions(temp.join("empty"), Permissions::from_mode(0o755)).expect("opened");
        assert_eq!((names_in(temp.path()), names_in(&temp.join("empty"))), (vec!["empty".into()], vec![]), "{name}");
    }
}

/// Of several that write into one folder at once, one does, and the others say that it is there; all of it is by one of them.
#[test]
fn several_at_once() {
    let election = root().join("samples/election");
    let files = sample("election");
    for out in ["new", "empty"] {
        for _ in 0..10 {
            let temp = Temp::new("at-once");
            fs::create_dir(temp.join("empty")).expect("made");
            let threads: Vec<_> = [11, 16, 30, 42]
                .map(|main| (main, call(&election, main, &temp.join(out))))
                .map(|(main, words)| std::thread::spawn(move || (main, tirfolma(words))))
                .into();
            let ran: Vec<(u32, Ran)> = threads.into_iter().map(|thread| thread.join().expect("it ran")).collect();
            let done: Vec<&u32> = ran.iter().filter(|(_, ran)| ran.status == 0).map(|(main, _)| main).collect();
            let [main] = done[..] else { panic!("{out}: {ran:?}") };
            ran.iter().filter(|(_, ran)| ran.status != 0).for_each(|(_, ran)| ran.assert_failed(out));
            let items = items(&words(&files[0]));
            let number = 1 + items.iter().position(|item| item.main == Some(*main)).expect("a main item");
            assert!(written(&temp.join(out)) == cut_at(&files, &items, number), "{out}: {ran:?}");
            let names: Vec<PathBuf> = names_in(temp.path()).into_iter().map(PathBuf::from).collect();
            assert!(
                names.iter().all(|name| ["new", "empty"].iter().any(|known| name == Path::new(known))),
                "{names:?}"
            );
        }
    }
}

/// A folder that a run which was killed has left is passed by.
#[test]
fn what_another_has_left() {
    let temp = Temp::new("left");
    let script = "mkdir \"$2/.tirfolma-$$-0\" \"$2/.tirfolma-$$-1\" && exec \"$1\" cut \"$3\" 16 \"$2/out\"";
    let ran = run(shell(script, [PathBuf::from(PROGRAM), temp.path().into(), root().join("samples/election")]));
    assert_eq!((ran.errors(), ran.status, names_in(temp.path()).len()), ("", 0, 3));
    assert!(!written(&temp.join("out"))[0].is_empty());
}
