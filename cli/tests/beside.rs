//! The file that `tirfolma receipts` and `tirfolma notes` take beside a board: as many words as there may be and more, other widths, files
//! that can't be read; that a bad file comes before the audit; and what is said in words of a refusal.

mod common;
#[path = "common/items.rs"]
mod items;
#[path = "common/widths.rs"]
mod widths;

use common::json::objects;
use common::*;
use items::items;
use reference::format::{CAST, MAX_WORDS};
use reference::program::{bytes, words};
use std::ffi::OsStr;
use std::fs::{self, Permissions};
use std::os::unix::ffi::OsStrExt;
use std::os::unix::fs::{symlink, PermissionsExt};
use std::path::{Path, PathBuf};
use std::process::Command;
use widths::{traits, Widths};

const NOTE: &str = "(Explanations are told from the words and, after an audit, its tables; no answer depends on them.)";

/// A command, what its file has, the refusal of it, how many there may be, and what is told of more.
#[derive(Debug)]
struct Kind {
    command: &'static str,
    one: &'static str,
    refusal: &'static str,
    most: usize,
    more: &'static str,
}

const RECEIPTS: Kind = Kind {
    command: "receipts",
    one: "receipt",
    refusal: "refused 22 at 0",
    most: 512,
    more: "at most 512 may be asked at once, more in several files",
};
const NOTES: Kind = Kind {
    command: "notes",
    one: "note",
    refusal: "refused 23 at 0",
    most: 1024,
    more:
        "at most 1024 may be held against it at once, more in several files that each begin with the last note of the \
           file before",
};
const KINDS: [Kind; 2] = [RECEIPTS, NOTES];

impl Kind {
    /// The words of one: what stands before its address, and that.
    fn parts(&self, widths: &Widths) -> [usize; 2] {
        [if self.one == "note" { 2 } else { widths.signature }, widths.address]
    }

    fn size(&self, widths: &Widths) -> usize {
        self.parts(widths).iter().sum()
    }

    /// One that an accepted board has: of its first cast, or of its first item at that item's time.
    fn of_board(&self, board: &[u32]) -> Vec<u32> {
        let items = items(board);
        let first = &items[0];
        match self.one {
            "note" => [&[(first.time >> 32) as u32, first.time as u32][..], &first.address[..]].concat(),
            _ => items.iter().find(|item| item.code == CAST).unwrap_or(first).receipt.clone(),
        }
    }

    fn fits(&self, widths: &Widths, words: usize) -> bool {
        words % self.size(widths) == 0 && words <= self.most * self.size(widths)
    }

    /// The first line of a refusal; none where there is an answer.
    fn refused(&self, files: &Three, given: &[u8]) -> Option<String> {
        if given.len() % 4 != 0 || files.iter().any(|file| file.len() % 4 != 0) {
            return Some("refused 4 at 0".to_string());
        }
        if !self.fits(&Widths::of(&words(&files[0])), given.len() / 4) {
            return Some(self.refusal.to_string());
        }
        Some(expected(files).lines().next()?.to_string()).filter(|line| line.starts_with("refused"))
    }
}

/// A board in a folder, and beside it the file.
struct Asked<'a> {
    kind: &'a Kind,
    folder: &'a Path,
    files: &'a Three,
    file: &'a Path,
}

impl Asked<'_> {
    /// Asks with lines and with JSON. Gives what is said of a refusal; none where there is an answer.
    fn check(&self, given: &[u8]) -> Option<String> {
        fs::write(self.file, given).expect("written");
        let about = format!("{} {}, {} bytes", self.kind.command, self.folder.display(), given.len());
        let ask =
            |options: &[&str]| tirfolma(words_of(&[&[self.kind.command], options].concat(), [self.folder, self.file]));
        let [ran, json] = [ask(&[]), ask(&["--json"])];
        assert_eq!((ran.errors(), json.errors(), ran.status), ("", "", json.status), "{about}");
        let [object] = &objects(json.text())[..] else { panic!("{about}: {}", json.text()) };
        let Some(refusal) = self.kind.refused(self.files, given) else {
            assert!(ran.status < 2 && !ran.text().contains("refused") && object.text("answer") != "refused", "{about}");
            return None;
        };
        let said = format!("refused {} at {}", object.number("number"), object.number("passed"));
        assert_eq!((object.text("answer"), &said, ran.status), ("refused", &refusal, 1), "{about}");
        assert_eq!(object.keys(), ["answer", "explanation", "number", "passed"]);
        let why = object.text("explanation");
        assert_eq!(ran.text(), format!("{refusal}\n    {why}\n{NOTE}\n"), "{about}");
        Some(why.to_string())
    }
}

/// The explanation of a bad file, as far as the board does not tell of another curve.
fn other_words(kind: &Kind, file: &Path, words: usize, board: &[u32]) -> String {
    let widths = Widths::of(board);
    let (one, size, [before, address]) = (kind.one, kind.size(&widths), kind.parts(&widths));
    let counted = |number: usize, what: &str| format!("{number} {what}{}", if number == 1 { "" } else { "s" });
    let whole = counted(words / size, one);
    let given = match (words / size, words % size) {
        (0, _) => format!("less than a {one}"),
        (_, 0) => format!("which are {whole}"),
        (_, more) => format!("which are {whole} and {} more", counted(more, "word")),
    };
    let part = if one == "note" { "time" } else { "signature" };
    format!(
        "{} has {}, {given}: on this board, which is on {}, a {one} has {size} words, {before} of {part} and {address} of \
         address, and {}",
        file.display(),
        counted(words, "word"),
        widths.curve,
        kind.more
    )
}

/// The curves of which so many words would do.
fn would_fit(kind: &Kind, words: usize, own: &Widths) -> Vec<&'static str> {
    let others = [0, 2, 4].map(|word| Widths::of_traits(word).expect("a curve")).into_iter();
    others.filter(|other| other.curve != own.curve && kind.fits(other, words)).map(|other| other.curve).collect()
}

/// What is to be looked at first.
fn look(kind: &Kind, words: usize, own: &Widths) -> &'static str {
    if words > kind.most * kind.size(own) {
        "its size"
    } else {
        "how it was written"
    }
}

/// One, as many as there may be, one more, and words at their end that are none.
#[test]
fn how_many_there_may_be() {
    let temp = Temp::new("many");
    let file = temp.join("file");
    let mut curves = Vec::new();
    for name in ["election", "county", "nation", "genesis-alone", "tampered-ballot", "roll-not-rising"] {
        let files = sample(name);
        let board = words(&files[0]);
        let own = Widths::of(&board);
        curves.push(own.curve);
        let folder = root().join("samples").join(name);
        let is_accepted = expected(&files).starts_with("accepted");
        for kind in &KINDS {
            let (asked, size, most) =
                (Asked { kind, folder: &folder, files: &files, file: &file }, kind.size(&own), kind.most);
            let one = if is_accepted { kind.of_board(&board) } else { vec![7; size] };
            for number in [0, 1, 2, most - 1, most] {
                let why = asked.check(&bytes(&one.repeat(number)));
                assert_eq!(why.is_none(), is_accepted, "{name}, {number} of {kind:?}");
            }
            let lengths = [1, size - 1, size + 1, 3 * size - 1, most * size - 1, most * size + 1, (most + 1) * size];
            for length in lengths.into_iter().chain([2 * most * size, (most + 1) * size - 1]) {
                let why = asked.check(&bytes(&one.repeat(2 * most + 1)[..length])).expect("a bad file");
                let begins = other_words(kind, &file, length, &board);
                assert!(why.starts_with(&begins), "{name}: {why}\n{begins}");
                let rest = format!(". Look at {}.", look(kind, length, &own));
                assert_eq!(why[begins.len()..] == rest, would_fit(kind, length, &own).is_empty(), "{name}: {why}");
            }
        }
    }
    assert_eq!(curves[..3], ["secp256r1", "secp384r1", "secp521r1"]);
}

/// Those of another curve's width are refused, with that curve named; where they are as many words as some of this board's, they are taken.
#[test]
fn other_widths() {
    let temp = Temp::new("widths");
    let file = temp.join("file");
    for (name, kind) in
        ["election", "federation", "county", "nation"].into_iter().flat_map(|name| KINDS.map(|k| (name, k)))
    {
        let files = sample(name);
        let board = words(&files[0]);
        let (own, mut fit) = (Widths::of(&board), 0);
        let folder = root().join("samples").join(name);
        let asked = Asked { kind: &kind, folder: &folder, files: &files, file: &file };
        let sizes = [0, 2, 4].map(|word| kind.size(&Widths::of_traits(word).expect("a curve")));
        for length in [1, 2, 3, kind.most].into_iter().flat_map(|number| sizes.map(|size| number * size)) {
            let Some(why) = asked.check(&bytes(&vec![7; length])) else { continue };
            let traits_word = match traits(&board) {
                Some(word) => format!("the traits word, {word:08x} at word 18, byte 72"),
                None => "item 1 (genesis), which has no traits word, so that the board is on secp256r1".to_string(),
            };
            let right = format!(
                "{}; {length} words would fit {}. Look at {}, at whether the {}s are of this board, and at {traits_word}.",
                other_words(&kind, &file, length, &board),
                would_fit(&kind, length, &own).join(", or "),
                look(&kind, length, &own),
                kind.one
            );
            assert_eq!(why, right, "{name}");
            fit += 1;
        }
        assert!(fit > 4, "{name}: only {fit} of {kind:?}");
        // Three of the first curve's receipts are two of the second's; seven of its notes are five, and nine of them five of the third's.
        let [first, second, third] =
            [3 * 24, 7 * 10, 9 * 10].map(|length| asked.check(&bytes(&vec![7; length])).is_none());
        let right = match (kind.one, own.curve) {
            (_, "secp256r1") => [kind.one == "receipt", kind.one == "note", kind.one == "note"],
            ("receipt", "secp384r1") => [true, false, false],
            ("note", "secp384r1") => [false, true, false],
            ("note", _) => [true, false, true],
            _ => [false; 3],
        };
        assert_eq!([first, second, third], right, "{name}, {kind:?}");
    }
}

/// Refused boards, with the refusal and the curve that they are read by: too long, no board at all, with a traits word that is refused.
fn refused_boards() -> [(&'static str, &'static str, Three); 6] {
    let mut long = sample("nation");
    long[0].resize(4 * (MAX_WORDS + 1), 0);
    let mut traits = sample("nation");
    traits[0][4 * 18 + 3] = 6;
    let no_genesis = [bytes(&[0x1002_0000, 1, 2]), Vec::new(), Vec::new()];
    [
        ("1 at 0", "secp521r1", long),
        ("4 at 0", "secp256r1", no_genesis),
        ("3 at 0", "secp256r1", Default::default()),
        ("7 at 0", "secp256r1", traits),
        ("20 at 0", "secp256r1", sample("roll-not-rising")),
        ("15 at 17", "secp256r1", sample("wrong-key")),
    ]
}

#[test]
fn a_bad_file_comes_before_the_audit() {
    let temp = Temp::new("before");
    let file = temp.join("file");
    for ((refusal, curve, files), kind) in refused_boards().iter().flat_map(|board| KINDS.map(|kind| (board, kind))) {
        let folder = temp.board("board", files);
        let asked = Asked { kind: &kind, folder: &folder, files, file: &file };
        assert_eq!(expected(files), format!("refused {refusal}\n"));
        let size = kind.size(&Widths::of(&words(&files[0])));
        for number in [0, 1, kind.most] {
            let why = asked.check(&bytes(&vec![7; number * size])).expect("a refused board");
            assert_eq!(why, audited(&folder), "what audit --explain says");
        }
        for length in [1, size + 1, (kind.most + 1) * size] {
            let given = bytes(&vec![7; length]);
            assert_eq!(kind.refused(files, &given).as_deref(), Some(kind.refusal));
            let why = asked.check(&given).expect("a bad file");
            let rule = format!("on this board, which is on {curve}, a {} has {size} words", kind.one);
            assert!(why.contains(&rule), "{why}");
        }
    }
}

/// Of a curve that the board would be on, were its traits word right; and where nothing tells the curve.
#[test]
fn other_widths_and_refused_boards() {
    let temp = Temp::new("would");
    let file = temp.join("file");
    let [_, no_genesis, none, traits, ..] = &refused_boards();
    for (kind, length) in KINDS.into_iter().zip([49, 18]) {
        let fit = |(_, _, files): &(&str, &str, Three)| {
            let folder = temp.board("board", files);
            let asked = Asked { kind: &kind, folder: &folder, files, file: &file };
            asked.check(&bytes(&vec![7; length])).expect("those of another curve")
        };
        let why = fit(traits);
        let wrong = "the traits word, 00000006 at word 18, byte 72: bits 1 and 2 give the number 3, which no curve has";
        assert!(why.contains(&format!("; {length} words would fit secp521r1. ")) && why.contains(wrong), "{why}");
        for board in [no_genesis, none] {
            let why = fit(board);
            let look = format!(". Look at how it was written and at whether the {}s are of this board.", kind.one);
            assert!(why.ends_with(&format!("; {length} words would fit secp521r1{look}")), "{why}");
        }
    }
}

/// The explanation that audit gives of a refused board.
fn audited(folder: &Path) -> String {
    let ran = tirfolma(words_of(&["audit", "--explain", "--json"], [folder]));
    objects(ran.text())[0].text("explanation").to_string()
}

/// The one rule about files holds for this one, too, and comes first.
#[test]
fn a_file_that_is_not_of_whole_words() {
    let temp = Temp::new("odd");
    let file = temp.join("file");
    let name = file.display();
    let end = "which is no multiple of 4: the last word is not whole. Look at how it was copied.";
    let ends = "which are no multiples of 4: the last words are not whole. Look at how they were copied.";
    for (sample_name, kind) in ["election", "nation", "truncated"].into_iter().flat_map(|name| KINDS.map(|k| (name, k)))
    {
        let whole = sample(sample_name);
        let folder = temp.board(sample_name, &whole);
        let bytes_of_one = 4 * kind.size(&Widths::of(&words(&whole[0])));
        for length in [1, 2, 3, bytes_of_one + 1, bytes_of_one * (kind.most + 1) + 2, bytes_of_one * kind.most + 3] {
            let asked = Asked { kind: &kind, folder: &folder, files: &whole, file: &file };
            let why = asked.check(&vec![7; length]).expect("no whole words");
            let bytes = if length == 1 { "byte" } else { "bytes" };
            assert_eq!(why, format!("{name} has {length} {bytes}, {end}"));
        }
        let mut odd = whole.clone();
        odd[1].push(0);
        write(&folder, &odd);
        let asked = Asked { kind: &kind, folder: &folder, files: &odd, file: &file };
        let verdicts = format!("verdicts.words has {} bytes", odd[1].len());
        assert_eq!(asked.check(&[7; 5]), Some(format!("{verdicts} and {name} has 5 bytes, {ends}")));
        // Also before a bad file.
        for length in [0, 4, bytes_of_one] {
            assert_eq!(asked.check(&vec![7; length]), Some(format!("{verdicts}, {end}")));
        }
    }
}

/// No answer, not even of the board, and a message that names the file.
#[test]
fn files_that_cannot_be_read() {
    let temp = Temp::new("unread");
    let at = |name: &str| temp.join(name);
    fs::create_dir(at("folder")).expect("made");
    write(&at("board"), &sample("election"));
    symlink("nowhere", at("dangling")).expect("linked");
    symlink("round", at("round")).expect("linked");
    let made = run(shell("mkfifo \"$1\"", [at("pipe")]));
    assert_eq!((made.status, made.errors()), (0, ""));
    let mut files: Vec<PathBuf> =
        ["missing", "missing/in", "folder", "board", "dangling", "round", "pipe"].map(at).into();
    files.extend(["/dev/null", "/dev/zero", "/dev/tty", "/proc/self/mem", "/proc/version"].map(PathBuf::from));
    for (name, file) in
        ["election", "wrong-key"].into_iter().flat_map(|name| files.iter().map(move |file| (name, file)))
    {
        for options in KINDS.iter().flat_map(|kind| [vec![kind.command], vec![kind.command, "--json"]]) {
            let folder = root().join("samples").join(name);
            let ran = tirfolma(words_of(&options, [&folder, file]));
            ran.assert_failed(name);
            assert!(ran.errors().contains(&file.display().to_string()), "{}", ran.errors());
        }
    }
}

#[test]
fn a_file_that_is_closed() {
    let temp = Temp::new("closed");
    fs::set_permissions(temp.path(), Permissions::from_mode(0o755)).expect("opened");
    let (folder, file) = (temp.board("board", &sample("election")), temp.join("file"));
    fs::write(&file, []).expect("written");
    let ask = |kind: &Kind| as_other(":", words_of(&[kind.command], [&folder, &file]));
    for (kind, answer) in KINDS.iter().zip(["", "agree\n"]) {
        let ran = ask(kind);
        assert_eq!((ran.status, ran.text()), (0, answer));
    }
    fs::set_permissions(&file, Permissions::from_mode(0o000)).expect("closed");
    for kind in &KINDS {
        let ran = ask(kind);
        ran.assert_failed("a closed file");
        assert!(ran.errors().to_lowercase().contains("permission denied"), "{}", ran.errors());
    }
}

/// A name is a file's, whatever it looks like: - is not standard input, and what steers a terminal is not printed.
#[test]
fn names_of_files() {
    let temp = Temp::new("names");
    let folder = temp.board("board", &sample("election"));
    let board = words(&sample("election")[0]);
    let asked = |kind: &Kind, name: &OsStr| {
        let mut command = Command::new(PROGRAM);
        command.current_dir(temp.path()).args([kind.command, "--"]).args([folder.as_os_str(), name]);
        run(command)
    };
    for (name, shown) in [
        (&b"-"[..], "-"),
        (b"--json", "--json"),
        (b"a b", "a b"),
        (b"a\nb", "a\\nb"),
        (b"a\x1b[31mb", "a\\x1b[31mb"),
        (b"a\xffb", "a\\xffb"),
    ] {
        let name = OsStr::from_bytes(name);
        for (kind, answer) in KINDS.iter().zip(["1 16\n", "agree\n"]) {
            let _ = fs::remove_file(temp.join(name));
            let ran = asked(kind, name);
            ran.assert_failed(shown);
            assert_eq!(ran.errors(), format!("tirfolma: {shown}: No such file or directory\n"));
            fs::write(temp.join(name), bytes(&kind.of_board(&board))).expect("written");
            let ran = asked(kind, name);
            assert_eq!((ran.text(), ran.status), (answer, 0));
            fs::write(temp.join(name), [7; 4]).expect("written");
            let ran = asked(kind, name);
            assert!(
                ran.lines()[1].starts_with(&format!("    {shown} has 1 word, less than a {}: ", kind.one)),
                "{ran:?}"
            );
        }
    }
}

/// A file of a GiB takes little memory, and is told by all its words.
#[test]
fn a_file_of_a_gib() {
    let temp = Temp::new("gib");
    let file = temp.join("file");
    fs::File::create(&file).and_then(|file| file.set_len(1 << 30)).expect("made");
    for (name, kind) in ["election", "nation", "wrong-key"].into_iter().flat_map(|name| KINDS.map(|kind| (name, kind)))
    {
        let folder = root().join("samples").join(name);
        let words = words_of(&[PROGRAM, kind.command], [&folder, &file]);
        let ran = run(shell("ulimit -v 300000 && exec \"$@\"", words));
        assert_eq!((ran.lines()[0], ran.status, ran.errors()), (kind.refusal, 1, ""));
        assert!(ran.lines()[1].contains(" has 268435456 words, "), "{}", ran.text());
    }
}
