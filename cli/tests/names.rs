//! Names of folders, whatever bytes they have: one line for each, names told apart as --help says, and JSON that gives the name back.

mod common;

use common::json::{objects, parse, Json};
use common::*;
use std::ffi::{OsStr, OsString};
use std::fs;
use std::os::unix::ffi::{OsStrExt, OsStringExt};
use std::path::PathBuf;

const SOUND: &str = "accepted 1 1 0 0";

/// Names that are easily taken for something else.
const TEXTS: &[&str] = &[
    "plain",
    " ",
    "a b",
    " a",
    "a ",
    "a\nb",
    "a\\nb",
    "\n",
    "\n\n",
    "a\tb",
    "a\\tb",
    "\t",
    "\\",
    "\\\\",
    "a\\",
    "\\x41",
    "A",
    "\\x0a",
    "\r",
    "a\rb",
    "\u{1b}[31mred",
    "\u{7f}",
    "\u{0001}",
    "\"",
    "'",
    "\"quoted\"",
    "$HOME",
    "`id`",
    "*",
    "a;b",
    "é",
    "e\u{301}",
    "日本語",
    "🗳",
    "\u{202e}abc",
    "\u{200b}",
    "\u{85}",
    "\u{2028}",
    "\u{feff}",
    "-",
    "--",
    "-x",
    "--json",
    "--rows",
    "a\tnot audited",
    "accepted 1 1 0 0",
    "x\taccepted 1 1 0 0\ny",
    "{}",
    "null",
    "\\u0041",
    "...",
    ". .",
];

/// Names that are no UTF-8: alone, in text, cut short, too long, surrogates.
const BYTES: &[&[u8]] = &[
    b"\xff",
    b"\xfe",
    b"a\xffb",
    b"\xc3",
    b"\xc3\x28",
    b"\xe2\x82",
    b"\xc0\xaf",
    b"\xed\xa0\x80",
    b"\xf4\x90\x80\x80",
];

fn odd_names() -> Vec<OsString> {
    let mut names: Vec<Vec<u8>> = TEXTS.iter().map(|name| name.as_bytes().to_vec()).collect();
    names.extend(BYTES.iter().map(|name| name.to_vec()));
    // The character that stands in for what is no UTF-8.
    names.push("\u{fffd}".as_bytes().to_vec());
    // Every byte that a name may have.
    names.extend((1..=255u8).filter(|&b| b != b'/' && b != b'.').map(|b| vec![b'_', b, b'_']));
    names.push(vec![b'n'; 255]);
    names.sort();
    names.dedup();
    names.into_iter().map(OsString::from_vec).collect()
}

/// A folder with a board under each name; the paths in the order of the names' bytes.
fn boards() -> (Temp, Vec<PathBuf>) {
    let temp = Temp::new("names");
    let files = sample("genesis-alone");
    let paths: Vec<PathBuf> = odd_names().iter().map(|name| temp.board(name, &files)).collect();
    assert!(paths.len() > 300);
    (temp, paths)
}

#[test]
fn a_line_for_each_and_names_told_apart() {
    let (temp, paths) = boards();
    let ran = tirfolma(words_of(&["audit"], [temp.path()]));
    assert_eq!((ran.status, ran.errors()), (0, ""));
    // No byte that steers a terminal but the ends of the lines and the tab in each.
    assert_eq!(ran.out.iter().filter(|&&b| b == b'\n').count(), paths.len());
    assert_eq!(ran.out.iter().filter(|&&b| b == b'\t').count(), paths.len());
    assert!(ran.out.iter().all(|&b| matches!(b, b'\n' | b'\t') || b >= b' ' && b != 0x7f));
    let lines: Vec<(PathBuf, &str)> = ran.text().split_terminator('\n').map(parted).collect();
    let right: Vec<(PathBuf, &str)> = paths.into_iter().map(|path| (path, SOUND)).collect();
    assert_eq!(lines, right);
}

#[test]
fn names_are_printed_as_the_help_says() {
    let temp = Temp::new("shown");
    let files = sample("genesis-alone");
    for (name, shown) in [
        (&b"a b"[..], "a b"),
        (b"a\\b", "a\\\\b"),
        (b"a\nb", "a\\nb"),
        (b"a\tb", "a\\tb"),
        (b"a\x1bb", "a\\x1bb"),
        (b"a\rb", "a\\x0db"),
        (b"a\x7fb", "a\\x7fb"),
        (b"a\xffb", "a\\xffb"),
        ("é日🗳".as_bytes(), "é日🗳"),
    ] {
        let folder = temp.board(OsStr::from_bytes(name), &files);
        let ran = tirfolma(words_of(&["audit"], [&folder]));
        assert_eq!(ran.text(), format!("{}/{shown}\t{SOUND}\n", temp.path().display()));
    }
}

/// Names that begin with a dash are operands behind two dashes, or with a way before them.
#[test]
fn a_leading_dash() {
    let temp = Temp::new("dash");
    let files = sample("genesis-alone");
    for name in ["-", "--", "-x", "--json", "--rows", "--help", "--jobs"] {
        temp.board(name, &files);
        let mut command = std::process::Command::new(PROGRAM);
        command.current_dir(temp.path()).args(["audit", "--", name]);
        let ran = run(command);
        assert_eq!((ran.text(), ran.status), (format!("{name}\t{SOUND}\n").as_str(), 0), "{name}");
        let path = format!("./{name}");
        let mut command = std::process::Command::new(PROGRAM);
        command.current_dir(temp.path()).args(["audit", &path]);
        let ran = run(command);
        assert_eq!((ran.text(), ran.status), (format!("{path}\t{SOUND}\n").as_str(), 0), "{path}");
    }
}

/// The bytes of a folder's name, from its object.
fn folder_of(object: &Json) -> PathBuf {
    match object.find("folder_hex") {
        None => PathBuf::from(object.text("folder")),
        Some(_) => {
            let hex = object.text("folder_hex");
            let pairs = hex.as_bytes().chunks(2).map(|pair| std::str::from_utf8(pair).expect("digits"));
            let bytes: Vec<u8> = pairs.map(|pair| u8::from_str_radix(pair, 16).expect("a byte")).collect();
            assert_eq!(object.text("folder"), String::from_utf8_lossy(&bytes), "{hex}");
            assert!(std::str::from_utf8(&bytes).is_err(), "{hex} is UTF-8");
            PathBuf::from(OsString::from_vec(bytes))
        }
    }
}

#[test]
fn json_gives_the_name_back() {
    let (temp, paths) = boards();
    let ran = tirfolma(words_of(&["audit", "--json"], [temp.path()]));
    assert_eq!((ran.status, ran.errors()), (0, ""));
    let found: Vec<PathBuf> = objects(ran.text()).iter().map(folder_of).collect();
    assert_eq!(found, paths);
}

/// Messages on standard error name the file on one line, too.
#[test]
fn messages_are_one_line_each() {
    let temp = Temp::new("messages");
    let paths: Vec<PathBuf> = odd_names().iter().map(|name| temp.join(name)).collect();
    for path in &paths {
        fs::create_dir(path).expect("made");
        fs::write(path.join(NAMES[0]), []).expect("written");
    }
    let ran = tirfolma(words_of(&["audit"], [temp.path()]));
    assert_eq!(ran.status, 2);
    assert!(ran.err.iter().all(|&b| b == b'\n' || b >= b' ' && b != 0x7f));
    let named = |line: &str| {
        let name = line.strip_prefix("tirfolma: ").and_then(|line| line.rsplit_once(": ")).expect("a message").0;
        PathBuf::from(OsString::from_vec(name_back(name).expect("a name")))
    };
    let found: Vec<PathBuf> = ran.errors().split_terminator('\n').map(named).collect();
    let right: Vec<PathBuf> = paths.iter().map(|path| path.join(NAMES[1])).collect();
    assert_eq!(found, right);
    // In JSON the message is a text, which parses, and the name comes back as well.
    let ran = tirfolma(words_of(&["audit", "--json"], [temp.path()]));
    let found: Vec<PathBuf> = objects(ran.text()).iter().map(folder_of).collect();
    assert_eq!(found, paths);
}

/// The parser of the tests refuses what is no JSON.
#[test]
fn the_parser_is_strict() {
    for text in [
        "",
        "{",
        "}",
        "{}{}",
        "{} x",
        "{\"a\":1,}",
        "{\"a\":01}",
        "{\"a\":1 \"b\":2}",
        "{a:1}",
        "{'a':1}",
        "[1,]",
        "[,1]",
        "\"\n\"",
        "\"\\x41\"",
        "\"\\u12\"",
        "\"\\ud800\"",
        "\"\\ud800\\u0041\"",
        "\"\\udc00\"",
        "1.0",
        "1e3",
        "-1",
        "+1",
        ".5",
        "tru",
        "nul",
        "\"",
        "{\"a\":1,\"a\":2}",
        "18446744073709551616",
        "{\"a\"}",
        "{\"a\":}",
        "[1 2]",
        "\"\u{1}\"",
        "\u{a0}1",
    ] {
        assert!(parse(text).is_err(), "{text:?} was taken");
    }
    let text = " { \"a\" : [ 1 , \"\\u00e9\\ud83d\\uddf3\\n\\/\" , null , true , { } , [ ] ] } ";
    let value = parse(text).expect("JSON");
    assert_eq!(value.list("a")[1], Json::Text("é🗳\n/".to_string()));
    assert_eq!(value.list("a").len(), 6);
}

/// Lists of folders have each name as it is printed, and give it back: whatever its bytes, each board is audited, and once.
#[test]
fn lists_of_any_names() {
    let (temp, paths) = boards();
    let lists = Temp::new("lists");
    let out = lists.join("out");
    let ran = tirfolma(words_of(&["plan", "--machines", "3", "--out"], [&out, &temp.path().to_path_buf()]));
    assert_eq!((ran.status, ran.errors()), (0, ""));
    let mut audited = Vec::new();
    for machine in 1..=3 {
        let list = out.join(format!("machine-{machine}.list"));
        let text = fs::read_to_string(&list).expect("text, whatever the names are");
        let ran = tirfolma(words_of(&["audit", "--from"], [&list]));
        assert_eq!((ran.status, ran.errors()), (0, ""));
        let answers: String = text.lines().map(|name| format!("{name}\t{SOUND}\n")).collect();
        assert_eq!(ran.text(), answers, "in the order of the list, under the names that it has");
        audited.extend(ran.lines().into_iter().map(|line| parted(line).0));
    }
    audited.sort_by(|a, b| a.as_os_str().as_bytes().cmp(b.as_os_str().as_bytes()));
    assert_eq!(audited, paths);
}
