//! `tirfolma show`: what it must say of a board is told here from the words, by the paper's rules, and held to the independent reference as
//! well; nothing is taken from the program's own source.

use reference::audit::{audit, Board};
use reference::checks::{case, Group, Makers};
use reference::damage::no_board;
use reference::format::*;
use reference::plan::{Laid, Link, Spec};
use reference::program::{bytes, words, PROGRAM_WORDS};
use reference::random::Random;
use reference::sound::{make, make_with, Made, Shape, Traits};
use std::collections::{BTreeSet, HashMap};
use std::ffi::{OsStr, OsString};
use std::fs::{self, File};
use std::os::unix::ffi::OsStringExt;
use std::path::{Path, PathBuf};
use std::process::{Command, Output, Stdio};
use std::sync::atomic::{AtomicUsize, Ordering};

#[path = "common/widths.rs"]
mod widths;
use widths::{traits, Widths};

const FILES: [&str; 3] = ["board.words", "verdicts.words", "roll.words"];
const HEADING: [&str; 9] = ["item", "main", "kind", "type", "time", "address", "parent", "session", "closed by"];
/// The keys of the object of an accepted board without a traits word, and those of an item.
const BOARD_KEYS: [&str; 7] = ["folder", "answer", "passed", "curve", "hash", "widths", "list"];
const KEYS: [&str; 13] = [
    "item",
    "main",
    "kind",
    "code",
    "type",
    "place",
    "time",
    "date",
    "address",
    "parent",
    "session",
    "closed_by",
    "state",
];

// ---- folders and runs ----

/// A folder of its own, removed at the end.
struct Temporary(PathBuf);

impl Temporary {
    fn new() -> Temporary {
        static COUNT: AtomicUsize = AtomicUsize::new(0);
        let number = COUNT.fetch_add(1, Ordering::Relaxed);
        let path = std::env::temp_dir().join(format!("tirfolma-show-{}-{number}", std::process::id()));
        fs::create_dir(&path).expect("a temporary folder");
        Temporary(path)
    }

    /// A board's files in the folder, in the place of those before.
    fn write(&self, board: Board) {
        write(&self.0, [board.words, board.verdicts, board.roll].map(bytes));
    }
}

impl Drop for Temporary {
    fn drop(&mut self) {
        let _ = fs::remove_dir_all(&self.0);
    }
}

fn write(folder: &Path, files: [Vec<u8>; 3]) {
    for (name, file) in FILES.iter().zip(files) {
        fs::write(folder.join(name), file).expect("a file is written");
    }
}

fn root() -> PathBuf {
    Path::new(env!("CARGO_MANIFEST_DIR")).join("..")
}

/// The stored boards that have all three files.
fn stored() -> Vec<PathBuf> {
    let folders = ["tests/boards", "samples"].map(|name| fs::read_dir(root().join(name)).expect("stored boards"));
    let paths = folders.into_iter().flatten().map(|entry| entry.expect("an entry").path());
    let mut paths: Vec<PathBuf> = paths.filter(|path| FILES.iter().all(|name| path.join(name).is_file())).collect();
    paths.sort();
    paths
}

fn run(arguments: &[&OsStr]) -> Output {
    Command::new(env!("CARGO_BIN_EXE_tirfolma")).args(arguments).output().expect("the program runs")
}

/// What `show` prints for a folder, which must end with a status and without a word on standard error.
fn show(what: &str, folder: &Path, json: bool, status: i32) -> String {
    let mut arguments: Vec<&OsStr> = vec!["show".as_ref(), folder.as_os_str()];
    if json {
        arguments.insert(1, "--json".as_ref());
    }
    let output = run(&arguments);
    assert_eq!(String::from_utf8_lossy(&output.stderr), "", "{what}: standard error");
    assert_eq!(output.status.code(), Some(status), "{what}: exit status");
    String::from_utf8(output.stdout).expect("UTF-8")
}

// ---- what must be shown ----

struct Row {
    item: usize,
    main: Option<usize>,
    head: u32,
    place: usize,
    /// None where the item is cut.
    time: Option<u64>,
    /// Its hexadecimal digits; none where the item is cut, too.
    address: Option<String>,
    parent: Option<usize>,
    session: Option<usize>,
    closer: Option<usize>,
}

struct Expected {
    /// As the auditor prints it.
    answer: String,
    number: u32,
    passed: usize,
    /// Whether an item is at fault: the one behind those that pass.
    at_fault: bool,
    /// The traits word, where the first item has one.
    traits: Option<u32>,
    widths: Widths,
    rows: Vec<Row>,
}

impl Expected {
    /// Of the bytes of a folder's files, by the reference.
    fn of(files: &[Vec<u8>; 3]) -> Expected {
        let whole = files.iter().all(|file| file.len() % 4 == 0);
        let [board, verdicts, roll] = files.each_ref().map(|file| words(file));
        let (mut index, mut ballots) = (vec![0; INDEX_NEED], vec![0; BALLOTS_NEED]);
        let mut report = audit(&board, &verdicts, &roll, &mut index, &mut ballots);
        if !whole {
            report = reference::audit::refused(4, 0);
        }
        let passed = report.items as usize;
        let (answer, at_fault) = match report.number {
            0 => (format!("accepted {passed} {} {} {}", report.mains, report.ballots, report.weight), false),
            number => (
                format!("refused {number} at {passed}"),
                match number {
                    1 => passed == MAX_ITEMS,
                    4 => whole,
                    5..=16 | 21 => true,
                    _ => false,
                },
            ),
        };
        // No more words are read than show that there are too many.
        let mut rows = by_heads(&board[..board.len().min(MAX_WORDS + 1)], passed, at_fault);
        // Where the words end behind the items that pass, no item is at fault.
        let at_fault = at_fault && rows.len() > passed;
        link(&board, &mut rows[..passed]);
        hold_to_reference(Board { words: &board, verdicts: &verdicts, roll: &roll }, &rows[..passed]);
        let (traits, widths) = (traits(&board), Widths::of(&board));
        Expected { answer, number: report.number, passed, at_fault, traits, widths, rows }
    }

    fn state(&self, item: usize) -> &'static str {
        match item {
            _ if item <= self.passed => "passed",
            _ if item == self.passed + 1 && self.at_fault => "refused",
            _ => "not audited",
        }
    }
}

/// The items as far as their heads can be read; the one at fault, whatever its head.
fn by_heads(board: &[u32], passed: usize, at_fault: bool) -> Vec<Row> {
    let (mut rows, mut place, mut mains, widths) = (Vec::new(), 0, 0, Widths::of(board));
    while let Some(&head) = board.get(place) {
        let item = rows.len() + 1;
        let readable = widths.is_readable(head);
        if !readable && !(at_fault && item == passed + 1) {
            break;
        }
        mains += usize::from(kind(head) == MAIN);
        let next = place + widths.frame() + count(head);
        let time = (next <= board.len()).then(|| time(board, place + 1 + count(head) + 2 * widths.address));
        let main = (kind(head) == MAIN).then_some(mains);
        let address = board.get(next - widths.address..next).filter(|_| time.is_some());
        let address = address.map(|words| words.iter().map(|word| format!("{word:08x}")).collect());
        rows.push(Row { item, main, head, place, time, address, parent: None, session: None, closer: None });
        if !readable {
            break;
        }
        place = next;
    }
    rows
}

/// Parent, session and closer of items that pass, by the paper. Parent: the first earlier item with that address, among main items for
/// types up to 48, else among hidden ones. Session: the type 16 met on following parents up.
fn link(board: &[u32], rows: &mut [Row]) {
    let (mut addresses, widths) = ([HashMap::new(), HashMap::new()], Widths::of(board));
    let address = |at: usize| board[at..at + widths.address].to_vec();
    for at in 0..rows.len() {
        let (item, code, after) = (rows[at].item, code(rows[at].head), rows[at].place + 1 + count(rows[at].head));
        let parent: Option<usize> = addresses[usize::from(code > TRACK)].get(&address(after)).copied();
        rows[at].parent = parent;
        rows[at].session = match code {
            SESSION => Some(item),
            _ => parent.and_then(|parent| rows[parent - 1].session),
        };
        if let (CAST | SPOIL, Some(parent)) = (code, parent) {
            rows[parent - 1].closer = Some(item);
        }
        let own = &mut addresses[usize::from(kind(rows[at].head) == HIDDEN)];
        own.entry(address(after + widths.frame() - 1 - widths.address)).or_insert(item);
    }
}

/// The reference says the same of these items: with a closing word they are a sound board, if there is room for it.
fn hold_to_reference(given: Board, rows: &[Row]) {
    let Some(last) = rows.last() else { return };
    let mut begun = given.words[..last.place + Widths::of(given.words).frame() + count(last.head)].to_vec();
    begun.push(CLOSING << 28 | rows.len() as u32);
    if begun.len() > MAX_WORDS {
        return;
    }
    let (mut index, mut ballots) = (vec![0; INDEX_NEED], vec![0; BALLOTS_NEED]);
    let verdicts = &given.verdicts[..VERDICT_WORDS * rows.len()];
    let report = audit(&begun, verdicts, given.roll, &mut index, &mut ballots);
    assert_eq!(report.number, 0, "the items that pass are sound");
    for (row, told) in rows.iter().zip(index.chunks(INDEX_ROW)) {
        let or_none = |item: Option<usize>| item.map_or(NO_ITEM, |item| item as u32);
        assert_eq!(told[index_row::PLACE], row.place as u32);
        assert_eq!(told[index_row::PARENT], row.parent.unwrap_or(row.item) as u32);
        assert_eq!(told[index_row::SESSION], or_none(row.session));
        assert_eq!(told[index_row::CLOSED_BY], or_none(row.closer));
        assert!(row.main.is_none_or(|main| main as u32 == told[index_row::MAINS_BEFORE] + 1));
    }
}

/// As the paper's table has them.
fn type_name(code: u32) -> String {
    let names = [
        (1, "genesis"),
        (2, "election text"),
        (3, "contest"),
        (4, "threshold"),
        (5, "authorizer"),
        (6, "round"),
        (16, "session"),
        (17, "voter commitment"),
        (18, "server commitment"),
        (19, "ballot"),
        (20, "cast"),
        (21, "spoil"),
        (32, "extraction intent"),
        (33, "extraction data"),
        (34, "confirmation"),
        (48, "track start"),
        (49, "verifier"),
        (50, "voter opening"),
        (51, "server opening"),
    ];
    names.iter().find(|named| named.0 == code).map_or(format!("type {code}"), |named| named.1.to_string())
}

fn kind_name(head: u32) -> String {
    match kind(head) {
        1 => "main".to_string(),
        2 => "hidden".to_string(),
        kind => format!("kind {kind}"),
    }
}

/// Milliseconds since 1970 as a date, by counting years and months. Every 400 years have the same days.
fn date(milliseconds: u64) -> String {
    let leap = |year: u64| year % 4 == 0 && year % 100 != 0 || year % 400 == 0;
    let days = milliseconds / 86_400_000;
    let (mut year, mut days) = (1970 + days / 146_097 * 400, days % 146_097);
    while days >= 365 + u64::from(leap(year)) {
        days -= 365 + u64::from(leap(year));
        year += 1;
    }
    let mut month = 1;
    for length in [31, 28 + u64::from(leap(year)), 31, 30, 31, 30, 31, 31, 30, 31, 30, 31] {
        if days < length {
            break;
        }
        days -= length;
        month += 1;
    }
    let seconds = milliseconds / 1000;
    let clock = format!("{:02}:{:02}:{:02}", seconds / 3600 % 24, seconds / 60 % 60, seconds % 60);
    let sign = if year > 9999 { "+" } else { "" };
    format!("{sign}{year}-{month:02}-{:02}T{clock}.{:03}Z", days + 1, milliseconds % 1000)
}

// ---- the page ----

/// The columns of a line behind its mark; they stand two spaces apart or more.
fn columns(line: &str) -> Vec<&str> {
    line.get(2..).unwrap_or("").split("  ").map(str::trim).filter(|column| !column.is_empty()).collect()
}

/// A line of an item: its mark and its columns.
fn check_line(what: &str, line: &str, expected: &Expected, row: &Row) {
    let what = format!("{what}, item {}: {line:?}", row.item);
    let state = expected.state(row.item);
    let mark = [("passed", "  "), ("refused", "> "), ("not audited", "? ")].iter().find(|mark| mark.0 == state);
    assert!(line.starts_with(mark.expect("a mark").1), "{what}: the mark of an item that is {state}");
    let or_dash = |number: Option<usize>| number.map_or("-".to_string(), |number| number.to_string());
    let time = row.time.map_or("-".to_string(), date);
    let address = row.address.as_ref().map_or("-".to_string(), |digits| format!("{}...", &digits[..16]));
    let mut wanted =
        vec![row.item.to_string(), or_dash(row.main), kind_name(row.head), type_name(code(row.head)), time, address];
    let mut shown = columns(line);
    if state == "passed" {
        wanted.extend([or_dash(row.parent), or_dash(row.session)]);
        match row.closer {
            Some(closer) => {
                wanted.push(format!("{} {closer}", type_name(code(expected.rows[closer - 1].head))));
            }
            None if code(row.head) == BALLOT => wanted.push("open".to_string()),
            None => {}
        }
    } else {
        let told = shown.split_off(6.min(shown.len()));
        assert_eq!(told, ["?", "?"], "{what}: no parent and session");
    }
    assert_eq!(shown, wanted, "{what}");
}

fn check_page(what: &str, page: &str, name: &str, expected: &Expected) {
    assert!(page.ends_with('\n'), "{what}: the last line is whole");
    let mut lines: Vec<&str> = page.lines().collect();
    assert_eq!(lines[0], format!("{name}\t{}", expected.answer), "{what}: the first line");
    let Widths { curve, hash, .. } = expected.widths;
    let meaning = format!("{curve} with {hash}, sets of contests have {}", expected.widths.set_words());
    let line = lines.remove(1);
    match expected.traits {
        None => assert_eq!(line, format!("  no traits word: {meaning}"), "{what}: no traits word"),
        Some(word) => {
            let said = line.strip_prefix(&format!("  traits {word:08x} at word 18: ")).expect("the traits word");
            match word < 6 {
                true => assert_eq!(said, meaning, "{what}: the traits word"),
                // What is wrong with it stands before.
                false => {
                    let read = format!("; read as {meaning}");
                    assert!(said.starts_with("bit") && said.ends_with(&read), "{what}: {said}")
                }
            }
        }
    }
    let widths = widths_of(expected).map(|(name, words)| format!("{name} {words}")).join(", ");
    assert_eq!(lines.remove(1), format!("  widths in words: {widths}"), "{what}: the widths");
    assert_eq!(columns(lines[1]), HEADING, "{what}: the heading");
    // What a refused board's page ends with.
    let note = lines.last().is_some_and(|line| line.contains("no answer depends on them"));
    assert_eq!(note, expected.number != 0, "{what}: the note below explanations");
    let lines = &lines[..lines.len() - usize::from(note)];
    let (passed, others) = expected.rows.split_at(expected.passed);
    let (told, rest) = lines[2..].split_at(passed.len().min(lines.len() - 2));
    assert_eq!(told.len(), passed.len(), "{what}: a line for each item that passes");
    told.iter().zip(passed).for_each(|(line, row)| check_line(what, line, expected, row));
    if expected.number == 0 {
        assert_eq!(rest, [""; 0], "{what}: nothing behind the items");
        return;
    }
    let (wrong, after) = others.split_at(usize::from(expected.at_fault));
    let (told, rest) = rest.split_at(wrong.len());
    told.iter().zip(wrong).for_each(|(line, row)| check_line(what, line, expected, row));
    let reason = format!("> refused {}: ", expected.number);
    assert!(rest.first().is_some_and(|line| line.starts_with(&reason)), "{what}: {reason:?} stands behind the item");
    // Words on what is wrong, then the items that were not audited.
    let words = rest[1..].iter().take_while(|line| line.starts_with("  ")).count();
    let (words, told) = rest[1..].split_at(words);
    assert!(!words.is_empty() && words.iter().all(|line| columns(line).len() < 5), "{what}: words, not items");
    assert_eq!(words.contains(&"  not audited:"), !after.is_empty(), "{what}: what follows was not audited");
    assert_eq!(told.len(), after.len(), "{what}: a line for each item that was not audited");
    told.iter().zip(after).for_each(|(line, row)| check_line(what, line, expected, row));
}

// ---- JSON ----

#[derive(Debug, PartialEq)]
enum Value {
    Null,
    Number(u64),
    Text(String),
    List(Vec<Value>),
    Object(Vec<(String, Value)>),
}

/// A strict reader of one line of JSON. There are whole numbers only, and no true or false; a key stands once.
struct Json<'a>(&'a str);

impl<'a> Json<'a> {
    fn read(text: &str) -> Value {
        let mut json = Json(text);
        let value = json.value();
        assert_eq!(json.0, "\n", "an object, a line feed, nothing else");
        value
    }

    fn take(&mut self, token: &str) -> bool {
        let rest = self.0.strip_prefix(token);
        self.0 = rest.unwrap_or(self.0);
        rest.is_some()
    }

    fn must(&mut self, token: &str) {
        assert!(self.take(token), "{token:?} stands before {:.40?}", self.0);
    }

    fn value(&mut self) -> Value {
        if self.take("null") {
            Value::Null
        } else if self.take("[") {
            let mut list = Vec::new();
            while !self.take("]") {
                if !list.is_empty() {
                    self.must(",");
                }
                list.push(self.value());
            }
            Value::List(list)
        } else if self.take("{") {
            self.members()
        } else if self.0.starts_with('"') {
            Value::Text(self.text())
        } else {
            let (digits, rest) = self.0.split_at(self.0.bytes().take_while(u8::is_ascii_digit).count());
            assert!(digits == "0" || !digits.starts_with('0'), "a zero before the number {digits}");
            self.0 = rest;
            Value::Number(digits.parse().expect("a number"))
        }
    }

    fn members(&mut self) -> Value {
        let mut members: Vec<(String, Value)> = Vec::new();
        while !self.take("}") {
            if !members.is_empty() {
                self.must(",");
            }
            let key = self.text();
            assert!(members.iter().all(|member| member.0 != key), "{key} twice");
            self.must(":");
            members.push((key, self.value()));
        }
        Value::Object(members)
    }

    fn text(&mut self) -> String {
        self.must("\"");
        let mut units = Vec::new();
        while !self.take("\"") {
            let c = self.0.chars().next().expect("the text ends");
            self.0 = &self.0[c.len_utf8()..];
            assert!(c >= ' ', "a control character in a text");
            if c == '\\' {
                units.push(self.escape());
            } else {
                units.extend_from_slice(c.encode_utf16(&mut [0; 2]));
            }
        }
        String::from_utf16(&units).expect("surrogates in pairs")
    }

    fn escape(&mut self) -> u16 {
        let (c, rest) = self.0.split_at(1);
        self.0 = rest;
        match c {
            "\"" | "\\" | "/" => u16::from(c.as_bytes()[0]),
            "b" => 8,
            "f" => 12,
            "n" => 10,
            "r" => 13,
            "t" => 9,
            "u" => {
                let (digits, rest) = self.0.split_at(4);
                self.0 = rest;
                assert!(digits.bytes().all(|b| b.is_ascii_hexdigit()), "four digits");
                u16::from_str_radix(digits, 16).expect("four digits")
            }
            _ => panic!("no escape \\{c}"),
        }
    }
}

fn text(text: impl ToString) -> Value {
    Value::Text(text.to_string())
}

fn number_or_null(number: Option<usize>) -> Value {
    number.map_or(Value::Null, |number| Value::Number(number as u64))
}

/// The object must have these keys, in any order; each is taken out as it is asked for.
fn members(what: &str, value: Value, keys: &[&str]) -> HashMap<String, Value> {
    let Value::Object(members) = value else { panic!("{what}: no object: {value:?}") };
    let have: BTreeSet<&str> = members.iter().map(|member| member.0.as_str()).collect();
    assert_eq!(have, keys.iter().copied().collect(), "{what}: the documented keys");
    members.into_iter().collect()
}

fn check_item(what: &str, item: Value, expected: &Expected, row: &Row) {
    let what = format!("{what}, item {}", row.item);
    let item = members(&what, item, &KEYS);
    for (key, wanted) in [
        ("item", number_or_null(Some(row.item))),
        ("main", number_or_null(row.main)),
        ("kind", text(kind_name(row.head))),
        ("code", number_or_null(Some(code(row.head) as usize))),
        ("type", text(type_name(code(row.head)))),
        ("place", number_or_null(Some(row.place))),
        ("time", row.time.map_or(Value::Null, Value::Number)),
        ("date", row.time.map_or(Value::Null, |time| text(date(time)))),
        ("address", row.address.as_ref().map_or(Value::Null, text)),
        ("parent", number_or_null(row.parent)),
        ("session", number_or_null(row.session)),
        ("closed_by", number_or_null(row.closer)),
        ("state", text(expected.state(row.item))),
    ] {
        assert_eq!(item[key], wanted, "{what}: {key}");
    }
}

/// The widths that are shown.
fn widths_of(expected: &Expected) -> [(&'static str, usize); 5] {
    let Widths { address, signature, commitment, cryptogram, set, .. } = expected.widths;
    [
        ("address", address),
        ("signature", signature),
        ("commitment", commitment),
        ("cryptogram", cryptogram),
        ("set", set),
    ]
}

fn check_object(what: &str, line: &str, name: &str, expected: &Expected) {
    let accepted = expected.number == 0;
    let mut keys = BOARD_KEYS.to_vec();
    if !accepted {
        keys.extend(["number", "explanation"]);
    }
    keys.extend(expected.traits.map(|_| "traits"));
    let mut object = members(what, Json::read(line), &keys);
    if let Some(word) = expected.traits {
        assert_eq!(object["traits"], Value::Number(word.into()), "{what}: traits");
    }
    assert_eq!(object["curve"], text(expected.widths.curve), "{what}: curve");
    assert_eq!(object["hash"], text(expected.widths.hash), "{what}: hash");
    let widths = widths_of(expected);
    let named = members(what, object.remove("widths").expect("widths"), &widths.map(|(name, _)| name));
    for (name, words) in widths {
        assert_eq!(named[name], number_or_null(Some(words)), "{what}: the width of {name}");
    }
    assert_eq!(object["folder"], text(name), "{what}: folder");
    assert_eq!(object["answer"], text(if accepted { "accepted" } else { "refused" }), "{what}: answer");
    assert_eq!(object["passed"], number_or_null(Some(expected.passed)), "{what}: passed");
    if !accepted {
        assert_eq!(object["number"], Value::Number(expected.number.into()), "{what}: number");
        assert!(matches!(&object["explanation"], Value::Text(text) if !text.is_empty()), "{what}: explanation");
    }
    let Some(Value::List(items)) = object.remove("list") else { panic!("{what}: list") };
    assert_eq!(items.len(), expected.rows.len(), "{what}: an object for each item");
    items.into_iter().zip(&expected.rows).for_each(|(item, row)| check_item(what, item, expected, row));
}

// ---- boards ----

/// Both forms of what `show` says of a folder. The folder's name must be plain.
fn check(what: &str, folder: &Path) -> Expected {
    let files = FILES.map(|name| fs::read(folder.join(name)).expect("a file of the board"));
    let expected = Expected::of(&files);
    let status = i32::from(expected.number != 0);
    let name = folder.to_str().expect("a plain name");
    check_page(what, &show(what, folder, false, status), name, &expected);
    check_object(what, &show(what, folder, true, status), name, &expected);
    expected
}

#[test]
fn stored_boards() {
    let boards = stored();
    assert!(boards.len() > 150, "there are stored boards");
    for folder in boards {
        let what = folder.display().to_string();
        let expected = check(&what, &folder);
        // The auditing program, whose answer is stored, takes fewer words.
        if fs::metadata(folder.join(FILES[0])).expect("a file").len() <= 4 * PROGRAM_WORDS as u64 {
            let stored = fs::read_to_string(folder.join("expected")).expect("an answer");
            assert_eq!(stored.lines().next(), Some(&*expected.answer), "{what}: the stored answer");
        }
    }
}

/// Boards of a group from seeds; the refusals, and whether an item was at fault.
fn check_group(group: Group, seeds: impl Iterator<Item = u64>) -> BTreeSet<(u32, bool)> {
    let (makers, folder) = (Makers::default(), Temporary::new());
    let mut seen = BTreeSet::new();
    for seed in seeds {
        let case = case(&makers, group, seed);
        folder.write(case.board());
        let expected = check(&case.name, &folder.0);
        seen.insert((expected.number, expected.at_fault));
    }
    seen
}

#[test]
fn sound_boards() {
    assert_eq!(check_group(Group::Sound, 0..60), BTreeSet::from([(0, false)]));
}

/// Each reason to refuse an item marks one; the others mark none.
#[test]
fn faulty_boards() {
    let faults = Makers::default().faults;
    let first = |number: u32| faults.iter().position(|fault| fault.number == number).expect("a fault");
    let each = [3, 4].into_iter().chain(5..=16).chain([18, 20, 21]).map(first);
    let seeds = (0..faults.len()).step_by(4).chain(each);
    let mut seen = check_group(Group::Faults, seeds.map(|seed| seed as u64));
    seen.extend(check_group(Group::Order, 0..20));
    seen.extend(check_group(Group::Rules, 0..30));
    seen.extend(check_group(Group::Words, 0..60));
    let marked = [4].into_iter().chain(5..=16).chain([21]).map(|number| (number, true));
    for wanted in marked.chain([3, 18, 20].map(|number| (number, false))) {
        assert!(seen.contains(&wanted), "no board for {wanted:?}");
    }
}

#[test]
fn boards_at_the_limits() {
    let mut seen = check_group(Group::Long, 0..24);
    seen.extend(check_group(Group::Full, 0..8));
    seen.extend(check_group(Group::Ballots, 0..3));
    for wanted in [(0, false), (1, true), (1, false), (4, false)] {
        assert!(seen.contains(&wanted), "no board for {wanted:?}");
    }
}

/// A board of items alone, as many words as there may be, that ends with an item of this type. Texts behind genesis fill it up.
fn filled(last: u32, traits: Traits) -> Laid {
    let extraction = (INTENT..=CONFIRMATION).contains(&last);
    let shape = Shape { items: 1_950, words: Some(MAX_WORDS - 500), long: 20, voters: 90, extraction };
    let mut plan = make_with(&mut Random::new(last.into()), shape, traits).plan;
    let text = plan.items.iter().find(|item| item.code == TEXT).expect("a text").clone();
    let end = plan.items.iter().rposition(|item| item.code == last).expect("an item of the type");
    plan.items.truncate(end + 1);
    let frame = traits.layout().curve.frame();
    let mut missing = MAX_WORDS - plan.items.iter().map(|item| frame + item.content.len()).sum::<usize>();
    for texts in (1..=missing.div_ceil(frame + 64)).rev() {
        let length = missing / texts;
        let (content, time) = (vec![missing as u32; length - frame], plan.items[0].time);
        plan.insert(1, Spec { content, time, parent: Link::Item(0), ..text.clone() });
        plan.items[2].parent = Link::Item(1);
        missing -= length;
    }
    plan.closing = Some(None);
    plan.lay()
}

/// All items pass, but no closing word would fit behind them.
#[test]
fn full_of_items_without_a_closing_word() {
    let folder = Temporary::new();
    let types =
        [CONTEST, SESSION, SERVER_COMMITMENT, BALLOT, CAST, SPOIL, CONFIRMATION, TRACK, VERIFIER, SERVER_OPENING];
    for (last, traits) in types.into_iter().zip(Traits::ALL.into_iter().cycle()) {
        let laid = filled(last, traits);
        assert_eq!(laid.words.len(), MAX_WORDS);
        folder.write(laid.board());
        let expected = check(&format!("no room to close, {last} last"), &folder.0);
        assert_eq!(expected.answer, format!("refused 4 at {}", laid.places.len()));
        assert!(!expected.at_fault && expected.rows.len() == laid.places.len());
        assert_eq!(expected.rows.last().map(|row| code(row.head)), Some(last));
    }
}

#[test]
fn words_that_are_no_board() {
    let folder = Temporary::new();
    for seed in 0..120 {
        let (words, verdicts, roll) = no_board(&mut Random::new(seed));
        folder.write(Board { words: &words, verdicts: &verdicts, roll: &roll });
        assert_ne!(check(&format!("no board, seed {seed}"), &folder.0).number, 0);
    }
}

/// A board cut at each word, from the last to none.
#[test]
fn every_prefix() {
    let folder = Temporary::new();
    let mut files = FILES.map(|name| fs::read(root().join("samples/election").join(name)).expect("a sample"));
    write(&folder.0, files.clone());
    let name = folder.0.to_str().expect("a plain name").to_string();
    let board = File::options().write(true).open(folder.0.join(FILES[0])).expect("the board");
    let all = files[0].len();
    for length in (0..=all).rev().step_by(4) {
        files[0].truncate(length);
        board.set_len(length as u64).expect("the board is cut");
        let what = format!("the first {length} bytes");
        let expected = Expected::of(&files);
        assert_eq!(expected.number != 0, length < all, "{what}");
        let json = length % 64 == 0;
        let said = show(&what, &folder.0, json, i32::from(length < all));
        if json {
            check_object(&what, &said, &name, &expected);
        } else {
            check_page(&what, &said, &name, &expected);
        }
    }
}

#[test]
fn files_of_odd_sizes() {
    let folder = Temporary::new();
    let sample = FILES.map(|name| fs::read(root().join("samples/election").join(name)).expect("a sample"));
    for which in 0..3 {
        for change in [-3i64, -2, -1, 1, 2, 3] {
            let mut files = sample.clone();
            let length = files[which].len() as i64 + change;
            files[which].resize(length as usize, 0xf0);
            write(&folder.0, files);
            let expected = check(&format!("{change} bytes in {}", FILES[which]), &folder.0);
            assert_eq!(expected.answer, "refused 4 at 0");
            assert!(!expected.at_fault && !expected.rows.is_empty());
        }
        let mut files = [vec![], vec![], vec![]];
        files[which] = vec![0x10; 3];
        write(&folder.0, files);
        assert_eq!(check("three bytes alone", &folder.0).answer, "refused 4 at 0");
    }
}

/// A board of genesis alone, at this time.
fn genesis(time: u64) -> Laid {
    let shape = Shape { items: 1, words: None, long: 0, voters: 1, extraction: false };
    let Made { mut plan, .. } = make(&mut Random::new(7), shape);
    plan.items[0].time = time;
    plan.lay()
}

/// Dates that are known from elsewhere: Unix time at its round numbers and ends, leap days, the last time of Java.
#[test]
fn well_known_dates() {
    let folder = Temporary::new();
    for (time, date) in [
        (0, "1970-01-01T00:00:00.000Z"),
        (951_782_400_000, "2000-02-29T00:00:00.000Z"),
        (1_000_000_000_000, "2001-09-09T01:46:40.000Z"),
        (1_234_567_890_123, "2009-02-13T23:31:30.123Z"),
        (1_735_689_599_999, "2024-12-31T23:59:59.999Z"),
        (2_147_483_647_000, "2038-01-19T03:14:07.000Z"),
        (4_102_444_800_000, "2100-01-01T00:00:00.000Z"),
        (4_107_542_400_000, "2100-03-01T00:00:00.000Z"),
        (253_402_300_799_999, "9999-12-31T23:59:59.999Z"),
        (8_640_000_000_000_000, "+275760-09-13T00:00:00.000Z"),
        (i64::MAX as u64, "+292278994-08-17T07:12:55.807Z"),
    ] {
        folder.write(genesis(time).board());
        let page = show(date, &folder.0, false, 0);
        let columns = page.lines().last().map(columns).expect("a line");
        assert_eq!((&columns[..5], &columns[6..]), (&["1", "1", "main", "genesis", date][..], &["-", "-"][..]));
        check(date, &folder.0);
    }
    folder.write(genesis(u64::MAX).board());
    check("the last time there is", &folder.0);
}

/// What a person reads stands under its heading: numbers end where it ends, the others begin where it begins.
#[test]
fn columns_stand_under_the_heading() {
    let folder = root().join("samples/election");
    let page = show("columns", &folder, false, 0);
    let lines: Vec<&str> = page.lines().skip_while(|line| !line.starts_with("  item")).collect();
    let begin = |name: &str| lines[0].find(name).expect("a heading");
    for line in &lines[1..] {
        for number in ["item", "main", "parent", "session"] {
            let (before, after) = line.split_at(begin(number) + number.len());
            assert!(!before.ends_with(' ') && (after.is_empty() || after.starts_with(' ')), "{number} of {line:?}");
        }
        for name in ["kind", "type", "time", "address", "closed by"] {
            let Some((before, after)) = line.split_at_checked(begin(name)) else { continue };
            assert!(before.ends_with(' ') && !after.starts_with(' '), "{name} of {line:?}");
        }
        assert_eq!(line.trim_end(), *line);
    }
}

/// Names with what would break a line, steer a terminal or is no text.
#[test]
fn names_of_folders() {
    let parent = Temporary::new();
    let board = genesis(0);
    for (name, shown, in_json) in [
        (&b"a \"b\\c"[..], "a \"b\\\\c", "a \"b\\c"),
        (b"a\tb\nc", "a\\tb\\nc", "a\tb\nc"),
        (b"a\x1b[2Jb\x7f", "a\\x1b[2Jb\\x7f", "a\x1b[2Jb\x7f"),
        ("Zürich \u{1f5f3}".as_bytes(), "Zürich \u{1f5f3}", "Zürich \u{1f5f3}"),
        (b"a\xffb", "a\\xffb", "a\u{fffd}b"),
    ] {
        let folder = parent.0.join(OsString::from_vec(name.to_vec()));
        fs::create_dir(&folder).expect("a folder");
        write(&folder, [&board.words, &board.verdicts, &board.roll].map(|words| bytes(words)));
        let before = parent.0.to_str().expect("a plain name");
        let page = show(shown, &folder, false, 0);
        assert_eq!(page.lines().next(), Some(&*format!("{before}/{shown}\taccepted 1 1 0 0")));
        let mut keys = BOARD_KEYS.to_vec();
        let bytes = folder.into_os_string().into_vec();
        let hex: String = bytes.iter().map(|byte| format!("{byte:02x}")).collect();
        let no_text = String::from_utf8(bytes.clone()).is_err();
        keys.extend(no_text.then_some("folder_hex"));
        let line = show(shown, Path::new(&OsString::from_vec(bytes)), true, 0);
        let object = members(shown, Json::read(&line), &keys);
        assert_eq!(object["folder"], text(format!("{before}/{in_json}")));
        assert!(!no_text || object["folder_hex"] == text(hex), "{shown}: the bytes of the name");
    }
}

// ---- errors ----

/// Nothing on standard output, something on standard error that names what is wrong, status 2.
fn check_error(arguments: &[&OsStr], named: &str) {
    let output = run(arguments);
    let said = String::from_utf8_lossy(&output.stderr);
    assert_eq!(output.status.code(), Some(2), "{arguments:?}: {said}");
    assert!(output.stdout.is_empty(), "{arguments:?}: nothing on standard output");
    assert!(said.starts_with("tirfolma: ") && said.contains(named), "{arguments:?}: {said}");
    assert!(said.lines().count() == 1 && !said.contains("panicked"), "{arguments:?}: {said}");
}

#[test]
fn wrong_calls() {
    let folder = root().join("samples/election");
    let folder = folder.as_os_str();
    let [show, json] = ["show", "--json"].map(OsStr::new);
    check_error(&[show], "show");
    check_error(&[show, json], "show");
    check_error(&[show, folder, folder], "show");
    check_error(&[show, json, folder, folder], "show");
    check_error(&[show, "--rows".as_ref(), folder], "--rows");
    check_error(&[show, folder, "--nothing".as_ref()], "--nothing");
    check_error(&[show, "--json=1".as_ref(), folder], "--json");
    check_error(&[show, "-j".as_ref(), folder], "-j");
    check_error(&[show, "--".as_ref(), folder, json], "show");
}

#[test]
fn folders_that_cannot_be_read() {
    let parent = Temporary::new();
    let check = |folder: &Path, named: &str| {
        check_error(&["show".as_ref(), folder.as_os_str()], named);
        check_error(&["show".as_ref(), "--json".as_ref(), folder.as_os_str()], named);
    };
    check(&parent.0.join("missing"), "missing");
    check(&root().join("samples"), "samples");
    check(&root().join("samples/election/board.words"), "board.words");
    check(Path::new(""), "");
    let board = genesis(0);
    for (which, name) in FILES.iter().enumerate() {
        let folder = parent.0.join(which.to_string());
        fs::create_dir(&folder).expect("a folder");
        write(&folder, [&board.words, &board.verdicts, &board.roll].map(|words| bytes(words)));
        fs::remove_file(folder.join(name)).expect("a file is removed");
        check(&folder, name);
        fs::create_dir(folder.join(name)).expect("a folder in the file's place");
        check(&folder, name);
    }
}

/// What could not be written is an error, whatever the board is.
#[test]
fn output_that_cannot_be_written() {
    for option in [None, Some("--json")] {
        let full = File::options().write(true).open("/dev/full").expect("a full device");
        let mut command = Command::new(env!("CARGO_BIN_EXE_tirfolma"));
        command.arg("show").args(option).arg(root().join("samples/election"));
        let output = command.stdout(Stdio::from(full)).output().expect("the program runs");
        assert_eq!(output.status.code(), Some(2));
        assert!(String::from_utf8_lossy(&output.stderr).starts_with("tirfolma: "));
    }
}
