//! `tirfolma show`: a board as a person reads it, with the item at which it is refused marked.

use crate::args::Call;
use crate::audit::{answered, named};
use crate::board::{Head, Item, Passed, HIDDEN, MAIN};
use crate::explain::refused::Refused;
use crate::explain::widths::{set_words, wrong_traits};
use crate::explain::{explain, is_about_item, reason, start, NOTE};
use crate::files::Files;
use crate::format::{traits, Format, Members, TRAITS_PLACE};
use crate::help::wrapped;
use crate::json::{array, Object};
use crate::library::{in_hex, Answer, Refusal, Tables};
use crate::names::shown;
use crate::output::{about, finish, Status};
use crate::times::date;
use crate::types::code::{BALLOT, CAST, SESSION, SPOIL};
use crate::types::name;
use std::cmp::Ordering;
use std::fmt::Write;
use std::path::Path;

#[derive(Clone, Copy, PartialEq)]
enum State {
    Passed,
    Refused,
    NotAudited,
}

/// What is shown of an item. What it does not have, or the audit has not told, is none.
struct Row<'a> {
    item: usize,
    main: Option<usize>,
    head: Head,
    place: usize,
    time: Option<u64>,
    address: Option<&'a [u32]>,
    parent: Option<usize>,
    session: Option<usize>,
    closer: Option<Closer>,
    /// Whether its parent and session are known; what it has none of is none then.
    told: bool,
    state: State,
}

/// What closed a ballot: a cast or spoil, with its number and its type; or nothing did.
enum Closer {
    By(usize, u32),
    Open,
}

pub fn run(call: &Call) -> Result<Status, String> {
    let folder = Path::new(&call.operands[0]);
    let files = Files::of(folder).map_err(|e| about(&e))?;
    let mut tables = Tables::default();
    let answer = files.audit(&mut tables);
    let rows = match answer {
        Answer::Accepted(report) => {
            let items = Passed::of_accepted(files.words(), report.items, &tables.index);
            passed(&items.expect("an accepted board has its items whole"))
        }
        Answer::Refused(refusal) => refused(&files, refusal),
    };
    let text =
        if call.has("--json") { object(folder, &files, answer, &rows) } else { page(folder, &files, answer, &rows) };
    Ok(finish(&text, Status::of(&answer)))
}

// ---- the rows ----

/// A row with what the words alone show.
fn row(item: usize, main: Option<usize>, words: &[u32], place: usize, state: State) -> Row<'_> {
    let whole = Item::at(words, place);
    Row {
        item,
        main,
        head: Head(words[place]),
        place,
        time: whole.map(|item| item.time()),
        address: whole.map(|item| item.address()),
        parent: None,
        session: None,
        closer: None,
        told: false,
        state,
    }
}

/// Items that passed, as the index table tells of them.
fn passed<'a>(items: &Passed<'a>) -> Vec<Row<'a>> {
    let row = |number| {
        let item = items.item(number);
        let closer = match items.closer(number) {
            Some(closer) => Some(Closer::By(closer, items.item(closer).code())),
            None => (item.code() == BALLOT).then_some(Closer::Open),
        };
        Row {
            item: number,
            main: items.main(number),
            head: item.head(),
            place: item.place,
            time: Some(item.time()),
            address: Some(item.address()),
            parent: Some(items.parent(number)).filter(|&parent| parent != number),
            session: items.session(number),
            closer,
            told: true,
            state: State::Passed,
        }
    };
    items.numbers().map(row).collect()
}

/// The items that passed, of a refused board.
fn begun(files: &Files, count: u32) -> Vec<Row<'_>> {
    match Passed::of(files.words(), count) {
        Some(items) => passed(&items),
        None => filled(files, count),
    }
}

/// Items behind which no closing word fits: the table tells of all but the last, and its words tell under what that one stands.
fn filled(files: &Files, count: u32) -> Vec<Row<'_>> {
    let Some(last) = count.checked_sub(1).and_then(|before| Refused::of(files.words(), before)) else {
        return Vec::new();
    };
    let (number, code) = (last.number(), last.code());
    let parent = last.parent().map(|parent| parent.number);
    let session = if code == SESSION { Some(number) } else { last.session().map(|session| session.number) };
    let mut rows = passed(&last.passed);
    if let (CAST | SPOIL, Some(ballot)) = (code, parent) {
        rows[ballot - 1].closer = Some(Closer::By(number, code));
    }
    let main = last.item.is_main().then(|| rows.iter().filter(|row| row.main.is_some()).count() + 1);
    let closer = (code == BALLOT).then_some(Closer::Open);
    let shown = row(number, main, &files.board.words, last.item.place, State::Passed);
    rows.push(Row { parent, session, closer, told: true, ..shown });
    rows
}

/// Of a refused board: the items that passed, then what the heads show of the others, as far as they can be read.
fn refused(files: &Files, refusal: Refusal) -> Vec<Row<'_>> {
    let words = &files.board.words;
    let count = refusal.items as usize;
    let mut rows = begun(files, refusal.items);
    let mut place = rows.last().map_or(0, |row| end(words, row.place));
    let mut main = rows.iter().filter_map(|row| row.main).max().unwrap_or(0);
    while let Some(&word) = words.get(place) {
        let (head, number) = (Head(word), rows.len() + 1);
        let state = match number.cmp(&(count + 1)) {
            Ordering::Less => State::Passed,
            Ordering::Equal if item_is_wrong(files, refusal) => State::Refused,
            _ => State::NotAudited,
        };
        let fits = head.fitting(Format::of(words)).is_some();
        if state != State::Refused && !fits {
            break;
        }
        main += usize::from(head.kind() == MAIN);
        rows.push(row(number, (head.kind() == MAIN).then_some(main), words, place, state));
        if !fits {
            break;
        }
        place = end(words, place);
    }
    rows
}

/// The place behind an item, by its head alone.
fn end(words: &[u32], place: usize) -> usize {
    place + Format::of(words).frame() + Head(words[place]).count()
}

/// Whether it is an item for which the board is refused: not the sizes, the roll or the closing word.
fn item_is_wrong(files: &Files, refusal: Refusal) -> bool {
    match refusal.number {
        1 => refusal.items > 0,
        4 => files.size_refusal().is_none(),
        number => is_about_item(number),
    }
}

// ---- as text ----

fn page(folder: &Path, files: &Files, answer: Answer, rows: &[Row]) -> String {
    let mut text = format!("{}\t{}\n", shown(folder), answered(answer));
    text += &format_lines(&files.board.words);
    text += "  item  main  kind    type               time                      address              parent  session  closed by\n";
    let (before, after) = rows.split_at(rows.iter().position(|row| row.state != State::Passed).unwrap_or(rows.len()));
    before.iter().for_each(|row| line(row, &mut text));
    if let Answer::Refused(refusal) = answer {
        let (wrong, rest) = after.split_at(after.iter().take_while(|row| row.state == State::Refused).count());
        wrong.iter().for_each(|row| line(row, &mut text));
        let _ = writeln!(text, "> refused {}: {}", refusal.number, reason(refusal.number));
        text += &wrapped(&explain(files, refusal), 2);
        if !rest.is_empty() {
            text += "  not audited:\n";
        }
        rest.iter().for_each(|row| line(row, &mut text));
        text += NOTE;
    }
    text
}

/// The traits word of a board, or that it has none, and what it is read with: curve, hash and widths.
fn format_lines(board: &[u32]) -> String {
    let format = Format::of(board);
    let (curve, sets) = (format.curve, set_words(format));
    let said = match traits(board) {
        Some(word) => format!("traits {word:08x} at word {TRAITS_PLACE}"),
        None => "no traits word".to_string(),
    };
    let wrong = traits(board).and_then(wrong_traits).map(|wrong| format!("{wrong}; read as ")).unwrap_or_default();
    let meaning = format!("{wrong}{} with {}, sets of contests have {sets}", curve.name, curve.hash);
    let widths = widths(format).map(|(name, words)| format!("{name} {words}")).join(", ");
    format!("  {said}: {meaning}\n  widths in words: {widths}\n")
}

/// The widths of a format by name, in words.
fn widths(format: Format) -> [(&'static str, usize); 5] {
    let curve = format.curve;
    [
        ("address", curve.address),
        ("signature", curve.signature),
        ("commitment", curve.commitment),
        ("cryptogram", curve.cryptogram),
        ("set", format.words(Members::Contests)),
    ]
}

fn line(row: &Row, text: &mut String) {
    let mark = match row.state {
        State::Passed => ' ',
        State::Refused => '>',
        State::NotAudited => '?',
    };
    // What an item does not have, and what the audit has not told.
    let none = if row.told { "-" } else { "?" };
    let told = |number: Option<usize>| number.map_or(none.to_string(), |number| number.to_string());
    let main = row.main.map_or("-".to_string(), |number| number.to_string());
    let time = row.time.map_or("-".to_string(), date);
    let address = row.address.map_or("-".to_string(), start);
    let closer = match row.closer {
        Some(Closer::By(item, code)) => format!("{} {item}", name(code)),
        Some(Closer::Open) => "open".to_string(),
        None => String::new(),
    };
    let line = format!(
        "{mark} {:4}  {:>4}  {:6}  {:17}  {time:24}  {address:19}  {:>6}  {:>7}  {closer}",
        row.item,
        main,
        kind(row.head),
        name(row.head.code()),
        told(row.parent),
        told(row.session),
    );
    let _ = writeln!(text, "{}", line.trim_end());
}

fn kind(head: Head) -> String {
    match head.kind() {
        MAIN => "main".to_string(),
        HIDDEN => "hidden".to_string(),
        kind => format!("kind {kind}"),
    }
}

// ---- as JSON ----

fn object(folder: &Path, files: &Files, answer: Answer, rows: &[Row]) -> String {
    let object = match answer {
        Answer::Accepted(report) => named(folder).text("answer", "accepted").number("passed", report.items),
        Answer::Refused(refusal) => named(folder)
            .text("answer", "refused")
            .number("number", refusal.number)
            .number("passed", refusal.items)
            .text("explanation", &explain(files, refusal)),
    };
    let object = match traits(&files.board.words) {
        Some(word) => object.number("traits", word),
        None => object,
    };
    let format = Format::of(&files.board.words);
    let widths =
        widths(format).into_iter().fold(Object::new(), |widths, (name, words)| widths.number(name, words as u64));
    object
        .text("curve", format.curve.name)
        .text("hash", format.curve.hash)
        .value("widths", &widths.end())
        .value("list", &array(rows.iter().map(item)))
        .end()
        + "\n"
}

fn item(row: &Row) -> String {
    let state = match row.state {
        State::Passed => "passed",
        State::Refused => "refused",
        State::NotAudited => "not audited",
    };
    let closer = match row.closer {
        Some(Closer::By(item, _)) => Some(item),
        _ => None,
    };
    Object::new()
        .number("item", row.item as u64)
        .number_or_null("main", row.main.map(|number| number as u64))
        .text("kind", &kind(row.head))
        .number("code", row.head.code())
        .text("type", &name(row.head.code()))
        .number("place", row.place as u64)
        .number_or_null("time", row.time)
        .text_or_null("date", row.time.map(date))
        .text_or_null("address", row.address.map(in_hex))
        .number_or_null("parent", row.parent.map(|number| number as u64))
        .number_or_null("session", row.session.map(|number| number as u64))
        .number_or_null("closed_by", closer.map(|number| number as u64))
        .text("state", state)
        .end()
}
