//! `tirfolma notes`, held to a plain search through the words of each board: notes of every item, as a watcher makes them, and with each
//! thing wrong that can be. Files that are no notes or can't be read are in beside.rs.

#[path = "common/traits.rs"]
mod boards;
mod common;
#[path = "common/items.rs"]
mod items;
#[path = "common/widths.rs"]
mod widths;

use boards::made;
use common::json::objects;
use common::*;
use items::{items, Item};
use reference::program::{bytes, words};
use reference::sound::Traits;
use std::cell::Cell;
use std::collections::BTreeMap;
use std::ffi::OsString;
use std::fs;
use std::path::{Path, PathBuf};
use tirfolma::times::date;
use tirfolma::types::name;
use widths::Widths;

/// The most notes at once.
const MOST: usize = 1024;

#[derive(Clone)]
struct Note {
    time: u64,
    address: Vec<u32>,
}

/// What is noted at a time when an item is the last.
fn noted(item: &Item, time: u64) -> Note {
    Note { time, address: item.address.clone() }
}

fn file_of(notes: &[Note]) -> Vec<u8> {
    let words = |note: &Note| [&[(note.time >> 32) as u32, note.time as u32][..], &note.address[..]].concat();
    notes.iter().flat_map(|note| bytes(&words(note))).collect()
}

/// What is right of notes and an accepted board: the line for the first that disagrees, or `agree`.
fn right(board: &[u32], notes: &[Note]) -> String {
    let items = items(board);
    let main_of = |note: &Note| items.iter().find(|item| item.main.is_some() && item.address == note.address);
    let told = |item: &Item| format!("{} ({}, {})", item.main.expect("a main item"), name(item.code), date(item.time));
    for (at, note) in notes.iter().enumerate() {
        let begin = |fault: &str| format!("{} {fault}: noted at {}, ", at + 1, date(note.time));
        let Some(item) = main_of(note) else {
            let hidden = items.iter().position(|item| item.address == note.address);
            let start =
                format!("{}its address {:08x}{:08x}... is ", begin("no main item"), note.address[0], note.address[1]);
            return match hidden {
                Some(at) => format!("{start}that of item {} ({}), which is hidden", at + 1, name(items[at].code)),
                None => format!("{start}on no item of the board"),
            };
        };
        let before = at.checked_sub(1).and_then(|before| main_of(&notes[before]));
        if let Some(before) = before.filter(|before| before.main > item.main) {
            let [own, other] = [item, before].map(told);
            return format!(
                "{}its item is main item {own}, and that of note {at} is main item {other}",
                begin("out of order")
            );
        }
        if note.time < item.time {
            return format!("{}before the time of its item, main item {}", begin("too early"), told(item));
        }
    }
    "agree".to_string()
}

/// A board in a folder, and beside it the file in which notes are put.
struct Asked<'a> {
    folder: &'a Path,
    board: &'a [u32],
    file: &'a Path,
}

impl Asked<'_> {
    fn words(&self, options: &[&str]) -> Vec<OsString> {
        words_of(&[&["notes"], options].concat(), [self.folder, self.file])
    }

    /// Holds these notes against the board, with a line and with JSON. Gives the line as far as its colon.
    fn check(&self, notes: &[Note]) -> String {
        fs::write(self.file, file_of(notes)).expect("written");
        let about = format!("{}, {} notes", self.folder.display(), notes.len());
        let [ran, json] = [&[][..], &["--json"]].map(|options| tirfolma(self.words(options)));
        let right = right(self.board, notes);
        let status = i32::from(right != "agree");
        assert_eq!((ran.text(), ran.errors(), ran.status), (format!("{right}\n").as_str(), "", status), "{about}");
        let [object] = &objects(json.text())[..] else { panic!("{about}: {}", json.text()) };
        assert_eq!((json.errors(), json.status), ("", status), "{about}");
        let Some((number, rest)) = right.split_once(' ') else {
            assert_eq!((object.text("answer"), object.keys().len()), ("agree", 1), "{about}");
            return right;
        };
        let (fault, why) = rest.split_once(": ").expect("a colon");
        assert_eq!(object.keys(), ["answer", "explanation", "fault", "note"], "{about}");
        let found = (object.text("answer"), object.text("fault"), object.text("explanation"));
        assert_eq!(found, ("disagree", fault, why), "{about}");
        assert_eq!(object.number("note").to_string(), number, "{about}");
        format!("{number} {fault}")
    }
}

/// Whole folders of stored boards.
fn stored() -> Vec<PathBuf> {
    let folders = ["samples", "tests/boards"].map(|folder| fs::read_dir(root().join(folder)).expect("a folder"));
    let paths = folders.into_iter().flatten().map(|entry| entry.expect("an entry").path());
    let mut found: Vec<PathBuf> = paths.filter(|path| NAMES.iter().all(|name| path.join(name).is_file())).collect();
    found.sort();
    found
}

/// A watcher who looks at every main item, and one who takes hidden items for the end.
#[test]
fn the_items_of_each_stored_board() {
    let temp = Temp::new("stored");
    let file = temp.join("notes");
    let mut found: BTreeMap<&str, [usize; 2]> = BTreeMap::new();
    for folder in stored().into_iter().filter(|folder| expected(&read(folder)).starts_with("accepted")) {
        let board = words(&read(&folder)[0]);
        let asked = Asked { folder: &folder, board: &board, file: &file };
        let all = items(&board);
        let mains: Vec<Note> =
            all.iter().filter(|item| item.main.is_some()).map(|item| noted(item, item.time)).collect();
        // From the end on, so that the last items of a long board are noted, too.
        assert_eq!(asked.check(&mains[mains.len().saturating_sub(MOST)..]), "agree", "{}", folder.display());
        let [agree, hidden] = found.entry(Widths::of(&board).curve).or_default();
        *agree += 1;
        let Some(at) = all.iter().take(MOST).position(|item| item.main.is_none()) else { continue };
        let each: Vec<Note> = all.iter().take(MOST).map(|item| noted(item, u64::MAX)).collect();
        assert_eq!(asked.check(&each), format!("{} no main item", at + 1), "{}", folder.display());
        *hidden += 1;
    }
    let names: Vec<&str> = found.keys().copied().collect();
    assert_eq!(names, ["secp256r1", "secp384r1", "secp521r1"]);
    assert!(found.values().all(|[agree, hidden]| *agree > 3 && *hidden > 1), "{found:?}");
}

/// Sound boards on each curve, with sets of either width.
fn each_board(name: &str, check: impl Fn(&Asked, &[Item])) {
    let temp = Temp::new(name);
    for (at, traits) in Traits::ALL.into_iter().enumerate() {
        let files = files(&made(81_000 + at as u64, 120, traits).plan.lay());
        let (folder, board) = (temp.board(format!("{at}"), &files), words(&files[0]));
        let file = temp.join("notes");
        check(&Asked { folder: &folder, board: &board, file: &file }, &items(&board));
    }
}

fn mains(items: &[Item]) -> Vec<&Item> {
    items.iter().filter(|item| item.main.is_some()).collect()
}

/// Nothing is asked of times but that they are no less than the items', and the same item may be noted again.
#[test]
fn notes_that_agree() {
    each_board("agree", |asked, items| {
        let mains = mains(items);
        let [first, middle, last] = [mains[0], mains[mains.len() / 2], mains[mains.len() - 1]];
        for notes in [
            vec![],
            vec![noted(last, last.time)],
            vec![noted(first, first.time + 1), noted(middle, middle.time + 5000), noted(last, last.time + 9)],
            vec![noted(first, first.time), noted(first, first.time), noted(last, last.time), noted(last, last.time)],
            // Times that fall, and those with the low word less than the item's.
            vec![noted(first, u64::MAX), noted(middle, middle.time), noted(last, ((last.time >> 32) + 1) << 32)],
            vec![noted(middle, middle.time); MOST],
        ] {
            assert_eq!(asked.check(&notes), "agree");
        }
    });
}

#[test]
fn addresses_of_no_main_item() {
    each_board("none", |asked, items| {
        let mains = mains(items);
        let [first, last] = [mains[0], mains[mains.len() - 1]];
        let good = noted(first, first.time);
        // Of every word of an address a bit is changed.
        for at in 0..last.address.len() {
            let mut near = noted(last, last.time);
            near.address[at] ^= 1 << (at % 32);
            assert_eq!(asked.check(&[good.clone(), near]), "2 no main item");
        }
        let zeros = Note { time: u64::MAX, address: vec![0; last.address.len()] };
        assert_eq!(asked.check(std::slice::from_ref(&zeros)), "1 no main item");
        // The first that disagrees is told, also before worse ones.
        let early = noted(last, last.time - 1);
        assert_eq!(asked.check(&[good.clone(), early.clone(), zeros.clone()]), "2 too early");
        assert_eq!(asked.check(&[good.clone(), zeros, early]), "2 no main item");
        for hidden in items.iter().filter(|item| item.main.is_none()) {
            assert_eq!(asked.check(&[good.clone(), good.clone(), noted(hidden, u64::MAX)]), "3 no main item");
        }
    });
}

#[test]
fn items_that_go_back() {
    each_board("back", |asked, items| {
        let mains = mains(items);
        let last = mains.len() - 1;
        for (before, item) in [(1, 0), (last, 0), (last, last - 1), (last / 2, last / 2 - 1)] {
            let notes = [before, item].map(|at| noted(mains[at], u64::MAX));
            assert_eq!(asked.check(&notes), "2 out of order");
            // It comes before the time.
            let early = [noted(mains[before], u64::MAX), noted(mains[item], 0)];
            assert_eq!(asked.check(&early), "2 out of order");
        }
        // Each note is held to the one before it.
        let back = [0, last / 2, last, last, last / 2].map(|at| noted(mains[at], u64::MAX));
        assert_eq!(asked.check(&back), "5 out of order");
    });
}

#[test]
fn times_that_are_too_early() {
    let high = Cell::new(0);
    each_board("early", |asked, items| {
        let mains = mains(items);
        let last = mains[mains.len() - 1];
        let good = noted(mains[0], mains[0].time);
        // The high word alone less, with all bits of the low one; some boards have times of no high word.
        let less_high = (last.time >> 32 << 32).checked_sub(1);
        high.set(high.get() + usize::from(less_high.is_some()));
        for time in [Some(last.time - 1), Some(0), less_high].into_iter().flatten() {
            assert_eq!(asked.check(&[good.clone(), noted(last, time)]), "2 too early");
            assert_eq!(asked.check(&[noted(last, time), good.clone()]), "1 too early");
        }
        let mut many = vec![good; MOST];
        many[MOST - 1] = noted(last, last.time - 1);
        assert_eq!(asked.check(&many), "1024 too early");
    });
    assert!(high.get() > 3, "only {} boards with a high word", high.get());
}

/// The sample of notes says what its page says; of another board it says that it is of another.
#[test]
fn the_sample() {
    let samples = root().join("samples");
    let notes = samples.join("election/notes.words");
    let ran = tirfolma(words_of(&["notes"], [&samples.join("election"), &notes]));
    assert_eq!((ran.text(), ran.status, ran.errors()), ("agree\n", 0, ""));
    let times = words(&fs::read(&notes).expect("the sample")).chunks(10).map(|note| note[1]).collect::<Vec<_>>();
    assert!(times.len() > 4 && times.is_sorted(), "{times:?}");
    let ran = tirfolma(words_of(&["notes"], [&samples.join("genesis-alone"), &notes]));
    let right = "1 no main item: noted at 2026-10-02T22:53:37.948Z, its address f9352df8024f393b... is on no item of the board\n";
    assert_eq!((ran.text(), ran.status, ran.errors()), (right, 1, ""));
}

/// The program's widths of a note are the header's.
#[test]
fn widths_of_a_note() {
    use tirfolma::format::CURVES;
    use tirfolma::library::header::*;
    let listed = [TIRFOLMA_NOTE_WORDS, TIRFOLMA_NOTE_WORDS_384, TIRFOLMA_NOTE_WORDS_521];
    assert_eq!(CURVES.each_ref().map(|curve| curve.note()), listed);
    assert_eq!((listed, TIRFOLMA_NOTES), ([10, 14, 18], MOST));
}
