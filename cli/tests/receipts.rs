//! `tirfolma receipts`, held to a plain search through the words of each board: receipts of every item, and changed ones. Files that are no
//! receipts or can't be read are in beside.rs.

#[path = "common/traits.rs"]
mod boards;
mod common;
#[path = "common/items.rs"]
mod items;
#[path = "common/widths.rs"]
mod widths;

use boards::made;
use common::json::objects;
use common::*;
use items::{items, Item};
use reference::format::CAST;
use reference::program::{bytes, words};
use reference::sound::Traits;
use std::collections::BTreeMap;
use std::ffi::OsString;
use std::fs;
use std::path::{Path, PathBuf};
use widths::Widths;

/// The most receipts at once.
const MOST: usize = 512;
const NOTE: &str = "(Explanations are told from the words and, after an audit, its tables; no answer depends on them.)";

/// The words of a receipt.
fn size(widths: &Widths) -> usize {
    widths.signature + widths.address
}

/// What is right: for each receipt the main number of its cast, or the refusal.
fn right(files: &Three, receipts: &[u8]) -> Result<Vec<Option<u32>>, String> {
    if receipts.len() % 4 != 0 || files.iter().any(|file| file.len() % 4 != 0) {
        return Err("refused 4 at 0".to_string());
    }
    let (board, receipts) = (words(&files[0]), words(receipts));
    let size = size(&Widths::of(&board));
    if receipts.len() % size != 0 || receipts.len() > MOST * size {
        return Err("refused 22 at 0".to_string());
    }
    let answer = expected(files);
    if answer.starts_with("refused") {
        return Err(answer.trim().to_string());
    }
    let items = items(&board);
    let cast = |receipt: &[u32]| items.iter().find(|item| item.code == CAST && item.receipt == receipt);
    Ok(receipts.chunks(size).map(|receipt| cast(receipt).and_then(|item| item.main)).collect())
}

/// A board in a folder, and beside it the file in which receipts are put.
struct Asked<'a> {
    folder: &'a Path,
    files: &'a Three,
    file: &'a Path,
}

impl Asked<'_> {
    fn words(&self, options: &[&str]) -> Vec<OsString> {
        words_of(&[&["receipts"], options].concat(), [self.folder, self.file])
    }

    /// Asks for these receipts, with lines and with JSON. Gives the answers, or what is said of a refusal.
    fn check(&self, receipts: &[u8]) -> Result<Vec<Option<u32>>, String> {
        fs::write(self.file, receipts).expect("written");
        let about = format!("{}, {} bytes of receipts", self.folder.display(), receipts.len());
        let [ran, json] = [&[][..], &["--json"]].map(|options| tirfolma(self.words(options)));
        assert_eq!((ran.errors(), json.errors(), ran.status), ("", "", json.status), "{about}");
        let [object] = &objects(json.text())[..] else { panic!("{about}: {}", json.text()) };
        let casts = match right(self.files, receipts) {
            Ok(casts) => casts,
            Err(refusal) => {
                let said = format!("refused {} at {}", object.number("number"), object.number("passed"));
                assert_eq!((object.text("answer"), &said), ("refused", &refusal), "{about}");
                assert_eq!(object.keys(), ["answer", "explanation", "number", "passed"]);
                let why = object.text("explanation");
                assert_eq!(ran.text(), format!("{refusal}\n    {why}\n{NOTE}\n"), "{about}");
                assert_eq!(ran.status, 1, "{about}");
                return Err(why.to_string());
            }
        };
        let main = |cast: &Option<u32>| cast.map_or("none".to_string(), |main| main.to_string());
        let lines: Vec<String> = casts.iter().enumerate().map(|(at, c)| format!("{} {}", at + 1, main(c))).collect();
        assert_eq!(ran.lines(), lines, "{about}");
        assert_eq!(ran.status, i32::from(casts.contains(&None)), "{about}");
        assert_eq!((object.text("answer"), object.keys().len()), ("answered", 2), "{about}");
        let in_json = object.list("list").iter().map(|entry| {
            assert_eq!(entry.keys(), ["main", "receipt"]);
            let main = if entry.get("main") == &json::Json::Null { None } else { Some(entry.number("main")) };
            format!("{} {}", entry.number("receipt"), main.map_or("none".to_string(), |main| main.to_string()))
        });
        assert_eq!(in_json.collect::<Vec<_>>(), lines, "{about}");
        Ok(casts)
    }
}

/// Whole folders of stored boards.
fn stored() -> Vec<PathBuf> {
    let folders = ["samples", "tests/boards"].map(|folder| fs::read_dir(root().join(folder)).expect("a folder"));
    let paths = folders.into_iter().flatten().map(|entry| entry.expect("an entry").path());
    let mut found: Vec<PathBuf> = paths.filter(|path| NAMES.iter().all(|name| path.join(name).is_file())).collect();
    found.sort();
    found
}

/// Of every item of an accepted board, cast or not, and of each refused board one that could be.
#[test]
fn the_items_of_each_stored_board() {
    let temp = Temp::new("stored");
    let file = temp.join("receipts");
    let (mut found, mut refused) = (BTreeMap::new(), 0);
    for folder in stored() {
        let files = read(&folder);
        let board = words(&files[0]);
        let is_accepted = expected(&files).starts_with("accepted");
        let receipts = match is_accepted {
            true => items(&board).into_iter().take(MOST).flat_map(|item| item.receipt).collect(),
            false => vec![0; size(&Widths::of(&board))],
        };
        let answered = Asked { folder: &folder, files: &files, file: &file }.check(&bytes(&receipts));
        assert_eq!(answered.is_ok(), is_accepted, "{}", folder.display());
        refused += usize::from(!is_accepted);
        let casts = answered.unwrap_or_default();
        let [there, none]: &mut [usize; 2] = found.entry(Widths::of(&board).curve).or_default();
        *there += casts.iter().flatten().count();
        *none += casts.iter().filter(|cast| cast.is_none()).count();
    }
    let names: Vec<&str> = found.keys().copied().collect();
    assert_eq!(names, ["secp256r1", "secp384r1", "secp521r1"]);
    assert!(found.values().all(|[there, none]| *there >= 4 && *none > 40) && refused > 100, "{found:?}, {refused}");
}

/// Receipts that are those of a cast but for one thing, and casts in any order and more than once.
#[test]
fn casts_and_what_is_nearly_one() {
    let temp = Temp::new("nearly");
    let file = temp.join("receipts");
    let mut found = [[0; 2]; 7];
    for (at, traits) in Traits::ALL.into_iter().enumerate() {
        for seed in 0..5 {
            let files = files(&made(70_000 + seed, 150, traits).plan.lay());
            let folder = temp.board(format!("{at}-{seed}"), &files);
            let asked = Asked { folder: &folder, files: &files, file: &file };
            let board = words(&files[0]);
            let widths = Widths::of(&board);
            let all = items(&board);
            let casts: Vec<&Item> = all.iter().filter(|item| item.code == CAST).collect();
            // Backwards, then forwards: each has its own line, and one that is there twice the same answer twice.
            let order: Vec<&Item> = casts.iter().rev().chain(&casts).copied().collect();
            let receipts: Vec<u32> = order.iter().flat_map(|item| item.receipt.clone()).collect();
            let mains: Vec<Option<u32>> = order.iter().map(|item| item.main).collect();
            assert_eq!(asked.check(&bytes(&receipts)), Ok(mains), "all casts of {}", folder.display());
            found[at][0] += casts.len();
            let near: Vec<Vec<u32>> = casts.iter().flat_map(|cast| nearly(cast, &casts, &widths)).collect();
            let near = near[..near.len().min(MOST)].concat();
            let answers = asked.check(&bytes(&near)).expect("they are answered");
            assert!(answers.iter().all(Option::is_none), "{answers:?}");
            found[at][1] += answers.len();
        }
    }
    assert!(found.iter().all(|[casts, near]| *casts > 5 && *near > 40), "{found:?}");
}

fn nearly(cast: &Item, casts: &[&Item], widths: &Widths) -> Vec<Vec<u32>> {
    let (size, signature) = (cast.receipt.len(), widths.signature);
    let with = |change: &dyn Fn(&mut Vec<u32>)| {
        let mut receipt = cast.receipt.clone();
        change(&mut receipt);
        receipt
    };
    let mut found: Vec<Vec<u32>> =
        [0, signature - 1, signature, size - 1].map(|at| with(&|receipt| receipt[at] ^= 1 << (at % 32))).to_vec();
    found.push(with(&|receipt| receipt.rotate_left(signature))); // the address first
    found.push(with(&|receipt| receipt[..signature].fill(0)));
    found.push(with(&|receipt| receipt[signature..].fill(0)));
    let other = casts.iter().find(|other| other.receipt != cast.receipt);
    // The address of one, the signature of another.
    found.extend(other.map(|other| with(&|receipt| receipt[..signature].copy_from_slice(&other.receipt[..signature]))));
    found
}

/// The sample of receipts says what its page says.
#[test]
fn the_sample() {
    let folder = root().join("samples/election");
    let ran = tirfolma(words_of(&["receipts"], [&folder, &folder.join("receipts.words")]));
    assert_eq!((ran.text(), ran.status, ran.errors()), ("1 38\n2 16\n3 none\n4 none\n", 1, ""));
}

/// The program's widths of a receipt are the header's.
#[test]
fn widths_of_a_receipt() {
    use tirfolma::format::CURVES;
    use tirfolma::library::header::*;
    let listed = [TIRFOLMA_RECEIPT_WORDS, TIRFOLMA_RECEIPT_WORDS_384, TIRFOLMA_RECEIPT_WORDS_521];
    assert_eq!(CURVES.each_ref().map(|curve| curve.receipt()), listed);
    assert_eq!((listed, TIRFOLMA_RECEIPTS, TIRFOLMA_NO_CAST), ([24, 36, 49], MOST, u32::MAX as usize));
}
