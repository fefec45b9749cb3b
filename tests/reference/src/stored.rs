//! Boards stored in folders: board.words, verdicts.words, roll.words, and what the program prints, expected;
//! in some also tables, what an audit leaves in both tables.

use crate::audit::Board;
use crate::checks::{check_answer, Answer};
use crate::interface::Interface;
use crate::program::{program, words, PROGRAM_WORDS};
use crate::stand_in::stand_in;
use std::fs;
use std::path::{Path, PathBuf};

/// How many folders there were, how many of them went through each entry, and how many have tables.
#[derive(Default)]
pub struct Stored {
    pub boards: usize,
    pub audited: usize,
    pub tables: usize,
}

/// Checks every folder in a folder, in name order: the reference, and the library where there is one.
pub fn check_folder(folder: &Path, library: Option<Interface>) -> Result<Stored, String> {
    let mut stored = Stored::default();
    for path in folders(folder)? {
        check_board(&path, library, &mut stored).map_err(|message| format!("{}: {message}", path.display()))?;
    }
    Ok(stored)
}

/// What the program prints for a board, then what each entry says of it.
fn check_board(path: &Path, library: Option<Interface>, stored: &mut Stored) -> Result<(), String> {
    let files = ["board.words", "verdicts.words", "roll.words"].map(|file| read(&path.join(file)));
    let expected = fs::read_to_string(path.join("expected")).map_err(|e| e.to_string())?;
    let printed = program(&files[0], &files[1], &files[2]);
    if printed != expected {
        return Err(format!("expected {expected:?}, the reference prints {printed:?}"));
    }
    stored.boards += 1;
    // The program has rules of its own for files of other sizes.
    if files.iter().any(|file| file.len() % 4 != 0) || files[0].len() > 4 * PROGRAM_WORDS {
        return Ok(());
    }
    let tables = match fs::read_to_string(path.join("tables")) {
        Ok(text) => Some(tables(&text).map_err(|message| format!("tables: {message}"))?),
        Err(_) => None,
    };
    stored.audited += 1;
    stored.tables += usize::from(tables.is_some());
    let (number, items) = answer(&expected).ok_or("what is expected cannot be read")?;
    let known = Answer { number, items, tables };
    let [board, verdicts, roll] = files.map(|file| words(&file));
    let board = Board { words: &board, verdicts: &verdicts, roll: &roll };
    for (side, with) in [("reference", Some(stand_in())), ("library", library)] {
        let held = with.map_or(Ok(()), |with| check_answer(&with, board, &known));
        held.map_err(|message| format!("{side}, {message}"))?;
    }
    Ok(())
}

/// The refusal, or 0, and the items, from the first line that the program prints.
fn answer(printed: &str) -> Option<(u32, u32)> {
    let words: Vec<&str> = printed.lines().next()?.split(' ').collect();
    match words[..] {
        ["refused", number, "at", items] => Some((number.parse().ok()?, items.parse().ok()?)),
        ["accepted", items, ..] => Some((0, items.parse().ok()?)),
        _ => None,
    }
}

/// The folders with something that is expected, in name order.
pub fn folders(folder: &Path) -> Result<Vec<PathBuf>, String> {
    let mut paths = Vec::new();
    for entry in fs::read_dir(folder).map_err(|e| format!("{}: {e}", folder.display()))? {
        let path = entry.map_err(|e| e.to_string())?.path();
        if path.join("expected").is_file() {
            paths.push(path);
        }
    }
    paths.sort();
    Ok(paths)
}

/// The index table and the ballot table, a line each: its name, its length and a colon, its words up to
/// the last that is not zero.
fn tables(text: &str) -> Result<[Vec<u32>; 2], String> {
    let mut lines = text.lines();
    let mut table = |name: &str| {
        let line = lines.next().and_then(|line| line.strip_prefix(name)).ok_or(format!("no line '{name}'"))?;
        let (length, words) = line.split_once(':').ok_or(format!("no colon after '{name}'"))?;
        let length: usize = length.trim().parse().map_err(|_| format!("no length of '{name}'"))?;
        let words: Result<Vec<u32>, _> = words.split_whitespace().map(str::parse).collect();
        let mut words = words.map_err(|_| format!("something in '{name}' is no word"))?;
        if words.len() > length || words.last() == Some(&0) {
            return Err(format!("'{name}' has too many words"));
        }
        words.resize(length, 0);
        Ok(words)
    };
    let tables = [table("index ")?, table("ballots ")?];
    match lines.next() {
        Some(_) => Err("a line too many".to_string()),
        None => Ok(tables),
    }
}

/// A file's bytes; none where it cannot be opened.
pub fn read(path: &Path) -> Vec<u8> {
    fs::read(path).unwrap_or_default()
}
