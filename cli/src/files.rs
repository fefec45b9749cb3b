//! The three files of a board's folder, and a file of receipts or notes, read as words: four bytes each, high byte first.

use crate::library::header::TIRFOLMA_BOARD_WORDS;
use crate::library::{self, Answer, Board, Plan, Refusal, Tables};
use std::fs::{File, Metadata};
use std::io::{self, Read};
use std::os::unix::fs::{MetadataExt, OpenOptionsExt};
use std::path::{Path, PathBuf};

/// The files' names, in the order of `Files`.
pub const NAMES: [&str; 3] = ["board.words", "verdicts.words", "roll.words"];

/// What is read of a file: one word more than a board may have. A board that has them is too large whatever follows, and no board of the
/// library's limits has a use for as many verdicts or voters; nor are as many words ever the receipts or the notes that it takes at once.
const MOST_BYTES: u64 = 4 * (TIRFOLMA_BOARD_WORDS as u64 + 1);

/// Linux's flag on x86-64: to open does not wait. It changes nothing for a regular file.
const O_NONBLOCK: i32 = 0o4000;

/// What can't be done, and with which file or folder.
#[derive(Clone, Debug)]
pub struct Error {
    pub path: PathBuf,
    pub why: String,
}

impl Error {
    pub fn new(path: &Path, why: impl ToString) -> Error {
        Error { path: path.to_path_buf(), why: why.to_string() }
    }
}

/// A file: its first whole words, and how many bytes it has.
#[derive(Default)]
pub struct Words {
    pub words: Vec<u32>,
    pub bytes: u64,
}

impl Words {
    /// What is read of a file of these bytes.
    pub fn of_bytes(bytes: &[u8]) -> Words {
        let whole = bytes[..bytes.len().min(MOST_BYTES as usize)].chunks_exact(4);
        let words = whole.map(|b| u32::from_be_bytes([b[0], b[1], b[2], b[3]])).collect();
        Words { words, bytes: bytes.len() as u64 }
    }

    pub fn of(path: &Path) -> Result<Words, Error> {
        let mut words = Words::default();
        words.read(path).map_err(|e| Error::new(path, plain(&e)))?;
        Ok(words)
    }

    /// Whether the file has whole words alone.
    pub fn is_whole(&self) -> bool {
        self.bytes.is_multiple_of(4)
    }

    /// Reads a file in place of the last one. No part of it is ever taken for the whole, and nothing for an empty file.
    fn read(&mut self, path: &Path) -> io::Result<()> {
        let (mut file, about) = regular(path)?;
        self.bytes = about.len();
        let expected = self.bytes.min(MOST_BYTES) as usize;
        // Room for any file, taken once: what is not used of it takes no memory.
        self.words.reserve_exact((MOST_BYTES / 4) as usize + 1 - self.words.len());
        self.words.resize(expected / 4 + 1, 0);
        // A byte more than the file is said to have: a file may say that it is empty and not be.
        let wanted = expected + usize::from(self.bytes <= MOST_BYTES);
        let taken = fill(&mut file, &mut in_bytes(&mut self.words)[..wanted])?;
        if taken != expected || state(&file.metadata()?) != state(&about) {
            return Err(io::Error::other(CHANGED));
        }
        self.words.truncate(expected / 4);
        from_high_byte_first(&mut self.words);
        Ok(())
    }
}

const CHANGED: &str = "changed while it was read";

/// A regular file, opened for reading, and what is known of it.
fn regular(path: &Path) -> io::Result<(File, Metadata)> {
    // Without this, opening a pipe would wait for a writer.
    let file = File::options().read(true).custom_flags(O_NONBLOCK).open(path)?;
    let about = file.metadata()?;
    match about.is_file() {
        true => Ok((file, about)),
        false => Err(io::Error::other(if about.is_dir() { "a folder, not a file" } else { "not a regular file" })),
    }
}

/// All bytes of a file of text, by the same rules: never a part of it, nor what is no regular file.
pub fn text_of(path: &Path) -> Result<Vec<u8>, Error> {
    let read = || {
        let (mut file, about) = regular(path)?;
        let mut text = Vec::new();
        let taken = file.read_to_end(&mut text)?;
        match taken as u64 == about.len() && state(&file.metadata()?) == state(&about) {
            true => Ok(text),
            false => Err(io::Error::other(CHANGED)),
        }
    };
    read().map_err(|e| Error::new(path, plain(&e)))
}

/// The room of some words, as bytes: a file is read where its words will stand, so that it needs no room beside them.
fn in_bytes(words: &mut [u32]) -> &mut [u8] {
    // SAFETY: bytes may be anywhere and have any value, and so may the words that are made of them.
    let (before, bytes, behind) = unsafe { words.align_to_mut() };
    assert!(before.is_empty() && behind.is_empty(), "a word has four bytes");
    bytes
}

/// Turns words whose bytes were read, the high byte first, into those of the machine.
fn from_high_byte_first(words: &mut [u32]) {
    if is_x86_feature_detected!("avx2") {
        // SAFETY: the processor has these instructions.
        unsafe { with_wide_instructions(words) }
    } else {
        one_by_one(words);
    }
}

#[inline(always)]
fn one_by_one(words: &mut [u32]) {
    for word in words {
        *word = u32::from_be(*word);
    }
}

/// The same, for the compiler to use instructions that not every machine has: a file is then read in some five sixths of the time.
#[target_feature(enable = "avx2")]
fn with_wide_instructions(words: &mut [u32]) {
    one_by_one(words);
}

/// What changes when a file is written: its length, and when that was.
fn state(about: &Metadata) -> [i64; 5] {
    [about.size() as i64, about.mtime(), about.mtime_nsec(), about.ctime(), about.ctime_nsec()]
}

/// Reads up to the end of a file, or of the room. Gives how many bytes there were.
fn fill(file: &mut File, room: &mut [u8]) -> io::Result<usize> {
    let mut taken = 0;
    while taken < room.len() {
        match file.read(&mut room[taken..]) {
            Ok(0) => break,
            Ok(got) => taken += got,
            Err(e) if e.kind() == io::ErrorKind::Interrupted => {}
            Err(e) => return Err(e),
        }
    }
    Ok(taken)
}

/// A board's files. Each is read into the room of the one before.
#[derive(Default)]
pub struct Files {
    pub board: Words,
    pub verdicts: Words,
    pub roll: Words,
}

impl Files {
    pub fn read(&mut self, folder: &Path) -> Result<(), Error> {
        for (name, words) in NAMES.iter().zip([&mut self.board, &mut self.verdicts, &mut self.roll]) {
            let path = folder.join(name);
            words.read(&path).map_err(|e| Error::new(&path, plain(&e)))?;
        }
        Ok(())
    }

    /// The board alone; the other two stay as they are.
    pub fn read_board(&mut self, folder: &Path) -> Result<(), Error> {
        let path = folder.join(NAMES[0]);
        self.board.read(&path).map_err(|e| Error::new(&path, plain(&e)))
    }

    pub fn of(folder: &Path) -> Result<Files, Error> {
        let mut files = Files::default();
        files.read(folder)?;
        Ok(files)
    }

    /// Files of these bytes, in the order of `NAMES`.
    pub fn of_bytes(bytes: [&[u8]; 3]) -> Files {
        let [board, verdicts, roll] = bytes.map(Words::of_bytes);
        Files { board, verdicts, roll }
    }

    /// In the order of `NAMES`.
    pub fn each(&self) -> [&Words; 3] {
        [&self.board, &self.verdicts, &self.roll]
    }

    pub fn words(&self) -> Board<'_> {
        Board { words: &self.board.words, verdicts: &self.verdicts.words, roll: &self.roll.words }
    }

    /// The rule for files, of a board's own.
    pub fn size_refusal(&self) -> Option<Refusal> {
        size_refusal(self.each())
    }

    /// The files' rule first, as in the auditing program; else what the library says.
    pub fn audit(&self, tables: &mut Tables) -> Answer {
        match self.size_refusal() {
            Some(refusal) => Answer::Refused(refusal),
            None => library::audit(self.words(), tables),
        }
    }

    /// The same of a plan, of the board alone.
    pub fn plan(&self) -> Result<Plan, Refusal> {
        match size_refusal([&self.board]) {
            Some(refusal) => Err(refusal),
            None => library::plan(&self.board.words),
        }
    }
}

/// The files of a board by their names: each word by four bytes, high byte first.
pub fn files_of(board: Board) -> [(String, Vec<u8>); 3] {
    let bytes = |words: &[u32]| words.iter().flat_map(|word| word.to_be_bytes()).collect();
    let [words, verdicts, roll] = [board.words, board.verdicts, board.roll].map(bytes);
    [(NAMES[0].into(), words), (NAMES[1].into(), verdicts), (NAMES[2].into(), roll)]
}

/// The auditing program's rule for files: a byte count that is no multiple of 4 is refused as 4 with 0 items.
pub fn size_refusal<'a>(files: impl IntoIterator<Item = &'a Words>) -> Option<Refusal> {
    let whole = files.into_iter().all(Words::is_whole);
    (!whole).then_some(Refusal { number: 4, items: 0 })
}

/// An error in the system's words, without its number.
pub fn plain(error: &io::Error) -> String {
    let text = error.to_string();
    match text.find(" (os error") {
        Some(end) => text[..end].to_string(),
        None => text,
    }
}
