//! Which folders of boards an argument stands for.

use crate::files::{plain, text_of, Error, NAMES};
use crate::names::{shown, shown_back};
use std::ffi::OsString;
use std::fs;
use std::io;
use std::os::unix::ffi::OsStrExt;
use std::path::{Path, PathBuf};

/// The folders that the arguments stand for, in order; in the place of one that can't be read, the error. A folder with one of a board's
/// files stands for itself, any other for the folders in it, in the order of their names' bytes. What is in these is not looked at: a folder
/// in which the files are missing must not be taken for one that stands for others.
pub fn folders(arguments: &[OsString]) -> Vec<Result<PathBuf, Error>> {
    let mut found = Vec::new();
    for argument in arguments {
        let path = Path::new(argument);
        if is_board(path) {
            found.push(Ok(path.to_path_buf()));
            continue;
        }
        match inside(path) {
            Ok(inner) if inner.is_empty() => {
                let why = format!("has no {} and no folders", NAMES.join(", no "));
                found.push(Err(Error::new(path, why)));
            }
            Ok(inner) => found.extend(inner.into_iter().map(Ok)),
            Err(e) => found.push(Err(Error::new(path, plain(&e)))),
        }
    }
    found
}

/// The folders that a file names, a line each, as names are shown. Each stands for itself, whatever is in it. A line that was cut, a file
/// without lines and what is no such name are errors: no folder of a list must be lost without a word.
pub fn listed(file: &Path) -> Result<Vec<PathBuf>, Error> {
    let text = text_of(file)?;
    let wrong = |why: String| Error::new(file, why);
    let lines = match text.strip_suffix(b"\n") {
        Some(lines) => lines.split(|&byte| byte == b'\n'),
        None if text.is_empty() => return Err(wrong("names no folder".to_string())),
        None => return Err(wrong("its last line has no end".to_string())),
    };
    let name = |(at, line): (usize, &[u8])| {
        let name = shown_back(line).filter(|name| !name.as_os_str().is_empty());
        name.ok_or_else(|| wrong(format!("line {} is no folder's name, as audit prints names", at + 1)))
    };
    lines.enumerate().map(name).collect()
}

/// The lines of such a file.
pub fn list<'a>(folders: impl IntoIterator<Item = &'a Path>) -> String {
    folders.into_iter().map(|folder| shown(folder) + "\n").collect()
}

/// Whether a folder has one of a board's files, of whatever kind, or may have one that can't be looked at.
fn is_board(folder: &Path) -> bool {
    let is_none = |e: &io::Error| matches!(e.kind(), io::ErrorKind::NotFound | io::ErrorKind::NotADirectory);
    NAMES.iter().any(|name| !fs::symlink_metadata(folder.join(name)).is_err_and(|e| is_none(&e)))
}

/// The folders in a folder. A link that leads nowhere may have led to a folder, and is one of them.
fn inside(folder: &Path) -> io::Result<Vec<PathBuf>> {
    let mut inner = Vec::new();
    for entry in fs::read_dir(folder)? {
        let entry = entry?;
        let (kind, path) = (entry.file_type()?, entry.path());
        if kind.is_dir() || kind.is_symlink() && fs::metadata(&path).map_or(true, |about| about.is_dir()) {
            inner.push(path);
        }
    }
    inner.sort_by(|a, b| a.as_os_str().as_bytes().cmp(b.as_os_str().as_bytes()));
    Ok(inner)
}
