//! A new folder for files, as those of a board: all are written, or none stays. No file is ever written over.

use crate::files::{plain, Error};
use std::fs::{self, File};
use std::io::{self, ErrorKind, Write};
use std::path::{Path, PathBuf};

/// A file's name and its bytes.
pub type Named = (String, Vec<u8>);

/// A folder that is not there yet, or is empty.
pub struct NewFolder {
    path: PathBuf,
    is_there: bool,
}

impl NewFolder {
    pub fn at(path: &Path) -> Result<NewFolder, Error> {
        let is_there = match fs::metadata(path) {
            Ok(about) if !about.is_dir() => Err("exists already, and is no folder".to_string()),
            Ok(_) => is_empty(path).map_err(|e| plain(&e)).and_then(|is_empty| match is_empty {
                true => Ok(true),
                false => Err("exists already, and is not empty".to_string()),
            }),
            Err(e) if e.kind() != ErrorKind::NotFound => Err(plain(&e)),
            Err(_) if fs::symlink_metadata(path).is_ok() => {
                Err("exists already, a link that leads nowhere".to_string())
            }
            Err(_) => Ok(false),
        };
        let is_there = is_there.map_err(|why| Error::new(path, why))?;
        Ok(NewFolder { path: path.to_path_buf(), is_there })
    }

    /// Writes files of different names. A new folder gets its name when all is written.
    pub fn write(&self, files: &[Named]) -> Result<(), Error> {
        if self.is_there {
            return self.write_in(&self.path, files);
        }
        let begun = begun_beside(&self.path).map_err(|e| Error::new(&self.path, plain(&e)))?;
        let named = self
            .write_in(&begun, files)
            .and_then(|()| fs::rename(&begun, &self.path).map_err(|e| Error::new(&self.path, plain(&e))));
        if named.is_err() {
            // It is ours. There is nothing left to do if this fails, and what is told is why it was not named.
            let _ = fs::remove_dir_all(&begun);
        }
        named
    }

    /// In a folder that has no such files. Those that were written are removed again if one can't be.
    fn write_in(&self, folder: &Path, files: &[Named]) -> Result<(), Error> {
        let mut made = Vec::new();
        let written = files.iter().try_for_each(|(name, bytes)| {
            write_new(folder.join(name), bytes, &mut made).map_err(|e| Error::new(&self.path.join(name), plain(&e)))
        });
        if written.is_err() {
            made.iter().for_each(|path| drop(fs::remove_file(path)));
        }
        written
    }
}

fn is_empty(path: &Path) -> io::Result<bool> {
    Ok(fs::read_dir(path)?.next().is_none())
}

/// A folder beside one that is not there yet, with a name that no other has.
fn begun_beside(path: &Path) -> io::Result<PathBuf> {
    let above = path.parent().filter(|above| !above.as_os_str().is_empty()).unwrap_or(Path::new("."));
    let mut number = 0;
    loop {
        let begun = above.join(format!(".tirfolma-{}-{number}", std::process::id()));
        match fs::create_dir(&begun) {
            Ok(()) => return Ok(begun),
            Err(e) if e.kind() == ErrorKind::AlreadyExists => number += 1,
            Err(e) => return Err(e),
        }
    }
}

/// Writes a file that is not there yet. Once it is there, its name is among those that were made.
fn write_new(path: PathBuf, bytes: &[u8], made: &mut Vec<PathBuf>) -> io::Result<()> {
    let mut file = File::create_new(&path)?;
    made.push(path);
    file.write_all(bytes)?;
    // What the disk does not take is told here.
    file.sync_all()
}
