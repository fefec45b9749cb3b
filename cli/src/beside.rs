//! What some commands are given beside a board: a file of receipts or of notes. It is read as the board's own files are.

use crate::args::Call;
use crate::audit::refused;
use crate::explain::{explain_beside, What};
use crate::files::{size_refusal, Files, Words};
use crate::library::Refusal;
use crate::names::shown;
use crate::output::about;
use std::path::{Path, PathBuf};

/// The two operands of a call, DIR and FILE.
pub struct Beside {
    what: What,
    pub files: Files,
    path: PathBuf,
    file: Words,
}

impl Beside {
    pub fn of(call: &Call, what: What) -> Result<Beside, String> {
        let [folder, path] = [0, 1].map(|at| Path::new(&call.operands[at]));
        let files = Files::of(folder).map_err(|e| about(&e))?;
        let file = Words::of(path).map_err(|e| about(&e))?;
        Ok(Beside { what, files, path: path.to_path_buf(), file })
    }

    /// The words of FILE.
    pub fn words(&self) -> &[u32] {
        &self.file.words
    }

    /// The rule for files, of all of them.
    pub fn size_refusal(&self) -> Option<Refusal> {
        size_refusal(self.files.each().into_iter().chain([&self.file]))
    }

    /// What is printed where the board or FILE is refused.
    pub fn refused(&self, refusal: Refusal, json: bool) -> String {
        let why = explain_beside(&self.files, &shown(&self.path), self.what, &self.file, refusal);
        refused(refusal, &why, json)
    }
}
