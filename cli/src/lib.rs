//! `tirfolma`, the command: reads a board's files, has the proved library audit them, and prints what it says.
//!
//! `library` has the calls, and `files` the one rule about files; what the other parts do decides nothing about a board.
//! Reading: `args`, `folders`, `files`, `beside`. Writing: `new_folder`. The commands: `audit` and `plan` (over `queue`; `deal` is for
//! `plan`), `compare`, `ancestry`, `receipts`, `notes`, `cut`, `show`.
//! For people: `explain`, `board`, `format`, `types`, `times`, `names`, `json`, `output`, `help`.

pub mod ancestry;
pub mod args;
pub mod audit;
pub mod beside;
pub mod board;
pub mod compare;
pub mod cut;
pub mod deal;
pub mod explain;
pub mod files;
pub mod folders;
pub mod format;
pub mod help;
pub mod json;
pub mod library;
pub mod names;
pub mod new_folder;
pub mod notes;
pub mod output;
pub mod plan;
pub mod queue;
pub mod receipts;
pub mod show;
pub mod times;
pub mod types;

use args::Asked;
use output::{complain, finish, Status};
use std::ffi::OsString;

/// Does what the words behind the program's name ask for.
pub fn run(words: Vec<OsString>) -> Status {
    let done = args::read(words).and_then(|asked| match asked {
        Asked::Text(text) => Ok(finish(&text, Status::Good)),
        Asked::Run(call) => (call.command.run)(&call),
    });
    done.unwrap_or_else(|why| {
        complain(&why);
        Status::Failed
    })
}
