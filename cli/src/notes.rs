//! `tirfolma notes`: a watcher's notes, held against a board.

use crate::args::Call;
use crate::beside::Beside;
use crate::explain::{explain_note, What};
use crate::json::Object;
use crate::library::{self, Disagreement, Fault, Tables};
use crate::output::{finish, Status};

pub fn run(call: &Call) -> Result<Status, String> {
    let notes = Beside::of(call, What::Notes)?;
    let mut tables = Tables::default();
    let held = match notes.size_refusal() {
        Some(refusal) => Err(refusal),
        None => library::notes(notes.files.words(), notes.words(), &mut tables),
    };
    let json = call.has("--json");
    let (text, status) = match held {
        Ok(None) => (agree(json), Status::Good),
        Ok(Some(disagreement)) => {
            let why = explain_note(notes.files.words(), &tables.index, notes.words(), disagreement);
            (disagree(disagreement, &why, json), Status::Refused)
        }
        Err(refusal) => (notes.refused(refusal, json), Status::Refused),
    };
    Ok(finish(&text, status))
}

fn agree(json: bool) -> String {
    match json {
        true => Object::new().text("answer", "agree").end() + "\n",
        false => "agree\n".to_string(),
    }
}

/// The note's number and what is wrong are the library's; why is told behind them.
fn disagree(Disagreement { note, fault, .. }: Disagreement, why: &str, json: bool) -> String {
    let fault = match fault {
        Fault::NoMainItem => "no main item",
        Fault::OutOfOrder => "out of order",
        Fault::TooEarly => "too early",
    };
    match json {
        true => {
            Object::new()
                .text("answer", "disagree")
                .number("note", note)
                .text("fault", fault)
                .text("explanation", why)
                .end()
                + "\n"
        }
        false => format!("{note} {fault}: {why}\n"),
    }
}
