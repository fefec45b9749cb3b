//! `tirfolma cut`: a board cut behind a main item, as the files of a board.

use crate::args::{number, Call};
use crate::audit::{answered, refused};
use crate::board::{Cut, Passed};
use crate::explain::explain;
use crate::files::{files_of, Files};
use crate::json::Object;
use crate::library::{self, Answer, Report, Tables};
use crate::names::shown;
use crate::new_folder::NewFolder;
use crate::output::{about, finish, Status};
use std::path::Path;

pub fn run(call: &Call) -> Result<Status, String> {
    let [folder, out] = [0, 2].map(|at| Path::new(&call.operands[at]));
    let main = number("MAIN", &call.operands[1])?;
    let out = NewFolder::at(out).map_err(|e| about(&e))?;
    let files = Files::of(folder).map_err(|e| about(&e))?;
    let (mut tables, json) = (Tables::default(), call.has("--json"));
    let report = match files.audit(&mut tables) {
        Answer::Accepted(report) => report,
        Answer::Refused(refusal) => {
            return Ok(finish(&refused(refusal, &explain(&files, refusal), json), Status::Refused));
        }
    };
    let cut = cut(&files, &report, &tables, main).ok_or_else(|| {
        let mains = report.mains;
        format!("{}: has main items 1 to {mains}, and no main item {main}", shown(folder))
    })?;
    let report = audited(&cut, main)?;
    out.write(&files_of(cut.board())).map_err(|e| about(&e))?;
    Ok(finish(&said(&report, json), Status::Good))
}

/// The board up to a main item, if it has one of that number: the index table tells which item that is.
fn cut<'a>(files: &'a Files, report: &Report, tables: &Tables, main: usize) -> Option<Cut<'a>> {
    let items = Passed::of_accepted(files.words(), report.items, &tables.index)?;
    let number = items.numbers().find(|&number| items.main(number) == Some(main))?;
    Cut::of(files.words(), items.up_to(number))
}

/// What the library says of a cut, which is printed. It is proved to accept it, with so many main items: all else is a defect.
fn audited(cut: &Cut, main: usize) -> Result<Report, String> {
    match library::audit(cut.board(), &mut Tables::default()) {
        Answer::Accepted(report) if report.mains as usize == main => Ok(report),
        other => {
            let said = answered(other);
            Err(format!("the cut at main item {main} is {said}: this is a fault of the program, not of the board"))
        }
    }
}

fn said(report: &Report, json: bool) -> String {
    let Report { items, mains, .. } = *report;
    let end = report.end_in_hex();
    match json {
        true => {
            Object::new().text("answer", "cut").number("items", items).number("mains", mains).text("end", &end).end()
                + "\n"
        }
        false => format!("{items} {mains} {end}\n"),
    }
}
