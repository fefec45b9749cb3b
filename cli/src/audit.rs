//! `tirfolma audit`: a line for each folder, its name and what the auditor prints first.

use crate::args::{number, usage, Call};
use crate::explain::{explain, NOTE};
use crate::files::{Error, Files};
use crate::folders::{folders, listed};
use crate::json::{array, Object};
use crate::library::header::*;
use crate::library::{Answer, Refusal, Report, Tables};
use crate::names::{hex_if_no_text, shown};
use crate::output::{about, finish, tell, Progress, Status, TICK};
use crate::queue::in_order;
use std::fmt::Write;
use std::path::{Path, PathBuf};
use std::sync::{Mutex, PoisonError};
use std::thread::available_parallelism;

struct Options {
    rows: bool,
    explain: bool,
    json: bool,
}

/// What is said of a folder.
struct Said {
    text: String,
    status: Status,
    error: Option<String>,
}

/// How many boards ended in each way.
#[derive(Default)]
struct Counts {
    accepted: usize,
    refused: usize,
    failed: usize,
}

/// What is told in the order of the folders: lines, errors, and how far it is.
struct Teller {
    counts: Counts,
    progress: Progress,
}

pub fn run(call: &Call) -> Result<Status, String> {
    let options = Options { rows: call.has("--rows"), explain: call.has("--explain"), json: call.has("--json") };
    let jobs = match call.value("--jobs").map(|jobs| number("--jobs", jobs)).transpose()? {
        Some(0) => return Err("--jobs is at least 1".to_string()),
        Some(jobs) => jobs,
        None => available_parallelism().map_or(1, |jobs| jobs.get()),
    };
    let teller = Mutex::new(Teller { counts: Counts::default(), progress: Progress::new() });
    let boards = match call.value("--from") {
        None if call.operands.is_empty() => return Err(usage(call.command)),
        None => folders(&call.operands),
        Some(_) if !call.operands.is_empty() => return Err("--from FILE stands in place of DIR...".to_string()),
        Some(list) => listed(Path::new(list)).map_err(|e| about(&e))?.into_iter().map(Ok).collect(),
    };
    let locked = || teller.lock().unwrap_or_else(PoisonError::into_inner);
    let all = in_order(
        boards.len(),
        jobs,
        || (Files::default(), Tables::default()),
        |(files, tables), task| say(&boards[task], files, tables, &options),
        |results| locked().tell(results),
        TICK,
        || locked().tick(boards.len()),
    );
    let Teller { counts, mut progress } = teller.into_inner().unwrap_or_else(PoisonError::into_inner);
    progress.clear();
    let mut last = String::new();
    if options.explain && !options.json && counts.refused > 0 {
        last += NOTE;
    }
    if call.has("--summary") {
        last += &counts.summary(options.json);
    }
    Ok(if all { finish(&last, counts.status()) } else { Status::Failed })
}

impl Teller {
    /// Prints what is said of some folders, and counts them. Whether that was possible.
    fn tell(&mut self, results: Vec<Said>) -> bool {
        self.progress.clear();
        results.iter().for_each(|said| self.counts.add(said.status));
        tell(results.into_iter().map(|said| (said.text, said.error)))
    }

    fn tick(&mut self, boards: usize) {
        let Counts { accepted, refused, failed } = self.counts;
        self.progress.show(accepted + refused + failed, boards);
    }
}

impl Counts {
    fn add(&mut self, status: Status) {
        match status {
            Status::Good => self.accepted += 1,
            Status::Refused => self.refused += 1,
            Status::Failed => self.failed += 1,
        }
    }

    fn status(&self) -> Status {
        match (self.failed, self.refused) {
            (0, 0) => Status::Good,
            (0, _) => Status::Refused,
            _ => Status::Failed,
        }
    }

    fn summary(&self, json: bool) -> String {
        let Counts { accepted, refused, failed } = *self;
        let boards = accepted + refused + failed;
        if json {
            let counts = [("boards", boards), ("accepted", accepted), ("refused", refused), ("not_audited", failed)];
            return counts
                .into_iter()
                .fold(Object::new(), |object, (key, count)| object.number(key, count as u64))
                .end()
                + "\n";
        }
        let missed = if failed > 0 { format!(", {failed} not audited") } else { String::new() };
        format!("{boards} boards: {accepted} accepted, {refused} refused{missed}\n")
    }
}

/// Reads and audits a folder's board, in files and tables that were used before.
fn say(board: &Result<PathBuf, Error>, files: &mut Files, tables: &mut Tables, options: &Options) -> Said {
    let read = board.as_ref().map_err(Error::clone).and_then(|folder| files.read(folder).map(|()| folder));
    match read {
        Ok(folder) => {
            let answer = files.audit(tables);
            let status = Status::of(&answer);
            let text = if options.json {
                object(folder, answer, files, tables, options)
            } else {
                line(folder, answer, files, tables, options)
            };
            Said { text, status, error: None }
        }
        Err(error) => {
            let folder = board.as_ref().unwrap_or(&error.path);
            let text = if options.json {
                named(folder).text("answer", "not audited").text("error", &about(&error)).end() + "\n"
            } else {
                format!("{}\tnot audited\n", shown(folder))
            };
            Said { text, status: Status::Failed, error: Some(about(&error)) }
        }
    }
}

/// What the auditor prints first.
pub fn answered(answer: Answer) -> String {
    match answer {
        Answer::Accepted(Report { items, mains, ballots, weight, .. }) => {
            format!("accepted {items} {mains} {ballots} {weight}")
        }
        Answer::Refused(refusal) => refused_at(refusal),
    }
}

/// A refusal as every command prints it.
pub fn refused_at(refusal: Refusal) -> String {
    format!("refused {} at {}", refusal.number, refusal.items)
}

/// What the other commands print of a refusal, with what is wrong in words.
pub fn refused(refusal: Refusal, why: &str, json: bool) -> String {
    match json {
        true => {
            Object::new()
                .text("answer", "refused")
                .number("number", refusal.number)
                .number("passed", refusal.items)
                .text("explanation", why)
                .end()
                + "\n"
        }
        false => format!("{}\n    {why}\n{NOTE}", refused_at(refusal)),
    }
}

/// The ballot rows of an accepted board: main number, voter, weight.
fn rows<'a>(report: &Report, tables: &'a Tables) -> impl Iterator<Item = [u32; 3]> + 'a {
    tables
        .ballots
        .chunks(TIRFOLMA_BALLOT_ROW_WORDS)
        .take(report.ballots as usize)
        .map(|row| [TIRFOLMA_COUNTED_BALLOT, TIRFOLMA_COUNTED_VOTER, TIRFOLMA_COUNTED_WEIGHT].map(|column| row[column]))
}

fn line(folder: &Path, answer: Answer, files: &Files, tables: &Tables, options: &Options) -> String {
    let mut text = format!("{}\t{}\n", shown(folder), answered(answer));
    match answer {
        Answer::Accepted(report) if options.rows => {
            for [ballot, voter, weight] in rows(&report, tables) {
                let _ = writeln!(text, "{ballot} {voter} {weight}");
            }
        }
        Answer::Refused(refusal) if options.explain => {
            let _ = writeln!(text, "    {}", explain(files, refusal));
        }
        _ => {}
    }
    text
}

/// An object that has the folder's name.
pub fn named(folder: &Path) -> Object {
    let object = Object::new().text("folder", &folder.to_string_lossy());
    match hex_if_no_text(folder.as_os_str()) {
        Some(hex) => object.text("folder_hex", &hex),
        None => object,
    }
}

fn object(folder: &Path, answer: Answer, files: &Files, tables: &Tables, options: &Options) -> String {
    let object = match answer {
        Answer::Accepted(report) => {
            let object = named(folder)
                .text("answer", "accepted")
                .number("items", report.items)
                .number("mains", report.mains)
                .number("ballots", report.ballots)
                .number("weight", report.weight)
                .text("curve", report.curve.name)
                .text("end", &report.end_in_hex());
            let row = |[ballot, voter, weight]: [u32; 3]| {
                Object::new().number("ballot", ballot).number("voter", voter).number("weight", weight).end()
            };
            match options.rows {
                true => object.value("rows", &array(rows(&report, tables).map(row))),
                false => object,
            }
        }
        Answer::Refused(refusal) => {
            let object = named(folder)
                .text("answer", "refused")
                .number("number", refusal.number)
                .number("passed", refusal.items);
            match options.explain {
                true => object.text("explanation", &explain(files, refusal)),
                false => object,
            }
        }
    };
    object.end() + "\n"
}
