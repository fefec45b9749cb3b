//! `tirfolma plan`: what the audit of each board will read and hash, from the heads of its items, and boards dealt to machines by it.

use crate::args::{number, Call};
use crate::audit::{named, refused_at};
use crate::deal::{deal, heaviest, percent, Share};
use crate::explain::{explain, NOTE};
use crate::files::{Error, Files};
use crate::folders::{folders, list};
use crate::json::Object;
use crate::library::{Plan, Refusal};
use crate::names::shown;
use crate::new_folder::{Named, NewFolder};
use crate::output::{about, finish, tell, Progress, Status, TICK};
use crate::queue::in_order;
use std::path::{Path, PathBuf};
use std::sync::{Mutex, PoisonError};
use std::thread::available_parallelism;

const MOST_MACHINES: usize = 10_000;

/// A board, and what is said of it.
struct Board {
    folder: PathBuf,
    said: Said,
}

enum Said {
    Planned(Plan),
    /// With what is wrong, in words.
    Refused(Refusal, String),
    /// Why it can't be read.
    Failed(String),
}

/// A text and an error behind it.
type Told = (String, Option<String>);

pub fn run(call: &Call) -> Result<Status, String> {
    let machines = machines(call)?;
    if machines.is_none() && call.has("--out") {
        return Err("--out goes with --machines".to_string());
    }
    let out = call.value("--out").map(|out| NewFolder::at(Path::new(out))).transpose().map_err(|e| about(&e))?;
    let Some(boards) = planned(folders(&call.operands)) else { return Ok(Status::Failed) };
    let blocks: Vec<Option<u32>> = boards.iter().map(Board::blocks).collect();
    let shares = machines.map(|machines| deal(&blocks, machines));
    if let (Some(out), Some(shares)) = (out, &shares) {
        out.write(&lists(&boards, shares)).map_err(|e| about(&e))?;
    }
    let (sum, json) = (Sum::of(&boards), call.has("--json"));
    let told = match &shares {
        None => tell(boards.iter().map(|board| (board.told(None, json), board.error()))),
        Some(shares) => tell(told_of_machines(&boards, shares, &sum, json)),
    };
    let last = sum.told(shares.as_deref(), json);
    Ok(if told { finish(&last, sum.status()) } else { Status::Failed })
}

fn machines(call: &Call) -> Result<Option<usize>, String> {
    match call.value("--machines").map(|machines| number("--machines", machines)).transpose()? {
        Some(0) => Err("--machines is at least 1".to_string()),
        Some(machines) if machines > MOST_MACHINES => Err(format!("--machines is at most {MOST_MACHINES}")),
        machines => Ok(machines),
    }
}

/// The plans of all boards, in their order; none where that came to no end.
fn planned(folders: Vec<Result<PathBuf, Error>>) -> Option<Vec<Board>> {
    let count = folders.len();
    let jobs = available_parallelism().map_or(1, |jobs| jobs.get());
    let state = Mutex::new((Vec::with_capacity(count), Progress::new()));
    let locked = || state.lock().unwrap_or_else(PoisonError::into_inner);
    let take = |boards: Vec<Board>| {
        locked().0.extend(boards);
        true
    };
    let tick = || {
        let (boards, progress) = &mut *locked();
        progress.show(boards.len(), count);
    };
    let all = in_order(count, jobs, Files::default, |files, at| Board::of(&folders[at], files), take, TICK, tick);
    let (boards, mut progress) = state.into_inner().unwrap_or_else(PoisonError::into_inner);
    progress.clear();
    all.then_some(boards)
}

/// For each machine a file with the names of its folders.
fn lists(boards: &[Board], shares: &[Share]) -> Vec<Named> {
    let names = |share: &Share| list(share.boards.iter().map(|&board| boards[board].folder.as_path()));
    let file = |(machine, share): (usize, &Share)| (format!("machine-{machine}.list"), names(share).into_bytes());
    (1..).zip(shares).map(file).collect()
}

/// Each machine with its boards, then the boards that have no plan.
fn told_of_machines(boards: &[Board], shares: &[Share], sum: &Sum, json: bool) -> Vec<Told> {
    let mut all = Vec::new();
    for (machine, share) in (1..).zip(shares) {
        all.push((head_of(machine, share, sum, json), None));
        all.extend(share.boards.iter().map(|&board| (boards[board].told(Some(machine), json), None)));
    }
    let unplanned: Vec<&Board> = boards.iter().filter(|board| board.blocks().is_none()).collect();
    if !unplanned.is_empty() && !json {
        all.push(("without a plan, so dealt as 0 blocks; their audit is still to be done:\n".to_string(), None));
    }
    let text = |board: &Board| if json { String::new() } else { board.told(None, json) };
    all.extend(unplanned.into_iter().map(|board| (text(board), board.error())));
    all
}

fn head_of(machine: usize, Share { blocks, boards }: &Share, sum: &Sum, json: bool) -> String {
    let count = boards.len();
    match json {
        true => {
            let object = Object::new().number("machine", machine as u64).number("boards", count as u64);
            object.number("blocks", *blocks).end() + "\n"
        }
        false => format!("machine {machine}: {count} boards, {blocks} blocks, {}\n", percent(*blocks, sum.blocks)),
    }
}

impl Board {
    /// Reads and plans a folder's board, in files that were used before.
    fn of(folder: &Result<PathBuf, Error>, files: &mut Files) -> Board {
        let read = folder.as_ref().map_err(Error::clone).and_then(|folder| files.read_board(folder));
        let said = match read.map(|()| files.plan()) {
            Ok(Ok(plan)) => Said::Planned(plan),
            Ok(Err(refusal)) => Said::Refused(refusal, explain(files, refusal)),
            Err(ref error) => Said::Failed(about(error)),
        };
        let folder = folder.as_ref().unwrap_or_else(|error| &error.path);
        Board { folder: folder.clone(), said }
    }

    fn blocks(&self) -> Option<u32> {
        match self.said {
            Said::Planned(plan) => Some(plan.blocks),
            _ => None,
        }
    }

    fn error(&self) -> Option<String> {
        match &self.said {
            Said::Failed(why) => Some(why.clone()),
            _ => None,
        }
    }

    /// With the machine to which it is dealt, where it stands under that.
    fn told(&self, machine: Option<usize>, json: bool) -> String {
        match (json, machine) {
            (true, _) => self.object(machine),
            (false, Some(machine)) => format!("{machine}\t{}", self.line()),
            (false, None) => match &self.said {
                Said::Refused(_, why) => format!("{}    {why}\n", self.line()),
                _ => self.line(),
            },
        }
    }

    fn line(&self) -> String {
        let said = match self.said {
            Said::Planned(Plan { items, index_words, blocks }) => format!("planned {items} {index_words} {blocks}"),
            Said::Refused(refusal, _) => refused_at(refusal),
            Said::Failed(_) => "not planned".to_string(),
        };
        format!("{}\t{said}\n", shown(&self.folder))
    }

    fn object(&self, machine: Option<usize>) -> String {
        let object = named(&self.folder);
        let object = match &self.said {
            Said::Planned(plan) => object
                .text("answer", "planned")
                .number("items", plan.items)
                .number("index_words", plan.index_words)
                .number("blocks", plan.blocks),
            Said::Refused(refusal, why) => object
                .text("answer", "refused")
                .number("number", refusal.number)
                .number("passed", refusal.items)
                .text("explanation", why),
            Said::Failed(why) => object.text("answer", "not planned").text("error", why),
        };
        let object = match machine {
            Some(machine) => object.number("machine", machine as u64),
            None => object,
        };
        object.end() + "\n"
    }
}

/// How many boards ended in each way, and what the plans say together.
#[derive(Default)]
struct Sum {
    planned: u64,
    refused: u64,
    failed: u64,
    items: u64,
    index_words: u64,
    blocks: u64,
}

impl Sum {
    fn of(boards: &[Board]) -> Sum {
        let mut sum = Sum::default();
        for board in boards {
            match board.said {
                Said::Planned(plan) => {
                    sum.planned += 1;
                    sum.items += u64::from(plan.items);
                    sum.index_words += u64::from(plan.index_words);
                    sum.blocks += u64::from(plan.blocks);
                }
                Said::Refused(..) => sum.refused += 1,
                Said::Failed(_) => sum.failed += 1,
            }
        }
        sum
    }

    fn status(&self) -> Status {
        match (self.failed, self.refused) {
            (0, 0) => Status::Good,
            (0, _) => Status::Refused,
            _ => Status::Failed,
        }
    }

    /// What stands at the end: the sum, and the heaviest machine.
    fn told(&self, shares: Option<&[Share]>, json: bool) -> String {
        let heaviest = shares.and_then(heaviest).map(|(machine, share)| (machine as u64 + 1, share.blocks));
        let Sum { planned, refused, failed, items, index_words, blocks } = *self;
        let boards = planned + refused + failed;
        if json {
            let counts = [("boards", boards), ("planned", planned), ("refused", refused), ("not_planned", failed)];
            let sums = [("items", items), ("index_words", index_words), ("blocks", blocks)];
            let machine = heaviest.map(|(machine, blocks)| [("heaviest", machine), ("heaviest_blocks", blocks)]);
            let all = counts.into_iter().chain(sums).chain(machine.into_iter().flatten());
            return all.fold(Object::new(), |object, (key, number)| object.number(key, number)).end() + "\n";
        }
        let note = if refused > 0 { NOTE } else { "" };
        let missed = if failed > 0 { format!(", {failed} not planned") } else { String::new() };
        let boards = format!("{boards} boards: {planned} planned, {refused} refused{missed}");
        let sums = format!("{items} items, {index_words} index words, {blocks} blocks");
        let machine = heaviest.map_or(String::new(), |(machine, most)| {
            format!("heaviest: machine {machine}, {most} blocks, {}\n", percent(most, blocks))
        });
        format!("{note}{boards}; {sums}\n{machine}")
    }
}
