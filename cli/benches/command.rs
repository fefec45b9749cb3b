//! Times `tirfolma audit` on 900 boards of 2,048 items beside the library alone, and looks at the memory that it takes.
//!
//!   cargo bench --bench command      TIRFOLMA_COMMAND names another build of the command
//!
//! The library's own time is the sum of its calls, each timed by itself, with as many of them at once as there are processors. Spread over
//! the processors it is what the command would take if reading and printing cost nothing. Both are run in turns; the best of each counts.
//! The boards are made once and kept in target/bench/boards. Ends with status 1 where a bar is missed.

use reference::format::MAX_ITEMS;
use reference::program::bytes;
use reference::random::Random;
use reference::roll::{full_around, voters_of};
use reference::sound::{make, Shape};
use std::fs;
use std::path::{Path, PathBuf};
use std::process::{Command, ExitCode, Stdio};
use std::sync::atomic::{AtomicUsize, Ordering};
use std::thread::{available_parallelism, scope, sleep};
use std::time::{Duration, Instant};
use tirfolma::files::{Files, NAMES};
use tirfolma::library::header::{TIRFOLMA_BALLOT_WORDS, TIRFOLMA_INDEX_WORDS};
use tirfolma::library::{audit, Answer, Tables};

const BOARDS: usize = 900;
/// In turns of the library alone and the command. Where the bar seems to be missed they are run on: a busy machine takes more off one than
/// off the other.
const ROUNDS: usize = 7;
const MOST_ROUNDS: usize = 28;
/// The most that the command may take, over the library's own time on all processors.
const BAR: f64 = 1.15;
/// What the command may have for each worker beside a board's files and tables, in KiB: a stack, lines that wait to be printed.
const BESIDE: u64 = 128;
/// The workers whose memory is looked at, beside one.
const MORE: u64 = 8;

fn main() -> ExitCode {
    let folder = Path::new(env!("CARGO_MANIFEST_DIR")).join("../target/bench/boards");
    let boards = boards(&folder);
    let processors = available_parallelism().map_or(1, |count| count.get());
    let (mut alone, mut command) = (Duration::MAX, Duration::MAX);
    let (mut rounds, mut ratio) = (0, f64::MAX);
    while rounds < ROUNDS || ratio > BAR && rounds < MOST_ROUNDS {
        rounds += 1;
        alone = alone.min(library_time(&boards, processors) / processors as u32);
        command = command.min(command_time(&folder, processors));
        ratio = command.as_secs_f64() / alone.as_secs_f64();
    }
    println!("{BOARDS} boards of {MAX_ITEMS} items, {processors} processors, best of {rounds}:");
    println!("the library alone {alone:.1?}, tirfolma audit {command:.1?}: {ratio:.3} times as long (bar {BAR})");
    let largest = boards.iter().map(|board| size(board)).max().unwrap_or(0);
    let tables = 4 * (TIRFOLMA_INDEX_WORDS + TIRFOLMA_BALLOT_WORDS) as u64;
    let may = (largest + tables).div_ceil(1024) + BESIDE;
    let took = (peak(&folder, 1 + MORE).saturating_sub(peak(&folder, 1))).div_ceil(MORE);
    println!("memory for each worker: {took} KiB (bar {may}, {BESIDE} more than the largest board's files and tables)");
    if ratio > BAR || took > may {
        println!("a bar is missed");
        return ExitCode::FAILURE;
    }
    ExitCode::SUCCESS
}

/// The folders, made where they are not there yet.
fn boards(folder: &Path) -> Vec<PathBuf> {
    let paths: Vec<PathBuf> = (0..BOARDS).map(|seed| folder.join(format!("{seed:03}"))).collect();
    for (seed, path) in paths.iter().enumerate() {
        if path.join(NAMES[2]).exists() {
            continue;
        }
        let random = &mut Random::new(seed as u64);
        let shape = Shape { items: MAX_ITEMS, words: None, long: 10, voters: MAX_ITEMS / 8, extraction: true };
        let mut plan = make(random, shape).plan;
        plan.roll = full_around(&voters_of(&plan.items), random);
        let laid = plan.lay();
        fs::create_dir_all(path).expect("the folder can be made");
        for (name, words) in NAMES.iter().zip([&laid.words, &laid.verdicts, &laid.roll]) {
            fs::write(path.join(name), bytes(words)).expect("the file can be written");
        }
    }
    let there = fs::read_dir(folder).map_or(0, |entries| entries.count());
    assert_eq!(there, BOARDS, "{} has these boards alone", folder.display());
    paths
}

fn size(board: &Path) -> u64 {
    NAMES.iter().map(|name| fs::metadata(board.join(name)).map_or(0, |about| about.len())).sum()
}

/// The sum of the library's calls.
fn library_time(boards: &[PathBuf], processors: usize) -> Duration {
    let next = AtomicUsize::new(0);
    let worker = || {
        let (mut files, mut tables) = (Files::default(), Tables::default());
        let mut sum = Duration::ZERO;
        while let Some(board) = boards.get(next.fetch_add(1, Ordering::Relaxed)) {
            files.read(board).expect("the board can be read");
            let start = Instant::now();
            let answer = audit(files.words(), &mut tables);
            sum += start.elapsed();
            assert!(matches!(answer, Answer::Accepted(_)), "the board is sound");
        }
        sum
    };
    scope(|scope| {
        let workers: Vec<_> = (0..processors).map(|_| scope.spawn(worker)).collect();
        workers.into_iter().map(|worker| worker.join().expect("a worker ends")).sum()
    })
}

fn audit_all(folder: &Path, jobs: u64) -> Command {
    let program = std::env::var_os("TIRFOLMA_COMMAND").unwrap_or(env!("CARGO_BIN_EXE_tirfolma").into());
    let mut command = Command::new(program);
    command.args(["audit", "--jobs", &jobs.to_string()]).arg(folder).stdout(Stdio::null());
    command
}

fn command_time(folder: &Path, processors: usize) -> Duration {
    let start = Instant::now();
    let status = audit_all(folder, processors as u64).status().expect("the command runs");
    let took = start.elapsed();
    assert!(status.success(), "all boards are accepted");
    took
}

/// The most memory that the command has, in KiB: looked at again and again until it ends.
fn peak(folder: &Path, jobs: u64) -> u64 {
    let mut child = audit_all(folder, jobs).spawn().expect("the command runs");
    let status = format!("/proc/{}/status", child.id());
    let mut peak = 0;
    while child.try_wait().expect("it can be waited for").is_none() {
        let text = fs::read_to_string(&status).unwrap_or_default();
        let most = text.lines().find_map(|line| line.strip_prefix("VmHWM:")?.trim().strip_suffix(" kB")?.parse().ok());
        peak = most.unwrap_or(0).max(peak);
        sleep(Duration::from_millis(1));
    }
    assert!(peak > 0, "its memory could be looked at");
    peak
}
