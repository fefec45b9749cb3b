//! What the tests share: running the program under a time limit, the auditor beside it, folders that are removed again, and what is
//! expected of a board, told by the reference.
#![allow(dead_code)]

pub mod json;

use reference::audit::audit;
use reference::format::{BALLOTS_NEED, BALLOT_ROW, INDEX_NEED};
use reference::plan::Laid;
use reference::program::{bytes, words};
use std::ffi::{OsStr, OsString};
use std::fs::{self, Permissions};
use std::io::{Read, Write};
use std::os::unix::ffi::OsStrExt;
use std::os::unix::fs::{MetadataExt, PermissionsExt};
use std::path::{Path, PathBuf};
use std::process::{Child, Command, Stdio};
use std::sync::atomic::{AtomicUsize, Ordering};
use std::thread;
use std::time::{Duration, Instant};

pub const NAMES: [&str; 3] = ["board.words", "verdicts.words", "roll.words"];

/// The bytes of a board's three files, in the order of `NAMES`.
pub type Three = [Vec<u8>; 3];

/// No call of the tests takes nearly as long: what does, hangs.
const PATIENCE: Duration = Duration::from_secs(60);

/// What a program did.
#[derive(Debug)]
pub struct Ran {
    pub status: i32,
    pub out: Vec<u8>,
    pub err: Vec<u8>,
}

impl Ran {
    pub fn text(&self) -> &str {
        std::str::from_utf8(&self.out).expect("standard output is UTF-8")
    }
    pub fn errors(&self) -> &str {
        std::str::from_utf8(&self.err).expect("standard error is UTF-8")
    }
    /// The lines of standard output, each of which ends.
    pub fn lines(&self) -> Vec<&str> {
        let text = self.text();
        assert!(text.is_empty() || text.ends_with('\n'), "the last line ends: {text:?}");
        text.lines().collect()
    }
    /// An error of the call: a message, no answer, exit status 2.
    pub fn assert_failed(&self, about: &str) {
        assert_eq!(self.status, 2, "{about}: {self:?}");
        assert_eq!(self.text(), "", "{about}: an answer");
        self.assert_message(about);
    }
    /// Standard error has a message of this program, and not that of a defect.
    pub fn assert_message(&self, about: &str) {
        let errors = self.errors();
        assert!(errors.starts_with("tirfolma: ") && errors.ends_with('\n'), "{about}: {errors:?}");
        self.assert_no_panic(about);
    }
    pub fn assert_no_panic(&self, about: &str) {
        let errors = String::from_utf8_lossy(&self.err);
        assert!(!errors.contains("panicked") && !errors.contains("RUST_BACKTRACE"), "{about}: {errors}");
    }
}

pub const PROGRAM: &str = env!("CARGO_BIN_EXE_tirfolma");

/// Runs the program with these words.
pub fn tirfolma<S: AsRef<OsStr>>(words: impl IntoIterator<Item = S>) -> Ran {
    let mut command = Command::new(PROGRAM);
    command.args(words);
    run(command)
}

/// Runs a command to its end; a command that does not end is a failure.
pub fn run(mut command: Command) -> Ran {
    let told = format!("{command:?}").chars().take(400).collect::<String>();
    command.stdin(Stdio::null()).stdout(Stdio::piped()).stderr(Stdio::piped());
    let mut child = command.spawn().unwrap_or_else(|e| panic!("{told}: {e}"));
    let out = gather(child.stdout.take().expect("a pipe"));
    let err = gather(child.stderr.take().expect("a pipe"));
    let status = wait(&mut child, &told);
    Ran { status, out: out.join().expect("read"), err: err.join().expect("read") }
}

fn gather(mut from: impl Read + Send + 'static) -> thread::JoinHandle<Vec<u8>> {
    thread::spawn(move || {
        let mut bytes = Vec::new();
        from.read_to_end(&mut bytes).expect("a pipe can be read");
        bytes
    })
}

fn wait(child: &mut Child, told: &str) -> i32 {
    let began = Instant::now();
    let mut pause = Duration::from_micros(200);
    loop {
        if let Some(status) = child.try_wait().expect("a child can be waited for") {
            return status.code().unwrap_or_else(|| panic!("{told}: {status}"));
        }
        if began.elapsed() > PATIENCE {
            child.kill().expect("a child can be ended");
            child.wait().expect("a child can be waited for");
            panic!("{told}: still running after {PATIENCE:?}");
        }
        thread::sleep(pause);
        pause = (pause * 2).min(Duration::from_millis(20));
    }
}

/// A command under the shell, which may set limits first. The words stand for "$@".
pub fn shell<S: AsRef<OsStr>>(script: &str, words: impl IntoIterator<Item = S>) -> Command {
    let mut command = Command::new("bash");
    command.args(["-c", script, "bash"]).args(words);
    command
}

fn is_installed(tool: &str) -> bool {
    run(shell("command -v \"$1\"", [tool])).status == 0
}

/// A tool that a test can't do without.
pub fn need(tool: &str) {
    assert!(is_installed(tool), "{tool} is not installed; this test takes it");
}

/// Whether a tool is there that many machines do not have. That it is not is said, also if the test passes.
pub fn has(tool: &str) -> bool {
    let found = is_installed(tool);
    if !found {
        let _ = writeln!(std::io::stderr(), "{tool} is not installed: what needs it is left out");
    }
    found
}

pub fn is_root() -> bool {
    fs::metadata("/proc/self").expect("/proc is there").uid() == 0
}

/// The program as a user who may not read what is closed to all, after what the shell shall do before.
pub fn as_other(before: &str, words: Vec<OsString>) -> Ran {
    let script = format!("{before}; exec \"$@\"");
    if !is_root() {
        return run(shell(&script, [OsString::from(PROGRAM)].into_iter().chain(words)));
    }
    need("setpriv");
    // A copy, since the program's own folder may be closed to others.
    let temp = Temp::new("other");
    fs::set_permissions(temp.path(), Permissions::from_mode(0o755)).expect("opened");
    let program = temp.join("tirfolma");
    fs::copy(PROGRAM, &program).expect("copied");
    let script = format!("exec setpriv --reuid=65534 --regid=65534 --clear-groups bash -c '{script}' bash \"$@\"");
    run(shell(&script, [program.into_os_string()].into_iter().chain(words)))
}

// ---- the auditor ----

/// The root of the project.
pub fn root() -> PathBuf {
    Path::new(env!("CARGO_MANIFEST_DIR")).parent().expect("the folder above").to_path_buf()
}

/// What the proved auditing program prints in a folder.
pub fn auditor(folder: &Path) -> String {
    let program = std::env::var_os("TIRFOLMA_PROGRAM").map_or(root().join("target/bin/auditor"), PathBuf::from);
    let program = program.canonicalize().unwrap_or_else(|e| {
        panic!("{}: {e}; 'dist/build auditor' builds it, or TIRFOLMA_PROGRAM names it", program.display())
    });
    let mut command = Command::new(program);
    command.current_dir(folder);
    let ran = run(command);
    assert_eq!((ran.status, ran.errors()), (0, ""), "the auditor in {}", folder.display());
    ran.text().to_string()
}

// ---- folders ----

/// A folder of its own, removed at the end.
pub struct Temp(PathBuf);

static MADE: AtomicUsize = AtomicUsize::new(0);

impl Temp {
    pub fn new(name: &str) -> Temp {
        let number = MADE.fetch_add(1, Ordering::Relaxed);
        let path = std::env::temp_dir().join(format!("tirfolma-{}-{name}-{number}", std::process::id()));
        fs::create_dir(&path).expect("a folder can be made");
        Temp(path)
    }
    pub fn path(&self) -> &Path {
        &self.0
    }
    pub fn join(&self, name: impl AsRef<Path>) -> PathBuf {
        self.0.join(name)
    }
    /// Makes a folder in it with a board's files.
    pub fn board(&self, name: impl AsRef<Path>, files: &Three) -> PathBuf {
        let folder = self.join(name);
        write(&folder, files);
        folder
    }
}

impl Drop for Temp {
    fn drop(&mut self) {
        let _ = fs::remove_dir_all(&self.0);
    }
}

/// Writes a board's files into a folder, which is made if need be.
pub fn write(folder: &Path, files: &Three) {
    fs::create_dir_all(folder).expect("a folder can be made");
    for (name, bytes) in NAMES.iter().zip(files) {
        fs::write(folder.join(name), bytes).expect("a file can be written");
    }
}

/// The files of a folder; one that is missing counts as empty, as for the auditor.
pub fn read(folder: &Path) -> Three {
    NAMES.map(|name| fs::read(folder.join(name)).unwrap_or_default())
}

pub fn sample(name: &str) -> Three {
    let folder = root().join("samples").join(name);
    NAMES.map(|file| fs::read(folder.join(file)).unwrap_or_else(|e| panic!("{name}/{file}: {e}")))
}

pub fn files(laid: &Laid) -> Three {
    [bytes(&laid.words), bytes(&laid.verdicts), bytes(&laid.roll)]
}

/// The arguments of an audit: options, then folders.
pub fn words_of<P: AsRef<OsStr>>(options: &[&str], folders: impl IntoIterator<Item = P>) -> Vec<OsString> {
    let options = options.iter().map(OsString::from);
    options.chain(folders.into_iter().map(|folder| folder.as_ref().to_os_string())).collect()
}

// ---- what is expected ----

/// What the auditor prints of these files, but with the library's limits: told by the reference.
pub fn expected(files: &Three) -> String {
    if files.iter().any(|file| file.len() % 4 != 0) {
        return "refused 4 at 0\n".to_string();
    }
    let [board, verdicts, roll] = files.each_ref().map(|file| words(file));
    let (mut index, mut ballots) = (vec![0; INDEX_NEED], vec![0; BALLOTS_NEED]);
    let report = audit(&board, &verdicts, &roll, &mut index, &mut ballots);
    if report.number != 0 {
        return format!("refused {} at {}\n", report.number, report.items);
    }
    let mut text = format!("accepted {} {} {} {}\n", report.items, report.mains, report.ballots, report.weight);
    for row in ballots.chunks(BALLOT_ROW).take(report.ballots as usize) {
        text += &format!("{} {} {}\n", row[0], row[1], row[2]);
    }
    text
}

/// The bytes of a name that was printed as --help says; none where it is not so printed.
pub fn name_back(shown: &str) -> Option<Vec<u8>> {
    let mut bytes = Vec::new();
    let mut rest = shown.chars();
    while let Some(c) = rest.next() {
        if c != '\\' {
            if c.is_control() {
                return None;
            }
            bytes.extend(c.encode_utf8(&mut [0; 4]).as_bytes());
            continue;
        }
        match rest.next()? {
            '\\' => bytes.push(b'\\'),
            'n' => bytes.push(b'\n'),
            't' => bytes.push(b'\t'),
            'x' => {
                let digits: String = [rest.next()?, rest.next()?].iter().collect();
                let byte = u8::from_str_radix(&digits, 16).ok()?;
                // What has a letter of its own is written by it.
                if digits != format!("{byte:02x}") || b"\\\n\t".contains(&byte) {
                    return None;
                }
                bytes.push(byte);
            }
            _ => return None,
        }
    }
    Some(bytes)
}

/// A line of an audit: the folder's name and the answer, told apart by the line's only tab.
pub fn parted(line: &str) -> (PathBuf, &str) {
    let (name, answer) = line.split_once('\t').unwrap_or_else(|| panic!("no tab in {line:?}"));
    let name = name_back(name).unwrap_or_else(|| panic!("no name as --help says: {line:?}"));
    (PathBuf::from(OsStr::from_bytes(&name)), answer)
}
