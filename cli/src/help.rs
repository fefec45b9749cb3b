//! What the program says of itself. --help, the manual page and the completion for bash are made from this one text, and the command line
//! is read by it (args.rs).

use crate::args::Call;
use crate::explain::refusals;
use crate::output::Status;

pub struct Opt {
    pub flag: &'static str,
    /// What follows the flag, if anything does.
    pub value: Option<&'static str>,
    pub text: &'static str,
}

pub struct Command {
    pub name: &'static str,
    pub run: fn(&Call) -> Result<Status, String>,
    pub operands: &'static str,
    /// The least and the most operands.
    pub takes: (usize, usize),
    /// In one line.
    pub about: &'static str,
    pub text: &'static [&'static str],
    pub options: &'static [Opt],
    /// The keys of the object that --json prints.
    pub keys: &'static [(&'static str, &'static str)],
}

const JSON: Opt =
    Opt { flag: "--json", value: None, text: "Print a JSON object in place of lines; its keys are below." };
const HELP: Opt = Opt { flag: "--help", value: None, text: "Print this text; so does -h." };

pub const PURPOSE: &str = "audit the bulletin boards of elections";

pub const INTRODUCTION: &[&str] = &[
    "tirfolma reads boards from files, has the proved library audit them, and prints what it says. Whether a board is sound the library alone decides: it is proved to accept a board if and only if the board meets the published rules.",
    "DIR is a folder with board.words, verdicts.words and roll.words: 32-bit words, four bytes each, high byte first. All three must be there; a file may be empty. A byte count that is no multiple of 4 is refused as 4 at 0. A board may have 262144 words and 2048 items, a roll 2048 voters; what is more is refused as 1 or 20. Behind the word -- a name may begin with a dash.",
    "On which curve a board is and how wide its sets of contests are, its own first item tells. Where that is a genesis of 18 content words, the last of them is the traits word: bit 0 gives sets of contests eight words, for contests 0 to 255, in place of one, for contests 0 to 31; bits 1 and 2 are the number of the curve, 0 for secp256r1, 1 for secp384r1 and 2 for secp521r1. A board that has no such word is on secp256r1, with sets of one word; any other bit, and the number 3, are refused as 13. By the curve an address is the SHA-256, SHA-384 or SHA-512 of the hashed words and has 8, 12 or 16 words, a signature 16, 24 or 33, a commitment 9, 13 or 17, a cryptogram 17, 25 or 34.",
];

pub const COMMANDS: &[Command] = &[
    Command {
        name: "audit",
        run: crate::audit::run,
        operands: "DIR...",
        // None with --from.
        takes: (0, usize::MAX),
        about: "audit boards, a line for each",
        text: &[
            "Prints a line for each folder: its name, a tab, and what the auditor prints first. That is 'accepted' with the numbers of items, main items and counted ballots and their total weight, or 'refused N at K': refusal N, of those below, after K items that pass. A folder that can't be read is 'not audited', and why is said on standard error.",
            "A DIR that has none of the three files stands for all folders in it, in the order of their names' bytes. A DIR that has one of them is a board, whatever folders it has. Boards are audited on all processors at once; the lines keep the order.",
            "In a name, a backslash is printed as \\\\, a line feed as \\n, a tab as \\t, and other bytes that are no plain text by their numbers, as \\x1b.",
        ],
        options: &[
            Opt { flag: "--rows", value: None, text: "Add the ballot rows of an accepted board, a line each: main number of the ballot, voter, weight." },
            Opt {
                flag: "--explain",
                value: None,
                text: "Say in words what is wrong with a refused board, which item it is and where it stands. This is told from the words and tables after the audit: no answer depends on it.",
            },
            Opt { flag: "--summary", value: None, text: "Add a last line that counts the boards, those accepted, refused and not audited." },
            Opt { flag: "--jobs", value: Some("N"), text: "Audit N boards at once (default: as many as there are processors)." },
            Opt {
                flag: "--from",
                value: Some("FILE"),
                text: "In place of DIR..., audit the folders that FILE names, a line each, as names are printed; 'tirfolma plan' writes such files. Each is a board, whatever is in it. A FILE that names none, has a line that is no such name, or whose last line has no end, is an error.",
            },
            JSON,
            HELP,
        ],
        keys: &[
            ("folder", "the folder's name; what is not UTF-8 in it is U+FFFD"),
            ("folder_hex", "only where the name is not UTF-8: its bytes, in hexadecimal"),
            ("answer", "\"accepted\", \"refused\" or \"not audited\""),
            ("items, mains, ballots, weight", "of an accepted board: items, main items, counted ballots, their total weight"),
            ("curve", "of an accepted board: the curve that it is on, \"secp256r1\", \"secp384r1\" or \"secp521r1\""),
            ("end", "of an accepted board: the address of the last main item, 64, 96 or 128 hexadecimal digits, by the curve"),
            ("rows", "with --rows, of an accepted board: an array of objects with the keys ballot (main number), voter and weight"),
            ("number, passed", "of a refused board: the refusal, and how many items pass"),
            ("explanation", "with --explain, of a refused board: what is wrong, in words; no answer depends on it"),
            ("error", "of a folder that was not audited: why"),
            ("boards, accepted, refused, not_audited", "with --summary, in a last object: how many"),
        ],
    },
    Command {
        name: "plan",
        run: crate::plan::run,
        operands: "DIR...",
        takes: (1, usize::MAX),
        about: "tell the blocks that audits will hash, and deal boards to machines",
        text: &[
            "Prints, without an audit and without hashing, a line for each folder: its name, a tab, and 'planned' with the number of items, of the words that they fill in the index table, and of the blocks over which an audit hashes their addresses, padded as the standard says. Of an accepted board items and index words are the audit's, and the blocks those that it hashes for addresses. Last comes the sum. The blocks are the work: those of SHA-256 have 64 bytes, those of SHA-384 and SHA-512 128 bytes, and are not the same work; they are counted alike.",
            "Only board.words is read, and of it only the heads of its items, the traits word and the closing word count: verdicts and roll have no part in a plan, and need not be there. For a board that goes wrong there it prints 'refused N at K', with N 1, 3, 4, 5, 6 or 18 of audit's refusals, after K items whose heads are good, and below it in words what is wrong, as audit --explain does. Such a board is never accepted; one that is planned may still be refused. A folder whose board can't be read is 'not planned', and why is said on standard error. DIR stands for folders as for audit, and names are printed as by it.",
            "With --machines the boards are dealt to N machines: the largest first, each to the machine that has the fewest blocks so far; of equal boards the first that is given, of equal machines the lowest number. For each machine it prints its number, how many boards it has, its blocks and their part of the sum, and then a line for each of its boards: the machine's number, a tab, and the line as above. No machine has more blocks than an even share and the largest board together. A board that is refused or not planned is dealt, too, evenly and as 0 blocks, so that no board is left out of the day's audit; these are named again below the machines, with what is wrong. Last come the sum and the heaviest machine.",
        ],
        options: &[
            Opt { flag: "--machines", value: Some("N"), text: "Deal the boards to N machines, 1 to 10000; with fewer boards than that some machines have none." },
            Opt {
                flag: "--out",
                value: Some("OUT"),
                text: "With --machines: also write for each machine K the file machine-K.list into the new folder OUT, with the names of its folders, a line each, for 'tirfolma audit --from' or audit-all. The names are as DIR was given. OUT must not be there yet, or be an empty folder; where a file can't be written, none stays. In a DIR of folders it would be taken for a board.",
            },
            JSON,
            HELP,
        ],
        keys: &[
            ("folder, folder_hex", "as for audit"),
            ("answer", "\"planned\", \"refused\" or \"not planned\""),
            ("items, index_words, blocks", "of a planned board: items, words of the index table, blocks; in the last object the sums"),
            ("number, passed", "of a refused board: the refusal, and how many items have good heads"),
            ("explanation", "of a refused board: what is wrong, in words; no answer depends on it"),
            ("error", "of a board that is not planned: what can't be read, and why"),
            ("machine", "with --machines, of a board: the machine to which it is dealt. Before the boards of each machine is an object with the keys machine, boards and blocks"),
            ("boards, planned, refused, not_planned", "in the last object: how many boards there are, and of each answer"),
            ("heaviest, heaviest_blocks", "with --machines, in the last object: the machine that has the most blocks, and how many"),
        ],
    },
    Command {
        name: "compare",
        run: crate::compare::run,
        operands: "KEPT LATER [MAIN]",
        takes: (2, 3),
        about: "compare a board that was kept with a later one",
        text: &[
            "Audits the board in the folder KEPT, then that in LATER, and compares all main items of the kept board with those of the later one up to its main item MAIN; by default the kept board's number of main items.",
            "Prints 'same' if these main items are the same; 'apart' if the kept board's end address does not stand at that item; 'collision A B' if main item A of the kept board and B of the later one have one address and different words; or 'kept refused N at K' or 'later refused N at K'. 'later refused 19' says that the later board has no main item MAIN. Boards on different curves have addresses of different widths, and are apart.",
        ],
        options: &[JSON, HELP],
        keys: &[
            ("answer", "\"same\", \"apart\", \"collision\" or \"refused\""),
            ("main", "MAIN, or the number that stood in for it; not there where the kept board was refused before it was known"),
            ("kept_curve, later_curve", "of boards that are apart since they are on different curves: the curves"),
            ("kept_main, later_main", "of a collision: the main numbers of the two items"),
            ("board, number, passed", "of a refusal: \"kept\" or \"later\", the refusal, and how many items pass"),
        ],
    },
    Command {
        name: "ancestry",
        run: crate::ancestry::run,
        operands: "DIR ITEM",
        takes: (2, 2),
        about: "list an item, its parent, and so on up to genesis",
        text: &[
            "Audits the board and prints a line for item ITEM, one for its parent, and so on up to genesis: item number, type and time. Items count from 1 in the order of the file, those of hidden tracks too. Of a refused board it prints 'refused N at K'; 19 says that the board has no such item.",
        ],
        options: &[JSON, HELP],
        keys: &[
            ("answer", "\"listed\" or \"refused\""),
            ("list", "if listed: an array of objects with the keys item, code, type, time (milliseconds) and date"),
            ("number, passed", "if refused: the refusal, and how many items pass"),
        ],
    },
    Command {
        name: "receipts",
        run: crate::receipts::run,
        operands: "DIR FILE",
        takes: (2, 2),
        about: "find the casts of receipts",
        text: &[
            "Audits the board and prints a line for each receipt in FILE: its number in the file, counted from 1, and the main number of the first cast that has its address and its signature, or 'none'. A cast that is found may not be counted: a later one of the same voter may have taken its place.",
            "FILE has words of four bytes as a board's files have them, and a byte count that is no multiple of 4 is refused as 4 at 0, too. Each receipt is a signature and then an address, as they stand at the end of a cast, of the widths of the board's curve: 24 words on secp256r1, 36 on secp384r1, 49 on secp521r1. Other words than whole receipts, and more than 512 receipts, are refused as 22 at 0, before the board is audited. A FILE without words has no receipts, and no line is printed.",
            "Where the board or FILE is refused it prints 'refused N at K', and says in words what is wrong, as audit --explain does: no answer depends on it.",
        ],
        options: &[JSON, HELP],
        keys: &[
            ("answer", "\"answered\" or \"refused\""),
            ("list", "if answered: an array of objects with the keys receipt (its number in FILE) and main (the main number of its cast, or null)"),
            ("number, passed", "if refused: the refusal, and how many items pass"),
            ("explanation", "if refused: what is wrong, in words; no answer depends on it"),
        ],
    },
    Command {
        name: "notes",
        run: crate::notes::run,
        operands: "DIR FILE",
        takes: (2, 2),
        about: "hold a watcher's notes against a board",
        text: &[
            "A watcher notes time and end address of a board each time that it looks. Audits the board and holds the notes in FILE against it. Prints 'agree' if each note's address is that of a main item, no note's main item is earlier than that of the note before, and no note's time is less than that item's. Else it prints one line for the first note of which this is not so: its number in the file, counted from 1, 'no main item', 'out of order' or 'too early', and behind a colon in words what helps to see why: no answer depends on that. With an address on two main items the first is meant. The same main item as that of the note before is in order, and the times of notes need not rise.",
            "If all agree, the board cut at each noted item, as 'tirfolma cut' writes it, is accepted with the same roll and has the noted address as its end.",
            "FILE has words of four bytes as a board's files have them, and a byte count that is no multiple of 4 is refused as 4 at 0, too. Each note is a time of two words, milliseconds since 1970 with the high word first, and then an address, as wide as on the board: 10 words on secp256r1, 14 on secp384r1, 18 on secp521r1. Other words than whole notes, and more than 1024 notes, are refused as 23 at 0, before the board is audited. More notes go in several files that each begin with the last note of the file before. A FILE without words has no notes, and all agree.",
            "Where the board or FILE is refused it prints 'refused N at K', and says in words what is wrong, as audit --explain does: no answer depends on it.",
        ],
        options: &[JSON, HELP],
        keys: &[
            ("answer", "\"agree\", \"disagree\" or \"refused\""),
            ("note, fault", "if they disagree: the number of the first note that does, and \"no main item\", \"out of order\" or \"too early\""),
            ("number, passed", "if refused: the refusal, and how many items pass"),
            ("explanation", "if they disagree or are refused: what is wrong, in words; no answer depends on it"),
        ],
    },
    Command {
        name: "cut",
        run: crate::cut::run,
        operands: "DIR MAIN OUT",
        takes: (3, 3),
        about: "write a board as it was up to a main item",
        text: &[
            "Audits the board and writes into the new folder OUT the board cut at its main item MAIN (which one has an address, 'tirfolma show' says): the items up to there in the order of the file, those of hidden tracks too, a closing word with their number, nine verdict words for each of them, and the same roll. The files have the names that they have in DIR. The library is proved to accept such a cut, with the address of that main item as its end: 'tirfolma compare OUT DIR MAIN' says 'same'.",
            "Prints the numbers of items and main items of the cut and its end address, in hexadecimal digits. Of a refused board it prints 'refused N at K', says in words what is wrong, as audit --explain does, and writes nothing.",
            "OUT must not be there yet, or be an empty folder: nothing is ever written over. Where a file can't be written, or the board has no main item MAIN, this is said on standard error, and none of the files stays; where only the answer can't be printed, they stay. A run that is killed may leave some in an OUT that was empty, or in a folder beside a new OUT, whose name begins with .tirfolma-.",
        ],
        options: &[JSON, HELP],
        keys: &[
            ("answer", "\"cut\" or \"refused\""),
            ("items, mains, end", "if cut: items and main items of the cut, and the address of its last main item, 64, 96 or 128 hexadecimal digits, by the curve"),
            ("number, passed", "if refused: the refusal, and how many items pass"),
            ("explanation", "if refused: what is wrong, in words; no answer depends on it"),
        ],
    },
    Command {
        name: "show",
        run: crate::show::run,
        operands: "DIR",
        takes: (1, 1),
        about: "show a board as a person reads it",
        text: &[
            "Prints the auditor's answer, the board's traits word or that it has none, the curve, the hash and the widths by which it is read, and a line for each item: its number, main number, kind, type, time, the first 16 digits of its address, the item numbers of its parent and its session, and for a ballot what closed it. Of a refused board, the item at which it is refused is marked by >, and what is wrong is said in words, as by audit --explain: no answer depends on it. Items after it were not audited: they are marked by ? and shown as far as their heads can be read. A - stands for what an item does not have, a ? for what the audit has not told of it.",
        ],
        options: &[JSON, HELP],
        keys: &[
            ("folder, folder_hex, answer, number, explanation", "as for audit, the explanation always"),
            ("passed", "how many items pass; of an accepted board all"),
            ("traits", "only where the first item has a traits word: that word, which chooses the curve and the width of sets of contests"),
            ("curve, hash", "by which the board is read: as \"secp384r1\" and \"SHA-384\"; without a traits word, and where that is refused, \"secp256r1\" and \"SHA-256\""),
            ("widths", "the same in words: an object with the keys address, signature, commitment, cryptogram and set (of contests)"),
            ("list", "an array of objects with the keys item, main, kind, code, type, place (of the head, in words from 0), time (milliseconds), date, address (all its hexadecimal digits), parent, session, closed_by, and state: \"passed\", \"refused\" or \"not audited\". null is what an item does not have, and of an item that did not pass what the audit has not told"),
        ],
    },
];

pub const EXIT: &[(&str, &str)] = &[
    ("0", "Every board is accepted; for compare: same; for ancestry: listed; for receipts: each has a cast; for notes: all agree; for cut: it is written; for plan: every board is planned."),
    ("1", "A board is refused; for compare also: apart, or a collision; for receipts also: one has no cast, or they are refused; for notes also: one disagrees, or they are refused."),
    ("2", "Something could not be read or written, or the call was wrong; then there may also be boards that are refused."),
];

pub const EXAMPLES: &[(&str, &str)] = &[
    ("tirfolma audit boards", "Audits all folders in boards."),
    ("tirfolma audit --explain boards/0417", "Says in words what is wrong with a board."),
    (
        "tirfolma plan --machines 8 --out today boards",
        "Deals all folders in boards to eight machines, a file for each in the new folder today.",
    ),
    ("tirfolma audit --from today/machine-3.list", "Audits what the third of them was dealt."),
    ("tirfolma compare noon/0417 night/0417", "Holds the board of the night to the one that was kept at noon."),
    ("tirfolma receipts night/0417 receipts.words", "Says which main item of the board is the cast of each receipt."),
    (
        "tirfolma notes night/0417 notes.words",
        "Says whether what a watcher noted during the vote agrees with the board.",
    ),
    ("tirfolma cut night/0417 120 noon", "Writes the board as it was up to its main item 120 into a new folder."),
    ("tirfolma audit --json boards | grep '\"answer\":\"refused\"'", "The refused boards, an object to a line."),
];

pub fn command(name: &str) -> Option<&'static Command> {
    COMMANDS.iter().find(|command| command.name == name)
}

/// With the commit from which it was built and the id of the kit that proved the library.
pub fn version() -> String {
    format!(
        "tirfolma {}\ncommit {}\nproved by {}\n",
        env!("CARGO_PKG_VERSION"),
        env!("TIRFOLMA_COMMIT"),
        env!("TIRFOLMA_KIT")
    )
}

// ---- plain text ----

const WIDTH: usize = 80;
/// Before the text of a term.
const INDENT: usize = 6;

/// Words, broken into lines of at most WIDTH characters, each behind some spaces.
pub fn wrapped(text: &str, indent: usize) -> String {
    let mut out = String::new();
    let mut column = 0;
    for word in text.split(' ') {
        let length = word.chars().count();
        if column > 0 && column + 1 + length > WIDTH {
            out.push('\n');
            column = 0;
        }
        if column == 0 {
            out += &" ".repeat(indent);
            column = indent;
        } else {
            out.push(' ');
            column += 1;
        }
        out += word;
        column += length;
    }
    out.push('\n');
    out
}

fn terms<'a>(title: &str, terms: impl IntoIterator<Item = (String, &'a str)>) -> String {
    let mut out = format!("\n{title}:\n");
    for (term, text) in terms {
        let text = wrapped(text, INDENT);
        // A short term stands before its text.
        match text.get(INDENT..).filter(|_| term.len() < INDENT - 3) {
            Some(rest) => out += &format!("  {term:width$}{rest}", width = INDENT - 2),
            None => out += &format!("  {term}\n{text}"),
        }
    }
    out
}

fn flag(option: &Opt) -> String {
    option.value.map_or(option.flag.to_string(), |value| format!("{} {value}", option.flag))
}

/// What --help prints for the program.
pub fn overview() -> String {
    let mut out = format!("tirfolma: {PURPOSE}\n\n");
    for command in COMMANDS {
        out += &format!("  tirfolma {} {}\n      {}\n", command.name, command.operands, command.about);
    }
    for text in INTRODUCTION {
        out += &format!("\n{}", wrapped(text, 0));
    }
    out += "\n'tirfolma COMMAND --help' says more of a command; 'tirfolma --version' from what\nthis program was built; 'tirfolma --man' and 'tirfolma --completion' print its\nmanual page and its completion for bash.\n";
    out + &exit_text() + &terms("Examples", EXAMPLES.iter().map(|&(term, text)| (term.to_string(), text)))
}

/// What --help prints for a command.
pub fn detail(command: &Command) -> String {
    let mut out = format!("tirfolma {} [OPTION]... {}\n{}\n", command.name, command.operands, command.about);
    for text in command.text {
        out += &format!("\n{}", wrapped(text, 0));
    }
    out += &terms("Options", command.options.iter().map(|option| (flag(option), option.text)));
    out += &exit_text();
    if command.name == "audit" {
        out += &terms("Refusals", refusal_terms());
    }
    out + &terms("Keys of --json", command.keys.iter().map(|&(term, text)| (term.to_string(), text)))
}

/// The refusals by number, where they are the answer that is printed.
fn refusal_terms() -> impl Iterator<Item = (String, &'static str)> {
    refusals().map(|(number, wrong)| (number.to_string(), wrong))
}

fn exit_text() -> String {
    terms("Exit status", EXIT.iter().map(|&(term, text)| (term.to_string(), text)))
}

// ---- the manual page ----

/// Text for roff: what would be read as a request or an escape is not.
fn roff(text: &str) -> String {
    let text = text.replace('\\', "\\e").replace('-', "\\-").replace('\'', "\\(aq");
    if text.starts_with('.') {
        format!("\\&{text}")
    } else {
        text
    }
}

fn roff_terms<'a>(terms: impl IntoIterator<Item = (String, &'a str)>) -> String {
    terms.into_iter().map(|(term, text)| format!(".TP\n\\fB{}\\fR\n{}\n", roff(&term), roff(text))).collect()
}

pub fn manual() -> String {
    let mut out = format!(".TH TIRFOLMA 1 \"\" \"tirfolma {}\"\n.SH NAME\n", env!("CARGO_PKG_VERSION"));
    out += &format!("tirfolma \\- {PURPOSE}\n.SH SYNOPSIS\n.nf\n");
    for command in COMMANDS {
        out += &format!("\\fBtirfolma {}\\fR [OPTION]... {}\n", command.name, roff(command.operands));
    }
    out += "\\fBtirfolma\\fR \\-\\-help | \\-\\-version | \\-\\-man | \\-\\-completion\n.fi\n.SH DESCRIPTION\n";
    for text in INTRODUCTION {
        out += &format!("{}\n.PP\n", roff(text));
    }
    for command in COMMANDS {
        out += &format!(".SH TIRFOLMA {}\n{}\n.PP\n", command.name.to_uppercase(), roff(command.about));
        for text in command.text {
            out += &format!("{}\n.PP\n", roff(text));
        }
        out += &roff_terms(command.options.iter().map(|option| (flag(option), option.text)));
        out += ".PP\nKeys of \\-\\-json:\n";
        out += &roff_terms(command.keys.iter().map(|&(term, text)| (term.to_string(), text)));
    }
    out += ".SH REFUSALS\n";
    out += &roff_terms(refusal_terms());
    out += ".SH EXIT STATUS\n";
    out += &roff_terms(EXIT.iter().map(|&(term, text)| (term.to_string(), text)));
    out += ".SH EXAMPLES\n";
    out + &roff_terms(EXAMPLES.iter().map(|&(term, text)| (term.to_string(), text)))
}

// ---- completion ----

/// The options that take a file.
fn file_flags() -> Vec<&'static str> {
    let options = COMMANDS.iter().flat_map(|command| command.options);
    options.filter(|option| option.value == Some("FILE")).map(|option| option.flag).collect()
}

/// For bash: commands, the options of each, folders, and where a command or an option takes a file also files.
pub fn completion() -> String {
    let names: Vec<&str> = COMMANDS.iter().map(|command| command.name).collect();
    let mut out = String::from("# Completion of tirfolma for bash. Made by 'tirfolma --completion'.\n_tirfolma() {\n");
    out += "    local word=${COMP_WORDS[COMP_CWORD]}\n    if ((COMP_CWORD == 1)); then\n";
    out += &format!(
        "        mapfile -t COMPREPLY < <(compgen -W '{} --help --version --man --completion' -- \"$word\")\n",
        names.join(" ")
    );
    out += "        return\n    fi\n    local options= names=-d\n    case ${COMP_WORDS[1]} in\n";
    for command in COMMANDS {
        let flags: Vec<&str> = command.options.iter().map(|option| option.flag).collect();
        let names = if command.operands.contains("FILE") { " names=-f" } else { "" };
        out += &format!("    {}) options='{}'{names} ;;\n", command.name, flags.join(" "));
    }
    out += &format!(
        "    esac\n    case ${{COMP_WORDS[COMP_CWORD - 1]}} in {}) names=-f ;; esac\n",
        file_flags().join(" | ")
    );
    out += "    if [[ $word == -* ]]; then\n        mapfile -t COMPREPLY < <(compgen -W \"$options\" -- \"$word\")\n";
    out += "    else\n        compopt -o filenames\n        mapfile -t COMPREPLY < <(compgen \"$names\" -- \"$word\")\n    fi\n}\n";
    out + "complete -F _tirfolma tirfolma\n"
}
