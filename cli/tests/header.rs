//! The declarations that the build script makes of include/tirfolma.h, held to a C compiler that reads the same header: sizes, constants,
//! each function's parameters in their order, and that no name is missing. Copies of the header with a mistake must be noticed.

mod common;

#[allow(dead_code)]
#[path = "../build/header.rs"]
mod build;

use common::*;
use std::collections::BTreeSet;
use std::fs;
use std::mem::size_of;
use std::path::Path;
use tirfolma::library::header::{CONSTANTS, FUNCTIONS};

fn header() -> String {
    fs::read_to_string(root().join("include/tirfolma.h")).expect("the header can be read")
}

/// A constant and its value; a function's name and its parameters, each with its name and type, as Rust has them.
struct Declared {
    constants: Vec<(String, u64)>,
    functions: Vec<(String, Vec<(String, String)>)>,
}

/// What the program was built with.
fn built() -> Declared {
    let owned = |parameters: &[(&str, &str)]| -> Vec<(String, String)> {
        parameters.iter().map(|(name, kind)| (name.to_string(), kind.to_string())).collect()
    };
    Declared {
        constants: CONSTANTS.iter().map(|&(name, value)| (name.to_string(), value as u64)).collect(),
        functions: FUNCTIONS.iter().map(|&(name, parameters)| (name.to_string(), owned(parameters))).collect(),
    }
}

/// A C file that compiles only if the header says the same.
fn in_c(declared: &Declared) -> String {
    let mut c = String::from("#include \"tirfolma.h\"\n");
    for (kind, size) in [
        ("size_t", size_of::<usize>()),
        ("uint32_t", size_of::<u32>()),
        ("bool", size_of::<bool>()),
        ("const uint32_t *", size_of::<*const u32>()),
        ("uint32_t *", size_of::<*mut u32>()),
        ("uint8_t *", size_of::<*mut u8>()),
    ] {
        c += &format!("_Static_assert(sizeof({kind}) == {size}, \"{kind}\");\n");
    }
    for (name, value) in &declared.constants {
        c += &format!("_Static_assert({name} == {value}ull, \"{name}\");\n");
    }
    for (name, parameters) in &declared.functions {
        let kinds: Vec<&str> = parameters.iter().map(|(_, kind)| c_type(kind)).collect();
        c += &format!("extern bool (*const at_{name})({});\n", kinds.join(", "));
        c += &format!("bool (*const at_{name})({}) = {name};\n", kinds.join(", "));
    }
    c
}

fn c_type(kind: &str) -> &'static str {
    match kind {
        "*const u32" => "const uint32_t *",
        "*mut u32" => "uint32_t *",
        "*mut u8" => "uint8_t *",
        "usize" => "size_t",
        other => panic!("no type of the header: {other}"),
    }
}

/// Whether the C compiler takes a file beside this header.
fn compiles(header: &str, c: &str) -> Result<(), String> {
    let temp = Temp::new("header");
    fs::write(temp.join("tirfolma.h"), header).expect("written");
    fs::write(temp.join("check.c"), c).expect("written");
    let words = ["-std=c11", "-Wall", "-Wextra", "-Werror", "-c", "check.c", "-o", "check.o"];
    let mut command = std::process::Command::new("cc");
    command.current_dir(temp.path()).args(words);
    let ran = run(command);
    if ran.status == 0 {
        Ok(())
    } else {
        Err(String::from_utf8_lossy(&ran.err).into_owned())
    }
}

#[test]
fn the_compiler_agrees() {
    let declared = built();
    assert!(declared.constants.len() > 30 && declared.functions.len() == 7);
    compiles(&header(), &in_c(&declared)).unwrap_or_else(|why| panic!("{why}"));
}

/// Every name that begins as those of the library, after the preprocessor.
fn names_in(path: &Path) -> BTreeSet<String> {
    let ran = run(shell("cc -std=c11 -E -dD \"$1\"", [path]));
    assert_eq!(ran.status, 0, "{}", ran.errors());
    let text = ran.text();
    let is_part = |c: char| c.is_ascii_alphanumeric() || c == '_';
    // Lines that say from which file the text comes have its name.
    let lines = text.lines().filter(|line| !line.starts_with("# "));
    let words = lines.flat_map(|line| line.split(move |c| !is_part(c)));
    let ours = words.filter(|word| word.to_ascii_lowercase().starts_with("tirfolma_"));
    ours.map(String::from).collect()
}

#[test]
fn no_name_is_missing_and_none_is_added() {
    let declared = built();
    let constants = declared.constants.iter().map(|(name, _)| name.clone());
    let mut listed: BTreeSet<String> =
        constants.chain(declared.functions.iter().map(|(name, _)| name.clone())).collect();
    assert_eq!(listed.len(), declared.constants.len() + declared.functions.len(), "a name is there twice");
    assert!(listed.insert("TIRFOLMA_H".to_string()), "the include guard is no constant");
    assert_eq!(names_in(&root().join("include/tirfolma.h")), listed);
}

/// The calls in src/library.rs give their words by place: these are the places that they rely on.
#[test]
fn parameters_are_in_the_order_of_the_calls() {
    let board = "board board_words verdicts verdict_words roll roll_words";
    let tables = "index index_words ballots ballot_words";
    let pair = |with: &str| -> String {
        let prefixed: Vec<String> = tables.split(' ').map(|name| format!("{with}_{name}")).collect();
        prefixed.join(" ")
    };
    let compared = "kept kept_words kept_verdicts kept_verdict_words kept_roll kept_roll_words later later_words later_verdicts later_verdict_words later_roll later_roll_words main_number";
    let right = [
        ("tirfolma_audit", format!("{board} {tables} answer answer_words")),
        ("tirfolma_compare", format!("{compared} {} {} answer answer_words", pair("kept"), pair("later"))),
        ("tirfolma_ancestry", format!("{board} item_number {tables} list list_words answer answer_words")),
        (
            "tirfolma_receipts",
            format!("{board} receipts receipt_words {tables} answers answers_words answer answer_words"),
        ),
        ("tirfolma_notes", format!("{board} notes note_words {tables} answer answer_words")),
        ("tirfolma_plan", "board board_words answer answer_words".to_string()),
        ("tirfolma_export", format!("{board} {tables} text text_bytes answer answer_words")),
    ];
    let declared = built();
    let found: Vec<(&str, String)> = declared
        .functions
        .iter()
        .map(|(name, parameters)| {
            let names: Vec<&str> = parameters.iter().map(|(name, _)| name.as_str()).collect();
            (name.as_str(), names.join(" "))
        })
        .collect();
    assert_eq!(found, right);
    // What is only read is the boards, the receipts and the notes; bytes are the text alone; a number follows each pointer.
    for (name, parameters) in &declared.functions {
        for (at, (parameter, kind)) in parameters.iter().enumerate() {
            let is_read = ["board", "kept", "later", "receipts", "notes"].contains(&parameter.as_str())
                || parameter.ends_with("verdicts")
                || parameter.ends_with("roll");
            let is_number = ["_words", "_bytes", "_number"].iter().any(|end| parameter.ends_with(end));
            let right = if is_number {
                "usize"
            } else if is_read {
                "*const u32"
            } else if parameter == "text" {
                "*mut u8"
            } else {
                "*mut u32"
            };
            assert_eq!(kind, right, "{name}, {parameter}");
            assert!(is_number || parameters[at + 1].1 == "usize", "{name}, {parameter} has no length");
        }
    }
}

/// What the build script made of the header, read back. Its constants are evaluated here; a name that has no value would stop the compiler.
fn made(text: &str) -> Result<Declared, String> {
    let rust = build::rust(text)?;
    let line = |start: &str| rust.lines().find(|line| line.starts_with(start)).expect("a list").to_string();
    let quoted = |text: &str| -> Vec<String> { text.split('"').skip(1).step_by(2).map(String::from).collect() };
    let mut constants: Vec<(String, u64)> = Vec::new();
    for name in quoted(&line("pub const CONSTANTS")) {
        let value = line(&format!("pub const {name}: usize = "));
        let value = value.split(" = ").nth(1).and_then(|value| value.strip_suffix(';')).expect("a value");
        let known = |factor: &str| constants.iter().find(|known| known.0 == factor).map(|known| known.1);
        let number = |factor: &str| factor.parse().ok().or(known(factor)).ok_or(format!("{factor} has no value"));
        let sum: Result<u64, String> =
            value.split(" + ").map(|term| term.split(" * ").map(number).product::<Result<u64, String>>()).sum();
        constants.push((name, sum?));
    }
    let mut functions = Vec::new();
    for part in line("pub const FUNCTIONS").split("(\"tirfolma_").skip(1) {
        let words = quoted(&format!("\"tirfolma_{part}"));
        let pairs = words[1..].chunks(2).map(|pair| (pair[0].clone(), pair[1].clone())).collect();
        functions.push((words[0].clone(), pairs));
    }
    Ok(Declared { constants, functions })
}

#[test]
fn the_build_script_makes_what_was_built() {
    let (made, built) = (made(&header()).expect("the header is taken"), built());
    assert_eq!(made.constants, built.constants);
    assert_eq!(made.functions, built.functions);
}

/// Copies of the header with one change each.
fn mistakes() -> Vec<(&'static str, &'static str, &'static str)> {
    vec![
        ("types exchanged", "const uint32_t *board, size_t board_words", "size_t board, const uint32_t *board_words"),
        ("read for written", "uint32_t *index, size_t index_words", "const uint32_t *index, size_t index_words"),
        ("written for read", "    const uint32_t *roll, size_t roll_words", "    uint32_t *roll, size_t roll_words"),
        ("a length dropped", "const uint32_t *verdicts, size_t verdict_words", "const uint32_t *verdicts"),
        ("the last length dropped", "uint32_t *answer, size_t answer_words);", "uint32_t *answer);"),
        ("a parameter dropped", "    size_t main_number,\n", ""),
        ("a parameter added", "    size_t item_number,\n", "    size_t item_number, size_t more,\n"),
        ("another width", "uint32_t *list, size_t list_words", "uint64_t *list, size_t list_words"),
        ("an unknown type", "size_t item_number", "unsigned item_number"),
        ("a narrower number", "size_t main_number", "uint32_t main_number"),
        ("a pointer to pointers", "uint32_t *ballots,", "uint32_t **ballots,"),
        ("no bool", "bool tirfolma_audit(", "int tirfolma_audit("),
        ("a pointer to bool", "bool tirfolma_audit(", "bool *tirfolma_audit("),
        ("a constant", "TIRFOLMA_AUDIT_WORDS 22", "TIRFOLMA_AUDIT_WORDS 21"),
        ("a constant with a product", "(TIRFOLMA_BALLOT_ROW_WORDS * 408)", "(TIRFOLMA_BALLOT_ROW_WORDS * 409)"),
        ("a sum for a product", "(TIRFOLMA_ROLL_ROW_WORDS * 2048)", "(TIRFOLMA_ROLL_ROW_WORDS + 2048)"),
        (
            "a constant with a sum",
            "TIRFOLMA_FIRST_NOTE = TIRFOLMA_AUDIT_WORDS + 1",
            "TIRFOLMA_FIRST_NOTE = TIRFOLMA_AUDIT_WORDS + 2",
        ),
        (
            "a difference",
            "TIRFOLMA_FIRST_NOTE = TIRFOLMA_AUDIT_WORDS + 1",
            "TIRFOLMA_FIRST_NOTE = TIRFOLMA_AUDIT_WORDS - 1",
        ),
        (
            "half a sum",
            "TIRFOLMA_FIRST_NOTE = TIRFOLMA_AUDIT_WORDS + 1",
            "TIRFOLMA_FIRST_NOTE = TIRFOLMA_AUDIT_WORDS +",
        ),
        ("a name for another", "TIRFOLMA_AGREEMENT = TIRFOLMA_AUDIT_WORDS", "TIRFOLMA_AGREEMENT = TIRFOLMA_END_WORDS"),
        ("an octal number", "TIRFOLMA_COMPARE_WORDS 6", "TIRFOLMA_COMPARE_WORDS 06"),
        ("a hexadecimal number", "TIRFOLMA_LIST_WORDS 2048", "TIRFOLMA_LIST_WORDS 0x800"),
        ("an enumerator", "TIRFOLMA_SAME = 2", "TIRFOLMA_SAME = 1"),
        ("no value of an enumerator", "TIRFOLMA_ROLL_WEIGHT = 1", "TIRFOLMA_ROLL_WEIGHT"),
        ("a negative value", "TIRFOLMA_KIND = 0", "TIRFOLMA_KIND = -1"),
        ("no value of a constant", "#define TIRFOLMA_LIST_WORDS 2048", "#define TIRFOLMA_LIST_WORDS"),
        ("a name lost", "#define TIRFOLMA_BOARD_WORDS 262144\n", ""),
        ("a name lost that no other needs", "#define TIRFOLMA_LIST_WORDS 2048\n", ""),
        ("a constant behind a tab", "#define TIRFOLMA_LIST_WORDS 2048", "#define\tTIRFOLMA_LIST_WORDS 2048"),
        ("a name changed", "TIRFOLMA_ROW_CLOSER = 4", "TIRFOLMA_ROW_CLOSED = 4"),
        ("a function changed", "bool tirfolma_ancestry(", "bool tirfolma_lineage("),
        (
            "receipts for writing",
            "const uint32_t *receipts, size_t receipt_words",
            "uint32_t *receipts, size_t receipt_words",
        ),
        ("notes for writing", "const uint32_t *notes, size_t note_words", "uint32_t *notes, size_t note_words"),
        ("words for bytes", "uint8_t *text, size_t text_bytes", "uint32_t *text, size_t text_words"),
        ("bytes for reading", "uint8_t *text, size_t text_bytes", "const uint8_t *text, size_t text_bytes"),
        ("bytes counted in words", "uint8_t *text, size_t text_bytes", "uint8_t *text, size_t text_words"),
        ("an export's bytes", "(8 * TIRFOLMA_BOARD_WORDS)", "(9 * TIRFOLMA_BOARD_WORDS)"),
        ("a plan's words", "TIRFOLMA_PLAN_WORDS 4", "TIRFOLMA_PLAN_WORDS 3"),
        ("a place in a plan", "TIRFOLMA_PLAN_BLOCKS = 3", "TIRFOLMA_PLAN_BLOCKS = 2"),
        ("a note's words", "TIRFOLMA_NOTE_WORDS_384 14", "TIRFOLMA_NOTE_WORDS_384 12"),
        ("a receipt's words", "TIRFOLMA_RECEIPT_WORDS_521 49", "TIRFOLMA_RECEIPT_WORDS_521 48"),
        ("a comment without an end", "/* ---- ancestry */", "/* ---- ancestry"),
    ]
}

/// The build is refused, or what is made of the copy is not taken beside the header as it is.
#[test]
fn copies_with_a_mistake_are_noticed() {
    let text = header();
    let mut refused = 0;
    for (what, from, to) in mistakes() {
        let changed = text.replacen(from, to, 1);
        assert_ne!(changed, text, "{what}: nothing was changed");
        match made(&changed) {
            Err(_) => refused += 1,
            Ok(declared) => {
                let names = |declared: &Declared| -> BTreeSet<String> {
                    let constants = declared.constants.iter().map(|(name, _)| name.clone());
                    constants.chain(declared.functions.iter().map(|(name, _)| name.clone())).collect()
                };
                let is_noticed = compiles(&text, &in_c(&declared)).is_err() || names(&declared) != names(&built());
                assert!(is_noticed, "{what}: it passes");
            }
        }
    }
    assert!(refused >= 8, "only {refused} were refused by the build");
}

/// What the build script has no use for it does not pass over: it would be lost without a word.
#[test]
fn what_is_not_known_is_refused() {
    let text = header();
    let end = "#ifdef __cplusplus\n}";
    assert_eq!(text.matches(end).count(), 1);
    for more in [
        "#define\tTIRFOLMA_MORE 5",
        "# define TIRFOLMA_MORE 5",
        "#if 0",
        "#include \"more.h\"",
        "#undef TIRFOLMA_SAME",
        "typedef uint32_t tirfolma_word;",
        "uint32_t tirfolma_more(void);",
        "static const int more = 5;",
        "struct tirfolma_answer { uint32_t number; };",
        "enum named { TIRFOLMA_MORE = 5 };",
        "bool tirfolma_more(void);",
        "bool tirfolma_more(const uint32_t *words, size_t number);",
        "bool tirfolma_more(uint32_t *words, size_t more_words)",
    ] {
        assert!(build::rust(&text.replace(end, &format!("{more}\n{end}"))).is_err(), "{more}");
    }
    let one_more = text.replace(end, &format!("bool tirfolma_more(uint32_t *words, size_t more_words);\n{end}"));
    assert!(build::rust(&one_more).is_ok_and(|made| made.contains("pub fn tirfolma_more(words: &mut [u32]) -> bool")));
}

/// The check itself can fail: a list with one thing wrong does not compile.
#[test]
fn the_check_can_fail() {
    let text = header();
    // A few of them: each takes a call of the compiler.
    for at in (0..built().constants.len()).step_by(7) {
        let mut wrong = built();
        wrong.constants[at].1 += 1;
        assert!(compiles(&text, &in_c(&wrong)).is_err(), "{}", wrong.constants[at].0);
    }
    let mut wrong = built();
    wrong.functions[1].1.swap(0, 1);
    assert!(compiles(&text, &in_c(&wrong)).is_err());
    let mut wrong = built();
    wrong.functions[2].1.pop();
    assert!(compiles(&text, &in_c(&wrong)).is_err());
}
