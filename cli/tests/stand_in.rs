//! The program over a stand-in for the library (stand_in.c), which answers what it is told: each answer must be printed as it is, also
//! those that no board will give, as a collision; and each buffer must be given in its place.

mod common;

use common::json::objects;
use common::*;
use std::fs;
use std::path::PathBuf;
use std::process::Command;
use std::sync::OnceLock;

/// The program, built once for all tests over the stand-in.
fn program() -> &'static PathBuf {
    static BUILT: OnceLock<PathBuf> = OnceLock::new();
    BUILT.get_or_init(|| {
        let cli = PathBuf::from(env!("CARGO_MANIFEST_DIR"));
        let made = PathBuf::from(env!("CARGO_TARGET_TMPDIR")).join("stand-in");
        fs::create_dir_all(&made).expect("made");
        let script = "cc -std=c11 -Wall -Wextra -Werror -O1 -I \"$1\" -c \"$2\" -o \"$3/stand_in.o\" && rm -f \"$3/libstandin.a\" && ar rc \"$3/libstandin.a\" \"$3/stand_in.o\"";
        let ran = run(shell(script, [root().join("include"), cli.join("tests/stand_in.c"), made.clone()]));
        assert_eq!((ran.status, ran.errors()), (0, ""));
        let mut cargo = Command::new(env!("CARGO"));
        cargo.args(["build", "--quiet", "--offline", "--locked", "--bin", "tirfolma", "--manifest-path"]);
        cargo.arg(cli.join("Cargo.toml")).arg("--target-dir").arg(&made).env("TIRFOLMA_LIB", made.join("libstandin.a"));
        let ran = run(cargo);
        assert_eq!(ran.status, 0, "{}", ran.errors());
        made.join("debug/tirfolma")
    })
}

/// What the stand-in shall answer, by the names of its variables.
type Answers<'a> = &'a [(&'a str, &'a str)];

/// Runs the program with these answers. Gives what it did, and what the stand-in wrote down.
fn ask(temp: &Temp, answers: Answers, words: &[&str]) -> (Ran, String) {
    let notes = temp.join("notes");
    let _ = fs::remove_file(&notes);
    let mut command = Command::new(program());
    command.current_dir(temp.path()).args(words).env("STAND_IN_NOTES", &notes).envs(answers.iter().copied());
    let ran = run(command);
    (ran, fs::read_to_string(notes).unwrap_or_default())
}

/// Two folders with files that are all different, in length and first word.
fn two_boards() -> Temp {
    let temp = Temp::new("stand-in");
    let file = |length: u8| [0, 0, 0, 100 + length].repeat(length as usize);
    temp.board("kept", &[file(1), file(2), file(3)]);
    temp.board("later", &[file(4), file(5), file(6)]);
    temp
}

const KEPT: &str = "board:1:101 verdicts:2:102 roll:3:103 index:10240 ballots:1224";

#[test]
fn an_audit_is_printed_as_it_is_answered() {
    let temp = two_boards();
    let accepted = [
        ("STAND_IN_AUDIT", "0 4 3 2 5 6 1 2 3 4 5 6 7 4294967295 0 0 0 0 0 0 0 0"),
        ("STAND_IN_BALLOTS", "11 12 13 21 22 23 31 32 33"),
    ];
    let weight = 5 * (1u64 << 32) + 6;
    let (ran, notes) = ask(&temp, &accepted, &["audit", "--rows", "kept"]);
    assert_eq!((ran.text(), ran.status), (format!("kept\taccepted 4 3 2 {weight}\n11 12 13\n21 22 23\n").as_str(), 0));
    assert_eq!(notes, format!("audit {KEPT} answer:22\n"));
    let (ran, _) = ask(&temp, &accepted, &["audit", "--json", "kept"]);
    let object = &objects(ran.text())[0];
    assert_eq!(object.text("end"), "00000001000000020000000300000004000000050000000600000007ffffffff");
    assert_eq!((object.number("weight"), object.number("ballots")), (weight, 2));
    for number in (1..=16).chain([18, 20, 21]) {
        let answer = format!("{number} 7 0 0 0 0 0 0 0 0 0 0 0 0 0 0 0 0 0 0 0 0");
        let (ran, _) = ask(&temp, &[("STAND_IN_AUDIT", &answer)], &["audit", "kept"]);
        assert_eq!((ran.text(), ran.status), (format!("kept\trefused {number} at 7\n").as_str(), 1));
    }
}

/// Of the sixteen words of the end address as many are printed as the board's traits word says.
#[test]
fn an_end_address_is_printed_as_wide_as_it_is() {
    let temp = two_boards();
    let answer = [("STAND_IN_AUDIT", "0 1 1 0 0 0 1 2 3 4 5 6 7 8 9 10 11 12 13 14 15 4294967295")];
    let end: Vec<String> = (1..16).chain([u32::MAX]).map(|word| format!("{word:08x}")).collect();
    for (head, traits, curve, words) in [
        (0x1001_0012, 0, "secp256r1", 8),
        (0x1001_0012, 1, "secp256r1", 8),
        (0x1001_0012, 2, "secp384r1", 12),
        (0x1001_0012, 3, "secp384r1", 12),
        (0x1001_0012, 4, "secp521r1", 16),
        (0x1001_0012, 5, "secp521r1", 16),
        (0x1001_0011, 5, "secp256r1", 8),
    ] {
        let mut board = [0; 19];
        (board[0], board[18]) = (head, traits);
        let bytes: Vec<u8> = board.iter().flat_map(|word: &u32| word.to_be_bytes()).collect();
        fs::write(temp.join("kept/board.words"), bytes).expect("written");
        let (ran, _) = ask(&temp, &answer, &["audit", "--json", "kept"]);
        let object = &objects(ran.text())[0];
        assert_eq!(
            (object.text("end"), object.text("curve")),
            (end[..words].concat().as_str(), curve),
            "{head:x} {traits}"
        );
    }
}

#[test]
fn a_comparison_is_printed_as_it_is_answered() {
    let temp = two_boards();
    let audit = ("STAND_IN_AUDIT", "0 9 8 0 0 0 1 1 1 1 1 1 1 1");
    for (answer, line, status) in [
        ("2 0 0 0 0 0", "same", 0),
        ("1 0 0 0 0 0", "apart", 1),
        ("3 0 0 0 17 19", "collision 17 19", 1),
        ("3 0 0 0 1 4294967295", "collision 1 4294967295", 1),
        ("0 0 15 16 0 0", "kept refused 15 at 16", 1),
        ("0 1 15 16 0 0", "later refused 15 at 16", 1),
        ("0 1 19 9 0 0", "later refused 19 at 9", 1),
    ] {
        let answers = [audit, ("STAND_IN_COMPARE", answer)];
        for (words, main) in [(&["compare", "kept", "later"][..], 8), (&["compare", "kept", "later", "77"], 77)] {
            let (ran, notes) = ask(&temp, &answers, words);
            assert_eq!((ran.text(), ran.status, ran.errors()), (format!("{line}\n").as_str(), status, ""));
            let boards =
                "kept:1:101 kept_verdicts:2:102 kept_roll:3:103 later:4:104 later_verdicts:5:105 later_roll:6:106";
            let tables = "kept_index:10240 kept_ballots:1224 later_index:10240 later_ballots:1224";
            let last = notes.lines().last().expect("a call");
            assert_eq!(last, format!("compare {boards} {tables} answer:6 number:{main}"));
        }
    }
    let answers = [audit, ("STAND_IN_COMPARE", "3 0 0 0 17 19")];
    let (ran, _) = ask(&temp, &answers, &["compare", "--json", "kept", "later"]);
    let object = &objects(ran.text())[0];
    assert_eq!(object.keys(), ["answer", "kept_main", "later_main", "main"]);
    let found = (object.text("answer"), object.number("kept_main"), object.number("later_main"), object.number("main"));
    assert_eq!((found, ran.status), (("collision", 17, 19, 8), 1));
}

#[test]
fn an_ancestry_is_printed_as_it_is_answered() {
    let temp = two_boards();
    // Two items: a ballot's head at place 0 would have no room, so it is a cast at 0 and a genesis at 43.
    let mut words = vec![0u32; 103];
    words[0] = 0x1014_0000;
    words[18] = 5;
    words[43] = 0x1001_0011;
    words[43 + 1 + 17 + 17] = 7;
    let bytes: Vec<u8> = words.iter().flat_map(|word| word.to_be_bytes()).collect();
    fs::write(temp.join("kept/board.words"), bytes).expect("written");
    let tables =
        [("STAND_IN_INDEX", "43 1 0 0 0 0 1 0 0 0"), ("STAND_IN_LIST", "2 1 9 9"), ("STAND_IN_ANCESTRY", "0 2")];
    let (ran, notes) = ask(&temp, &tables, &["ancestry", "kept", "2"]);
    let right = "2 cast 1970-01-01T00:00:00.005Z\n1 genesis 1970-01-01T00:00:00.007Z\n";
    assert_eq!((ran.text(), ran.status, ran.errors()), (right, 0, ""));
    let given = KEPT.replace("board:1:101", &format!("board:103:{}", 0x1014_0000));
    assert_eq!(notes.lines().last(), Some(format!("ancestry {given} list:2048 answer:2 number:2").as_str()));
    let (ran, _) = ask(&temp, &[("STAND_IN_ANCESTRY", "19 48")], &["ancestry", "kept", "2"]);
    assert_eq!((ran.text(), ran.status), ("refused 19 at 48\n", 1));
}

#[test]
fn receipts_are_answered_as_the_library_does() {
    let temp = two_boards();
    fs::write(temp.join("receipts"), [0, 0, 0, 77].repeat(3 * 24)).expect("written");
    let call = ["receipts", "kept", "receipts"];
    let answered = [("STAND_IN_RECEIPTS", "0 9 8 0 0 0"), ("STAND_IN_ANSWERS", "2048 4294967295 1 9 9")];
    let (ran, notes) = ask(&temp, &answered, &call);
    assert_eq!((ran.text(), ran.status, ran.errors()), ("1 2048\n2 none\n3 1\n", 1, ""));
    let given = KEPT.replace(" index", " receipts:72:77 index");
    assert_eq!(notes, format!("receipts {given} answers:512 answer:22\n"));
    let (ran, _) = ask(&temp, &answered, &[&call[..], &["--json"]].concat());
    let list = r#"[{"receipt":1,"main":2048},{"receipt":2,"main":null},{"receipt":3,"main":1}]"#;
    assert_eq!((ran.text(), ran.status), (format!("{{\"answer\":\"answered\",\"list\":{list}}}\n").as_str(), 1));
    // A word that is nearly the one for none is a number.
    let all = [("STAND_IN_RECEIPTS", "0 9 8 0 0 0"), ("STAND_IN_ANSWERS", "4294967294 2147483647 65535")];
    let (ran, _) = ask(&temp, &all, &call);
    assert_eq!((ran.text(), ran.status), ("1 4294967294\n2 2147483647\n3 65535\n", 0));
    // A refusal is what it is, also where nothing in the files shows it: then nothing is claimed of them.
    for number in (1..=16).chain([18, 20, 21, 22]) {
        let (ran, _) = ask(&temp, &[("STAND_IN_RECEIPTS", &format!("{number} 7"))], &call);
        assert_eq!((ran.lines()[0], ran.status), (format!("refused {number} at 7").as_str(), 1));
        assert!(ran.lines()[1].starts_with("    ") && ran.lines().len() == 3, "{}", ran.text());
    }
    let (ran, _) = ask(&temp, &[("STAND_IN_RECEIPTS", "22 0")], &call);
    let general = "The file of receipts is refused: bad receipts: not whole ones, or more than 512. \
                   Look at the size of the file of receipts.";
    assert_eq!(ran.lines()[1].trim(), general);
}

/// There is a line for as many receipts as the words are on the board's curve.
#[test]
fn receipts_are_as_wide_as_the_board_says() {
    let temp = two_boards();
    fs::write(temp.join("receipts"), vec![7; 4 * 72 * 49]).expect("written");
    let answers: Vec<String> = (1..=512).map(|number| number.to_string()).collect();
    let answers = [("STAND_IN_RECEIPTS", "0 9 8 0 0 0"), ("STAND_IN_ANSWERS", &answers.join(" "))];
    for (traits, size) in [(0, 24), (1, 24), (2, 36), (3, 36), (4, 49), (5, 49), (6, 24)] {
        let mut board = [0; 19];
        (board[0], board[18]) = (0x1001_0012, traits);
        let bytes: Vec<u8> = board.iter().flat_map(|word: &u32| word.to_be_bytes()).collect();
        fs::write(temp.join("kept/board.words"), bytes).expect("written");
        let (ran, _) = ask(&temp, &answers, &["receipts", "kept", "receipts"]);
        let lines: Vec<String> = (1..=72 * 49 / size).map(|number| format!("{number} {number}")).collect();
        assert_eq!((ran.lines(), ran.status), (lines.iter().map(String::as_str).collect(), 0), "traits {traits}");
    }
}

/// Two main items as the stand-in's index table has them: casts, each of an address of one word, eight times, and a time.
fn two_items(temp: &Temp, items: [(u32, u32); 2]) {
    let words = items.into_iter().flat_map(|(address, time)| {
        let mut item = vec![0; 35];
        (item[0], item[18]) = (0x1014_0000, time);
        [item, vec![address; 8]].concat()
    });
    let bytes: Vec<u8> = words.chain([0xf000_0002]).flat_map(u32::to_be_bytes).collect();
    fs::write(temp.join("kept/board.words"), bytes).expect("written");
    fs::write(temp.join("kept/verdicts.words"), (0..4 * 9 * 2).collect::<Vec<u8>>()).expect("written");
}

/// An answer of an accepted board of two items, with the words for the agreement.
fn held(agreement: u32, note: u32) -> String {
    format!("0 2 2 0 0 0{} {agreement} {note}", " 0".repeat(16))
}

#[test]
fn notes_are_answered_as_the_library_does() {
    let temp = two_boards();
    two_items(&temp, [(5, 100), (7, 200)]);
    let note = |time: u32, address: u32| [vec![0, time], vec![address; 8]].concat();
    let notes: Vec<u32> = [note(150, 7), note(150, 5), note(99, 9)].concat();
    fs::write(temp.join("notes.words"), notes.iter().copied().flat_map(u32::to_be_bytes).collect::<Vec<u8>>())
        .expect("written");
    let call = ["notes", "kept", "notes.words"];
    let index = ("STAND_IN_INDEX", "0 1 0 0 0 43 1 0 1 0");
    let at = |time: &str| format!("1970-01-01T00:00:00.{time}Z");
    let [first, second] = [format!("main item 1 (cast, {})", at("100")), format!("main item 2 (cast, {})", at("200"))];
    let nowhere = format!("noted at {}, its address 0000000900000009... is on no item of the board", at("099"));
    // What the words show is told; of what they don't, nothing is claimed. The number and the kind are as they are answered.
    for (agreement, number, line) in [
        (1, 0, "agree".to_string()),
        (2, 3, format!("3 no main item: {nowhere}")),
        (2, 1, "1 no main item: its address is no main item's".to_string()),
        (2, 0, "0 no main item: its address is no main item's".to_string()),
        (2, 4, "4 no main item: its address is no main item's".to_string()),
        (3, 2, format!("2 out of order: noted at {}, its item is {first}, and that of note 1 is {second}", at("150"))),
        (3, 1, "1 out of order: its main item is earlier than that of the note before".to_string()),
        (3, 3, "3 out of order: its main item is earlier than that of the note before".to_string()),
        (4, 1, format!("1 too early: noted at {}, before the time of its item, {second}", at("150"))),
        (4, 2, "2 too early: its time is less than that of its main item".to_string()),
        (4, 4294967295, "4294967295 too early: its time is less than that of its main item".to_string()),
    ] {
        let (ran, notes) = ask(&temp, &[("STAND_IN_HELD", &held(agreement, number)), index], &call);
        let status = i32::from(agreement != 1);
        assert_eq!((ran.text(), ran.status, ran.errors()), (format!("{line}\n").as_str(), status, ""));
        let given = "board:87:269746176 verdicts:18:66051 roll:3:103 notes:30:0 index:10240 ballots:1224 answer:24";
        assert_eq!(notes, format!("notes {given}\n"));
    }
    let (ran, _) = ask(&temp, &[("STAND_IN_HELD", &held(2, 3)), index], &[&call[..], &["--json"]].concat());
    let right =
        format!("{{\"answer\":\"disagree\",\"note\":3,\"fault\":\"no main item\",\"explanation\":\"{nowhere}\"}}\n");
    assert_eq!((ran.text(), ran.status), (right.as_str(), 1));
    // Of two main items with one address the first is meant.
    two_items(&temp, [(7, 160), (7, 200)]);
    let (ran, _) = ask(&temp, &[("STAND_IN_HELD", &held(4, 1)), index], &call);
    assert!(ran.text().contains(&format!("its item, main item 1 (cast, {})", at("160"))), "{}", ran.text());
    for number in (1..=16).chain([18, 20, 21, 23]) {
        let (ran, _) = ask(&temp, &[("STAND_IN_HELD", &format!("{number} 7"))], &call);
        assert_eq!((ran.lines()[0], ran.status), (format!("refused {number} at 7").as_str(), 1));
        assert!(ran.lines()[1].starts_with("    ") && ran.lines().len() == 3, "{}", ran.text());
    }
    let (ran, _) = ask(&temp, &[("STAND_IN_HELD", "23 0")], &call);
    let general = "The file of notes is refused: bad notes: not whole ones, or more than 1024. \
                   Look at the size of the file of notes.";
    assert_eq!(ran.lines()[1].trim(), general);
}

/// The answer of a board of two items, both main.
const BOARD: &str = "0 2 2 0 0 0 0 0 0 0 0 0 0 0 0 0 0 0 0 0 0 0";

/// Which item a main number is the index table tells, and what is printed is the library's answer of the cut.
#[test]
fn a_cut_is_where_the_index_table_says() {
    let temp = two_boards();
    two_items(&temp, [(5, 100), (7, 200)]);
    let accepted = |main: &str| format!("0 77 {main} 0 0 0 1 2 3 4 5 6 7 8 9 0 0 0 0 0 0 0");
    for (index, main, items) in [
        ("0 1 0 0 0 43 1 0 1 0", "1", 1),
        ("0 1 0 0 0 43 1 0 1 0", "2", 2),
        ("0 1 0 5 0 43 1 0 0 0", "1", 2),
        ("0 1 0 5 0 43 1 0 0 0", "6", 1),
    ] {
        let answers = [("STAND_IN_AUDIT", BOARD), ("STAND_IN_SECOND", &accepted(main)), ("STAND_IN_INDEX", index)];
        let (ran, notes) = ask(&temp, &answers, &["cut", "kept", main, "out"]);
        let end = "0000000100000002000000030000000400000005000000060000000700000008";
        assert_eq!((ran.text(), ran.status, ran.errors()), (format!("77 {main} {end}\n").as_str(), 0, ""), "{main}");
        let given = |words: usize, verdicts: usize| {
            format!("audit board:{words}:269746176 verdicts:{verdicts}:66051 roll:3:103 index:10240 ballots:1224 answer:22\n")
        };
        assert_eq!(notes, given(87, 18) + &given(43 * items + 1, 9 * items));
        let read = |folder: &str, name: &str| fs::read(temp.join(folder).join(name)).expect("a file");
        let mut board = read("kept", NAMES[0])[..4 * 43 * items].to_vec();
        board.extend([0xf0, 0, 0, items as u8]);
        assert_eq!((read("out", NAMES[0]), read("out", NAMES[2])), (board, read("kept", NAMES[2])));
        assert_eq!(read("out", NAMES[1]), read("kept", NAMES[1])[..4 * 9 * items]);
        fs::remove_dir_all(temp.join("out")).expect("removed");
    }
}

/// Of a cut that is refused, or has other main items than were asked for, nothing is written.
#[test]
fn a_cut_that_is_not_what_it_must_be() {
    let temp = two_boards();
    two_items(&temp, [(5, 100), (7, 200)]);
    let index = ("STAND_IN_INDEX", "0 1 0 0 0 43 1 0 1 0");
    for (second, said) in [
        ("0 1 2 0 0 0", "accepted 1 2 0 0"),
        ("0 1 0 0 0 0", "accepted 1 0 0 0"),
        ("0 1 4294967295 0 0 0", "accepted 1 4294967295 0 0"),
        ("18 1 0 0 0 0", "refused 18 at 1"),
    ] {
        let answers = [("STAND_IN_AUDIT", BOARD), ("STAND_IN_SECOND", second), index];
        let (ran, _) = ask(&temp, &answers, &["cut", "kept", "1", "out"]);
        ran.assert_failed(second);
        let fault = "this is a fault of the program, not of the board";
        assert_eq!(ran.errors(), format!("tirfolma: the cut at main item 1 is {said}: {fault}\n"));
        assert!(!temp.join("out").exists(), "{second}");
    }
}

#[test]
fn a_plan_is_printed_as_it_is_answered() {
    let temp = two_boards();
    let answer = [("STAND_IN_PLAN", "0 4294967295 2147483648 4294967294")];
    let (ran, notes) = ask(&temp, &answer, &["plan", "later"]);
    let right = "later\tplanned 4294967295 2147483648 4294967294\n\
                 1 boards: 1 planned, 0 refused; 4294967295 items, 2147483648 index words, 4294967294 blocks\n";
    assert_eq!((ran.text(), ran.status, ran.errors()), (right, 0, ""));
    assert_eq!(notes, "plan board:4:104 answer:4\n");
    // Sums of more than 32 bits.
    let (ran, _) = ask(&temp, &answer, &["plan", "--machines", "2", "kept", "later", "kept"]);
    let last = "3 boards: 3 planned, 0 refused; 12884901885 items, 6442450944 index words, 12884901882 blocks\n\
                heaviest: machine 1, 8589934588 blocks, 66.7 %\n";
    assert!(ran.text().ends_with(last), "{}", ran.text());
    let (ran, _) = ask(&temp, &answer, &["plan", "--json", "--machines", "2", "kept", "later", "kept"]);
    let last = "\"items\":12884901885,\"index_words\":6442450944,\"blocks\":12884901882,\"heaviest\":1,\"heaviest_blocks\":8589934588}\n";
    assert!(ran.text().replace(' ', "").ends_with(last), "{}", ran.text());
    for number in [1, 3, 4, 5, 6, 18] {
        let (ran, _) = ask(&temp, &[("STAND_IN_PLAN", &format!("{number} 7 8 9"))], &["plan", "kept"]);
        let lines = ran.lines();
        assert_eq!((lines[0], ran.status), (format!("kept\trefused {number} at 7").as_str(), 1));
        assert!(lines[1].starts_with("    ") && lines[2].starts_with('(') && lines.len() == 4, "{}", ran.text());
        assert!(lines[3].ends_with("; 0 items, 0 index words, 0 blocks"), "{}", ran.text());
    }
}

/// What the header says never happens is an error, not an answer.
#[test]
fn a_library_that_does_not_answer() {
    let temp = two_boards();
    let audit = ("STAND_IN_AUDIT", "0 9 8 0 0 0 1 1 1 1 1 1 1 1");
    fs::write(temp.join("receipts"), []).expect("written");
    let cases: [(Answers, &[&str]); 9] = [
        (&[], &["audit", "kept"]),
        (&[audit], &["compare", "kept", "later"]),
        (&[audit, ("STAND_IN_COMPARE", "4 0 0 0 0 0")], &["compare", "kept", "later"]),
        (&[audit], &["ancestry", "kept", "1"]),
        (&[audit], &["receipts", "kept", "receipts"]),
        (&[audit], &["notes", "kept", "receipts"]),
        (&[("STAND_IN_HELD", &held(0, 0))], &["notes", "kept", "receipts"]),
        (&[("STAND_IN_HELD", &held(5, 1))], &["notes", "kept", "receipts"]),
        (&[audit], &["plan", "kept"]),
    ];
    for (answers, words) in cases {
        let (ran, _) = ask(&temp, answers, words);
        assert_eq!((ran.text(), ran.status), ("", 2), "{words:?}");
        assert!(!ran.err.is_empty());
    }
}

/// The library is not asked where the files' rule has the answer, nor of the later board where the kept one is refused.
#[test]
fn the_library_is_not_asked_in_vain() {
    let temp = two_boards();
    let sound = ("STAND_IN_AUDIT", "0 9 8 0 0 0 1 1 1 1 1 1 1 1");
    let refused = ("STAND_IN_AUDIT", "7 3 0 0 0 0 0 0 0 0 0 0 0 0");
    let same = ("STAND_IN_COMPARE", "2 0 0 0 0 0");
    let (ran, notes) = ask(&temp, &[refused, same], &["compare", "kept", "later"]);
    assert_eq!((ran.text(), ran.status), ("kept refused 7 at 3\n", 1));
    assert!(!notes.contains("board:4"), "{notes}");
    fs::write(temp.join("receipts"), [0; 4]).expect("written");
    fs::write(temp.join("odd"), [0; 6]).expect("written");
    fs::write(temp.join("later/roll.words"), [0; 5]).expect("written");
    let (ran, _) = ask(&temp, &[sound, same], &["compare", "kept", "later"]);
    assert_eq!((ran.text(), ran.status), ("later refused 4 at 0\n", 1));
    // A plan is of the board alone.
    let (ran, notes) = ask(&temp, &[("STAND_IN_PLAN", "0 1 5 2")], &["plan", "later"]);
    assert_eq!((ran.lines()[0], notes.as_str()), ("later\tplanned 1 5 2", "plan board:4:104 answer:4\n"));
    temp.board("odd-board", &[vec![0; 7], vec![], vec![]]);
    let others = ["ANCESTRY", "RECEIPTS", "HELD", "PLAN"].map(|name| format!("STAND_IN_{name}"));
    let others: Vec<(&str, &str)> = others.iter().map(|name| (name.as_str(), "0 0")).collect();
    for words in [
        &["audit", "later"][..],
        &["ancestry", "later", "1"],
        &["compare", "later", "kept"],
        &["receipts", "later", "receipts"],
        &["receipts", "kept", "odd"],
        &["notes", "later", "receipts"],
        &["notes", "kept", "odd"],
        &["cut", "later", "1", "out"],
        &["plan", "odd-board"],
    ] {
        let (ran, notes) = ask(&temp, &[&[sound, same], &others[..]].concat(), words);
        assert!(ran.text().contains("refused 4 at 0\n"), "{words:?}: {}", ran.text());
        assert_eq!((notes.as_str(), ran.status), ("", 1), "{words:?}");
    }
}
