//! The command line: wrong calls, the texts that the program prints of itself, the manual page and the completion.

mod common;

use common::*;
use std::fs;
use tirfolma::help::{COMMANDS, EXIT};

/// DIR stands for a good folder, FILE for one that has no receipts and no notes, OUT for a folder that is not there, '' for an empty word.
const WRONG: &[&str] = &[
    "",
    "''",
    "-",
    "--",
    "audits DIR",
    "Audit DIR",
    "DIR",
    "--unknown",
    "-x",
    "--json audit DIR",
    "--version more",
    "--help more",
    "--man more",
    "--completion more",
    "audit",
    "audit --rows",
    "audit --",
    "audit --unknown DIR",
    "audit -r DIR",
    "audit --row DIR",
    "audit --rows=1 DIR",
    "audit --json= DIR",
    "audit --jobs 0 DIR",
    "audit --jobs=0 DIR",
    "audit --jobs 00 DIR",
    "audit --jobs x DIR",
    "audit --jobs -1 DIR",
    "audit --jobs 1.5 DIR",
    "audit --jobs '' DIR",
    "audit --jobs= DIR",
    "audit --jobs 99999999999999999999999 DIR",
    "audit DIR --jobs",
    "audit --jobs DIR",
    "audit DIR ''",
    "audit --from",
    "audit --from= ",
    "audit --from ''",
    "audit --from OUT",
    "audit --from FILE",
    "audit --from FILE DIR",
    "audit --from DIR",
    "plan",
    "plan --machines 2",
    "plan ''",
    "plan --jobs 1 DIR",
    "plan --rows DIR",
    "plan --from FILE",
    "plan --machines 0 DIR",
    "plan --machines=0 DIR",
    "plan --machines 10001 DIR",
    "plan --machines x DIR",
    "plan --machines -1 DIR",
    "plan --machines 1.5 DIR",
    "plan --machines '' DIR",
    "plan --machines 99999999999999999999999 DIR",
    "plan DIR --machines",
    "plan --machines DIR",
    "plan --out OUT DIR",
    "plan --machines 2 --out DIR DIR",
    "plan --machines 2 --out FILE DIR",
    "plan --machines 2 --out '' DIR",
    "compare",
    "compare DIR",
    "compare DIR DIR 1 1",
    "compare --rows DIR DIR",
    "compare --jobs 1 DIR DIR",
    "ancestry",
    "ancestry DIR",
    "ancestry DIR 1 1",
    "ancestry --explain DIR 1",
    "receipts",
    "receipts DIR",
    "receipts DIR FILE FILE",
    "receipts --explain DIR FILE",
    "receipts DIR ''",
    "receipts '' FILE",
    "receipts DIR -",
    "notes",
    "notes DIR",
    "notes DIR FILE FILE",
    "notes --explain DIR FILE",
    "notes DIR ''",
    "notes '' FILE",
    "notes DIR -",
    "cut",
    "cut DIR",
    "cut DIR 1",
    "cut DIR 1 OUT OUT",
    "cut --explain DIR 1 OUT",
    "cut --rows DIR 1 OUT",
    "cut DIR x OUT",
    "cut DIR '' OUT",
    "cut DIR 1 ''",
    "cut '' 1 OUT",
    "cut DIR OUT 1",
    "cut DIR +1 OUT",
    "cut DIR -1 OUT",
    "cut DIR 0 OUT",
    "cut DIR 43 OUT",
    "cut DIR 99999999999999999999 OUT",
    "cut DIR 1 DIR",
    "cut DIR 1 FILE",
    "cut FILE 1 OUT",
    "show",
    "show DIR DIR",
    "show --rows DIR",
];

#[test]
fn wrong_calls() {
    let good = root().join("samples/election").display().to_string();
    let temp = Temp::new("wrong");
    let file = temp.join("receipts").display().to_string();
    fs::write(&file, []).expect("written");
    for command in ["receipts", "notes"] {
        assert_eq!(tirfolma([command, &good, &file]).status, 0);
    }
    let out = temp.join("out").display().to_string();
    for call in WRONG {
        let words = call.split_whitespace().map(|word| match word {
            "DIR" => good.as_str(),
            "FILE" => file.as_str(),
            "OUT" => out.as_str(),
            "''" => "",
            word => word,
        });
        tirfolma(words).assert_failed(call);
    }
}

/// Words that are no UTF-8 are wrong calls like others.
#[test]
fn words_that_are_no_text() {
    use std::os::unix::ffi::OsStrExt;
    let odd = std::ffi::OsStr::from_bytes(b"--\xff");
    let good = root().join("samples/election");
    tirfolma([odd]).assert_failed("a command");
    tirfolma(["audit".as_ref(), odd, good.as_os_str()]).assert_failed("an option");
    tirfolma(["audit".as_ref(), "--jobs".as_ref(), odd, good.as_os_str()]).assert_failed("a number of jobs");
    tirfolma(["ancestry".as_ref(), good.as_os_str(), std::ffi::OsStr::from_bytes(b"1\xff")]).assert_failed("an item");
}

#[test]
fn right_calls() {
    let good = root().join("samples/election").display().to_string();
    let good = good.as_str();
    let answer = format!("{good}\taccepted 48 42 3 17\n");
    for words in [
        &["audit", good][..],
        &["audit", "--", good],
        &["audit", "--jobs", "1", good],
        &["audit", "--jobs=2", good],
        &["audit", good, "--jobs", "4096"],
        &["audit", "--explain", good],
        &["audit", good, "--explain", "--explain"],
    ] {
        let ran = tirfolma(words);
        assert_eq!((ran.text(), ran.errors(), ran.status), (answer.as_str(), "", 0), "{words:?}");
    }
}

/// What is printed for a command, or for the program, by --help.
fn help_of(command: &str) -> String {
    let ran = tirfolma([command, "--help"].iter().filter(|word| !word.is_empty()));
    assert_eq!((ran.status, ran.errors()), (0, ""), "{command}");
    ran.text().to_string()
}

#[test]
fn help() {
    let flags = |command| match command {
        "audit" => &["--rows", "--explain", "--summary", "--jobs", "--from", "--json", "--help"][..],
        "plan" => &["--machines", "--out", "--json", "--help"],
        _ => &["--json", "--help"],
    };
    let names: Vec<&str> = COMMANDS.iter().map(|command| command.name).collect();
    assert_eq!(names, ["audit", "plan", "compare", "ancestry", "receipts", "notes", "cut", "show"]);
    for name in names.iter().copied().chain([""]) {
        let text = help_of(name);
        let too_wide = text.lines().find(|line| line.chars().count() > 80);
        assert_eq!(too_wide, None, "{name}: wider than 80 columns");
        assert!(text.lines().all(|line| line.trim_end() == line), "{name}: blanks at the end of a line");
        for status in 0..3 {
            assert!(text.contains(&format!("\n  {status}   ")), "{name}: exit status {status} is not told");
        }
        if name.is_empty() {
            let is_there = |name: &&str| text.contains(&format!("tirfolma {name} "));
            assert!(names.iter().all(is_there), "{text}");
            continue;
        }
        assert!(text.starts_with(&format!("tirfolma {name} ")), "{text}");
        for flag in flags(name) {
            assert!(text.contains(&format!("\n  {flag}")), "{name} does not tell of {flag}");
        }
        let listed = COMMANDS.iter().find(|command| command.name == name).expect("a command").options;
        assert!(
            listed.iter().all(|option| text.contains(&format!("\n  {}", option.flag))),
            "{name}: an option is missing"
        );
        assert_eq!(tirfolma([name, "-h"]).text(), text);
        // Beside other words it may be a folder's name: what was not audited must not look as if all were well.
        for words in [[name, "x", "--help"], [name, "--help", "x"], [name, "-h", "-h"], [name, "--json", "-h"]] {
            tirfolma(words).assert_failed(&words.join(" "));
        }
    }
    assert_eq!(EXIT.len(), 3);
}

#[test]
fn version() {
    let ran = tirfolma(["--version"]);
    assert_eq!((ran.status, ran.errors()), (0, ""));
    let lines = ran.lines();
    assert_eq!(lines.len(), 3, "{lines:?}");
    assert_eq!(lines[0], format!("tirfolma {}", env!("CARGO_PKG_VERSION")));
    for (line, start) in lines[1..].iter().zip(["commit ", "proved by "]) {
        assert!(line.strip_prefix(start).is_some_and(|rest| !rest.trim().is_empty()), "{line}");
    }
}

/// The paragraphs of a help text, each as its words: lines of one indent that follow each other.
fn paragraphs(text: &str) -> Vec<String> {
    let mut found: Vec<(usize, String)> = Vec::new();
    let mut last = None;
    for line in text.lines() {
        let words = line.split_whitespace().collect::<Vec<_>>().join(" ");
        let indent = line.len() - line.trim_start().len();
        match found.last_mut() {
            Some((_, paragraph)) if last == Some(indent) && indent != 2 && !words.is_empty() => {
                *paragraph += &format!(" {words}")
            }
            _ if !words.is_empty() => found.push((indent, words.clone())),
            _ => {}
        }
        last = (!words.is_empty()).then_some(indent);
    }
    found.into_iter().map(|(_, paragraph)| paragraph).collect()
}

/// The manual page as groff sets it, without a warning.
fn manual_page() -> String {
    let temp = Temp::new("man");
    let ran = tirfolma(["--man"]);
    assert_eq!((ran.status, ran.errors()), (0, ""));
    fs::write(temp.join("tirfolma.1"), &ran.out).expect("written");
    // A bare one may be set as a hyphen, and an option could not be copied from the page.
    assert!(!ran.text().replace("\\-", "").contains('-'), "a dash that is not escaped");
    for device in ["utf8", "ascii"] {
        let script = "LC_ALL=C.UTF-8 groff -man -ww -rHY=0 -T\"$1\" -P-cbou \"$2\"";
        let ran = run(shell(script, [device.as_ref(), temp.join("tirfolma.1").as_os_str()]));
        assert_eq!((ran.status, ran.errors()), (0, ""), "groff -T{device}");
        if device == "ascii" {
            return ran.text().to_string();
        }
    }
    unreachable!("the last device is ascii")
}

#[test]
fn the_manual_says_what_the_help_says() {
    if !has("groff") {
        return;
    }
    let page = manual_page().split_whitespace().collect::<Vec<_>>().join(" ");
    let mut seen = 0;
    for name in COMMANDS.iter().map(|command| command.name).chain([""]) {
        let text = help_of(name);
        // The overview's list of calls has no options, and its pointer to more help is of no use in the manual.
        let body =
            if name.is_empty() { &text[text.find("\n\ntirfolma reads").expect("an introduction")..] } else { &text };
        for paragraph in paragraphs(body) {
            let is_title = ["Options:", "Exit status:", "Refusals:", "Examples:"].contains(&paragraph.as_str());
            if is_title || paragraph.starts_with("'tirfolma COMMAND --help'") {
                continue;
            }
            seen += 1;
            // A usage line and what it is about are two lines of one paragraph in --help.
            let usage = format!("tirfolma {name} [OPTION]... ");
            let is_usage = !name.is_empty() && paragraph.starts_with(&usage);
            let about = COMMANDS.iter().find(|command| command.name == name).map_or("", |command| command.about);
            let parts = match paragraph.strip_suffix(about).filter(|_| is_usage) {
                Some(usage) => vec![usage.trim(), about],
                None => vec![paragraph.as_str()],
            };
            for part in parts {
                assert!(page.contains(part), "the manual does not say: {part}");
            }
        }
    }
    assert!(seen > 60, "only {seen} paragraphs");
}

#[test]
fn man_takes_the_page() {
    if !has("man") {
        return;
    }
    let temp = Temp::new("man");
    fs::write(temp.join("tirfolma.1"), tirfolma(["--man"]).out).expect("written");
    let script = "cd \"$1\" && LC_ALL=C.UTF-8 MANWIDTH=80 MAN_KEEP_STDERR=1 man --warnings=w -l -Tutf8 ./tirfolma.1";
    let ran = run(shell(script, [temp.path()]));
    assert_eq!((ran.status, ran.errors()), (0, ""));
    assert!(String::from_utf8_lossy(&ran.out).contains("TIRFOLMA(1)"));
}

/// What bash offers for words of which the last is begun, in a folder with the samples.
fn completed(words: &[&str]) -> Vec<String> {
    let script = r#"
        eval "$1"; shift
        cd "$1" && shift
        compopt() { :; }
        COMP_WORDS=("$@") COMP_CWORD=$(($# - 1)) COMPREPLY=()
        made=$(complete -p tirfolma) && [[ $made =~ -F\ ([^ ]+) ]] && "${BASH_REMATCH[1]}" tirfolma "${@: -1}" "${@: -2:1}"
        ((${#COMPREPLY[@]} == 0)) || printf '%s\n' "${COMPREPLY[@]}"
    "#;
    let temp = Temp::new("completion");
    for name in ["some folder", "other"] {
        fs::create_dir(temp.join(name)).expect("made");
    }
    fs::write(temp.join("some file"), []).expect("written");
    let made = tirfolma(["--completion"]);
    let mut all = vec![made.text().to_string(), temp.path().display().to_string()];
    all.extend(words.iter().map(|word| word.to_string()));
    let ran = run(shell(script, all));
    assert_eq!((ran.status, ran.errors()), (0, ""), "{words:?}");
    ran.lines().into_iter().map(String::from).collect()
}

#[test]
fn completion() {
    let temp = Temp::new("completion");
    fs::write(temp.join("made"), tirfolma(["--completion"]).out).expect("written");
    let ran = run(shell("bash -n \"$1\"", [temp.join("made")]));
    assert_eq!((ran.status, ran.errors()), (0, ""));

    assert_eq!(completed(&["tirfolma", "au"]), ["audit"]);
    assert_eq!(completed(&["tirfolma", "a"]), ["audit", "ancestry"]);
    assert_eq!(completed(&["tirfolma", "--v"]), ["--version"]);
    assert_eq!(completed(&["tirfolma", "audit", "--ex"]), ["--explain"]);
    assert_eq!(completed(&["tirfolma", "audit", "some folder", "--su"]), ["--summary"]);
    assert_eq!(completed(&["tirfolma", "plan", "--m"]), ["--machines"]);
    assert_eq!(completed(&["tirfolma", "plan", "--machines", "2", "--out", "so"]), ["some folder"]);
    assert_eq!(completed(&["tirfolma", "compare", "--"]), ["--json", "--help"]);
    assert_eq!(completed(&["tirfolma", "compare", "--r"]), [] as [&str; 0]);
    assert_eq!(completed(&["tirfolma", "audit", "so"]), ["some folder"]);
    assert_eq!(completed(&["tirfolma", "cut", "so"]), ["some folder"]);
    assert_eq!(completed(&["tirfolma", "cut", "--"]), ["--json", "--help"]);
    for words in [["receipts", "other"], ["notes", "other"], ["audit", "--from"]] {
        let mut offered = completed(&["tirfolma", words[0], words[1], "so"]);
        offered.sort();
        assert_eq!(offered, ["some file", "some folder"], "a file is asked for");
    }
    let commands = completed(&["tirfolma", ""]);
    assert!(COMMANDS.iter().all(|command| commands.iter().any(|offered| offered == command.name)), "{commands:?}");
}
