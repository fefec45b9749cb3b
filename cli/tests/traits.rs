//! Boards on each curve with sets of either width, and without a traits word: what each command says of them is known from their making.

#[path = "common/traits.rs"]
mod boards;
mod common;
#[path = "common/widths.rs"]
mod widths;

use boards::{answer, made};
use common::json::objects;
use common::*;
use reference::format::{Curve, CURVES, LAYOUTS, MAIN, ROUND};
use reference::plan::{Laid, Plan};
use reference::sound::{Made, Traits};
use std::path::Path;
use widths::Widths;

const BOARDS: u64 = 16;
const MOST: usize = 60;

/// Each with the seeds of some boards.
fn all_traits(boards: u64) -> impl Iterator<Item = (Traits, u64)> {
    Traits::ALL.into_iter().flat_map(move |traits| (0..boards).map(move |seed| (traits, seed)))
}

/// By the traits word that chooses it.
fn widths(traits: Traits) -> Widths {
    Widths::of_traits(traits.word().unwrap_or(0)).expect("a format")
}

/// The address of the last main item, in hexadecimal.
fn end(plan: &Plan, laid: &Laid, widths: Widths) -> String {
    let last = plan.items.iter().rposition(|item| item.kind == MAIN).expect("a main item");
    laid.addresses[last][..widths.address].iter().map(|word| format!("{word:08x}")).collect()
}

#[test]
fn every_format_is_accepted() {
    let temp = Temp::new("traits");
    let mut ballots = [0; 7];
    for (at, traits) in Traits::ALL.into_iter().enumerate() {
        for seed in 0..BOARDS {
            let made = made(seed, MOST, traits);
            ballots[at] += made.expected.ballots.len();
            let laid = made.plan.lay();
            let folder = temp.board(format!("{at}-{seed}"), &files(&laid));
            let ran = tirfolma(words_of(&["audit", "--rows"], [&folder]));
            assert_eq!(ran.text(), format!("{}\t{}", folder.display(), answer(&made)), "{traits:?}, seed {seed}");
            assert_eq!((ran.status, ran.errors()), (0, ""));
            let ran = tirfolma(words_of(&["audit", "--json"], [&folder]));
            let [object] = &objects(ran.text())[..] else { panic!("{}", ran.text()) };
            let widths = widths(traits);
            assert_eq!(object.text("curve"), widths.curve);
            assert_eq!(object.text("end"), end(&made.plan, &laid, widths), "{traits:?}, seed {seed}");
            assert_eq!(object.text("end").len(), 8 * widths.address);
        }
    }
    assert!(ballots.iter().all(|&ballots| ballots > 5), "counted ballots by traits: {ballots:?}");
}

/// Boards with the same words are the same, also those that one of them grew to; others are apart, and it is said where they are on
/// different curves.
#[test]
fn comparing() {
    let temp = Temp::new("traits-compare");
    let mut on_other_curves = 0;
    for seed in 0..4 {
        let boards: Vec<(Traits, Three)> =
            Traits::ALL.map(|traits| (traits, files(&made(seed, MOST, traits).plan.lay()))).into();
        for ((kept_traits, kept), (later_traits, later)) in
            boards.iter().flat_map(|kept| boards.iter().map(move |later| (kept, later)))
        {
            let folders = [temp.board("kept", kept), temp.board("later", later)];
            let is_same = kept_traits == later_traits;
            let ran = tirfolma(words_of(&["compare"], &folders));
            // By default the number of the kept board's main items, which the later one may not have.
            let answers = if is_same { &["same\n"][..] } else { &["apart\n", "later refused 19 at "] };
            assert!(answers.iter().any(|answer| ran.text().starts_with(answer)), "seed {seed}: {}", ran.text());
            let ran = tirfolma(words_of(
                &["compare", "--json"],
                folders.iter().map(|folder| folder.as_os_str()).chain(["1".as_ref()]),
            ));
            let [object] = &objects(ran.text())[..] else { panic!("{}", ran.text()) };
            let curves = [kept_traits, later_traits].map(|&traits| widths(traits).curve);
            let named = ["kept_curve", "later_curve"].map(|key| object.find(key).map(|_| object.text(key)));
            if object.text("answer") == "apart" && curves[0] != curves[1] {
                assert_eq!(named, curves.map(Some), "seed {seed}");
                on_other_curves += 1;
            } else {
                assert_eq!(named, [None, None], "seed {seed}: {}", ran.text());
            }
        }
    }
    // Of the seven boards of a seed three are on secp256r1, and two on each other curve.
    assert_eq!(on_other_curves, 4 * (7 * 7 - 3 * 3 - 2 * 2 - 2 * 2));
}

/// The board that was kept when this one had so many items.
fn cut(plan: &Plan, items: usize) -> Plan {
    let mut kept = plan.clone();
    kept.items.truncate(items);
    kept
}

#[test]
fn a_board_and_what_it_grew_to() {
    let temp = Temp::new("traits-grown");
    for (traits, seed) in all_traits(3) {
        let plan = made(seed, MOST, traits).plan;
        let later = temp.board("later", &files(&plan.lay()));
        for items in (1..=plan.items.len()).step_by(5) {
            let kept = temp.board("kept", &files(&cut(&plan, items).lay()));
            let ran = tirfolma(words_of(&["compare"], [&kept, &later]));
            assert_eq!((ran.text(), ran.status, ran.errors()), ("same\n", 0, ""), "{traits:?}, {items} items");
        }
    }
}

/// The items above the last are those of its making, with their times.
#[test]
fn ancestry() {
    let temp = Temp::new("traits-ancestry");
    for (traits, seed) in all_traits(6) {
        let Made { plan, expected, .. } = made(seed, MOST, traits);
        let folder = temp.board("board", &files(&plan.lay()));
        let last = plan.items.len();
        let ran = tirfolma(words_of(&["ancestry", "--json"], [folder.as_os_str(), last.to_string().as_ref()]));
        assert_eq!((ran.status, ran.errors()), (0, ""));
        let [object] = &objects(ran.text())[..] else { panic!("{}", ran.text()) };
        let listed: Vec<_> =
            object.list("list").iter().map(|item| (item.number("item"), item.number("time"))).collect();
        let mut above = vec![last];
        while above.last() != Some(&1) {
            above.push(expected.rows[above[above.len() - 1] - 1].parent as usize);
        }
        let above: Vec<_> = above.into_iter().map(|item| (item as u64, plan.items[item - 1].time)).collect();
        assert_eq!(listed, above, "{traits:?}, seed {seed}");
    }
}

/// What `show` says of a folder: the lines above its items, and the object.
fn shown(folder: &Path, status: i32) -> (Vec<String>, common::json::Json) {
    let ran = tirfolma(words_of(&["show"], [folder]));
    assert_eq!((ran.status, ran.errors()), (status, ""));
    let lines: Vec<String> = ran.lines().iter().map(|line| line.to_string()).collect();
    let heading = lines.iter().position(|line| line.starts_with("  item  main ")).expect("a heading");
    let ran = tirfolma(words_of(&["show", "--json"], [folder]));
    let object = objects(ran.text()).remove(0);
    (lines[1..heading].to_vec(), object)
}

/// The traits word, or that there is none, stands above the items with the curve, the hash and the widths.
#[test]
fn traits_are_shown() {
    let temp = Temp::new("traits-show");
    for (word, meaning, widths) in [
        (
            0,
            "secp256r1 with SHA-256, sets of contests have one word",
            "address 8, signature 16, commitment 9, cryptogram 17, set 1",
        ),
        (
            1,
            "secp256r1 with SHA-256, sets of contests have eight words",
            "address 8, signature 16, commitment 9, cryptogram 17, set 8",
        ),
        (
            2,
            "secp384r1 with SHA-384, sets of contests have one word",
            "address 12, signature 24, commitment 13, cryptogram 25, set 1",
        ),
        (
            3,
            "secp384r1 with SHA-384, sets of contests have eight words",
            "address 12, signature 24, commitment 13, cryptogram 25, set 8",
        ),
        (
            4,
            "secp521r1 with SHA-512, sets of contests have one word",
            "address 16, signature 33, commitment 17, cryptogram 34, set 1",
        ),
        (
            5,
            "secp521r1 with SHA-512, sets of contests have eight words",
            "address 16, signature 33, commitment 17, cryptogram 34, set 8",
        ),
    ] {
        let made = made(9, MOST, Traits::Said(LAYOUTS[word]));
        let folder = temp.board(word.to_string(), &files(&made.plan.lay()));
        let (lines, object) = shown(&folder, 0);
        let right = [format!("  traits {word:08x} at word 18: {meaning}"), format!("  widths in words: {widths}")];
        assert_eq!(lines, right);
        assert_eq!(object.number("traits"), word as u64);
        assert_eq!(object.list("list").len(), made.plan.items.len());
    }
    let folder = temp.board("none", &files(&made(9, MOST, Traits::Unsaid).plan.lay()));
    let (lines, object) = shown(&folder, 0);
    let meaning = "secp256r1 with SHA-256, sets of contests have one word";
    let widths = "address 8, signature 16, commitment 9, cryptogram 17, set 1";
    assert_eq!(lines, [format!("  no traits word: {meaning}"), format!("  widths in words: {widths}")]);
    assert!(object.find("traits").is_none());
    assert_eq!((object.text("curve"), object.text("hash")), ("secp256r1", "SHA-256"));
}

/// A word that is refused: what is wrong with it, and how the board is read.
#[test]
fn wrong_traits_are_shown() {
    let temp = Temp::new("traits-wrong");
    let mut plan = made(9, MOST, Traits::Said(LAYOUTS[0])).plan;
    for (word, wrong) in [
        (6, "bits 1 and 2 give the number 3, which no curve has"),
        (7, "bits 1 and 2 give the number 3, which no curve has"),
        (8, "bit 3 has no meaning"),
        (0x8000_0005, "bit 31 has no meaning"),
        (0xf0, "bits 4, 5, 6 and 1 more have no meaning"),
        (0xe, "bit 3 has no meaning, and bits 1 and 2 give the number 3, which no curve has"),
    ] {
        plan.items[0].content[17] = word;
        let folder = temp.board(word.to_string(), &files(&plan.lay()));
        let (lines, object) = shown(&folder, 1);
        let read = "read as secp256r1 with SHA-256, sets of contests have one word";
        assert_eq!(lines[0], format!("  traits {word:08x} at word 18: {wrong}; {read}"));
        assert_eq!((object.number("traits"), object.number("number")), (word.into(), 13));
        assert_eq!((object.text("curve"), object.text("hash")), ("secp256r1", "SHA-256"));
        assert!(object.text("explanation").contains(wrong), "{}", object.text("explanation"));
    }
}

/// Items are shown as far as their heads fit the format that the traits word gives: of a board that says it is on another curve or has sets
/// of another width no further than to the first item that does not.
#[test]
fn items_are_shown_by_the_traits() {
    let temp = Temp::new("traits-items");
    let with_round = |seed| Some(made(seed, MOST, Traits::Said(LAYOUTS[1]))).filter(|made| round(made).is_some());
    let made = (0..).find_map(with_round).expect("a board with a round");
    let round = round(&made).expect("a round");
    let all = made.plan.items.len();
    for traits in 0..8u32 {
        let mut plan = made.plan.clone();
        plan.items[0].content[17] = traits;
        // As on its own curve, whatever it says.
        plan.laid_as = Some(Curve::Secp256r1);
        let folder = temp.board(traits.to_string(), &files(&plan.lay()));
        let (_, object) = shown(&folder, i32::from(traits != 1));
        let items = object.list("list").len();
        match traits {
            1 => assert_eq!(items, all),
            // Up to a contest or round that only wide sets have, and to the round by its head.
            0 => assert!(items == round + 1 || items == round, "{items} items"),
            // Read as without traits.
            6 | 7 => assert_eq!(items, round),
            // The first item's address is not where it is sought.
            _ => assert_eq!((items, object.number("number")), (1, 7)),
        }
    }
}

fn round(made: &Made) -> Option<usize> {
    made.plan.items.iter().position(|item| item.code == ROUND)
}

/// A board that lost its traits word, or has that of another curve, is refused at its first item; the explanation names the right curve.
#[test]
fn boards_that_tell_another_curve() {
    let temp = Temp::new("traits-other");
    for (layout, told) in LAYOUTS.into_iter().flat_map(|layout| CURVES.map(|told| (layout, told))) {
        let mut plan = made(9, MOST, Traits::Said(layout)).plan;
        if layout.curve == told {
            continue;
        }
        plan.items[0].content[17] = (told as u32) << 1;
        plan.laid_as = Some(layout.curve);
        let folder = temp.board("board", &files(&plan.lay()));
        let ran = tirfolma(words_of(&["audit", "--explain"], [&folder]));
        assert_eq!((ran.status, ran.errors()), (1, ""));
        let widths = format!("; with the widths of {} ", layout.curve.name());
        assert!(ran.text().contains("\trefused 7 at 0\n") && ran.text().contains(&widths), "{}", ran.text());
    }
}
