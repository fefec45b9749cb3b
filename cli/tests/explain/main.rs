//! The explanations of refusals, on boards of the reference: each fault of its list by what must be said of it, what is claimed of other
//! items by the words, and that no files and no refusal bring an explanation down.

mod claims;
mod content;
mod formats;
mod heads;
mod phrases;
mod places;
mod traits;
#[path = "../common/traits.rs"]
mod traits_boards;
#[path = "../common/widths.rs"]
mod widths;
mod words;

use reference::checks::{case, case_with_fault, Case, Group, Makers};
use reference::faults::rank;
use reference::format::{code, kind, kind_of, EXTRACTION, THRESHOLD};
use reference::program::bytes;
use reference::random::Random;
use tirfolma::explain::{detail, explain, reason};
use tirfolma::files::Files;
use tirfolma::library::{Answer, Refusal, Tables};
use tirfolma::types;
use words::place_behind;

/// How often each fault is made.
const TURNS: u64 = 12;
/// Damaged boards of each of two groups.
const DAMAGED: u64 = 5_000;

fn files(case: &Case) -> Files {
    let [board, verdicts, roll] = [&case.words, &case.verdicts, &case.roll].map(|words| bytes(words));
    Files::of_bytes([&board, &verdicts, &roll])
}

fn refused(files: &Files, tables: &mut Tables) -> Option<Refusal> {
    match files.audit(tables) {
        Answer::Refused(refusal) => Some(refusal),
        Answer::Accepted(_) => None,
    }
}

/// How the explanation must begin, where an item is at fault: with its number, its type's name if its head is listed, word and byte.
fn beginning(words: &[u32], refusal: Refusal) -> Option<String> {
    let Refusal { number, items } = refusal;
    let place = place_behind(words, items as usize)?;
    let head = *words.get(place)?;
    if !matches!(number, 4..=16 | 21) && (number, items) != (1, 2048) {
        return None;
    }
    let is_listed = kind_of(code(head)) == Some(kind(head));
    let name = if is_listed { types::name(code(head)) + ", " } else { String::new() };
    Some(format!("Item {} ({name}at word {place}, byte {} of board.words) ", items + 1, 4 * place))
}

/// One line of a few sentences.
fn hold_form(text: &str) -> Result<(), String> {
    let is_plain = text.chars().all(|c| (' '..='~').contains(&c));
    let sentences = text.replace("...", "").matches(". ").count() + 1;
    let is_tidy = !text.contains("  ") && !text.contains("....") && text.ends_with('.');
    if is_plain && is_tidy && text.len() < 600 && sentences <= 2 {
        Ok(())
    } else {
        Err("it is not a line of a few sentences".to_string())
    }
}

/// What holds of the explanation of any refusal that the library gave.
fn hold(files: &Files, refusal: Refusal) -> Result<String, String> {
    let text = explain(files, refusal);
    let board = &files.board.words;
    let told = || {
        hold_form(&text)?;
        if detail(files, refusal).as_ref() != Some(&text) {
            return Err("nothing is shown from the words".to_string());
        }
        if files.size_refusal().is_some() {
            return claims::so(text == heads::parts_of_words(files), &heads::parts_of_words(files));
        }
        if let Some(beginning) = beginning(board, refusal).filter(|beginning| !text.starts_with(beginning)) {
            return Err(format!("it does not begin with '{beginning}'"));
        }
        claims::hold(files, refusal, &text)?;
        hold_passed(files, refusal)
    };
    told().map_err(|why| format!("{refusal:?}: {why}\n    {text}")).map(|()| text)
}

/// The checks before the one that failed are passed: nothing is shown of them. What only a hash tells, 7 and the fingerprint, is left out.
fn hold_passed(files: &Files, refusal: Refusal) -> Result<(), String> {
    let Refusal { number, items } = refusal;
    let place = place_behind(&files.board.words, items as usize);
    let Some(&head) = place.and_then(|place| files.board.words.get(place)) else { return Ok(()) };
    let is_hash = |number: u32| number == 13 && code(head) == EXTRACTION;
    let before = [5, 6, 4, 8, 9, 10, 11, 12, 13, 21, 14, 15].into_iter().filter(|&other| rank(other) < rank(number));
    for other in before.filter(|&other| !is_hash(other)) {
        if let Some(text) = detail(files, Refusal { number: other, items }) {
            return Err(format!("{other} is passed: {text}"));
        }
    }
    Ok(())
}

/// Whether a fault's explanation says what it must.
fn hold_phrase(reason: &str, text: &str) -> Result<(), String> {
    let phrases = phrases::phrases(reason).ok_or(format!("{reason} has no phrase"))?;
    match phrases.iter().any(|phrase| text.contains(phrase)) {
        true => Ok(()),
        false => Err(format!("{reason} needs one of {phrases:?}\n    {text}")),
    }
}

#[test]
fn every_fault() {
    let makers = Makers::default();
    let count = makers.faults.len() as u64;
    let mut tables = Tables::default();
    let mut wrong = Vec::new();
    let mut refusals = 0;
    for seed in 0..TURNS * count {
        let (case, faulty) = case_with_fault(&makers, seed);
        let files = files(&case);
        let Some(refusal) = refused(&files, &mut tables) else {
            assert_eq!(faulty.number, 0, "{}", case.name);
            continue;
        };
        assert_eq!((refusal.number, refusal.items as usize), (faulty.number, faulty.items), "{}", case.name);
        refusals += 1;
        let held = hold(&files, refusal).and_then(|text| hold_phrase(&makers.fault(seed).reason, &text));
        wrong.extend(held.err().map(|why| format!("{}: {why}", case.name)));
    }
    assert!(wrong.is_empty(), "{} of {refusals}:\n{}", wrong.len(), wrong[..wrong.len().min(20)].join("\n"));
    assert!(refusals > 500 * TURNS, "{refusals} refusals");
    let reasons: Vec<&str> = makers.faults.iter().map(|fault| fault.reason.as_str()).collect();
    assert_eq!(phrases::unused(&reasons), [""; 0], "phrases of no fault");
}

/// Damage to plans and words, and words that never were a board.
#[test]
fn damaged_boards() {
    let makers = Makers::default();
    let mut tables = Tables::default();
    let mut seen = [0; 22];
    let groups = [(Group::Rules, DAMAGED), (Group::Words, DAMAGED), (Group::Order, 1_000), (Group::Long, 24)];
    for (group, seed) in groups.into_iter().flat_map(|(group, count)| (0..count).map(move |seed| (group, seed))) {
        let case = case(&makers, group, seed);
        let files = files(&case);
        let Some(refusal) = refused(&files, &mut tables) else { continue };
        seen[refusal.number as usize] += 1;
        hold(&files, refusal).unwrap_or_else(|why| panic!("{}: {why}", case.name));
    }
    let unseen: Vec<usize> = (1..seen.len()).filter(|&number| seen[number] == 0).collect();
    assert_eq!(unseen, [2, 17, 19], "refusals that no board was given: {seen:?}");
}

/// Files cut at any byte.
#[test]
fn cut_files() {
    let makers = Makers::default();
    let mut tables = Tables::default();
    let random = &mut Random::new(11);
    let mut parts = [0; 4];
    for seed in 0..1_000 {
        let case = case(&makers, Group::Sound, seed % 50);
        let mut files = [&case.words, &case.verdicts, &case.roll].map(|words| bytes(words));
        let first = random.below(3);
        for cut in (first..=first + seed as usize % 3).map(|file| file % 3) {
            // Half of them stay whole.
            let length = files[cut].len();
            files[cut].truncate(random.below(2 * length + 1));
        }
        let files = Files::of_bytes([&files[0], &files[1], &files[2]]);
        let Some(refusal) = refused(&files, &mut tables) else { continue };
        hold(&files, refusal).unwrap_or_else(|why| panic!("{seed}: {why}"));
        parts[files.each().iter().filter(|file| !file.is_whole()).count()] += 1;
    }
    assert!(parts.iter().all(|&count| count > 5), "boards with so many files of parts of words: {parts:?}");
}

/// A threshold over few trustees. The item's address is not looked at: the items before it pass.
#[test]
fn few_trustees() {
    let makers = Makers::default();
    let with_threshold = |seed| {
        let case = case(&makers, Group::Sound, seed);
        let threshold = words::items(&case.words).into_iter().find(|item| item.code == THRESHOLD)?;
        Some((case, threshold))
    };
    let (mut case, threshold) = (7..).find_map(with_threshold).expect("a threshold");
    for (trustees, only) in [(0, "are 0 trustees"), (1, "is 1 trustee"), (2, "are 2 trustees")] {
        case.words[threshold.content_place(0)..][..2].copy_from_slice(&[trustees, 3]);
        let refusal = Refusal { number: 13, items: threshold.number as u32 - 1 };
        let text = hold(&files(&case), refusal).unwrap_or_else(|why| panic!("{why}"));
        assert!(text.contains(&format!(", but there {only} only, by the word before it. ")), "{text}");
    }
}

/// A wrong fingerprint of many counted ballots: of more than eight the first are listed. Again without the address.
#[test]
fn many_ballots() {
    let makers = Makers::default();
    let mut longest = 0;
    let cases = (0..200).map(|seed| (Group::Sound, seed)).chain((0..24).map(|seed| (Group::Long, seed)));
    for (group, seed) in cases {
        let mut case = case(&makers, group, seed);
        let all = words::items(&case.words);
        let Some(extraction) = all.iter().find(|item| item.code == EXTRACTION) else { continue };
        case.words[extraction.content_place(7)] ^= 1;
        let files = files(&case);
        let refusal = Refusal { number: 13, items: extraction.number as u32 - 1 };
        if refused(&files, &mut Tables::default()).map(|refused| refused.items) != Some(refusal.items) {
            continue;
        }
        let text = hold(&files, refusal).unwrap_or_else(|why| panic!("{}: {why}", case.name));
        longest = longest.max(words::number_behind(&text, "the contents of the ").unwrap_or(0));
    }
    assert!(longest > 9, "{longest} counted ballots");
}

/// A key that only a genesis behind the refused item names: it is not said that no item names it, nor that it is the administrator's.
#[test]
fn key_of_a_later_genesis() {
    let mut case = case(&Makers::default(), Group::Sound, 7);
    let passed = words::items(&case.words).len() - 1;
    let genesis = case.words[..words::place_behind(&case.words, 1).expect("a genesis")].to_vec();
    let place = case.words.len() - 1;
    case.words.splice(place.., genesis);
    for (field, whose) in [(1, "administrator"), (9, "ballot box")] {
        case.words[place + 1 + field] ^= 1;
        let key = case.words[place + 1 + field..][..8].to_vec();
        case.verdicts[9 * passed + 1..][..8].copy_from_slice(&key);
        let files = files(&case);
        let refusal = refused(&files, &mut Tables::default()).expect("a wrong key");
        assert_eq!((refusal.number, refusal.items as usize), (15, passed));
        let text = hold(&files, refusal).unwrap_or_else(|why| panic!("{why}"));
        assert!(text.contains(&format!("which is that of another {whose} (genesis item ")), "{text}");
    }
}

/// Refusals that the library did not give: something is said, and what is named is there.
#[test]
fn other_refusals() {
    let makers = Makers::default();
    let mut tables = Tables::default();
    let random = &mut Random::new(12);
    for seed in 0..1_000 {
        let group = *random.pick(&[Group::Sound, Group::Rules, Group::Words, Group::Faults]);
        let case = case(&makers, group, seed);
        let files = files(&case);
        let passed = refused(&files, &mut tables).map_or(0, |refusal| refusal.items);
        for number in 0..=30 {
            let any = random.word();
            let others = [0, 1, 2, any % 8, any % 64, any % 200, 2047, 2048, 2049, any, u32::MAX];
            for items in [passed, *random.pick(&others)] {
                let refusal = Refusal { number, items };
                let text = explain(&files, refusal);
                let held = hold_form(&text).and_then(|()| claims::hold_named(&files, refusal, &text));
                held.unwrap_or_else(|why| panic!("{}, {refusal:?}: {why}\n    {text}", case.name));
            }
        }
    }
}

/// An item that ends with the file is whole, and without items there is none behind which the file ends.
#[test]
fn ends_of_files() {
    let mut case = case(&Makers::default(), Group::Sound, 7);
    let items = words::items(&case.words).len() as u32;
    case.words.pop();
    let shown = |case: &Case, items| detail(&files(case), Refusal { number: 4, items });
    assert_eq!(shown(&case, items - 1), None);
    assert!(shown(&case, items).is_some());
    case.words.clear();
    assert_eq!(shown(&case, 0), None);
}

/// Every number has a reason, and each refusal its own.
#[test]
fn reasons() {
    let mut reasons: Vec<&str> = (1..=23).filter(|&number| number != 17).map(reason).collect();
    reasons.push(reason(17));
    assert_eq!([0, 17, 24, u32::MAX].map(reason), ["no refusal has this number"; 4]);
    reasons.sort();
    reasons.dedup();
    assert_eq!(reasons.len(), 23);
}

/// A sound board is refused for nothing that can be shown, but for what only a hash tells.
#[test]
fn sound_boards() {
    let makers = Makers::default();
    for seed in 0..60 {
        let case = case(&makers, Group::Sound, seed);
        hold_sound(&case.name, &files(&case));
    }
}

fn hold_sound(name: &str, files: &Files) {
    let all = words::items(&files.board.words);
    for (passed, item) in all.iter().enumerate().step_by(3) {
        for number in [3, 4, 5, 6, 8, 9, 10, 11, 12, 13, 14, 15, 16, 18, 20, 21] {
            let refusal = Refusal { number, items: passed as u32 };
            let is_hash = number == 13 && item.code == EXTRACTION;
            assert_eq!(detail(files, refusal).is_some(), is_hash, "{name}: {}", explain(files, refusal));
        }
    }
    for number in [1, 3, 4, 5, 6, 18, 20] {
        let refusal = Refusal { number, items: all.len() as u32 };
        assert_eq!(detail(files, refusal), None, "{name}");
    }
}
