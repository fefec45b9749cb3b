//! Writes the sample boards: make-samples FOLDER. The same every time.

use reference::faults::counted;
use reference::format::*;
use reference::plan::{Laid, Plan, Spec};
use reference::program::{bytes, program};
use reference::random::Random;
use reference::roll::{pairs_of, roll_of, voters_of};
use reference::sha256::sha256;
use reference::sound::{ballot_of, make, make_with, Made, Shape, Traits};
use std::fs;
use std::path::Path;

fn main() {
    let folder = std::env::args().nth(1).expect("usage: make-samples FOLDER");
    let folder = Path::new(&folder);
    let mut made = election();
    made.plan.roll = roll(&made);
    let laid = made.plan.lay();
    write(folder, "election", &laid);

    let mut genesis = Plan::new(made.plan.items[..1].to_vec(), Vec::new());
    genesis.items[0].time = 1_790_000_000_000;
    write(folder, "genesis-alone", &genesis.lay());

    // One bit of a counted ballot's first cryptogram.
    let ballot = counted_ballot(&made);
    let mut tampered = laid.clone();
    tampered.words[laid.places[ballot] + 2] ^= 1;
    write(folder, "tampered-ballot", &tampered);

    // A cast whose good verdict was given for another voter's key.
    let mut plan = made.plan.clone();
    let cast = position(&made, |i| made.plan.items[i].code == CAST);
    let other = position(&made, |i| {
        made.plan.items[i].code == SESSION && eight(&made.plan.items[i].content, 2) != made.plan.items[cast].key
    });
    plan.items[cast].key = eight(&made.plan.items[other].content, 2);
    write(folder, "wrong-key", &plan.lay());

    // A cast taken out of the file, and nothing else changed but the closing word and verdicts.
    let mut words = laid.words.clone();
    words.drain(laid.places[cast]..laid.places[cast] + made.layout.curve.frame());
    *words.last_mut().expect("a closing word") -= 1;
    let mut verdicts = laid.verdicts.clone();
    verdicts.drain(cast * VERDICT_WORDS..(cast + 1) * VERDICT_WORDS);
    write(folder, "missing-cast", &Laid { words, verdicts, ..laid.clone() });

    let mut truncated = laid.clone();
    truncated.words.truncate(laid.words.len() * 2 / 3);
    write(folder, "truncated", &truncated);

    // The opened ballot is cast, not spoiled, and extracted with the others.
    let opened = first_opened(&made).expect("the election has an opening");
    write(folder, "opening-beside-cast", &with_cast_for_spoil(&made, &opened).plan.lay());

    // The spoil stands just behind the opening; no time goes backward.
    let Opened { opening, spoil, .. } = opened;
    let mut plan = made.plan.clone();
    let mut moved = plan.items[spoil].clone();
    let before = &plan.items[..opening];
    moved.time = before.iter().rev().find(|s| s.kind == MAIN).expect("a genesis").time;
    plan.insert(opening + 1, moved);
    plan.remove(spoil, 0);
    write(folder, "opening-before-spoil", &plan.lay());

    write_about_roll(folder, &made);
    for (name, made) in [("federation", federation()), ("county", county()), ("nation", nation())] {
        write(folder, name, &made.plan.lay());
    }
}

/// An election on secp256r1 of forty contests, some with numbers above 31, and several rounds. Ballots have contests in
/// more than one word of their set, and one is opened.
fn federation() -> Made {
    let layout = Layout { curve: Curve::Secp256r1, sets: Width::Wide };
    let shape = Shape { items: 130, words: None, long: 20, voters: 6, extraction: true };
    first_made(shape, layout, |made| contests(made) == 40 && rounds(made) >= 3 && in_several_words(made) >= 3)
}

/// An election on secp384r1, of contests below 32.
fn county() -> Made {
    let layout = Layout { curve: Curve::Secp384r1, sets: Width::Narrow };
    let shape = Shape { items: 60, words: None, long: 0, voters: 5, extraction: true };
    first_made(shape, layout, |made| contests(made) >= 3 && rounds(made) >= 2)
}

/// One on secp521r1, of contests up to 255.
fn nation() -> Made {
    let layout = Layout { curve: Curve::Secp521r1, sets: Width::Wide };
    let shape = Shape { items: 80, words: None, long: 5, voters: 5, extraction: true };
    first_made(shape, layout, |made| contests(made) >= 12 && rounds(made) >= 2 && in_several_words(made) >= 2)
}

/// The first board of a layout that fits, of these years, with small numbers, three counted ballots or more, one that is
/// opened, and an extraction that is confirmed. Just its voters are on the roll.
fn first_made(shape: Shape, layout: Layout, fits: fn(&Made) -> bool) -> Made {
    for seed in 1.. {
        let mut made = make_with(&mut Random::new(seed), shape, Traits::Said(layout));
        let small_weights = made.expected.ballots.iter().all(|row| row[2] < 10 && row[1] < 1000);
        let year_2026 = made.plan.items[0].time > 1_700_000_000_000;
        let whole = items_of(&made, SERVER_OPENING).count() > 0 && items_of(&made, CONFIRMATION).count() > 0;
        if whole && fits(&made) && small_weights && year_2026 && made.expected.ballots.len() >= 3 {
            made.plan.roll = roll_of(voters_of(&made.plan.items));
            return made;
        }
    }
    unreachable!()
}

fn items_of(made: &Made, code: u32) -> impl Iterator<Item = &Spec> {
    made.plan.items.iter().filter(move |s| s.code == code)
}

fn contests(made: &Made) -> usize {
    items_of(made, CONTEST).fold(Set::EMPTY, |set, s| set | Set::one(s.content[0])).count()
}

fn rounds(made: &Made) -> usize {
    items_of(made, ROUND).count()
}

/// How many ballots have contests below 32, and others.
fn in_several_words(made: &Made) -> usize {
    let sets = items_of(made, BALLOT).map(|s| made.layout.sets.set(BALLOT, &s.content));
    sets.filter(|set| !set.first_word().is_empty() && !set.later_words().is_empty()).count()
}

/// Writes the samples with a bad roll, or with a session that is not on it.
fn write_about_roll(folder: &Path, made: &Made) {
    // The voter of the last counted ballot is not on the roll.
    let voter = made.expected.ballots.last().expect("a counted ballot")[1];
    let mut plan = made.plan.clone();
    let mut pairs = pairs_of(&plan.roll);
    pairs.remove(&voter);
    plan.roll = roll_of(pairs);
    write(folder, "not-on-roll", &plan.lay());

    // The same voter has a session with one vote more than the roll gives.
    let mut plan = made.plan.clone();
    let session = position(made, |i| made.plan.items[i].code == SESSION && made.plan.items[i].content[0] == voter);
    plan.items[session].content[1] += 1;
    write(folder, "other-weight", &plan.lay());

    // Two pairs of the roll are in each other's place.
    let mut plan = made.plan.clone();
    let middle = plan.roll.len() / 2 / ROLL_ROW * ROLL_ROW;
    plan.roll[middle - ROLL_ROW..middle + ROLL_ROW].rotate_left(ROLL_ROW);
    write(folder, "roll-not-rising", &plan.lay());
}

/// The election's roll: those who vote, and four who do not, one of them without a vote.
fn roll(made: &Made) -> Vec<u32> {
    let mut pairs = voters_of(&made.plan.items);
    for (voter, weight) in [(57, 3), (401, 1), (702, 0), (918, 12)] {
        let other = pairs.insert(voter, weight);
        assert!(other.is_none(), "nobody votes under this number");
    }
    roll_of(pairs)
}

/// An election with counted ballots, a spoiled one that is opened while votes are still cast and would count
/// if it were cast, a whole hidden track and an extraction.
fn election() -> Made {
    for seed in 1.. {
        let shape = Shape { items: 48, words: None, long: 0, voters: 5, extraction: true };
        let made = make(&mut Random::new(seed), shape);
        let has = |code: u32| made.plan.items.iter().filter(|s| s.code == code).count();
        let casts = has(CAST);
        let recast = casts > made.expected.ballots.len();
        let small_weights = made.expected.ballots.iter().all(|row| row[2] < 10 && row[1] < 1000);
        let year_2026 = made.plan.items[0].time > 1_700_000_000_000;
        let whole = [SERVER_OPENING, CONFIRMATION].iter().all(|&code| has(code) > 0);
        let fits = |opened: Opened| is_opened_early(&made, &opened) && would_count(&made, &opened);
        let opened = first_opened(&made).is_some_and(fits);
        if whole && opened && recast && small_weights && year_2026 && made.expected.ballots.len() >= 3 {
            return made;
        }
    }
    unreachable!()
}

/// The positions of a ballot, its spoil and its voter opening.
struct Opened {
    ballot: usize,
    spoil: usize,
    opening: usize,
}

/// The ballot that is opened first.
fn first_opened(made: &Made) -> Option<Opened> {
    let opening = made.plan.items.iter().position(|s| s.code == VOTER_OPENING)?;
    let ballot = ballot_of(&made.plan.items, &made.expected.rows, opening);
    let spoil = made.expected.rows[ballot].closer().expect("an opened ballot is spoiled");
    Some(Opened { ballot, spoil, opening })
}

/// Whether votes are cast after the opening.
fn is_opened_early(made: &Made, opened: &Opened) -> bool {
    made.plan.items[opened.opening..].iter().any(|s| s.code == CAST)
}

/// Whether the ballot would count if it were cast in place of being spoiled.
fn would_count(made: &Made, opened: &Opened) -> bool {
    let cast = with_cast_for_spoil(made, opened);
    counted(&cast, cast.plan.items.len()).contains(&opened.ballot)
}

/// The election with a cast in the place of the spoil, and the fingerprint of the ballots that then count.
fn with_cast_for_spoil(made: &Made, opened: &Opened) -> Made {
    let mut cast = made.clone();
    cast.plan.items[opened.spoil].code = CAST;
    // Behind an intent nothing is cast: every extraction has the same ballots.
    let ballots = counted(&cast, cast.plan.items.len());
    let message: Vec<u32> = ballots.iter().flat_map(|&b| cast.plan.items[b].content.clone()).collect();
    for extraction in cast.plan.items.iter_mut().filter(|s| s.code == EXTRACTION) {
        extraction.content = sha256(&message).to_vec();
    }
    cast
}

fn position(made: &Made, fits: impl Fn(usize) -> bool) -> usize {
    (0..made.plan.items.len()).find(|&i| fits(i)).expect("the election has such an item")
}

/// The position of the last counted ballot.
fn counted_ballot(made: &Made) -> usize {
    let main = made.expected.ballots.last().expect("a counted ballot")[0];
    position(made, |i| made.plan.items[i].kind == MAIN && made.expected.rows[i].mains_before + 1 == main)
}

fn write(folder: &Path, name: &str, laid: &Laid) {
    let folder = folder.join(name);
    let [board, verdicts, roll] = [&laid.words, &laid.verdicts, &laid.roll].map(|words| bytes(words));
    let printed = program(&board, &verdicts, &roll);
    print!("{name}: {printed}");
    fs::create_dir_all(&folder).expect("a folder for the sample");
    fs::write(folder.join("board.words"), board).expect("board.words");
    fs::write(folder.join("verdicts.words"), verdicts).expect("verdicts.words");
    fs::write(folder.join("roll.words"), roll).expect("roll.words");
    fs::write(folder.join("expected"), printed).expect("expected");
}
