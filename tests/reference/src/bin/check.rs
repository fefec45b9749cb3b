//! Runs the checks: of the reference by itself, and of the auditor's library where it is linked.
//!
//!   check [--boards FOLDER]... [--comparisons FOLDER] [--receipts FOLDER] [--notes FOLDER] [--plans FILE]
//!         [--header FILE] [--program FILE] [--cases N] [--seed N] [--dump FOLDER]
//!   check --only GROUP SEED     one case again, as a failure names it
//!   check --all-entries ..      a library that is not linked, or lacks an entry, is a failure
//!   check --stand-in ..         the reference in the library's place, to try the harness

use reference::answered::OF_ANSWERS;
use reference::audit::Board;
use reference::calls::{Tally, AGREE, APART, COLLISION, SAME, SHORT_ANSWER};
use reference::checks::*;
use reference::collisions;
use reference::comparisons::check_comparisons;
use reference::crowded::{all_contests, crowded};
use reference::cuts::{self, check_cuts};
use reference::faults::bad_roll;
use reference::format::{code, Curve, Layout, Width, CAST, CURVES, LAYOUTS, MAX_WORDS};
use reference::header::{check_header, check_header_mistakes};
use reference::held::OF_NOTES;
use reference::hidden::{bared, check_bared, check_hidden_tracks, Bared};
use reference::interface::{library, Interface};
use reference::note_files::check_note_files;
use reference::noted::Noted;
use reference::noted_cuts::{self, check_noted_cuts};
use reference::notes::notes_with;
use reference::plan_files::check_plan_files;
use reference::planned::OF_PLANS;
use reference::planning::check_blocks;
use reference::presented::Presented;
use reference::program::{bytes, program, PROGRAM_WORDS};
use reference::random::Random;
use reference::reached::{Asked, AskedNotes, AskedPlan, BLANK, CURVES_WANTED, NOTES_OF_UNKNOWN_TRAITS, NOTES_WANTED};
use reference::reached::{
    OF_UNKNOWN_TRAITS, ON_SECP256R1, PLANS_OF_PLAIN, PLANS_WANTED, RECEIPTS_WANTED, ROLLS_WANTED, SETS_WANTED, WANTED,
};
use reference::receipt_files::check_receipt_files;
use reference::receipts::receipts_with;
use reference::roll::{full_around, voters_of};
use reference::sound::{Shape, Traits};
use reference::stand_in::notes::held;
use reference::stand_in::receipts::answered;
use reference::stand_in::{make_mistake, stand_in, About, Mistake, MISTAKES};
use reference::stored::check_folder;
use reference::told::PROPERTIES;
use reference::{sha256, sha512};
use std::collections::{BTreeMap, BTreeSet};
use std::fs;
use std::path::{Path, PathBuf};
use std::process::{exit, Command};
use std::sync::atomic::{AtomicBool, AtomicUsize, Ordering};
use std::thread;
use std::time::Instant;

struct Options {
    boards: Vec<PathBuf>,
    comparisons: Option<PathBuf>,
    receipts: Option<PathBuf>,
    notes: Option<PathBuf>,
    plans: Option<PathBuf>,
    header: Option<PathBuf>,
    program: Option<PathBuf>,
    cases: u64,
    seed: u64,
    dump: PathBuf,
    stand_in: bool,
    all_entries: bool,
    only: Option<(Group, u64)>,
}

fn options() -> Options {
    let mut o = Options {
        boards: Vec::new(),
        comparisons: None,
        receipts: None,
        notes: None,
        plans: None,
        header: None,
        program: None,
        cases: 36_000,
        seed: 0,
        dump: PathBuf::from("failed-case"),
        stand_in: false,
        all_entries: false,
        only: None,
    };
    let mut args = std::env::args().skip(1);
    while let Some(arg) = args.next() {
        let mut value = || args.next().unwrap_or_else(|| usage());
        let number = |text: String| text.parse::<u64>().unwrap_or_else(|_| usage());
        match arg.as_str() {
            "--boards" => o.boards.push(PathBuf::from(value())),
            "--comparisons" => o.comparisons = Some(PathBuf::from(value())),
            "--receipts" => o.receipts = Some(PathBuf::from(value())),
            "--notes" => o.notes = Some(PathBuf::from(value())),
            "--plans" => o.plans = Some(PathBuf::from(value())),
            "--header" => o.header = Some(PathBuf::from(value())),
            "--program" => o.program = Some(PathBuf::from(value())),
            "--cases" => o.cases = number(value()),
            "--seed" => o.seed = number(value()),
            "--dump" => o.dump = PathBuf::from(value()),
            "--stand-in" => o.stand_in = true,
            "--all-entries" => o.all_entries = true,
            "--only" => {
                let group = group_named(&value()).unwrap_or_else(|| usage());
                o.only = Some((group, number(value())));
            }
            _ => usage(),
        }
    }
    o
}

fn usage() -> ! {
    eprintln!(
        "usage: check [--boards FOLDER]... [--comparisons FOLDER] [--receipts FOLDER] [--notes FOLDER] [--plans FILE] \
         [--header FILE] [--program FILE] [--cases N] [--seed N] [--dump FOLDER]"
    );
    eprintln!("       check --only GROUP SEED");
    exit(2);
}

fn main() {
    let options = options();
    let start = Instant::now();
    if let Some((group, seed)) = options.only {
        return only(&options, group, seed);
    }
    vectors();
    header(&options);
    let tables = stored_boards(&options);
    stored_comparisons(&options);
    stored_receipts(&options);
    stored_notes(&options);
    stored_plans(&options);
    collision_boards();
    hidden_tracks();
    let bared = refused_mains();
    let cut = cut_boards();
    noted_boards(&cut);
    mistakes_are_found();
    if tables > 0 {
        stored_boards_find(&options);
    }
    stored_comparisons_find(&options);
    stored_receipts_find(&options);
    stored_notes_find(&options);
    stored_plans_find(&options);
    known_boards_find();
    bared_boards_find(&bared);
    cut_boards_find(&cut);
    noted_boards_find(&cut);
    collisions_find();
    let with = if options.stand_in { Some(stand_in()) } else { library() };
    if options.stand_in {
        println!("library    STAND-IN: the reference is held against itself");
    } else if with.is_none() {
        println!("library    NOT LINKED: the reference is checked by itself only");
    }
    let whole = |with: Interface| {
        with.compare.is_some()
            && with.ancestry.is_some()
            && with.receipts.is_some()
            && with.notes.is_some()
            && with.plan.is_some()
    };
    if options.all_entries && !with.is_some_and(whole) {
        fail("the library is not linked, or lacks an entry");
    }
    rolls_of_each_length(with);
    receipts_in_each_number(with);
    notes_in_each_number(with);
    plans_in_each_way(with);
    cases(&options, with);
    match &options.program {
        Some(path) => programs(&options, path),
        None => println!("program    NOT GIVEN: the auditing program is not checked"),
    }
    println!("done       {:.1} s", start.elapsed().as_secs_f64());
}

fn fail(message: &str) -> ! {
    println!("FAILED     {message}");
    exit(1);
}

fn vectors() {
    for (name, vectors) in [("sha-256", sha256::check_vectors()), ("sha-512", sha512::check_vectors())] {
        match vectors {
            Ok(count) => println!("{name}    {count} known answers"),
            Err(message) => fail(&message),
        }
    }
    match check_blocks() {
        Ok(count) => println!("blocks     {count} known answers on each curve"),
        Err(message) => fail(&message),
    }
}

fn header(options: &Options) {
    let Some(path) = &options.header else { return };
    let text = fs::read_to_string(path).unwrap_or_else(|e| fail(&format!("{}: {e}", path.display())));
    match check_header(&text) {
        Ok(count) => println!("header     {count} names are defined as in the interface ({})", path.display()),
        Err(message) => fail(&message),
    }
    match check_header_mistakes(&text) {
        Ok(count) => println!("           {count} planted mistakes are found"),
        Err(message) => fail(&message),
    }
}

/// Checks the stored boards. Gives how many of them have tables.
fn stored_boards(options: &Options) -> usize {
    let mut tables = 0;
    for folder in &options.boards {
        match check_folder(folder, library()) {
            Ok(stored) => {
                let (boards, with_tables) = (stored.boards, stored.tables);
                println!("stored     {boards} boards print what is expected ({})", folder.display());
                println!("           {} of them are answered so by each entry", stored.audited);
                if with_tables > 0 {
                    println!("           {with_tables} of them leave the tables that are expected, in each entry");
                }
                tables += with_tables;
            }
            Err(message) => fail(&message),
        }
    }
    tables
}

fn stored_comparisons(options: &Options) {
    let Some(folder) = &options.comparisons else { return };
    match check_comparisons(folder, library()) {
        Ok(count) => println!("stored     {count} comparisons are answered as expected ({})", folder.display()),
        Err(message) => fail(&message),
    }
}

fn stored_receipts(options: &Options) {
    let Some(folder) = &options.receipts else { return };
    match check_receipt_files(folder, library()) {
        Ok(count) => println!("stored     {count} sets of receipts are answered as expected ({})", folder.display()),
        Err(message) => fail(&message),
    }
}

fn stored_notes(options: &Options) {
    let Some(folder) = &options.notes else { return };
    match check_note_files(folder, library()) {
        Ok(count) => println!("stored     {count} sets of notes are answered as expected ({})", folder.display()),
        Err(message) => fail(&message),
    }
}

fn stored_plans(options: &Options) {
    let Some(file) = &options.plans else { return };
    match check_plan_files(file, library()) {
        Ok(count) => println!("stored     {count} plans are answered as expected ({})", file.display()),
        Err(message) => fail(&message),
    }
}

/// So many boards with casts of one address.
const SECOND_CASTS: u64 = 100;

fn collision_boards() {
    let mut seen = collisions::Seen::default();
    for seed in 0..SECOND_CASTS {
        let receipts = collisions::check_receipts(seed, receipts_with, &mut seen);
        let notes = receipts.and_then(|()| collisions::check_notes(seed, notes_with, &mut seen));
        notes.unwrap_or_else(|message| fail(&message));
    }
    for seed in 0..1_500 {
        for check in [collisions::check, collisions::check_across, collisions::check_curves] {
            check(seed, &mut seen).unwrap_or_else(|message| fail(&message));
        }
    }
    let few = seen.across < 300 || seen.same < 50 || seen.collision < 500 || seen.uneven < 100 || seen.apart < 500;
    let few = few || seen.second_casts.iter().chain(&seen.second_noted).any(|&times| times < 20);
    if few || seen.on_curve.iter().any(|&times| times < 100) || seen.curves_apart < 500 {
        fail(&format!("too few collisions were made: {seen:?}"));
    }
    let [a, b, c] = seen.on_curve;
    println!(
        "weak hash  {} collisions ({} at unequal main numbers, {} of a narrow and a wide board; on the curves {a}, {b}, \
         {c} of equal widths), {} same, {} apart, as demanded",
        seen.collision, seen.uneven, seen.across, seen.same, seen.apart
    );
    println!(
        "           {} pairs of boards on two curves are apart, though their addresses are the same but for zeros",
        seen.curves_apart
    );
    let [a, b, c] = seen.second_casts;
    println!(
        "           {a} + {b} + {c} receipts of a second cast with one address and signature: the first is answered"
    );
    let [a, b, c] = seen.second_noted;
    println!("           {a} + {b} + {c} sets of notes of a second cast with one address: the first is meant");
}

fn hidden_tracks() {
    let mut boards = 0;
    for seed in 0..500 {
        match check_hidden_tracks(seed) {
            Ok(fewer) => boards += usize::from(fewer),
            Err(message) => fail(&message),
        }
    }
    if boards < 300 {
        fail(&format!("only {boards} boards have hidden items that go"));
    }
    println!("tracks     {boards} boards report the same main list with fewer hidden items");
}

/// Holds the reference, and the library where it is linked, to boards that are refused at a main item. Gives
/// the boards.
fn refused_mains() -> Vec<Bared> {
    let makers = Makers::default();
    let boards: Vec<Bared> = (0..4_500).filter_map(|seed| bared(&makers, seed)).collect();
    for (side, with) in [("reference", Some(stand_in())), ("library", library())] {
        let held = with.map_or(Ok(()), |with| boards.iter().try_for_each(|bared| check_bared(&with, bared)));
        if let Err(message) = held {
            fail(&format!("{side}, {message}"));
        }
    }
    let reasons: BTreeSet<&str> = boards.iter().map(|bared| &bared.reason[..]).collect();
    if boards.len() < 1_000 || reasons.len() < 250 {
        fail(&format!("only {} boards, for {} reasons, are refused at a main item", boards.len(), reasons.len()));
    }
    println!(
        "           {} boards, refused at a main item for {} reasons, are refused there without hidden items too",
        boards.len(),
        reasons.len()
    );
    boards
}

/// Holds the reference, and the library where it has the entry, to the cuts of some boards with a cast that a later one
/// replaces, of each curve. Gives the boards.
fn cut_boards() -> Vec<Case> {
    let makers = Makers::default();
    let (mut boards, mut on_curve) = (Vec::new(), [0; CURVES.len()]);
    for seed in 0.. {
        let case = case(&makers, Group::Sound, seed);
        let Known::Sound(expected, places, _) = &case.known else { panic!("a sound board") };
        let casts = places.iter().filter(|&&place| code(case.words[place]) == CAST).count();
        let times = &mut on_curve[Layout::of(&case.words).curve as usize];
        if casts > expected.ballots.len() && *times < 4 {
            *times += 1;
            boards.push(case);
        }
        if on_curve == [4; CURVES.len()] {
            break;
        }
    }
    for (side, with) in [("reference", Some(stand_in())), ("library", library())] {
        let Some(with) = with.filter(|with| with.receipts.is_some()) else { continue };
        let mut seen = cuts::Seen::default();
        for case in &boards {
            let held = check_cuts(&with, case, side == "library", &mut seen);
            held.unwrap_or_else(|message| fail(&format!("{side}, cuts of {}: {message}", case.name)));
        }
        let cuts::Seen { cuts, found, kept } = seen;
        let boards = boards.len();
        println!(
            "cuts       {cuts} of {boards} boards, {side}: {found} receipts are answered, and as before {kept} times"
        );
    }
    boards
}

/// Holds the reference, and the library where it has the entries, to the cuts at noted items: of these boards at all main
/// items, of long ones at some.
fn noted_boards(boards: &[Case]) {
    let makers = Makers::default();
    // Three sound ones, one on each curve.
    let long: Vec<Case> = [0, 24, 48].iter().map(|&seed| case(&makers, Group::Long, seed)).collect();
    for (side, with) in [("reference", Some(stand_in())), ("library", library())] {
        let Some(with) = with.filter(|with| with.notes.is_some() && with.compare.is_some()) else { continue };
        let mut seen = noted_cuts::Seen::default();
        for (case, most) in boards.iter().map(|case| (case, usize::MAX)).chain(long.iter().map(|case| (case, 3))) {
            let held = check_noted_cuts(&with, case, most, side == "library", &mut seen);
            held.unwrap_or_else(|message| fail(&format!("{side}, notes for {}: {message}", case.name)));
        }
        let noted_cuts::Seen { cuts, agreed } = seen;
        if cuts.iter().any(|&times| times < 100) || agreed.iter().any(|&times| times < 10) {
            fail(&format!("{side}: too few cuts at noted items, {cuts:?}, or sets of notes that agree, {agreed:?}"));
        }
        let [a, b, c] = cuts;
        println!("           {a} + {b} + {c} cuts at noted items, {side}: accepted, with the noted end, the same up to there");
    }
}

/// The boards that the checks are tried with.
struct Tried {
    sound: Vec<Case>,
    full: Vec<Case>,
    openings: Vec<Case>,
    casts: Vec<Case>,
    bad_rolls: Vec<Case>,
    unenrolled: Vec<Case>,
    ordered: Vec<Case>,
    widths: Vec<Case>,
    contests: Vec<Case>,
    curves: Vec<Case>,
    zeros: Vec<Case>,
    two_layouts: Vec<Case>,
    /// For receipts and notes.
    asked: Vec<Case>,
    /// For plans.
    planned: Vec<Case>,
    limits: Vec<Case>,
}

impl Default for Tried {
    fn default() -> Tried {
        let makers = Makers::default();
        let sound: Vec<Case> = (0..400).map(|seed| case(&makers, Group::Sound, seed)).collect();
        let many = (0..4).map(|seed| case(&makers, Group::Contests, seed)).collect();
        let of = |reason: &str| cases_of(&makers, reason, &[0, 1, 2, 3, 4, 5]);
        // One of each curve.
        let some = |reason: &str| cases_of(&makers, reason, &[0, 2, 5]);
        let traits = cases_of(&makers, "13/trait,", &[1, 4]);
        // Some with each bit.
        let bits = cases_of(&makers, "13/cryptogram bits", &(0..18).collect::<Vec<usize>>());
        let all_contests = cases_of(&makers, "13/all contests,", &[0, 1, 2]);
        let differ = |case: &Case| Layout::of(&case.words) != Layout::of(&case.other.words);
        let faulty = (0..2_000).map(|seed| case(&makers, Group::Faults, seed));
        let oversize = sound[..24].iter().map(|case| {
            let mut case = Case { known: Known::Refused(1, 0), ..case.clone() };
            case.words.resize(MAX_WORDS + 1, 0);
            case
        });
        let at_the_end = cases_of(&makers, "18/", &[0, 1, 2, 3, 4, 5]);
        let planned = plan_cases(&makers, &sound);
        Tried {
            planned: [&planned[..], &traits, &at_the_end].concat(),
            limits: limit_cases(&makers, &sound),
            asked: [&sound[..200], &traits, &at_the_end, &some("20/roll"), &oversize.collect::<Vec<Case>>()].concat(),
            full: vec![case(&makers, Group::Full, 0)],
            openings: of("11/opening"),
            casts: of("12/cast after spoil and opening"),
            bad_rolls: of("20/roll"),
            unenrolled: of("21/roll"),
            ordered: [of("13/roll"), of("21/roll, voter missing")].concat(),
            widths: [of("/width,"), traits.clone(), all_contests, sound[..200].to_vec(), many].concat(),
            contests: [of("13/width,"), of("without contests")].concat(),
            curves: [some("/curve,"), of("eighth word"), some("13/low bits"), traits, sound[..100].to_vec()].concat(),
            zeros: [of("bit of a commitment"), some("13/low bits"), bits].concat(),
            two_layouts: sound.iter().cloned().chain(faulty).filter(differ).collect(),
            sound,
        }
    }
}

/// Boards for plans: sound ones, such as the heads refuse, and others.
fn plan_cases(makers: &Makers, sound: &[Case]) -> Vec<Case> {
    let by_heads = |&seed: &u64| matches!(makers.fault(seed).number, 1 | 3..=6) || seed % 9 == 0;
    let ways = (0..makers.faults.len() as u64).filter(by_heads);
    sound[..60].iter().cloned().chain(ways.map(|seed| case(makers, Group::Faults, seed))).collect()
}

/// Long boards, and those at the limits.
fn limit_cases(makers: &Makers, sound: &[Case]) -> Vec<Case> {
    let at_the_limits =
        limit_boards().into_iter().map(|words| Case { words, known: Known::Nothing, ..sound[0].clone() });
    at_the_limits.chain([0, 1, 4, 12, 24, 48].map(|seed| case(makers, Group::Long, seed))).collect()
}

impl Tried {
    /// The boards and checks that are to find a mistake; without one, all of them.
    fn by(&self, mistake: Option<Mistake>) -> Vec<(&[Case], [Check; ENTRIES])> {
        let Some(mistake) = mistake else {
            let others = [&self.openings, &self.casts, &self.bad_rolls, &self.unenrolled, &self.ordered];
            let sets = [&self.widths, &self.contests, &self.curves, &self.zeros, &self.two_layouts, &self.asked];
            let mut all: Vec<(&[Case], _)> = vec![(&self.full, FULL_LENGTHS), (&self.sound, TOLD)];
            let of_plans = [&self.planned, &self.limits].into_iter();
            all.extend(of_plans.flat_map(|cases| [ANY_LENGTH, TOLD].map(|checks| (&cases[..], alone(5, checks)))));
            all.extend([&self.sound].into_iter().chain(others).chain(sets).map(|cases| (&cases[..], ANY_LENGTH)));
            return all;
        };
        let any_length = |cases| vec![(cases, ANY_LENGTH)];
        // A plan is told by an audit, which takes time, and by nothing of its tables but the places of items.
        let mut tables_told = TOLD;
        tables_told[5] = |_, _, _, _| Ok(());
        let also_told = |cases| vec![(cases, ANY_LENGTH), (cases, tables_told)];
        match mistake.about() {
            About::Words | About::Refused | About::Answer => any_length(&self.sound[..]),
            About::Lengths => vec![(&self.full, FULL_LENGTHS)],
            About::Closed => also_told(&self.sound[..]),
            About::Accepted => also_told(&self.openings[..]),
            About::Hidden => any_length(&self.casts[..]),
            About::BadRoll => any_length(&self.bad_rolls[..]),
            About::Unenrolled => also_told(&self.unenrolled[..]),
            About::Order => any_length(&self.ordered[..]),
            About::Width => any_length(&self.widths[..]),
            About::Contests => also_told(&self.contests[..]),
            About::Curve => any_length(&self.curves[..]),
            About::Zeros => also_told(&self.zeros[..]),
            About::End => also_told(&self.sound[..]),
            About::TwoLayouts => any_length(&self.two_layouts[..]),
            About::Answers => vec![(&self.sound, alone(3, ANY_LENGTH)), (&self.sound, alone(3, TOLD))],
            About::Receipts => vec![(&self.asked, alone(3, ANY_LENGTH))],
            About::Agreement => vec![(&self.sound, alone(4, ANY_LENGTH)), (&self.sound, alone(4, TOLD))],
            About::Notes => vec![(&self.asked, alone(4, ANY_LENGTH))],
            About::Planned => vec![(&self.planned, alone(5, ANY_LENGTH)), (&self.planned, alone(5, TOLD))],
            About::PlanLimits => vec![(&self.limits, alone(5, ANY_LENGTH)), (&self.limits, alone(5, TOLD))],
            About::Plans => vec![(&self.planned, alone(5, ANY_LENGTH))],
            // It takes a collision.
            About::FirstCast | About::FirstNoted => Vec::new(),
            About::OtherRoll => {
                [&self.sound, &self.bad_rolls, &self.unenrolled].map(|cases| (&cases[..], ANY_LENGTH)).to_vec()
            }
        }
    }
}

/// The check of one entry alone: no other can make a mistake about receipts, about notes, or about plans.
fn alone(entry: usize, checks: [Check; ENTRIES]) -> [Check; ENTRIES] {
    let mut one: [Check; ENTRIES] = [|_, _, _, _| Ok(()); ENTRIES];
    one[entry] = checks[entry];
    one
}

/// The checks themselves are tried on a stand-in that makes a mistake. Those about lengths are to be
/// found with a full board, by the lengths that are always tried with it; those about who closed a
/// ballot, and openings, sessions and contests that pass, answers to receipts and to notes, and plans beside an audit also
/// without the reference.
fn mistakes_are_found() {
    let boards = Tried::default();
    let mut broken = [0; PROPERTIES.len()];
    let mut broken_answers = [0; OF_ANSWERS.len()];
    let mut broken_notes = [0; OF_NOTES.len()];
    let mut broken_plans = [0; OF_PLANS.len()];
    for mistake in [None].into_iter().chain(MISTAKES.iter().copied().map(Some)) {
        make_mistake(mistake);
        let tried = boards.by(mistake);
        let wanted = mistake.map_or([false; ENTRIES], entries);
        let found: Vec<[usize; ENTRIES]> =
            tried.iter().map(|&(cases, checks)| differences(cases, checks, wanted)).collect();
        let right = found.iter().all(|times| times.map(|times| times > 0) == wanted);
        if !right {
            let what = mistake.map_or("none", Mistake::what);
            fail(&format!("the checks do not see '{what}' as they should: found {found:?} times"));
        }
        if mistake.is_some_and(found_alone) {
            add_broken(tried[0].0, |with, case, _| broken_by_audit(with, case), &mut broken);
        }
        if mistake.is_some_and(|mistake| mistake.about() == About::Answers) {
            add_broken(&tried[0].0[..100], broken_by_answers, &mut broken_answers);
        }
        if mistake.is_some_and(|mistake| mistake.about() == About::Agreement) {
            add_broken(&tried[0].0[..100], broken_by_notes, &mut broken_notes);
        }
        if mistake.is_some_and(|mistake| BREAK_PLANS.contains(&mistake)) {
            add_broken(tried[0].0, broken_by_plan, &mut broken_plans);
        }
    }
    make_mistake(None);
    let all_broken = [&broken[..], &broken_answers, &broken_notes, &broken_plans];
    if all_broken.iter().any(|times| times.contains(&0)) {
        fail(&format!(
            "the mistakes break the properties of the tables, of answers, of notes and of plans {all_broken:?} times, one of \
             them never"
        ));
    }
    print_found();
}

/// Mistakes that break each property of plans.
const BREAK_PLANS: [Mistake; 5] = [
    Mistake::TraitsRefused,
    Mistake::RefusalHasBlocks,
    Mistake::RowOfFour,
    Mistake::ItemsOfMains,
    Mistake::ContentAlone,
];

fn print_found() {
    let of = |is: &dyn Fn(Mistake) -> bool| MISTAKES.iter().filter(|&&mistake| is(mistake)).count();
    let everywhere = of(&|mistake| entries(mistake)[..5] == [true; 5]);
    let in_plans = of(&|mistake| entries(mistake) == [true; ENTRIES]);
    let somewhere = of(&|mistake| entries(mistake).contains(&true));
    println!("harness    {everywhere} planted mistakes are found in each entry that audits, {in_plans} of them in plans, too");
    println!("           {} more in each entry that can make them", somewhere - everywhere);
    let told = |mistake: Mistake| {
        matches!(mistake.about(), About::End | About::Answers | About::Agreement | About::Planned | About::PlanLimits)
    };
    let alone = of(&|mistake| found_alone(mistake) || told(mistake));
    println!(
        "           {alone} of them without the reference, by {} properties of the tables, {} of the answers to receipts, \
         {} of those to notes, {} of plans beside an audit, or by the end address",
        PROPERTIES.len(),
        OF_ANSWERS.len(),
        OF_NOTES.len(),
        OF_PLANS.len()
    );
}

/// The entries in which a mistake is to be found, of audit, compare, ancestry, receipts, notes and plan: all where it can be
/// made.
fn entries(mistake: Mistake) -> [bool; ENTRIES] {
    match mistake.about() {
        About::OtherRoll | About::TwoLayouts => [false, true, false, false, false, false],
        About::End => [true, false, false, true, true, false],
        About::Answer => [true, false, false, true, false, false],
        About::Answers | About::Receipts => [false, false, false, true, false, false],
        About::Agreement | About::Notes => [false, false, false, false, true, false],
        About::Planned | About::PlanLimits | About::Plans => [false, false, false, false, false, true],
        About::FirstCast | About::FirstNoted => [false; ENTRIES],
        _ => [true, true, true, true, true, is_planned(mistake)],
    }
}

/// Whether a mistake that all audits make is made in plans, too: about the answer, the layout, counts, and widths.
fn is_planned(mistake: Mistake) -> bool {
    match mistake {
        Mistake::AnswerWord | Mistake::LastAnswerWord | Mistake::ShortAnswer | Mistake::Result => true,
        Mistake::LaterTraits | Mistake::AnyFirstHead | Mistake::NarrowSets | Mistake::WideByHead => true,
        Mistake::TraitsPassAsWide | Mistake::CryptogramsTo32 | Mistake::CryptogramsTo256 => true,
        Mistake::WideTrustees | Mistake::GenesisOf17 | Mistake::LongGenesis => true,
        Mistake::OneCurve | Mistake::WideOnOne | Mistake::CurveBitsTurned | Mistake::UnknownTraitsTell => true,
        Mistake::Curve3As2 | Mistake::SignatureOf16 | Mistake::SignatureOf32 | Mistake::KeyAsAddress => true,
        Mistake::ShareAsSignature | Mistake::CommitmentOf9 => true,
        Mistake::CryptogramOf17 | Mistake::CryptogramOf33 => true,
        _ => false,
    }
}

/// Boards that are refused for a reason of which this is a part, one for each of some turns; layouts go by turns.
fn cases_of(makers: &Makers, reason: &str, turns: &[usize]) -> Vec<Case> {
    let ways = (0..makers.faults.len()).filter(|&way| makers.faults[way].reason.contains(reason));
    let seeds = ways.flat_map(|way| turns.iter().map(move |turn| (way + turn * makers.faults.len()) as u64));
    seeds.map(|seed| case(makers, Group::Faults, seed)).collect()
}

/// Whether a mistake is to be found without the reference.
fn found_alone(mistake: Mistake) -> bool {
    matches!(mistake.about(), About::Closed | About::Accepted | About::Unenrolled | About::Contests | About::Zeros)
}

/// The stored boards, too, are to find mistakes about who closed a ballot, about openings, about the roll, about
/// contest sets, and about curves. In their comparisons a board stands on both sides, and their tables are long enough.
fn stored_boards_find(options: &Options) {
    let wanted = |mistake: Mistake| match mistake.about() {
        About::Closed | About::Accepted | About::Refused | About::Unenrolled | About::Order => true,
        About::Width | About::Contests | About::Curve | About::Zeros | About::End => true,
        About::BadRoll => mistake != Mistake::RollBeforeLengths,
        _ => false,
    };
    find("the stored boards", wanted, || options.boards.iter().all(|folder| check_folder(folder, None).is_ok()));
}

/// The stored comparisons are to find mistakes that take two boards, with different layouts or rolls.
fn stored_comparisons_find(options: &Options) {
    let Some(folder) = &options.comparisons else { return };
    let wanted = |mistake: Mistake| matches!(mistake.about(), About::TwoLayouts | About::OtherRoll);
    find("the stored comparisons", wanted, || check_comparisons(folder, None).is_ok());
}

/// The stored receipts are to find mistakes about receipts, but for those that take a board of too many words or a table
/// that is too short.
fn stored_receipts_find(options: &Options) {
    let Some(folder) = &options.receipts else { return };
    let wanted = |mistake: Mistake| match mistake {
        Mistake::OversizeOf24 | Mistake::BadAfterLimit | Mistake::BadAfterTables | Mistake::ShortAfterLimit => false,
        _ => matches!(mistake.about(), About::Answers | About::Receipts),
    };
    find("the stored receipts", wanted, || check_receipt_files(folder, None).is_ok());
}

/// The stored notes are to find mistakes about notes, but for those that take a board of too many words, a table that is
/// too short, or too few words of answer.
fn stored_notes_find(options: &Options) {
    let Some(folder) = &options.notes else { return };
    let wanted = |mistake: Mistake| match mistake {
        Mistake::OversizeNoteOf10 | Mistake::NotesAfterLimit | Mistake::NotesAfterTables | Mistake::AnswerOf22 => false,
        _ => matches!(mistake.about(), About::Agreement | About::Notes),
    };
    find("the stored notes", wanted, || check_note_files(folder, None).is_ok());
}

/// The stored plans are to find all mistakes about plans.
fn stored_plans_find(options: &Options) {
    let Some(file) = &options.plans else { return };
    let wanted = |mistake: Mistake| matches!(mistake.about(), About::Planned | About::PlanLimits | About::Plans);
    find("the stored plans", wanted, || check_plan_files(file, None).is_ok());
}

/// Boards of which all is known are to find those about which boards are refused, and after how many items.
fn known_boards_find() {
    let wanted = |mistake: Mistake| match mistake {
        Mistake::PlanOf3 | Mistake::PlanOf5 | Mistake::PlanOf22 | Mistake::ShortPlanCleared => false,
        _ => matches!(mistake.about(), About::Planned | About::PlanLimits | About::Plans),
    };
    find("boards cut, closed or changed at each place", wanted, || plans_of_known_boards(&stand_in()).is_ok());
}

/// Cuts at noted items are to find, the reference left aside, that notes agree though an address is no main item's.
fn noted_boards_find(boards: &[Case]) {
    let wanted = |mistake: Mistake| match mistake {
        Mistake::HiddenAgrees | Mistake::EightOfNoted | Mistake::TwelveOfNoted => true,
        Mistake::LastOfNoted | Mistake::FirstOfNoted => true,
        _ => false,
    };
    let holds = |case| check_noted_cuts(&stand_in(), case, 1, false, &mut noted_cuts::Seen::default()).is_ok();
    find("cuts at noted items", wanted, || boards.iter().all(holds));
}

/// Cuts of boards are to find, the reference left aside, that an answer goes or changes as a board grows, or comes late.
fn cut_boards_find(boards: &[Case]) {
    let wanted =
        |mistake: Mistake| matches!(mistake, Mistake::CountedAlone | Mistake::LastOfVoter | Mistake::LastMainUnseen);
    let passes = || boards.iter().all(|case| check_cuts(&stand_in(), case, false, &mut cuts::Seen::default()).is_ok());
    find("cuts of boards", wanted, passes);
}

/// Casts of one address are to find that not the first of them is answered, or meant.
fn collisions_find() {
    let check = |seed| {
        let mut seen = collisions::Seen::default();
        let receipts = collisions::check_receipts(seed, answered, &mut seen);
        receipts.and_then(|()| collisions::check_notes(seed, held, &mut seen))
    };
    let wanted = |mistake: Mistake| matches!(mistake.about(), About::FirstCast | About::FirstNoted);
    find("casts of one address", wanted, || (0..SECOND_CASTS).all(|seed| check(seed).is_ok()));
}

/// Boards with and without hidden items, too, are to find mistakes about these.
fn bared_boards_find(boards: &[Bared]) {
    let passes = || boards.iter().all(|bared| check_bared(&stand_in(), bared).is_ok());
    find("boards without hidden items", |mistake| mistake.about() == About::Hidden, passes);
}

/// Sees that a check does not pass the stand-in with any of the mistakes that are wanted.
fn find(by: &str, wanted: fn(Mistake) -> bool, passes: impl Fn() -> bool) {
    let mistakes: Vec<Mistake> = MISTAKES.iter().copied().filter(|&mistake| wanted(mistake)).collect();
    for &mistake in &mistakes {
        make_mistake(Some(mistake));
        if passes() {
            fail(&format!("'{}' is not seen by {by}", mistake.what()));
        }
    }
    make_mistake(None);
    println!("           {} of them by {by}", mistakes.len());
}

/// Tells which properties an implementation breaks with a case and a seed.
type Broken<const COUNT: usize> = fn(&Interface, &Case, u64) -> [bool; COUNT];

/// Counts the cases in which the stand-in breaks each property.
fn add_broken<const COUNT: usize>(cases: &[Case], by: Broken<COUNT>, broken: &mut [usize; COUNT]) {
    for (seed, case) in (0..).zip(cases) {
        for (times, is_broken) in broken.iter_mut().zip(by(&stand_in(), case, seed)) {
            *times += usize::from(is_broken);
        }
    }
}

/// Counts the cases in which the checks find something wrong with the stand-in, by entry; up to the first, where that
/// is wanted.
fn differences(cases: &[Case], checks: [Check; ENTRIES], wanted: [bool; ENTRIES]) -> [usize; ENTRIES] {
    let mut found = [0; ENTRIES];
    for (seed, case) in cases.iter().enumerate() {
        let (random, tally) = (&mut Random::new(seed as u64), &mut Tally::default());
        for (entry, check) in checks.iter().enumerate() {
            if !wanted[entry] || found[entry] == 0 {
                found[entry] += usize::from(check(&stand_in(), case, random, tally).is_err());
            }
        }
    }
    found
}

/// What all cases gave.
#[derive(Default)]
struct Counts {
    boards: usize,
    /// Of the full boards those that fill the ballot table, other sound ones, refused ones.
    full: [usize; 3],
    /// The sound boards that show each thing that is wanted of ballots, by layout.
    shown: [[usize; LAYOUTS.len()]; WANTED.len()],
    /// The boards that show each thing that is wanted of rolls.
    rolls: [[usize; LAYOUTS.len()]; ROLLS_WANTED.len()],
    /// And of contest sets and of curves, by curve.
    sets: [[usize; CURVES.len()]; SETS_WANTED.len()],
    curves: [[usize; CURVES.len()]; CURVES_WANTED.len()],
    words: usize,
    by_number: BTreeMap<u32, usize>,
    by_reason: BTreeMap<(String, Layout), usize>,
    audit: Tally,
    compare: Tally,
    ancestry: Tally,
    receipts: Tally,
    /// The calls that show each thing that is wanted of receipts, by curve.
    asked: [[usize; CURVES.len()]; RECEIPTS_WANTED.len()],
    /// By the refusal of the board, or 0: the calls with receipts that give it, that give 2 for the answers' buffer, and
    /// that give 22.
    asked_of: BTreeMap<u32, [usize; 3]>,
    notes: Tally,
    /// The calls that show each thing that is wanted of notes, by curve.
    noted: ShownOfNotes,
    /// By the refusal of the board, or 0: the calls with notes that give it, and that give 23.
    noted_of: BTreeMap<u32, [usize; 2]>,
    plans: Tally,
    /// The plans that show each thing that is wanted of them, by curve.
    planned: [[usize; CURVES.len()]; PLANS_WANTED.len()],
    /// By the refusal of the board, or 0: the plans, and the refusals to plan.
    planned_of: BTreeMap<u32, [usize; 2]>,
}

/// How many calls on each curve show each thing that is wanted of notes.
struct ShownOfNotes([[usize; CURVES.len()]; NOTES_WANTED.len()]);

impl Default for ShownOfNotes {
    fn default() -> ShownOfNotes {
        ShownOfNotes([[0; CURVES.len()]; NOTES_WANTED.len()])
    }
}

/// A case in which something differs.
struct Failure {
    case: Case,
    message: String,
    /// The receipts or the notes, if it is about these, and the file that they go to.
    asked: Option<(&'static str, Vec<u32>)>,
}

/// One case: the reference against its making, then the library against the reference.
fn run_case(
    makers: &Makers,
    with: Option<Interface>,
    group: Group,
    seed: u64,
    counts: &mut Counts,
) -> Result<(), Failure> {
    let case = case(makers, group, seed);
    let random = &mut Random::new(seed ^ 0x5eed);
    let held = hold_reference(&case, group, counts).and_then(|said| {
        with.map_or(Ok(()), |with| hold_library(&with, &case, group, random, counts))?;
        Ok(said)
    });
    let (number, items) = match held {
        Ok(said) => said,
        Err(message) => return Err(Failure { case, message, asked: None }),
    };
    if let Err((presented, message)) = hold_receipts(with, &case, number, random, counts) {
        let words = presented.board(&case).words.to_vec();
        let asked = Some(("receipts.words", presented.receipts));
        return Err(Failure { case: Case { words, ..case }, message, asked });
    }
    if let Err((noted, message)) = hold_notes(with, &case, number, random, counts) {
        return Err(Failure { case, message, asked: Some(("notes.words", noted.notes)) });
    }
    if let Err((words, message)) = hold_plans(with, &case, [number, items as u32], random, counts) {
        return Err(Failure { case: Case { words, ..case }, message, asked: None });
    }
    counts.boards += 1;
    counts.words += case.words.len();
    if group == Group::Faults {
        let reason = (makers.fault(seed).reason.clone(), makers.layout(seed));
        *counts.by_reason.entry(reason).or_default() += 1;
    }
    Ok(())
}

/// Whether the reference says of a case what its making does. Gives the refusal, or 0, and the items.
fn hold_reference(case: &Case, group: Group, counts: &mut Counts) -> Result<(u32, usize), String> {
    let (number, items) = check_known(case)?;
    *counts.by_number.entry(number).or_default() += 1;
    if group == Group::Full {
        let filled = check_full(case)?;
        counts.full[if filled { 0 } else { 1 + usize::from(number != 0) }] += 1;
    }
    let layout = Layout::of(&case.words);
    add_shown(&mut counts.shown, shown(case), layout.traits() as usize);
    add_shown(&mut counts.rolls, shown_of_roll(case, number), layout.traits() as usize);
    add_shown(&mut counts.sets, shown_of_sets(case, number, items), layout.curve as usize);
    add_shown(&mut counts.curves, shown_of_curve(case, number, items), layout.curve as usize);
    Ok((number, items))
}

/// Counts what a board shows under its layout or curve.
fn add_shown<const WAYS: usize, const WANTED: usize>(
    counts: &mut [[usize; WAYS]; WANTED],
    shown: [bool; WANTED],
    way: usize,
) {
    for (times, is_shown) in counts.iter_mut().zip(shown) {
        times[way] += usize::from(is_shown);
    }
}

/// Whether receipts for a case are answered as the reference does, and as their making tells. Without the library's
/// entry, the reference's own answers are held to that. Where no item is read, several sets of receipts take no time.
/// Gives the receipts for which something differs.
fn hold_receipts(
    with: Option<Interface>,
    case: &Case,
    number: u32,
    random: &mut Random,
    counts: &mut Counts,
) -> Result<(), (Presented, String)> {
    let with = with.filter(|with| with.receipts.is_some()).unwrap_or_else(stand_in);
    let curve = Layout::of(&case.words).curve as usize;
    for _ in 0..if case.words.len() > MAX_WORDS { 4 } else { 1 } {
        let presented = Presented::new(case, random);
        let (said, short) = match check_presented(&with, case, &presented, random, &mut counts.receipts) {
            Ok(Some(said)) => said,
            Ok(None) => continue,
            Err(message) => return Err((presented, message)),
        };
        let asked = Asked { presented: &presented, board: &case.words, audited: number, said, short };
        add_shown(&mut counts.asked, RECEIPTS_WANTED.map(|(_, shows)| shows(&asked)), curve);
        if let Some(way) = asked.way() {
            counts.asked_of.entry(number).or_default()[way] += 1;
        }
    }
    Ok(())
}

/// Whether notes for a case are held as the reference does, and as their making tells; without the library's entry, the
/// reference's own. Where no item is read, several sets of notes take no time. Gives the notes for which something differs.
fn hold_notes(
    with: Option<Interface>,
    case: &Case,
    number: u32,
    random: &mut Random,
    counts: &mut Counts,
) -> Result<(), (Noted, String)> {
    let with = with.filter(|with| with.notes.is_some()).unwrap_or_else(stand_in);
    let curve = Layout::of(&case.words).curve as usize;
    for _ in 0..if case.words.len() > MAX_WORDS { 4 } else { 1 } {
        let noted = Noted::new(case, random);
        let said = match check_noted(&with, case, &noted, random, &mut counts.notes) {
            Ok(Some(said)) => said,
            Ok(None) => continue,
            Err(message) => return Err((noted, message)),
        };
        let asked = AskedNotes { noted: &noted, board: &case.words, audited: number, said: &said };
        add_shown(&mut counts.noted.0, NOTES_WANTED.map(|(_, shows)| shows(&asked)), curve);
        if let Some(way) = asked.way() {
            counts.noted_of.entry(number).or_default()[way] += 1;
        }
    }
    Ok(())
}

/// Whether a case is planned as the reference does, and as its audit tells, and so with a head, its end or its closing word
/// changed; without the library's entry, the reference's own. Gives the words for which something differs.
fn hold_plans(
    with: Option<Interface>,
    case: &Case,
    audited: [u32; 2],
    random: &mut Random,
    counts: &mut Counts,
) -> Result<(), (Vec<u32>, String)> {
    let with = with.filter(|with| with.plan.is_some()).unwrap_or_else(stand_in);
    let other = changed(&case.words, random);
    let mut hold = |words: &[u32]| {
        let said = hold_plan(&with, words, random, &mut counts.plans).map_err(|message| (words.to_vec(), message))?;
        if let Some(said) = said {
            let curve = Layout::of(words).curve as usize;
            let asked = AskedPlan { board: words, said };
            add_shown(&mut counts.planned, PLANS_WANTED.map(|(_, shows)| shows(&asked)), curve);
        }
        Ok(said.and_then(|said| said.said))
    };
    let planned = hold(&case.words)?;
    hold(&other)?;
    if let Some(planned) = planned {
        hold_beside(&case.words, audited, planned).map_err(|message| (case.words.clone(), message))?;
        counts.planned_of.entry(audited[0]).or_default()[usize::from(planned[0] != 0)] += 1;
    }
    Ok(())
}

/// Whether every other entry says of a case what the reference does, and leaves the boards as they are.
fn hold_library(
    with: &Interface,
    case: &Case,
    group: Group,
    random: &mut Random,
    counts: &mut Counts,
) -> Result<(), String> {
    let before = sum(case);
    let Counts { audit, compare, ancestry, receipts, notes, plans, .. } = counts;
    check_audit_and_plan(with, case, random, [audit, plans])?;
    for (entry, tally) in [audit, compare, ancestry, receipts, notes, plans].into_iter().enumerate() {
        // Receipts, notes and plans have a check of their own.
        if matches!(entry, 1 | 2) {
            ANY_LENGTH[entry](with, case, random, tally)?;
        }
        // A roll's refusals with all lengths of tables, too: 2 comes before 20, and 20 clears them.
        let bad_roll = matches!(case.known, Known::Refused(20, _)) && case.words.len() < 2_000;
        if matches!(group, Group::Full | Group::Ballots) || bad_roll {
            FULL_LENGTHS[entry](with, case, random, tally)?;
        }
    }
    if sum(case) != before {
        return Err("a word of a board or of its verdicts was written".to_string());
    }
    Ok(())
}

/// A sum over the words that are passed for reading, to see that they stay as they are.
fn sum(case: &Case) -> u64 {
    let other = &case.other;
    let passed = [&case.words, &case.verdicts, &case.roll, &other.words, &other.verdicts, &other.roll];
    passed.into_iter().flatten().fold(0u64, |sum, &word| sum.rotate_left(7).wrapping_add(u64::from(word) + 1))
}

/// A board with rolls of each length: the reference, and every entry of the library.
fn rolls_of_each_length(with: Option<Interface>) {
    let (mut numbers, random, tally) = (BTreeMap::new(), &mut Random::new(1), &mut Tally::default());
    let cases = roll_lengths();
    for case in &cases {
        let held = check_known(case).and_then(|(number, _)| {
            *numbers.entry(number).or_insert(0) += 1;
            let checks = with.iter().flat_map(|with| ANY_LENGTH.map(|check| (with, check)));
            checks.into_iter().try_for_each(|(with, check)| check(with, case, random, tally))
        });
        if let Err(message) = held {
            fail(&format!("a roll of each length, {}: {message}", case.name));
        }
    }
    let numbers: Vec<String> = numbers.iter().map(|(n, count)| format!("{n}:{count}")).collect();
    println!("rolls      {} lengths, from 0 words on; by refusal  {}", cases.len(), numbers.join(" "));
}

/// A board on each curve with receipts in every number: the reference, or the library where it has the entry.
fn receipts_in_each_number(with: Option<Interface>) {
    let with = with.filter(|with| with.receipts.is_some()).unwrap_or_else(stand_in);
    match receipts_of_each_length(&with) {
        Ok((lengths, tally)) => println!("receipts   {lengths} lengths, from 0 words on; by refusal  {}", told(&tally)),
        Err(message) => fail(&message),
    }
}

/// A board on each curve with notes in every number, and with a bit of each word of a note turned over: the reference, or
/// the library where it has the entry.
fn notes_in_each_number(with: Option<Interface>) {
    let with = with.filter(|with| with.notes.is_some()).unwrap_or_else(stand_in);
    let (lengths, tally) = notes_of_each_length(&with).unwrap_or_else(|message| fail(&message));
    let words = notes_of_each_word(&with).unwrap_or_else(|message| fail(&message));
    println!("notes      {lengths} lengths, from 0 words on: {}", told(&tally));
    println!("           {words} words of them with a bit turned over");
}

/// Boards of which all is known, planned: by the reference, or by the library where it has the entry.
fn plans_in_each_way(with: Option<Interface>) {
    let with = with.filter(|with| with.plan.is_some()).unwrap_or_else(stand_in);
    let tried = plans_of_known_boards(&with).unwrap_or_else(|message| fail(&message));
    let PlansTried { prefixes, closed, heads, counts, limits, tally } = tried;
    println!("plans      {prefixes} boards cut behind a word, {closed} closed behind an item, {heads} with a head changed: known");
    println!("           {counts} items of each type and count, {limits} boards at the limits: {}", told(&tally));
}

/// How many cases of each group make up a run of `cases`.
fn shares(cases: u64) -> Vec<(Group, u64)> {
    let part = |percent: u64| cases * percent / 100;
    vec![
        (Group::Long, 72.min(cases)),
        (Group::Full, 48.min(cases)),
        (Group::Ballots, 42.min(cases)),
        (Group::Contests, 90.min(cases)),
        (Group::Sound, part(15)),
        (Group::Faults, part(40)),
        (Group::Order, part(15)),
        (Group::Rules, part(18)),
        (Group::Words, part(12)),
    ]
}

fn cases(options: &Options, with: Option<Interface>) {
    let start = Instant::now();
    let total = run_cases(options, with);
    print_reference(options, &total, start.elapsed().as_secs_f64());
    if options.cases >= 5_000 && !all_made(&total) {
        fail("some refusal, reason, full board, sort of ballot, of roll, of set, of receipt, of note or of plan was not made, or too rarely");
    }
    if let Some(with) = with {
        print_library(&with, &total);
    }
}

/// Runs all cases, two at a time, and gives what they gave; a difference is reported.
fn run_cases(options: &Options, with: Option<Interface>) -> Counts {
    let work: Vec<(Group, u64)> = shares(options.cases)
        .into_iter()
        .flat_map(|(group, count)| (0..count).map(move |i| (group, options.seed + i)))
        .collect();
    let (next, failed) = (AtomicUsize::new(0), AtomicBool::new(false));
    let run_some = || {
        let makers = Makers::default();
        let mut counts = Counts::default();
        while !failed.load(Ordering::Relaxed) {
            let at = next.fetch_add(1, Ordering::Relaxed);
            let Some(&(group, seed)) = work.get(at) else { break };
            if let Err(found) = run_case(&makers, with, group, seed, &mut counts) {
                failed.store(true, Ordering::Relaxed);
                return Err(found);
            }
        }
        Ok(counts)
    };
    let parts = thread::scope(|scope| {
        let threads = [scope.spawn(run_some), scope.spawn(run_some)];
        threads.map(|thread| thread.join().expect("the cases run to their end"))
    });
    let mut total = Counts::default();
    for part in parts {
        match part {
            Ok(counts) => merge(&mut total, counts),
            Err(failure) => report(options, &failure),
        }
    }
    total
}

/// What the reference was held to: boards by refusal, by reason, and full ones.
fn print_reference(options: &Options, total: &Counts, seconds: f64) {
    println!(
        "reference  {} boards, {} words, seed {}, agree with their making ({seconds:.1} s)",
        total.boards, total.words, options.seed
    );
    let numbers: Vec<String> = total.by_number.iter().map(|(n, count)| format!("{n}:{count}")).collect();
    println!("           by refusal  {}", numbers.join(" "));
    let least = total.by_reason.values().min().copied().unwrap_or(0);
    let ways = Makers::default().faults.len();
    let (made, wanted) = (total.by_reason.len(), reasons());
    println!("           by reason   {ways} ways; with their layouts {made} of {wanted}, each at least {least} times");
    let [filled, fewer, refused] = total.full;
    println!(
        "           full        {filled} with {FULL} counted ballots fill a table of {FULL_TABLE} words, \
         {fewer} count fewer, {refused} are refused"
    );
    print_shown("ballots", WANTED.iter().map(|(what, _)| *what).zip(&total.shown));
    print_shown("rolls", ROLLS_WANTED.iter().map(|(what, _)| *what).zip(&total.rolls));
    print_shown("sets", SETS_WANTED.iter().map(|(what, _)| *what).zip(&total.sets));
    print_shown("curves", CURVES_WANTED.iter().map(|(what, _)| *what).zip(&total.curves));
    let asked = RECEIPTS_WANTED.iter().map(|(what, _)| *what).zip(&total.asked);
    print_times("receipts", "calls", asked);
    print_times("notes", "calls", NOTES_WANTED.iter().map(|(what, _)| *what).zip(&total.noted.0));
    print_times("plans", "calls", PLANS_WANTED.iter().map(|(what, _)| *what).zip(&total.planned));
    let of = |(number, [planned, refused]): (&u32, &[usize; 2])| format!("{number}:{planned}+{refused}");
    let planned_of: Vec<String> = total.planned_of.iter().map(of).collect();
    println!("           planned, and refused, by the audit's refusal  {}", planned_of.join(" "));
}

/// How many ways there are to be refused, or to pass, each counted in every layout that has a place for it.
fn reasons() -> usize {
    Makers::default().faults.iter().map(|fault| fault.layouts.len()).sum()
}

/// How many boards of each layout, or on each curve, show each thing that is wanted.
fn print_shown<'a, const WAYS: usize>(title: &str, shown: impl Iterator<Item = (&'static str, &'a [usize; WAYS])>) {
    print_times(title, "boards", shown);
}

fn print_times<'a, const WAYS: usize>(
    title: &str,
    of: &str,
    shown: impl Iterator<Item = (&'static str, &'a [usize; WAYS])>,
) {
    for (at, (what, times)) in shown.enumerate() {
        let title = if at == 0 { title } else { "" };
        let times = times.map(|times| times.to_string()).join(" + ");
        println!("           {title:<11} {times} {of}: {what}");
    }
}

/// Whether every refusal, every reason, and enough full boards, ballots and rolls of each kind were made.
fn all_made(total: &Counts) -> bool {
    // All but 2, which takes a short table whatever the board is.
    let mut numbers = [1].into_iter().chain(3..=16).chain([18, 20, 21]);
    let refusals = numbers.clone().all(|n| total.by_number.contains_key(&n));
    // With receipts each of them, 2 and 22; with notes each of them and 23.
    let each_way = |n: u32| {
        let receipts = total.asked_of.get(&n).is_some_and(|ways| !ways.contains(&0));
        receipts && total.noted_of.get(&n).is_some_and(|ways| !ways.contains(&0))
    };
    let asked_of = each_way(0) && numbers.all(each_way);
    let is_unknown = |what: &str| OF_UNKNOWN_TRAITS.contains(&what) || NOTES_OF_UNKNOWN_TRAITS.contains(&what);
    let is_plain = |what: &str, times: &[usize]| is_unknown(what) && times[0] >= 5;
    let receipts = RECEIPTS_WANTED.iter().map(|(what, _)| *what).zip(&total.asked);
    let mut asked = receipts.chain(NOTES_WANTED.iter().map(|(what, _)| *what).zip(&total.noted.0));
    let asked = asked_of && asked.all(|(what, times)| is_plain(what, times) || everywhere(times));
    let reasons = total.by_reason.len() >= reasons();
    let [filled, fewer, refused] = total.full;
    let ballots = WANTED.iter().zip(&total.shown).all(|(_, times)| everywhere(times));
    let rolls = ROLLS_WANTED.iter().zip(&total.rolls).all(|((what, _), times)| *what == BLANK || everywhere(times));
    let on_one = |what: &str, times: &[usize]| ON_SECP256R1.contains(&what) && times[0] >= 5;
    let sets = SETS_WANTED.iter().zip(&total.sets).all(|((what, _), times)| on_one(what, times) || everywhere(times));
    let curves = total.curves.iter().all(|times| everywhere(times));
    let full = filled >= 5 && fewer >= 5 && refused >= 10;
    refusals && reasons && ballots && rolls && sets && curves && asked && full && all_planned(total)
}

/// Whether there were enough plans of each kind: of accepted boards, and of boards that an audit refuses, by each number, some
/// that are planned, and some that are not.
fn all_planned(total: &Counts) -> bool {
    let is_plain = |what: &str, times: &[usize]| PLANS_OF_PLAIN.contains(&what) && times[0] >= 5;
    let mut shown = PLANS_WANTED.iter().zip(&total.planned);
    let of = |number: u32| total.planned_of.get(&number).map_or([false; 2], |times| times.map(|times| times > 0));
    let each = of(0) == [true, false] && [1, 3, 4, 5, 6].into_iter().all(|number| of(number) == [false, true]);
    let planned = (7..=16).chain([18, 20, 21]).all(|number| of(number)[0]);
    // Of the others there are few boards with a second fault.
    let refused = [7, 8, 9, 13, 14, 15, 18, 20].into_iter().all(|number| of(number)[1]);
    let each = each && planned && refused;
    each && shown.all(|((what, _), times)| is_plain(what, times) || everywhere(times))
}

/// Whether there are boards of each layout, or on each curve, and some together.
fn everywhere(times: &[usize]) -> bool {
    !times.contains(&0) && times.iter().sum::<usize>() >= 5
}

/// What each of the library's entries was held to, or that it has no such entry.
fn print_library(with: &Interface, total: &Counts) {
    let entries = [
        ("audit", true, &total.audit),
        ("compare", with.compare.is_some(), &total.compare),
        ("ancestry", with.ancestry.is_some(), &total.ancestry),
        ("receipts", with.receipts.is_some(), &total.receipts),
        ("notes", with.notes.is_some(), &total.notes),
        ("plan", with.plan.is_some(), &total.plans),
    ];
    for (name, linked, tally) in entries {
        if linked {
            let calls = tally.iter().sum::<usize>();
            println!("library    {name:<9} {calls} calls agree in every word: {}", told(tally));
        } else {
            println!("library    {name:<9} SKIPPED: the library has no such entry");
        }
    }
}

fn told(tally: &Tally) -> String {
    let name = |n: usize| match n {
        APART => "apart".to_string(),
        SAME => "same".to_string(),
        COLLISION => "collision".to_string(),
        SHORT_ANSWER => "short answer".to_string(),
        AGREE.. => ["all agree", "no main item", "out of order", "too early"][n - AGREE].to_string(),
        n => n.to_string(),
    };
    let parts: Vec<String> =
        tally.iter().enumerate().filter(|(_, &c)| c > 0).map(|(n, c)| format!("{}:{c}", name(n))).collect();
    parts.join(" ")
}

fn merge(total: &mut Counts, part: Counts) {
    total.boards += part.boards;
    total.words += part.words;
    let by_layout = total.shown.iter_mut().chain(&mut total.rolls).flatten();
    let asked = total.asked.iter_mut().chain(&mut total.noted.0).chain(&mut total.planned);
    let by_curve = total.sets.iter_mut().chain(&mut total.curves).chain(asked).flatten();
    let totals = total.full.iter_mut().chain(by_layout).chain(by_curve);
    let part_by_layout = part.shown.into_iter().chain(part.rolls).flatten();
    let part_asked = part.asked.into_iter().chain(part.noted.0).chain(part.planned);
    let part_by_curve = part.sets.into_iter().chain(part.curves).chain(part_asked).flatten();
    for (a, b) in totals.zip(part.full.into_iter().chain(part_by_layout).chain(part_by_curve)) {
        *a += b;
    }
    for (number, count) in part.by_number {
        *total.by_number.entry(number).or_default() += count;
    }
    for (reason, count) in part.by_reason {
        *total.by_reason.entry(reason).or_default() += count;
    }
    for (number, ways) in part.asked_of {
        let total = total.asked_of.entry(number).or_default();
        total.iter_mut().zip(ways).for_each(|(a, b)| *a += b);
    }
    for (number, ways) in part.noted_of {
        let total = total.noted_of.entry(number).or_default();
        total.iter_mut().zip(ways).for_each(|(a, b)| *a += b);
    }
    for (number, ways) in part.planned_of {
        let total = total.planned_of.entry(number).or_default();
        total.iter_mut().zip(ways).for_each(|(a, b)| *a += b);
    }
    for (to, from) in [
        (&mut total.audit, part.audit),
        (&mut total.compare, part.compare),
        (&mut total.ancestry, part.ancestry),
        (&mut total.receipts, part.receipts),
        (&mut total.notes, part.notes),
        (&mut total.plans, part.plans),
    ] {
        for (a, b) in to.iter_mut().zip(from) {
            *a += b;
        }
    }
}

/// The first difference: the case by name, and its words in files.
fn report(options: &Options, Failure { case, message, asked }: &Failure) -> ! {
    println!("FAILED     {}: {message}", case.name);
    dump(&options.dump, case.board());
    for file in ["receipts.words", "notes.words"] {
        let words = asked.as_ref().filter(|asked| asked.0 == file).map_or(&[][..], |asked| &asked.1);
        let _ = fs::write(options.dump.join(file), bytes(words));
    }
    let other = options.dump.join("other");
    dump(&other, case.other.board());
    println!("           the board is in {}, the one compared with in {}", options.dump.display(), other.display());
    println!(
        "           the case is {} in the comparison",
        if case.kept { "the kept board" } else { "the later board" }
    );
    let mut words = case.name.split(' ');
    if let (Some(group), Some(seed)) = (words.next(), words.next()) {
        println!("           again: check --only {group} {seed}");
    }
    exit(1);
}

fn dump(folder: &Path, board: Board) {
    let [words, verdicts, roll] = [board.words, board.verdicts, board.roll].map(bytes);
    let _ = fs::create_dir_all(folder);
    let _ = fs::write(folder.join("board.words"), &words);
    let _ = fs::write(folder.join("verdicts.words"), &verdicts);
    let _ = fs::write(folder.join("roll.words"), &roll);
    let _ = fs::write(folder.join("expected"), program(&words, &verdicts, &roll));
}

fn only(options: &Options, group: Group, seed: u64) {
    let makers = Makers::default();
    let mut counts = Counts::default();
    match run_case(&makers, library(), group, seed, &mut counts) {
        Ok(()) => println!("{} agrees", case(&makers, group, seed).name),
        Err(failure) => report(options, &failure),
    }
}

/// The auditing program, and a folder for its files.
struct Auditor {
    path: PathBuf,
    folder: PathBuf,
    runs: usize,
}

impl Auditor {
    /// Runs it on a board, verdicts and a roll, and holds what it prints to the reference; none: there is no such
    /// file.
    fn hold(&mut self, name: &str, files: [Option<&[u8]>; 3]) {
        let _ = fs::remove_dir_all(&self.folder);
        fs::create_dir_all(&self.folder).expect("a folder for temporary files");
        for (file, content) in ["board.words", "verdicts.words", "roll.words"].iter().zip(files) {
            if let Some(content) = content {
                fs::write(self.folder.join(file), content).expect("a temporary file");
            }
        }
        let output = Command::new(&self.path).current_dir(&self.folder).output();
        let output = output.unwrap_or_else(|e| fail(&format!("{}: {e}", self.path.display())));
        let [board, verdicts, roll] = files.map(|file| file.unwrap_or(&[]));
        let expected = program(board, verdicts, roll);
        if output.stdout != expected.as_bytes() {
            let printed = String::from_utf8_lossy(&output.stdout).into_owned();
            fail(&format!(
                "program, {name}: prints {printed:?}, by the reference {expected:?}; see {}",
                self.folder.display()
            ));
        }
        self.runs += 1;
    }

    /// Holds it on a case, the files of which are at times cut, longer or missing.
    fn hold_odd(&mut self, case: &Case, seed: u64) {
        let [mut board, mut verdicts, mut roll] = [&case.words, &case.verdicts, &case.roll].map(|words| bytes(words));
        let random = &mut Random::new(seed);
        let kind = seed % 22;
        match kind {
            1 => board.truncate(board.len().saturating_sub(random.between(1, 3))),
            2 => verdicts.extend(vec![0; random.between(1, 3)]),
            3 => verdicts.extend(vec![0; 4 * random.between(1, 200_000)]),
            4 => board.resize(16_384 * 4, 0),
            5 => board.resize(16_385 * 4, 0),
            6 => board.resize(100_000 * 4 + random.below(2), 0),
            9 => roll.extend(vec![0; random.between(1, 3)]),
            10 => roll.truncate(roll.len().saturating_sub(random.between(1, 3))),
            11 => roll = bytes(&bad_roll(&case.roll, random)),
            // A board and a roll that are too long; too long a roll alone.
            12 => (board, roll) = (vec![0; 16_385 * 4], vec![255; 4_098 * 4]),
            13 => roll.resize(4 * random.between(4_097, 200_000), 255),
            14 => roll.resize(4 * 4_096, 255),
            _ => {}
        }
        self.hold(
            &case.name,
            [
                (kind != 7).then_some(&board[..]),
                (kind != 8).then_some(&verdicts[..]),
                (kind != 15).then_some(&roll[..]),
            ],
        );
    }
}

/// The files of a board with as many counted ballots as one that the program takes can have, and a full roll.
fn most_ballots(seed: u64) -> [Vec<u8>; 3] {
    let shape = Shape { items: 5 + 5 * 59, words: None, long: 0, voters: 59, extraction: false };
    let random = &mut Random::new(seed);
    let mut plan = crowded(random, shape).plan;
    plan.roll = full_around(&voters_of(&plan.items), random);
    let laid = plan.lay();
    let [board, verdicts, roll] = [&laid.words, &laid.verdicts, &laid.roll].map(|words| bytes(words));
    let printed = program(&board, &verdicts, &roll);
    if !printed.starts_with("accepted 300 300 59 ") || printed.lines().count() != 1 + 59 {
        fail(&format!("59 counted ballots, seed {seed}: made sound, the reference prints {printed:?}"));
    }
    [board, verdicts, roll]
}

/// The files of a board with all 256 contests and a ballot of all of them, which the program has room for.
fn all_on_a_ballot(seed: u64) -> [Vec<u8>; 3] {
    let mut random = Random::new(seed);
    // On a larger curve so many contests do not fit into a board of the program.
    let wide = Layout { curve: Curve::Secp256r1, sets: Width::Wide };
    let laid = loop {
        let laid = all_contests(&mut random, 1, Traits::Said(wide)).plan.lay();
        if laid.words.len() <= PROGRAM_WORDS {
            break laid;
        }
    };
    let files = [&laid.words, &laid.verdicts, &laid.roll].map(|words| bytes(words));
    let printed = program(&files[0], &files[1], &files[2]);
    if !printed.starts_with("accepted ") || printed.lines().count() != 1 + 1 {
        fail(&format!("256 contests, seed {seed}: made sound, the reference prints {printed:?}"));
    }
    files
}

/// Runs the auditing program on made boards, and on files of odd sizes.
fn programs(options: &Options, path: &Path) {
    let path = fs::canonicalize(path).unwrap_or_else(|e| fail(&format!("{}: {e}", path.display())));
    let folder = std::env::temp_dir().join(format!("tirfolma-check-{}", std::process::id()));
    let mut auditor = Auditor { path, folder, runs: 0 };
    auditor.hold("no files", [None; 3]);
    let makers = Makers::default();
    for seed in 0..400 {
        let group = GROUPS[seed as usize % 5];
        auditor.hold_odd(&case(&makers, group, options.seed + seed), seed);
    }
    for seed in 0..4 {
        let files = most_ballots(seed);
        auditor.hold("59 counted ballots", files.each_ref().map(|file| Some(&file[..])));
    }
    for seed in 0..4 {
        let files = all_on_a_ballot(seed);
        auditor.hold("256 contests", files.each_ref().map(|file| Some(&file[..])));
    }
    // The largest board that the program takes.
    for seed in 0..4 {
        let case = case(&makers, Group::Long, 4 * seed + 3);
        let files = [&case.words, &case.verdicts, &case.roll].map(|words| bytes(words));
        auditor.hold(&case.name, files.each_ref().map(|file| Some(&file[..])));
    }
    let _ = fs::remove_dir_all(&auditor.folder);
    println!("program    {} sets of files print what the reference does", auditor.runs);
}
