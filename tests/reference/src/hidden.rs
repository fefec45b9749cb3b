//! Main items depend on no hidden item: with other hidden tracks an accepted board reports the same main
//! list, and without any a main item that is refused is refused with the same number.

use crate::audit::audit;
use crate::calls::{call_audit, Tally};
use crate::checks::{case_with_fault, Case, Known, Makers};
use crate::faults::Faulty;
use crate::format::*;
use crate::interface::*;
use crate::plan::{Link, Plan, Previous};
use crate::random::Random;
use crate::sound::{any_shape, make_with, Traits};

/// Some hidden items go, with all that hangs on them.
pub fn remove_hidden(plan: &mut Plan, random: &mut Random) {
    let all = random.chance(50);
    let mut gone = vec![false; plan.items.len()];
    for i in 0..plan.items.len() {
        if plan.items[i].kind == HIDDEN {
            let parent_gone = matches!(plan.items[i].parent, Link::Item(p) if gone[p]);
            gone[i] = all || parent_gone || random.chance(30);
        }
    }
    remove(plan, |i| gone[i]);
}

/// The items at these positions go; none that stays names one of them.
fn remove(plan: &mut Plan, goes: impl Fn(usize) -> bool) {
    for i in (0..plan.items.len()).rev().filter(|&i| goes(i)) {
        plan.remove(i, 0);
    }
}

// ---- accepted boards ----

/// The main number of the cast or spoil under each main item; 0 where there is none.
fn closed_mains(words: &[u32], index: &[u32], items: usize) -> Vec<u32> {
    let rows: Vec<&[u32]> = index.chunks(INDEX_ROW).take(items).collect();
    let mains = rows.iter().filter(|row| kind(words[row[index_row::PLACE] as usize]) == MAIN);
    mains
        .map(|row| match row[index_row::CLOSED_BY] {
            NO_ITEM => 0,
            closer => rows[closer as usize - 1][index_row::MAINS_BEFORE] + 1,
        })
        .collect()
}

/// Fewer hidden items never change what is reported of the main list. Tells whether the board had any that
/// went.
pub fn check_hidden_tracks(seed: u64) -> Result<bool, String> {
    let random = &mut Random::new(seed);
    let shape = any_shape(random, 150);
    let traits = Traits::any(random);
    let made = make_with(random, shape, traits);
    let mut plan = made.plan.clone();
    remove_hidden(&mut plan, random);
    let run = |plan: &Plan| {
        let laid = plan.lay();
        let (mut index, mut ballots) = (vec![0; INDEX_NEED], vec![0; BALLOTS_NEED]);
        let report = audit(&laid.words, &laid.verdicts, &laid.roll, &mut index, &mut ballots);
        let items = if report.number == 0 { report.items as usize } else { 0 };
        let closed = closed_mains(&laid.words, &index, items);
        (report.number, report.mains, report.ballots, report.weight, report.end, ballots, closed)
    };
    let (with, without) = (run(&made.plan), run(&plan));
    if with.0 != 0 || with != without {
        return Err(format!("hidden tracks, seed {seed}: the main list's report changes with them"));
    }
    Ok(plan.items.len() < made.plan.items.len())
}

// ---- boards refused at a main item ----

/// A board with hidden items before the main item at which it is refused, and the board without them.
pub struct Bared {
    pub reason: String,
    board: Case,
    bare: Case,
}

/// The board of a seed in the group of faults, if it is such a board.
pub fn bared(makers: &Makers, seed: u64) -> Option<Bared> {
    let (board, faulty) = case_with_fault(makers, seed);
    if !is_refused_at_main(&faulty) {
        return None;
    }
    let (plan, mains) = without_hidden(&faulty);
    let laid = plan.lay();
    let bare = Case {
        name: format!("{} without hidden items", board.name),
        words: laid.words,
        verdicts: laid.verdicts,
        roll: laid.roll,
        known: Known::Refused(faulty.number, mains),
        ..board.clone()
    };
    Some(Bared { reason: makers.fault(seed).reason.clone(), board, bare })
}

/// Whether a board is refused by one of the checks 7 to 16, or 21, at a main item that stands behind hidden ones
/// and names none of them.
fn is_refused_at_main(faulty: &Faulty) -> bool {
    if !matches!(faulty.number, 7..=16 | 21) {
        return false;
    }
    let items = &faulty.plan.items;
    let is_hidden = |i: usize| items[i].kind == HIDDEN;
    let refused = &items[faulty.items];
    let names_hidden = matches!(refused.parent, Link::Item(i) if is_hidden(i))
        || matches!(refused.previous, Previous::Item(i) if is_hidden(i));
    refused.kind == MAIN && !names_hidden && (0..faulty.items).any(is_hidden)
}

/// The board without hidden items, and how many main items stand before the refused one.
fn without_hidden(faulty: &Faulty) -> (Plan, usize) {
    let mut plan = faulty.plan.clone();
    let mains = plan.items[..faulty.items].iter().filter(|s| s.kind == MAIN).count();
    remove(&mut plan, |i| faulty.plan.items[i].kind == HIDDEN);
    // Verdicts that end at the refused item still do.
    plan.verdicts_cut = plan.verdicts_cut.map(|end| end - VERDICT_WORDS * (faulty.items - mains));
    (plan, mains)
}

/// An audit refuses the same main item of both with the same number.
pub fn check_bared(with: &Interface, bared: &Bared) -> Result<(), String> {
    for case in [&bared.board, &bared.bare] {
        let Known::Refused(number, items) = case.known else { panic!("a board that is refused") };
        let given = refusal(with, case);
        if given != (number, items) {
            let (n, i) = given;
            return Err(format!("{}: made to be refused {number} at {items}, refused {n} at {i}", case.name));
        }
    }
    Ok(())
}

/// The number that an audit gives, and the items passed.
fn refusal(with: &Interface, case: &Case) -> (u32, usize) {
    let lengths = [INDEX_NEED, BALLOTS_NEED, AUDIT_ANSWER];
    let call = call_audit(with, case, lengths, &mut Random::new(0), &mut Tally::default());
    let answer = call.answer();
    (answer[audit_answer::NUMBER], answer[audit_answer::ITEMS] as usize)
}
