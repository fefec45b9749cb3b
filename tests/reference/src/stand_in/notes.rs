//! Mistakes about notes: what their addresses and times are compared with, which note is named and why, which notes are
//! refused, and when.

use super::{made, About, Mistake};
use crate::audit::{audit_with, refused, Board, Report, Rules};
use crate::calls::places;
use crate::compare::Tables;
use crate::format::*;
use crate::notes::{notes_with, Agreement, Reason};

/// The entry for notes, by any rules, with the mistake that is made; without one about notes, the reference's.
pub fn held(rules: Rules, board: Board, asked: &[u32], tables: Tables) -> (Report, Agreement) {
    match made().filter(|mistake| matches!(mistake.about(), About::Notes | About::Agreement | About::FirstNoted)) {
        None => notes_with(rules, board, asked, tables),
        Some(mistake) => held_wrongly(mistake, rules, board, asked, tables),
    }
}

fn held_wrongly(mistake: Mistake, rules: Rules, board: Board, asked: &[u32], tables: Tables) -> (Report, Agreement) {
    let curve = (rules.layout.of)(board.words).curve;
    let Tables { index, ballots } = tables;
    let bad = is_bad(mistake, rules, board, asked);
    if let Some(number) = before_audit(mistake, rules, board, [index.len(), ballots.len()], bad) {
        if mistake == Mistake::NotesClear && number == 23 {
            index.fill(0);
            ballots.fill(0);
        }
        let items = if mistake == Mistake::NotesHaveItems && number == 23 { asked.len() / curve.note() } else { 0 };
        let agreement = if mistake == Mistake::BadAgree { Agreement::AllAgree } else { Agreement::NotHeld };
        return (refused(number, items), agreement);
    }
    let (mut report, history) = audit_with(rules, board, index, ballots);
    if history.is_none() {
        return (report, of_refused(mistake, board, curve, asked, report.items));
    }
    if mistake == Mistake::NotesAfterAudit && bad {
        return (refused(23, 0), Agreement::NotHeld);
    }
    let agreement = agreement(mistake, board.words, curve, asked, report.items);
    if let Agreement::Disagrees(..) = agreement {
        match mistake {
            Mistake::DisagreementClears => {
                index.fill(0);
                ballots.fill(0);
            }
            Mistake::DisagreementClearsBallots => ballots.fill(0),
            Mistake::DisagreementHasNoItems => report.items = 0,
            Mistake::DisagreementHasNoEnd => report.end = ZEROS,
            Mistake::DisagreementRefuses => report.number = 23,
            _ => {}
        }
    }
    (report, agreement)
}

/// What is said of the notes where the board is refused.
fn of_refused(mistake: Mistake, board: Board, curve: Curve, asked: &[u32], items: u32) -> Agreement {
    match mistake {
        Mistake::RefusedAgrees => Agreement::AllAgree,
        Mistake::HeldUnderway => agreement(mistake, board.words, curve, asked, items),
        _ => Agreement::NotHeld,
    }
}

/// Whether the words are refused by 23.
fn is_bad(mistake: Mistake, rules: Rules, board: Board, asked: &[u32]) -> bool {
    let (length, today) = (asked.len(), Curve::Secp256r1.note());
    let width = match mistake {
        Mistake::NoteOf10 => today,
        Mistake::OversizeNoteOf10 if board.words.len() > MAX_WORDS => today,
        Mistake::RefusedNoteOf10 if is_refused(rules, board) => today,
        Mistake::NoteByUnknown => super::curves::told_by_unknown(board.words).curve.note(),
        _ => (rules.layout.of)(board.words).curve.note(),
    };
    let (count, whole) = (length / width, length % width == 0);
    match mistake {
        Mistake::Refuses1024 => !whole || count >= MAX_NOTES,
        Mistake::Takes1025 => !whole || count > MAX_NOTES + 1,
        Mistake::ManyNotesTaken => !whole,
        Mistake::MostNotesOf10 => !whole || length > MAX_NOTES * today,
        Mistake::MostNotesOf18 => !whole || length > MAX_NOTES * Curve::Secp521r1.note(),
        Mistake::PartOfNoteTaken => count > MAX_NOTES,
        Mistake::NoNotesRefused => !whole || count > MAX_NOTES || length == 0,
        _ => !whole || count > MAX_NOTES,
    }
}

/// Whether the audit refuses a board, with tables that are long enough.
fn is_refused(rules: Rules, board: Board) -> bool {
    audit_with(rules, board, &mut [0; INDEX_NEED], &mut [0; BALLOTS_NEED]).1.is_none()
}

/// The refusal before the audit, if there is one. The lengths are of the index table and the ballot table. Where 23 comes
/// behind 20, the audit gives that.
fn before_audit(mistake: Mistake, rules: Rules, board: Board, [index, ballots]: [usize; 2], bad: bool) -> Option<u32> {
    let oversize = (board.words.len() > MAX_WORDS).then_some(1);
    let tables = (index < INDEX_NEED || ballots < BALLOTS_NEED).then_some(2);
    let bad = bad.then_some(23);
    match mistake {
        Mistake::NotesAfterAudit => None,
        Mistake::NotesAfterLimit => oversize.or(bad),
        Mistake::NotesAfterTables => oversize.or(tables).or(bad),
        Mistake::NotesAfterRoll if !(rules.is_good_roll)(board.roll) => oversize.or(tables),
        _ => bad,
    }
}

/// An item as a note is compared with it.
struct Item<'a> {
    /// Main items up to it.
    main_number: usize,
    kind: u32,
    time: u64,
    address: &'a [u32],
}

/// The first items of a board, so many.
fn items_of(words: &[u32], curve: Curve, items: u32) -> Vec<Item<'_>> {
    let (mut mains, mut all) = (0, Vec::new());
    for (_, place) in (0..items).zip(places(words)) {
        let end = place + count(words[place]) + curve.frame();
        let kind = kind(words[place]);
        mains += usize::from(kind == MAIN);
        let time = time(words, end - curve.receipt() - 2);
        all.push(Item { main_number: mains, kind, time, address: &words[end - curve.widths().address..end] });
    }
    all
}

/// A note that has an item, as the next is compared with it.
#[derive(Clone, Copy)]
struct Before {
    main_number: usize,
    item_time: u64,
    time: u64,
}

/// The answer, sought among the first items.
fn agreement(mistake: Mistake, words: &[u32], curve: Curve, asked: &[u32], items: u32) -> Agreement {
    let all = items_of(words, curve, items);
    let mains = all.last().map_or(0, |item| item.main_number);
    let seen: Vec<&Item> = all.iter().filter(|item| is_seen(mistake, item, mains)).collect();
    let notes: Vec<&[u32]> = asked.chunks_exact(curve.note()).collect();
    let (mut before, mut first, mut found) = (None, None, None);
    for (at, note) in notes.iter().enumerate().filter(|&(at, _)| is_looked_at(mistake, at, notes.len())) {
        let (time, address) = split(mistake, note);
        let item = sought(mistake, &seen, address);
        let reason = match item {
            None if mistake == Mistake::HiddenSkipped && is_hidden(&all, address) => continue,
            None => Some(Reason::NoMainItem),
            Some(item) => {
                let compared = if mistake == Mistake::OrderOfFirst { first } else { before };
                reason(mistake, item, time, compared, &all)
            }
        };
        if let Some(reason) = reason.filter(|_| found.is_none() || mistake == Mistake::LastDisagreeing) {
            found = Some((at, item.map_or(0, |item| item.main_number), reason));
        }
        before = item.map(|item| Before { main_number: item.main_number, item_time: item.time, time });
        first = first.or(before);
    }
    said(mistake, notes.len(), found)
}

/// Whether an item is found by its address.
fn is_seen(mistake: Mistake, item: &Item, mains: usize) -> bool {
    match mistake {
        Mistake::HiddenAgrees => true,
        Mistake::GenesisUnseen => item.kind == MAIN && item.main_number > 1,
        Mistake::LastMainNotNoted => item.kind == MAIN && item.main_number < mains,
        _ => item.kind == MAIN,
    }
}

fn is_hidden(all: &[Item], address: &[u32]) -> bool {
    all.iter().any(|item| item.kind == HIDDEN && item.address == address)
}

/// Whether a note is looked at, of so many.
fn is_looked_at(mistake: Mistake, at: usize, count: usize) -> bool {
    match mistake {
        Mistake::FirstNoteUnseen => at > 0,
        Mistake::LastNoteUnseen => at + 1 < count,
        Mistake::NotesTo512 => at < 512,
        _ => true,
    }
}

/// A note's time and its address.
fn split(mistake: Mistake, note: &[u32]) -> (u64, &[u32]) {
    match mistake {
        Mistake::AddressBeforeTime => (time(note, note.len() - 2), &note[..note.len() - 2]),
        Mistake::TimeTurned => (time(&[note[1], note[0]], 0), &note[2..]),
        _ => (time(note, 0), &note[2..]),
    }
}

/// The item that an address is taken for.
fn sought<'a, 'b>(mistake: Mistake, seen: &[&'b Item<'a>], address: &[u32]) -> Option<&'b Item<'a>> {
    let end = match mistake {
        Mistake::EightOfNoted => 8,
        Mistake::TwelveOfNoted => address.len().min(12),
        Mistake::LastOfNoted => address.len() - 1,
        _ => address.len(),
    };
    let from = usize::from(mistake == Mistake::FirstOfNoted);
    let mut fitting = seen.iter().filter(|item| item.address[from..end] == address[from..end]);
    if mistake == Mistake::LaterMeant { fitting.last() } else { fitting.next() }.copied()
}

/// Why a note with this item and this time disagrees.
fn reason(mistake: Mistake, item: &Item, time: u64, before: Option<Before>, all: &[Item]) -> Option<Reason> {
    let out_of_order = before.is_some_and(|before| match mistake {
        Mistake::OrderNotTested => false,
        Mistake::EqualRefused => item.main_number <= before.main_number,
        Mistake::BackByOneTaken => item.main_number + 1 < before.main_number,
        Mistake::OrderByTime => item.time < before.item_time,
        _ => item.main_number < before.main_number,
    });
    let too_early = match mistake {
        Mistake::TimeNotTested => false,
        Mistake::SameTimeRefused => time <= item.time,
        Mistake::OneLessInTime => time.saturating_add(1) < item.time,
        Mistake::LowWordAlone => (time as u32) < item.time as u32,
        Mistake::HighWordAlone => time >> 32 < item.time >> 32,
        Mistake::WordByWord => time >> 32 < item.time >> 32 || (time as u32) < item.time as u32,
        Mistake::SignedTime => (time as i64) < item.time as i64,
        Mistake::TimesMustRise => time < item.time || before.is_some_and(|before| time < before.time),
        Mistake::TimeOfNoteBefore => before.is_some_and(|before| time < before.time),
        Mistake::NextPassed => {
            let next = all.iter().find(|other| other.kind == MAIN && other.main_number == item.main_number + 1);
            time < item.time || next.is_some_and(|next| time > next.time)
        }
        _ => time < item.time,
    };
    match (out_of_order, too_early) {
        (true, true) if mistake == Mistake::ReasonsTurned => Some(Reason::TooEarly),
        (true, _) => Some(Reason::OutOfOrder),
        (false, true) => Some(Reason::TooEarly),
        (false, false) => None,
    }
}

/// What is answered where a note at this place, with this main item, was found to disagree, or none was.
fn said(mistake: Mistake, count: usize, found: Option<(usize, usize, Reason)>) -> Agreement {
    let Some((at, main_number, reason)) = found else {
        return if mistake == Mistake::NoneNotHeld && count == 0 { Agreement::NotHeld } else { Agreement::AllAgree };
    };
    let reason = if mistake == Mistake::OneReason { Reason::NoMainItem } else { reason };
    let number = match mistake {
        Mistake::NoteFromZero => at,
        Mistake::MainForNote => main_number,
        _ => at + 1,
    };
    Agreement::Disagrees(number as u32, reason)
}
