//! Mistakes about receipts: what they are compared with, what is answered and where it is written, which of them are
//! refused, and when.

use super::{made, About, Mistake};
use crate::audit::{audit_with, refused, Board, History, Report, Rules};
use crate::calls::places;
use crate::compare::Tables;
use crate::format::*;
use crate::receipts::receipts_with;

/// The entry for receipts, by any rules, with the mistake that is made; without one about receipts, the reference's.
pub fn answered(rules: Rules, board: Board, asked: &[u32], tables: Tables, answers: &mut [u32]) -> Report {
    match made().filter(|mistake| matches!(mistake.about(), About::Receipts | About::Answers | About::FirstCast)) {
        None => receipts_with(rules, board, asked, tables, answers),
        Some(mistake) => answered_wrongly(mistake, rules, board, asked, tables, answers),
    }
}

fn answered_wrongly(
    mistake: Mistake,
    rules: Rules,
    board: Board,
    asked: &[u32],
    tables: Tables,
    answers: &mut [u32],
) -> Report {
    let curve = (rules.layout.of)(board.words).curve;
    let Tables { index, ballots } = tables;
    let [bad, short] = [is_bad(mistake, rules, board, asked), is_short(mistake, curve, asked, answers)];
    if let Some(number) = before_audit(mistake, board, [index.len(), ballots.len()], bad, short) {
        if matches!((mistake, number), (Mistake::BadClears, 22) | (Mistake::ShortClears, 2)) {
            index.fill(0);
            ballots.fill(0);
        }
        let items = if mistake == Mistake::BadHasItems && number == 22 { asked.len() / curve.receipt() } else { 0 };
        return refused(number, items);
    }
    let (report, history) = audit_with(rules, board, index, ballots);
    let Some(history) = history else {
        match mistake {
            Mistake::AnswersZeroed => answers.fill(0),
            Mistake::AnswersUnderway | Mistake::FoundUnderway => {
                let found = found(mistake, board, curve, asked, report.items, None);
                match mistake {
                    Mistake::AnswersUnderway => write(mistake, &found, answers),
                    _ => put_found(&found, answers),
                }
            }
            _ => {}
        }
        return report;
    };
    match mistake {
        Mistake::BadAfterAudit if bad => return refused(22, 0),
        Mistake::ShortAfterAudit if short => return refused(2, 0),
        _ => {}
    }
    write(mistake, &found(mistake, board, curve, asked, report.items, Some(&history)), answers);
    report
}

/// Whether the words are refused by 22.
fn is_bad(mistake: Mistake, rules: Rules, board: Board, asked: &[u32]) -> bool {
    let (length, today) = (asked.len(), Curve::Secp256r1.receipt());
    let width = match mistake {
        Mistake::WidthOf24 => today,
        Mistake::OversizeOf24 if board.words.len() > MAX_WORDS => today,
        Mistake::RefusedOf24 if is_refused(rules, board) => today,
        Mistake::WidthByUnknown => super::curves::told_by_unknown(board.words).curve.receipt(),
        _ => (rules.layout.of)(board.words).curve.receipt(),
    };
    let count = length / width;
    let whole = length % width == 0;
    match mistake {
        Mistake::Refuses512 => !whole || count >= MAX_RECEIPTS,
        Mistake::Takes513 => !whole || count > MAX_RECEIPTS + 1,
        Mistake::MostOf24 => !whole || length > MAX_RECEIPTS * today,
        Mistake::MostOf49 => !whole || length > MAX_RECEIPTS * Curve::Secp521r1.receipt(),
        Mistake::PartTaken => count > MAX_RECEIPTS,
        Mistake::NoneRefused => !whole || count > MAX_RECEIPTS || length == 0,
        Mistake::ManyTaken => !whole,
        _ => !whole || count > MAX_RECEIPTS,
    }
}

/// Whether the audit refuses a board, with tables that are long enough.
fn is_refused(rules: Rules, board: Board) -> bool {
    audit_with(rules, board, &mut [0; INDEX_NEED], &mut [0; BALLOTS_NEED]).1.is_none()
}

/// Whether the buffer of answers is refused by 2.
fn is_short(mistake: Mistake, curve: Curve, asked: &[u32], answers: &[u32]) -> bool {
    let count = asked.len() / curve.receipt();
    match mistake {
        Mistake::OneLessTaken => answers.len() + 1 < count,
        Mistake::BufferOf512 => answers.len() < MAX_RECEIPTS,
        Mistake::EmptyRefused => answers.is_empty() || answers.len() < count,
        Mistake::SameRefused => count > 0 && answers.len() <= count,
        _ => answers.len() < count,
    }
}

/// The refusal before the audit, if there is one. The lengths are of the index table and the ballot table.
fn before_audit(mistake: Mistake, board: Board, [index, ballots]: [usize; 2], bad: bool, short: bool) -> Option<u32> {
    let oversize = (board.words.len() > MAX_WORDS).then_some(1);
    let tables = (index < INDEX_NEED || ballots < BALLOTS_NEED).then_some(2);
    let (bad, short) = (bad.then_some(22), short.then_some(2));
    match mistake {
        Mistake::BadAfterAudit => short,
        Mistake::BadAfterLimit => oversize.or(bad).or(short),
        Mistake::BadAfterTables => oversize.or(tables).or(bad).or(short),
        Mistake::ShortBeforeBad => short.or(bad),
        Mistake::ShortAfterLimit => bad.or(oversize).or(short),
        Mistake::ShortAfterAudit => bad,
        _ => bad.or(short),
    }
}

/// An item as a receipt is compared with it.
struct Signed<'a> {
    number: usize,
    main_number: u32,
    kind: u32,
    code: u32,
    signature: &'a [u32],
    address: &'a [u32],
}

/// The first items of a board, so many.
fn signed(words: &[u32], curve: Curve, items: u32) -> Vec<Signed<'_>> {
    let (mut mains, mut all) = (0, Vec::new());
    for (number, place) in (1..=items as usize).zip(places(words)) {
        let at = place + count(words[place]) + curve.hashed_frame();
        let (signature, address) = words[at..at + curve.receipt()].split_at(curve.widths().signature);
        let (kind, code) = (kind(words[place]), code(words[place]));
        mains += u32::from(kind == MAIN);
        all.push(Signed { number, main_number: mains, kind, code, signature, address });
    }
    all
}

/// The answers, sought among the first items. The history is that of an accepted board.
fn found(
    mistake: Mistake,
    board: Board,
    curve: Curve,
    asked: &[u32],
    items: u32,
    history: Option<&History>,
) -> Vec<u32> {
    let all = signed(board.words, curve, items);
    let mains = all.last().map_or(0, |item| item.main_number);
    let seen: Vec<&Signed> = all
        .iter()
        .filter(|item| match mistake {
            Mistake::LastMainUnseen => item.main_number < mains,
            Mistake::CountedAlone => history.is_none_or(|history| is_last_of_voter(history, item.number, board.words)),
            _ => true,
        })
        .collect();
    let answer = |receipt: &[u32]| {
        let mut fitting = seen.iter().filter(|item| fits(mistake, curve, &all, item, receipt));
        let found = if mistake == Mistake::LastCast { fitting.last() } else { fitting.next() };
        found.map_or(NO_CAST, |item| said(mistake, board.words, &all, item, history))
    };
    let answers = asked.chunks_exact(curve.receipt()).map(answer).collect();
    rearranged(mistake, curve, asked, answers)
}

/// Whether a receipt is taken for that of an item.
fn fits(mistake: Mistake, curve: Curve, all: &[Signed], item: &Signed, receipt: &[u32]) -> bool {
    let (signature, address) = receipt.split_at(curve.widths().signature);
    let same = item.signature == signature && item.address == address;
    let is_cast = item.code == CAST;
    let but_last = |a: &[u32], b: &[u32]| a[..a.len() - 1] == b[..b.len() - 1];
    match mistake {
        Mistake::SpoilAnswered => same && matches!(item.code, CAST | SPOIL),
        Mistake::MainAnswered => same && item.kind == MAIN,
        Mistake::HiddenAnswered => same && (is_cast || item.kind == HIDDEN),
        Mistake::AddressAlone => is_cast && item.address == address,
        Mistake::SignatureAlone => is_cast && item.signature == signature,
        Mistake::AddressBefore => {
            let (address, signature) = receipt.split_at(curve.widths().address);
            is_cast && item.signature == signature && item.address == address
        }
        Mistake::AcrossCasts => {
            let is_signed = |other: &Signed| other.code == CAST && other.signature == signature;
            is_cast && item.address == address && all.iter().any(is_signed)
        }
        Mistake::EightOfAddress => is_cast && item.signature == signature && item.address[..8] == address[..8],
        Mistake::SixteenOfSignature => is_cast && item.address == address && item.signature[..16] == signature[..16],
        Mistake::LastOfAddress => is_cast && item.signature == signature && but_last(item.address, address),
        Mistake::LastOfSignature => is_cast && item.address == address && but_last(item.signature, signature),
        Mistake::FirstOfSignature => is_cast && item.address == address && item.signature[1..] == signature[1..],
        _ => same && is_cast,
    }
}

/// What is answered of the item that was found.
fn said(mistake: Mistake, words: &[u32], all: &[Signed], item: &Signed, history: Option<&History>) -> u32 {
    let main_number = |number: usize| all[number - 1].main_number;
    match (mistake, history) {
        (Mistake::ItemNumber, _) => item.number as u32,
        (Mistake::MainsBefore, _) => item.main_number - 1,
        (Mistake::CastNumber, _) => all[..item.number].iter().filter(|other| other.code == CAST).count() as u32,
        (Mistake::BallotNumber, Some(history)) => main_number(history.item(item.number).parent),
        (Mistake::LastOfVoter, Some(history)) => {
            let voter = voter(history, item.number, words);
            let of_voter = |other: &&Signed| other.code == CAST && voter_is(history, other.number, words, voter);
            all.iter().rfind(of_voter).map_or(item.main_number, |other| other.main_number)
        }
        _ => item.main_number,
    }
}

/// The voter of the session above an item.
fn voter(history: &History, number: usize, words: &[u32]) -> Option<u32> {
    history.item(number).session.map(|session| words[history.item(session).place + 1])
}

fn voter_is(history: &History, number: usize, words: &[u32], wanted: Option<u32>) -> bool {
    voter(history, number, words) == wanted
}

/// Whether no later cast is of the same voter.
fn is_last_of_voter(history: &History, number: usize, words: &[u32]) -> bool {
    let own = voter(history, number, words);
    !(number + 1..=history.items())
        .any(|later| history.item(later).code == CAST && voter_is(history, later, words, own))
}

/// The answers with a mistake about which receipt each is to.
fn rearranged(mistake: Mistake, curve: Curve, asked: &[u32], mut answers: Vec<u32>) -> Vec<u32> {
    match mistake {
        Mistake::OneReceiptEach => answer_first_alone(asked, curve, 0, &mut answers),
        Mistake::FirstOfAddress => answer_first_alone(asked, curve, curve.widths().signature, &mut answers),
        Mistake::ZeroForNone => answers.iter_mut().filter(|answer| **answer == NO_CAST).for_each(|answer| *answer = 0),
        Mistake::LastReceipt => answers.last_mut().into_iter().for_each(|answer| *answer = NO_CAST),
        Mistake::To256 => answers.iter_mut().skip(256).for_each(|answer| *answer = NO_CAST),
        Mistake::AnswersTurned => answers.reverse(),
        Mistake::FoundFirst => answers.sort_by_key(|&answer| answer == NO_CAST),
        _ => {}
    }
    answers
}

/// Of receipts that are equal from a word on, the first keeps its answer.
fn answer_first_alone(asked: &[u32], curve: Curve, from: usize, answers: &mut [u32]) {
    let seen: Vec<&[u32]> = asked.chunks_exact(curve.receipt()).map(|receipt| &receipt[from..]).collect();
    for at in (0..seen.len()).filter(|&at| seen[..at].contains(&seen[at])) {
        answers[at] = NO_CAST;
    }
}

/// Writes the answers that are main numbers, and no other word.
fn put_found(found: &[u32], answers: &mut [u32]) {
    for (answer, &found) in answers.iter_mut().zip(found).filter(|(_, found)| **found != NO_CAST) {
        *answer = found;
    }
}

/// Writes the answers, and zeros behind them.
fn write(mistake: Mistake, found: &[u32], answers: &mut [u32]) {
    let end = match mistake {
        Mistake::RestUnwritten => found.len(),
        Mistake::RestTo512 => MAX_RECEIPTS,
        _ => answers.len(),
    };
    let end = end.min(answers.len());
    answers[..end].fill(if mistake == Mistake::RestAsNone { NO_CAST } else { 0 });
    // Where one word less is taken, the last answer has no place.
    let fit = found.len().min(answers.len());
    answers[..fit].copy_from_slice(&found[..fit]);
}
