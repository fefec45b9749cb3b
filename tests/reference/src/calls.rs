//! One call of an entry over the C interface: buffers of any length, full of junk and with guard words on
//! both sides, go to an implementation, and rolls between pairs that can change the answer if they are read
//! (`guard_pair`), receipts between receipts, and notes between notes that disagree; the reference is given the same
//! words. The call can then be held to the reference word by word, to the boards alone, or to stored tables and answers.
//! Which lengths are tried with which boards is told in `checks`, which receipts in `presented`, which notes in `noted`.

use crate::ancestry::ancestry;
use crate::answered::{broken_answers, check_answers, OF_ANSWERS};
use crate::audit::{audit, is_on_roll, Board};
use crate::checks::Case;
use crate::compare::{compare, Comparison, Tables};
use crate::format::*;
use crate::held::{broken_held, check_held, OF_NOTES};
use crate::interface::*;
use crate::notes::{notes, Agreement};
use crate::random::Random;
use crate::receipts::receipts;
use crate::told::{broken, check_end, check_told, PROPERTIES};

mod plans;
pub use plans::*;

/// How often an entry gave each answer: by refusal number, or as follows.
pub type Tally = [usize; 32];

/// For comparing, and where an answer buffer is too short.
pub const APART: usize = 24;
pub const SAME: usize = 25;
pub const COLLISION: usize = 26;
pub const SHORT_ANSWER: usize = 27;
/// For notes of an accepted board: all agree, or the first that disagrees does so for the first reason, the second or the
/// third.
pub const AGREE: usize = 28;

/// A call of an entry: what it gave, and its buffers by name.
pub struct Call<'a> {
    entry: String,
    /// Whether its answer has an end address.
    has_end: bool,
    /// What the answer says of the first board.
    said: Option<Said>,
    given: bool,
    expected: bool,
    buffers: Vec<(Buffer, &'static str)>,
    /// The rolls, the receipts and the notes as they were passed, and by name.
    read: Vec<(Guarded<'a>, &'static str)>,
    /// In the order in which they are audited.
    boards: Vec<Passed<'a>>,
    asked: Asked<'a>,
}

/// What an entry is asked beside the board.
#[derive(Clone, Copy)]
enum Asked<'a> {
    Nothing,
    /// Receipts. The buffer of their answers is the one behind the answer.
    Receipts(&'a [u32]),
    Notes(&'a [u32]),
}

/// What an answer says of a board: the refusal, or 0, and the items, where it tells them.
#[derive(Clone, Copy, PartialEq, Eq, Debug)]
pub struct Said {
    pub number: u32,
    pub items: Option<u32>,
}

/// A board that was passed to an entry.
struct Passed<'a> {
    board: Board<'a>,
    /// By the answer given.
    accepted: bool,
    /// The place of its index table among the buffers. Its ballot table follows there.
    index: usize,
}

impl Call<'_> {
    /// Holds the call to the reference, and to the boards.
    pub fn hold(&self) -> Result<(), String> {
        self.hold_words().and_then(|()| self.hold_told())
    }

    /// Holds the result to the one expected, and the buffers to the reference.
    fn hold_words(&self) -> Result<(), String> {
        if self.given != self.expected {
            return Err(format!("{} gives {}, not {}", self.entry, self.given, self.expected));
        }
        let buffers = self.buffers.iter().try_for_each(|(buffer, what)| buffer.same(what));
        let held = buffers.and_then(|()| self.read.iter().try_for_each(|(words, what)| words.same(what)));
        held.map_err(|message| format!("{}: {message}", self.entry))
    }

    /// Holds the tables that were filled to their boards, the reference left aside.
    pub fn hold_told(&self) -> Result<(), String> {
        for board in self.boards.iter().filter(|board| board.accepted) {
            let [(index, what), (ballots, _)] = self.tables(board);
            check_told(board.board.words, board.board.roll, index.given(), ballots.given())
                .map_err(|message| format!("{}: {what}: {message}", self.entry))?;
        }
        self.hold_answered().and_then(|()| self.hold_held()).and_then(|()| self.hold_end())
    }

    /// Holds the answers to receipts to them and the board, if that is accepted.
    fn hold_answered(&self) -> Result<(), String> {
        match (self.asked, &self.boards[0]) {
            (Asked::Receipts(receipts), Passed { board, accepted: true, .. }) => {
                check_answers(board.words, receipts, self.answers().given())
                    .map_err(|message| format!("{}: {message}", self.entry))
            }
            _ => Ok(()),
        }
    }

    /// Holds the answers to receipts to these, behind which all words are zero; without any, to what stood there before.
    pub fn hold_answers(&self, expected: Option<&[u32]>) -> Result<(), String> {
        let (given, mut right) = (self.answers().given(), self.answers().before().to_vec());
        if let Some(expected) = expected {
            right.fill(0);
            right[..expected.len()].copy_from_slice(expected);
        }
        match (0..right.len()).find(|&at| given[at] != right[at]) {
            Some(at) => Err(format!("{}: word {at} of the answers is {}, not {}", self.entry, given[at], right[at])),
            None => Ok(()),
        }
    }

    /// Which properties the answers to receipts break; none where there are no such answers.
    pub fn broken_answers(&self) -> [bool; OF_ANSWERS.len()] {
        match (self.asked, &self.boards[0]) {
            (Asked::Receipts(receipts), Passed { board, accepted: true, .. }) => {
                broken_answers(board.words, receipts, self.answers().given()).expect("an answer to each receipt")
            }
            _ => [false; OF_ANSWERS.len()],
        }
    }

    /// Holds the answer to notes to them and the board; where that or the notes are refused, to zeros.
    fn hold_held(&self) -> Result<(), String> {
        let held = match (self.asked, &self.boards[0]) {
            (Asked::Notes(_), _) if self.said.is_none() => Ok(()),
            (Asked::Notes(notes), Passed { board, accepted: true, .. }) => {
                check_held(board.words, notes, self.given_agreement())
            }
            (Asked::Notes(_), _) if self.given_agreement() != [0, 0] => {
                Err(format!("the notes are not held, and the agreement is {:?}", self.given_agreement()))
            }
            _ => Ok(()),
        };
        held.map_err(|message| format!("{}: {message}", self.entry))
    }

    /// Holds the answer to notes to this one.
    pub fn hold_agreement(&self, expected: Agreement) -> Result<(), String> {
        match self.given_agreement() == agreement_words(expected) {
            true => Ok(()),
            false => Err(format!("{}: the agreement is {:?}, not {expected:?}", self.entry, self.given_agreement())),
        }
    }

    /// Which properties the answer to notes breaks; none where they are not held.
    pub fn broken_held(&self) -> [bool; OF_NOTES.len()] {
        match (self.asked, &self.boards[0]) {
            (Asked::Notes(notes), Passed { board, accepted: true, .. }) => {
                broken_held(board.words, notes, self.given_agreement()).expect("whole notes")
            }
            _ => [false; OF_NOTES.len()],
        }
    }

    /// The two words of the answer to notes that an audit's does not have.
    pub fn given_agreement(&self) -> [u32; 2] {
        [notes_answer::AGREEMENT, notes_answer::NOTE].map(|at| self.answer()[at])
    }

    /// The words of the answers to receipts.
    pub fn given_answers(&self) -> &[u32] {
        self.answers().given()
    }

    fn answers(&self) -> &Buffer {
        &self.buffers[1].0
    }

    /// Holds the end address in the answer of an audit to the board, if that is accepted.
    pub fn hold_end(&self) -> Result<(), String> {
        let board = &self.boards[0];
        if !self.has_end || !board.accepted {
            return Ok(());
        }
        let end = &self.answer()[audit_answer::END..AUDIT_ANSWER];
        check_end(board.board.words, end).map_err(|message| format!("{}: {message}", self.entry))
    }

    /// The words of the answer.
    pub fn answer(&self) -> &[u32] {
        self.buffers[0].0.given()
    }

    /// The first board.
    pub fn board(&self) -> Board<'_> {
        self.boards[0].board
    }

    /// The index table of the first board.
    pub fn given_index(&self) -> &[u32] {
        self.tables(&self.boards[0])[0].0.given()
    }

    /// A board's index table and ballot table.
    fn tables(&self, board: &Passed) -> &[(Buffer, &'static str); 2] {
        self.buffers[board.index..board.index + 2].try_into().expect("two tables")
    }

    /// Holds the tables of each board that was audited to these, index table first.
    pub fn hold_tables(&self, tables: &[Vec<u32>; 2]) -> Result<(), String> {
        let audited = 1 + self.boards.iter().take_while(|board| board.accepted).count();
        for board in self.boards.iter().take(audited) {
            for ((table, what), expected) in self.tables(board).iter().zip(tables) {
                if let Some(at) = (0..expected.len()).find(|&at| table.given()[at] != expected[at]) {
                    let (given, expected) = (table.given()[at], expected[at]);
                    return Err(format!("{}: word {at} of the {what} is {given}, not {expected}", self.entry));
                }
            }
        }
        Ok(())
    }

    /// What the answer says of the first board; nothing where there is none.
    pub fn said(&self) -> Option<Said> {
        self.said
    }

    /// Holds the answer to what is known of the first board.
    pub fn hold_said(&self, number: u32, items: u32) -> Result<(), String> {
        match self.said {
            Some(said) if said.number == number && said.items.is_none_or(|told| told == items) => Ok(()),
            Some(Said { number: n, items: i }) => {
                Err(format!("{}: the answer has number {n} and items {i:?}, not {number} and {items}", self.entry))
            }
            None => Err(format!("{}: there is no answer", self.entry)),
        }
    }

    /// Which properties the tables of the first board break; none where it is refused.
    pub fn broken(&self) -> [bool; PROPERTIES.len()] {
        let board = &self.boards[0];
        if !board.accepted {
            return [false; PROPERTIES.len()];
        }
        let [(index, _), (ballots, _)] = self.tables(board);
        broken(board.board.words, board.board.roll, index.given(), ballots.given()).expect("rows and nothing else")
    }
}

/// Calls the audit, and the reference beside it. The lengths are of the index table, the ballot table
/// and the answer.
pub fn call_audit<'a>(
    with: &Interface,
    case: &'a Case,
    lengths: [usize; 3],
    random: &mut Random,
    tally: &mut Tally,
) -> Call<'a> {
    let [mut index, mut ballots, mut answer] = lengths.map(|len| Buffer::new(len, random));
    let enough = answer.len() >= AUDIT_ANSWER;
    if enough {
        let report = audit(&case.words, &case.verdicts, &case.roll, &mut index.reference, &mut ballots.reference);
        put(&mut answer, &audit_words(&report));
        tally[report.number as usize] += 1;
    } else {
        tally[SHORT_ANSWER] += 1;
    }
    let (il, bl, al) = (index.len(), ballots.len(), answer.len());
    let board = case.board();
    let roll = Guarded::roll(board, random);
    // Each pointer is of a live buffer of at least the length given with it.
    #[rustfmt::skip]
    let given = unsafe {
        (with.audit)(
            board.words.as_ptr(), board.words.len(), board.verdicts.as_ptr(), board.verdicts.len(),
            roll.pointer(), board.roll.len(), index.pointer(), il, ballots.pointer(), bl, answer.pointer(), al)
    };
    let said = enough.then(|| Said {
        number: answer.given()[audit_answer::NUMBER],
        items: Some(answer.given()[audit_answer::ITEMS]),
    });
    let boards = vec![Passed { board, accepted: said.is_some_and(|said| said.number == 0), index: 1 }];
    let buffers = vec![(answer, "answer"), (index, "index table"), (ballots, "ballot table")];
    let (entry, read) = ("audit".to_string(), vec![(roll, "roll")]);
    Call { entry, has_end: true, said, given, expected: enough, buffers, read, boards, asked: Asked::Nothing }
}

/// Calls the comparison at some main number, and the reference beside it. The lengths are of the kept board's two
/// tables, the later one's, and the answer. None where the library has no such entry.
pub fn call_compare<'a>(
    with: &Interface,
    case: &'a Case,
    lengths: [usize; 5],
    random: &mut Random,
    tally: &mut Tally,
) -> Option<Call<'a>> {
    let (kept, later) = kept_and_later(case);
    let number = asked_main(kept, later, random);
    call_compare_at(with, case, number, lengths, random, tally)
}

/// The same at this main number.
pub fn call_compare_at<'a>(
    with: &Interface,
    case: &'a Case,
    number: usize,
    lengths: [usize; 5],
    random: &mut Random,
    tally: &mut Tally,
) -> Option<Call<'a>> {
    let entry = with.compare?;
    let (kept, later) = kept_and_later(case);
    let [mut ki, mut kb, mut li, mut lb, mut answer] = lengths.map(|len| Buffer::new(len, random));
    let enough = answer.len() >= COMPARE_ANSWER;
    if enough {
        let of_kept = Tables { index: &mut ki.reference, ballots: &mut kb.reference };
        let of_later = Tables { index: &mut li.reference, ballots: &mut lb.reference };
        let comparison = compare(kept, later, number, of_kept, of_later);
        put(&mut answer, &compare_words(&comparison));
        tally[match comparison {
            Comparison::Refused { number, .. } => number as usize,
            Comparison::Apart => APART,
            Comparison::Same => SAME,
            Comparison::Collision { .. } => COLLISION,
        }] += 1;
    } else {
        tally[SHORT_ANSWER] += 1;
    }
    let kept_roll = Guarded::roll(kept, random);
    let later_roll = Guarded::roll(later, random);
    // Equal rolls are at times one.
    let one = kept.roll == later.roll && random.chance(50);
    let later_pointer = if one { kept_roll.pointer() } else { later_roll.pointer() };
    #[rustfmt::skip]
    let given = unsafe {
        entry(
            kept.words.as_ptr(), kept.words.len(), kept.verdicts.as_ptr(), kept.verdicts.len(),
            kept_roll.pointer(), kept.roll.len(),
            later.words.as_ptr(), later.words.len(), later.verdicts.as_ptr(), later.verdicts.len(),
            later_pointer, later.roll.len(), number,
            ki.pointer(), lengths[0], kb.pointer(), lengths[1],
            li.pointer(), lengths[2], lb.pointer(), lengths[3], answer.pointer(), lengths[4])
    };
    let accepted = if enough { accepted_in_comparison(answer.given()) } else { [false, false] };
    let said = enough.then(|| said_in_comparison(answer.given()));
    let boards = vec![
        Passed { board: kept, accepted: accepted[0], index: 1 },
        Passed { board: later, accepted: accepted[1], index: 3 },
    ];
    let buffers = vec![
        (answer, "answer"),
        (ki, "kept index table"),
        (kb, "kept ballot table"),
        (li, "later index table"),
        (lb, "later ballot table"),
    ];
    let read = vec![(kept_roll, "kept roll"), (later_roll, "later roll")];
    let entry = format!("compare at main {number}");
    Some(Call { entry, has_end: false, said, given, expected: enough, buffers, read, boards, asked: Asked::Nothing })
}

/// Whether the kept board and the later one were accepted, by a comparison's answer.
fn accepted_in_comparison(answer: &[u32]) -> [bool; 2] {
    let [kind, board, number] =
        [compare_answer::KIND, compare_answer::BOARD, compare_answer::NUMBER].map(|at| answer[at]);
    match (kind, board) {
        (compare_kind::REFUSED, 0) => [false, false],
        // 19 is given of a board that was accepted.
        (compare_kind::REFUSED, _) if number != 19 => [true, false],
        _ => [true, true],
    }
}

/// What a comparison's answer says of the kept board. Where it is accepted, it does not tell the items.
fn said_in_comparison(answer: &[u32]) -> Said {
    match accepted_in_comparison(answer) {
        [true, _] => Said { number: 0, items: None },
        _ => Said { number: answer[compare_answer::NUMBER], items: Some(answer[compare_answer::ITEMS]) },
    }
}

/// A case's two boards, the kept one first.
fn kept_and_later(case: &Case) -> (Board<'_>, Board<'_>) {
    let (own, other) = (case.board(), case.other.board());
    if case.kept {
        (own, other)
    } else {
        (other, own)
    }
}

/// Calls the ancestry, and the reference beside it. The lengths are of the index table, the ballot
/// table, the list and the answer. None where the library has no such entry.
pub fn call_ancestry<'a>(
    with: &Interface,
    case: &'a Case,
    lengths: [usize; 4],
    random: &mut Random,
    tally: &mut Tally,
) -> Option<Call<'a>> {
    let entry = with.ancestry?;
    let [mut index, mut ballots, mut list, mut answer] = lengths.map(|len| Buffer::new(len, random));
    let number = asked(item_count(case), random);
    let enough = answer.len() >= ANCESTRY_ANSWER;
    let board = case.board();
    let roll = Guarded::roll(board, random);
    if enough {
        let (i, b, l) = (&mut index.reference, &mut ballots.reference, &mut list.reference);
        let expected = ancestry(board.words, board.verdicts, board.roll, number, i, b, l);
        put(&mut answer, &ancestry_words(&expected));
        tally[expected.number as usize] += 1;
    } else {
        tally[SHORT_ANSWER] += 1;
    }
    let (il, bl, ll, al) = (index.len(), ballots.len(), list.len(), answer.len());
    #[rustfmt::skip]
    let given = unsafe {
        entry(
            board.words.as_ptr(), board.words.len(), board.verdicts.as_ptr(), board.verdicts.len(),
            roll.pointer(), board.roll.len(), number,
            index.pointer(), il, ballots.pointer(), bl, list.pointer(), ll, answer.pointer(), al)
    };
    // 19 is given of a board that was accepted.
    let said = enough.then(|| match answer.given()[ancestry_answer::NUMBER] {
        0 | 19 => Said { number: 0, items: None },
        number => Said { number, items: Some(answer.given()[ancestry_answer::COUNT]) },
    });
    let accepted = said.is_some_and(|said| said.number == 0);
    let boards = vec![Passed { board, accepted, index: 2 }];
    let buffers = vec![(answer, "answer"), (list, "list"), (index, "index table"), (ballots, "ballot table")];
    let read = vec![(roll, "roll")];
    let entry = format!("ancestry of item {number}");
    Some(Call { entry, has_end: false, said, given, expected: enough, buffers, read, boards, asked: Asked::Nothing })
}

/// Calls the entry for receipts, and the reference beside it. The lengths are of the index table, the ballot table, the
/// answers to receipts and the answer. None where the library has no such entry.
pub fn call_receipts<'a>(
    with: &Interface,
    board: Board<'a>,
    asked: &'a [u32],
    lengths: [usize; 4],
    random: &mut Random,
    tally: &mut Tally,
) -> Option<Call<'a>> {
    let entry = with.receipts?;
    let [mut index, mut ballots, mut answers, mut answer] = lengths.map(|len| Buffer::new(len, random));
    let enough = answer.len() >= AUDIT_ANSWER;
    if enough {
        let tables = Tables { index: &mut index.reference, ballots: &mut ballots.reference };
        let report = receipts(board, asked, tables, &mut answers.reference);
        put(&mut answer, &audit_words(&report));
        tally[report.number as usize] += 1;
    } else {
        tally[SHORT_ANSWER] += 1;
    }
    let (il, bl, sl, al) = (index.len(), ballots.len(), answers.len(), answer.len());
    let roll = Guarded::roll(board, random);
    let passed = Guarded::receipts(board, asked, random);
    #[rustfmt::skip]
    let given = unsafe {
        entry(
            board.words.as_ptr(), board.words.len(), board.verdicts.as_ptr(), board.verdicts.len(),
            roll.pointer(), board.roll.len(), passed.pointer(), asked.len(),
            index.pointer(), il, ballots.pointer(), bl, answers.pointer(), sl, answer.pointer(), al)
    };
    let said = enough.then(|| Said {
        number: answer.given()[audit_answer::NUMBER],
        items: Some(answer.given()[audit_answer::ITEMS]),
    });
    let boards = vec![Passed { board, accepted: said.is_some_and(|said| said.number == 0), index: 2 }];
    let buffers = vec![(answer, "answer"), (answers, "answers"), (index, "index table"), (ballots, "ballot table")];
    let read = vec![(roll, "roll"), (passed, "receipts")];
    let entry = format!("receipts, {} words", asked.len());
    let asked = Asked::Receipts(asked);
    Some(Call { entry, has_end: true, said, given, expected: enough, buffers, read, boards, asked })
}

/// Calls the entry for notes, and the reference beside it. The lengths are of the index table, the ballot table and the
/// answer. None where the library has no such entry.
pub fn call_notes<'a>(
    with: &Interface,
    board: Board<'a>,
    asked: &'a [u32],
    lengths: [usize; 3],
    random: &mut Random,
    tally: &mut Tally,
) -> Option<Call<'a>> {
    let entry = with.notes?;
    let [mut index, mut ballots, mut answer] = lengths.map(|len| Buffer::new(len, random));
    let enough = answer.len() >= NOTES_ANSWER;
    if enough {
        let tables = Tables { index: &mut index.reference, ballots: &mut ballots.reference };
        let (report, agreement) = notes(board, asked, tables);
        put(&mut answer, &notes_words(&report, agreement));
        tally[match agreement {
            Agreement::NotHeld => report.number as usize,
            Agreement::AllAgree => AGREE,
            Agreement::Disagrees(_, reason) => AGREE + 1 + reason as usize,
        }] += 1;
    } else {
        tally[SHORT_ANSWER] += 1;
    }
    let (il, bl, al) = (index.len(), ballots.len(), answer.len());
    let roll = Guarded::roll(board, random);
    let passed = Guarded::notes(board, asked);
    #[rustfmt::skip]
    let given = unsafe {
        entry(
            board.words.as_ptr(), board.words.len(), board.verdicts.as_ptr(), board.verdicts.len(),
            roll.pointer(), board.roll.len(), passed.pointer(), asked.len(),
            index.pointer(), il, ballots.pointer(), bl, answer.pointer(), al)
    };
    let said = enough.then(|| Said {
        number: answer.given()[audit_answer::NUMBER],
        items: Some(answer.given()[audit_answer::ITEMS]),
    });
    let boards = vec![Passed { board, accepted: said.is_some_and(|said| said.number == 0), index: 1 }];
    let buffers = vec![(answer, "answer"), (index, "index table"), (ballots, "ballot table")];
    let read = vec![(roll, "roll"), (passed, "notes")];
    let entry = format!("notes, {} words", asked.len());
    let asked = Asked::Notes(asked);
    Some(Call { entry, has_end: true, said, given, expected: enough, buffers, read, boards, asked })
}

// ---- the numbers that are asked for ----

/// A number to ask for: mostly one that exists, at times none, past the end, or past 32 bits.
fn asked(count: usize, random: &mut Random) -> usize {
    match random.below(16) {
        0 => 0,
        1 => count + 1,
        2 => usize::MAX,
        3 => (1 << 32) + random.between(0, count),
        4 => random.below(4_000),
        5 => 1,
        6 | 7 => count,
        _ => random.between(1, count.max(1)),
    }
}

/// A rough count of a board's items, to ask for numbers near it.
fn item_count(case: &Case) -> usize {
    case.verdicts.len() / VERDICT_WORDS
}

/// A main number to compare at: often the one at which the kept board's end can stand.
fn asked_main(kept: Board, later: Board, random: &mut Random) -> usize {
    if random.chance(50) {
        main_count(kept.words)
    } else {
        asked(main_count(later.words), random)
    }
}

/// The main items by a walk over the heads, as far as it goes.
fn main_count(words: &[u32]) -> usize {
    places(words).filter(|&place| kind(words[place]) == MAIN).count()
}

// ---- rolls, receipts and notes ----

/// Words as they are passed for reading: between guard words, or where the board itself has them.
struct Guarded<'a> {
    guarded: Vec<u32>,
    before: Vec<u32>,
    /// How many guard words there are on each side.
    guard: usize,
    inside: Option<&'a [u32]>,
}

impl<'a> Guarded<'a> {
    fn new(words: &[u32], guard: &[u32], inside: Option<&'a [u32]>) -> Guarded<'a> {
        let guarded = [guard, words, guard].concat();
        Guarded { before: guarded.clone(), guarded, guard: guard.len(), inside }
    }

    /// A roll, between two guard pairs.
    fn roll(board: Board<'a>, random: &mut Random) -> Guarded<'a> {
        let inside = random.chance(50) && board.roll.len() <= 2 * ROLL_ROW;
        let inside = if inside { find(board.words, board.roll, ROLL_ROW) } else { None };
        Guarded::new(board.roll, &guard_pair(board), inside)
    }

    /// Receipts, between two of the first item.
    fn receipts(board: Board<'a>, asked: &[u32], random: &mut Random) -> Guarded<'a> {
        let curve = Layout::of(board.words).curve;
        let end = board.words.first().map_or(0, |&head| count(head) + curve.frame());
        let guard = board.words.get(..end).map_or(&[][..], |item| &item[item.len().saturating_sub(curve.receipt())..]);
        let inside = random.chance(50) && asked.len() == curve.receipt();
        Guarded::new(asked, guard, if inside { find(board.words, asked, 0) } else { None })
    }

    /// Notes, between two of the last main item with time 0: read as the note before the first, one is later than the
    /// others; read as the one behind the last, it is too early. A note of the board's own words is passed where it stands.
    fn notes(board: Board<'a>, asked: &[u32]) -> Guarded<'a> {
        let curve = Layout::of(board.words).curve;
        let last = places(board.words).filter(|&place| kind(board.words[place]) == MAIN).last();
        let end = last.map_or(0, |place| place + count(board.words[place]) + curve.frame());
        let address = end.checked_sub(curve.widths().address).and_then(|from| board.words.get(from..end));
        let guard = address.map_or(Vec::new(), |address| [&[0, 0], address].concat());
        let inside = asked.len() == curve.note();
        Guarded::new(asked, &guard, if inside { find(board.words, asked, 0) } else { None })
    }

    fn pointer(&self) -> *const u32 {
        match self.inside {
            Some(words) => words.as_ptr(),
            None => self.guarded[self.guard..].as_ptr(),
        }
    }

    fn same(&self, what: &str) -> Result<(), String> {
        match self.guarded == self.before {
            true => Ok(()),
            false => Err(format!("a word of the {what}, or beside it, was written")),
        }
    }
}

/// The voter and weight of a session that is not on the roll: a search that reads them lets it pass. Where every
/// session is on the roll, the last one's: with them the roll is bad. Zeros where there is no session: they may
/// change nothing.
fn guard_pair(board: Board) -> [u32; ROLL_ROW] {
    let is_session = |&place: &usize| code(board.words[place]) == SESSION && place + 2 < board.words.len();
    let mut sessions = places(board.words).filter(is_session).map(|p| [board.words[p + 1], board.words[p + 2]]);
    let last = sessions.clone().last();
    let missing = sessions.find(|&[voter, weight]| !is_on_roll(board.roll, voter, weight));
    missing.or(last).unwrap_or([0, 0])
}

/// The places of the heads, as far as a walk over them goes.
pub fn places(words: &[u32]) -> impl Iterator<Item = usize> + Clone + '_ {
    let frame = Layout::of(words).curve.frame();
    let is_head = |&place: &usize| place < words.len() && kind(words[place]) != CLOSING;
    let next = move |&place: &usize| Some(place + count(words[place]) + frame).filter(is_head);
    std::iter::successors(Some(0).filter(is_head), next)
}

/// These words where they stand in the board, with so many others behind them.
fn find<'a>(board: &'a [u32], wanted: &[u32], behind: usize) -> Option<&'a [u32]> {
    let mut parts = board.windows(wanted.len() + behind).map(|part| &part[..wanted.len()]);
    parts.find(|&words| words == wanted)
}

// ---- buffers ----

const GUARD: usize = 8;

/// A buffer with guard words on both sides, and what the reference makes of the same words.
struct Buffer {
    guarded: Vec<u32>,
    before: Vec<u32>,
    reference: Vec<u32>,
}

impl Buffer {
    fn new(len: usize, random: &mut Random) -> Buffer {
        // Junk that differs from word to word, at little cost.
        let mut word = random.word() | 1;
        let guarded: Vec<u32> = (0..len + 2 * GUARD)
            .map(|_| {
                word = word.wrapping_mul(0x0019_660d).wrapping_add(0x3c6e_f35f);
                word
            })
            .collect();
        Buffer { before: guarded.clone(), reference: guarded[GUARD..GUARD + len].to_vec(), guarded }
    }

    fn len(&self) -> usize {
        self.reference.len()
    }

    fn pointer(&mut self) -> *mut u32 {
        self.guarded[GUARD..].as_mut_ptr()
    }

    /// The words between the guards, as the implementation left them, and as they were.
    fn given(&self) -> &[u32] {
        &self.guarded[GUARD..GUARD + self.len()]
    }
    fn before(&self) -> &[u32] {
        &self.before[GUARD..GUARD + self.len()]
    }

    fn same(&self, what: &str) -> Result<(), String> {
        let end = GUARD + self.len();
        if self.guarded[..GUARD] != self.before[..GUARD] {
            return Err(format!("a word before the {what} was written"));
        }
        if self.guarded[end..] != self.before[end..] {
            return Err(format!("a word behind the {what} was written"));
        }
        let given = self.given();
        match given.iter().zip(&self.reference).position(|(a, b)| a != b) {
            None => Ok(()),
            Some(at) => Err(format!(
                "word {at} of the {what} ({} words) is {}, by the reference {}",
                self.len(),
                given[at],
                self.reference[at]
            )),
        }
    }
}

/// Writes the reference's answer where the interface would.
fn put(answer: &mut Buffer, words: &[u32]) {
    answer.reference[..words.len()].copy_from_slice(words);
}
