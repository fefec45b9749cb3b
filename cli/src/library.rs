//! The proved library: its functions, made from include/tirfolma.h (build/header.rs), and their answers as values. Nothing else in this
//! program decides anything about a board, but for the rule about files (files.rs).

/// What the header says: TIRFOLMA_* as constants, and the functions, over slices.
pub mod header {
    include!(concat!(env!("OUT_DIR"), "/header.rs"));
}
use crate::format::{Curve, Format};
use header::*;

/// A board, the verdicts on its signatures and the roll of its voters, as words.
#[derive(Clone, Copy)]
pub struct Board<'a> {
    pub words: &'a [u32],
    pub verdicts: &'a [u32],
    pub roll: &'a [u32],
}

/// What an audit fills: the index table and the ballot table, as long as the library needs them.
pub struct Tables {
    pub index: Vec<u32>,
    pub ballots: Vec<u32>,
}

impl Default for Tables {
    fn default() -> Self {
        Tables { index: vec![0; TIRFOLMA_INDEX_WORDS], ballots: vec![0; TIRFOLMA_BALLOT_WORDS] }
    }
}

#[derive(Clone, Copy, Debug, PartialEq, Eq)]
pub enum Answer {
    Accepted(Report),
    Refused(Refusal),
}

#[derive(Clone, Copy, Debug, PartialEq, Eq)]
pub struct Report {
    pub items: u32,
    pub mains: u32,
    pub ballots: u32,
    pub weight: u64,
    /// The curve that the board is on.
    pub curve: &'static Curve,
    /// The address of the last main item, and zeros behind it.
    end: [u32; TIRFOLMA_END_WORDS],
}

impl Report {
    /// The address of the last main item, as wide as those of the board are.
    pub fn end(&self) -> &[u32] {
        &self.end[..self.curve.address]
    }

    pub fn end_in_hex(&self) -> String {
        in_hex(self.end())
    }
}

/// An address in hexadecimal digits, eight a word.
pub fn in_hex(address: &[u32]) -> String {
    address.iter().map(|word| format!("{word:08x}")).collect()
}

/// A refusal: its number, and the items that passed.
#[derive(Clone, Copy, Debug, PartialEq, Eq)]
pub struct Refusal {
    pub number: u32,
    pub items: u32,
}

#[derive(Clone, Copy, Debug, PartialEq, Eq)]
pub enum Comparison {
    Same,
    Apart,
    /// The main numbers of the two items.
    Collision {
        kept: u32,
        later: u32,
    },
    KeptRefused(Refusal),
    LaterRefused(Refusal),
}

/// What an audit of a board will read and hash, told from the heads of its items.
#[derive(Clone, Copy, Debug, PartialEq, Eq)]
pub struct Plan {
    pub items: u32,
    /// The words of the index table that their rows fill.
    pub index_words: u32,
    /// The blocks over which their addresses are hashed.
    pub blocks: u32,
}

/// A note that disagrees with a board.
#[derive(Clone, Copy, Debug, PartialEq, Eq)]
pub struct Disagreement {
    /// Its number, from 1.
    pub note: u32,
    pub fault: Fault,
    /// How many items the board has.
    pub items: u32,
}

/// What is wrong with a note.
#[derive(Clone, Copy, Debug, PartialEq, Eq)]
pub enum Fault {
    /// Its address is no main item's.
    NoMainItem,
    /// Its main item is earlier than that of the note before.
    OutOfOrder,
    /// Its time is less than that of its main item.
    TooEarly,
}

/// What the functions give where an answer has fewer words than the header says.
const SHORT: &str = "the answer has its words";

pub fn audit(board: Board, tables: &mut Tables) -> Answer {
    let mut answer = [0; TIRFOLMA_AUDIT_WORDS];
    let done =
        tirfolma_audit(board.words, board.verdicts, board.roll, &mut tables.index, &mut tables.ballots, &mut answer);
    assert!(done, "{SHORT}");
    let number = answer[TIRFOLMA_NUMBER];
    let items = answer[TIRFOLMA_ITEMS];
    if number != 0 {
        return Answer::Refused(Refusal { number, items });
    }
    let end = std::array::from_fn(|i| answer[TIRFOLMA_END + i]);
    let weight = u64::from(answer[TIRFOLMA_WEIGHT_HIGH]) << 32 | u64::from(answer[TIRFOLMA_WEIGHT_LOW]);
    let curve = Format::of(board.words).curve;
    let [mains, ballots] = [answer[TIRFOLMA_MAINS], answer[TIRFOLMA_BALLOTS]];
    Answer::Accepted(Report { items, mains, ballots, weight, curve, end })
}

/// `main` is a main number of the later board.
pub fn compare(
    kept: Board,
    later: Board,
    main: usize,
    kept_tables: &mut Tables,
    later_tables: &mut Tables,
) -> Comparison {
    let mut answer = [0; TIRFOLMA_COMPARE_WORDS];
    let done = tirfolma_compare(
        kept.words,
        kept.verdicts,
        kept.roll,
        later.words,
        later.verdicts,
        later.roll,
        main,
        &mut kept_tables.index,
        &mut kept_tables.ballots,
        &mut later_tables.index,
        &mut later_tables.ballots,
        &mut answer,
    );
    assert!(done, "{SHORT}");
    let refusal = Refusal { number: answer[TIRFOLMA_COMPARE_NUMBER], items: answer[TIRFOLMA_COMPARE_ITEMS] };
    match answer[TIRFOLMA_KIND] as usize {
        TIRFOLMA_SAME => Comparison::Same,
        TIRFOLMA_APART => Comparison::Apart,
        TIRFOLMA_COLLISION => {
            Comparison::Collision { kept: answer[TIRFOLMA_KEPT_MAIN], later: answer[TIRFOLMA_LATER_MAIN] }
        }
        TIRFOLMA_REFUSED if answer[TIRFOLMA_BOARD] == 0 => Comparison::KeptRefused(refusal),
        TIRFOLMA_REFUSED => Comparison::LaterRefused(refusal),
        kind => unreachable!("the library gives no kind {kind}"),
    }
}

/// The numbers of an item, of its parent and so on, up to genesis.
pub fn ancestry(board: Board, item: usize, tables: &mut Tables) -> Result<Vec<u32>, Refusal> {
    let mut answer = [0; TIRFOLMA_ANCESTRY_WORDS];
    let mut list = vec![0; TIRFOLMA_LIST_WORDS];
    let done = tirfolma_ancestry(
        board.words,
        board.verdicts,
        board.roll,
        item,
        &mut tables.index,
        &mut tables.ballots,
        &mut list,
        &mut answer,
    );
    assert!(done, "{SHORT}");
    let (number, count) = (answer[TIRFOLMA_ANCESTRY_NUMBER], answer[TIRFOLMA_ANCESTRY_COUNT]);
    if number != 0 {
        return Err(Refusal { number, items: count });
    }
    list.truncate(count as usize);
    Ok(list)
}

/// For each receipt the main number of its cast; none where the board has no such cast.
pub fn receipts(board: Board, receipts: &[u32], tables: &mut Tables) -> Result<Vec<Option<u32>>, Refusal> {
    let mut answer = [0; TIRFOLMA_AUDIT_WORDS];
    let mut answers = [0; TIRFOLMA_RECEIPTS];
    let done = tirfolma_receipts(
        board.words,
        board.verdicts,
        board.roll,
        receipts,
        &mut tables.index,
        &mut tables.ballots,
        &mut answers,
        &mut answer,
    );
    assert!(done, "{SHORT}");
    if answer[TIRFOLMA_NUMBER] != 0 {
        return Err(Refusal { number: answer[TIRFOLMA_NUMBER], items: answer[TIRFOLMA_ITEMS] });
    }
    let count = receipts.len() / Format::of(board.words).curve.receipt();
    let cast = |&word: &u32| Some(word).filter(|&word| word as usize != TIRFOLMA_NO_CAST);
    Ok(answers[..count].iter().map(cast).collect())
}

/// The first note that disagrees with the board; none where all agree.
pub fn notes(board: Board, notes: &[u32], tables: &mut Tables) -> Result<Option<Disagreement>, Refusal> {
    let mut answer = [0; TIRFOLMA_NOTES_ANSWER_WORDS];
    let done = tirfolma_notes(
        board.words,
        board.verdicts,
        board.roll,
        notes,
        &mut tables.index,
        &mut tables.ballots,
        &mut answer,
    );
    assert!(done, "{SHORT}");
    let (number, items) = (answer[TIRFOLMA_NUMBER], answer[TIRFOLMA_ITEMS]);
    if number != 0 {
        return Err(Refusal { number, items });
    }
    let fault = match answer[TIRFOLMA_AGREEMENT] as usize {
        TIRFOLMA_ALL_AGREE => return Ok(None),
        TIRFOLMA_NO_MAIN_ITEM => Fault::NoMainItem,
        TIRFOLMA_OUT_OF_ORDER => Fault::OutOfOrder,
        TIRFOLMA_TOO_EARLY => Fault::TooEarly,
        agreement => unreachable!("the library gives no agreement {agreement} with an accepted board"),
    };
    Ok(Some(Disagreement { note: answer[TIRFOLMA_FIRST_NOTE], fault, items }))
}

/// The plan of a board's audit; neither verdicts nor a roll have a part in it.
pub fn plan(board: &[u32]) -> Result<Plan, Refusal> {
    let mut answer = [0; TIRFOLMA_PLAN_WORDS];
    assert!(tirfolma_plan(board, &mut answer), "{SHORT}");
    let (number, items) = (answer[TIRFOLMA_PLAN_NUMBER], answer[TIRFOLMA_PLAN_ITEMS]);
    match number {
        0 => Ok(Plan { items, index_words: answer[TIRFOLMA_PLAN_INDEX_WORDS], blocks: answer[TIRFOLMA_PLAN_BLOCKS] }),
        _ => Err(Refusal { number, items }),
    }
}
