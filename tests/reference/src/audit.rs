//! The audit: every refusal in the paper's order, the report, and both tables.

use crate::format::*;
use crate::sha256::sha256;
use std::collections::HashMap;

/// Number 0 is acceptance. In a refusal all but `number` and `items` is 0.
#[derive(Clone, Copy, PartialEq, Eq, Debug, Default)]
pub struct Report {
    pub number: u32,
    pub items: u32,
    pub mains: u32,
    pub ballots: u32,
    pub weight: u64,
    /// Of the last main item.
    pub end: Digest,
}

/// The first reason to refuse a board, and the items passed before it.
#[derive(Clone, Copy, PartialEq, Eq, Debug)]
pub struct Refusal {
    /// As the paper numbers them. 17 is not in use.
    pub number: u32,
    pub items: usize,
}

/// What an audit is given to read.
#[derive(Clone, Copy)]
pub struct Board<'a> {
    pub words: &'a [u32],
    pub verdicts: &'a [u32],
    /// Pairs of voter number and weight.
    pub roll: &'a [u32],
}

/// An item that was passed.
#[derive(Clone, Debug)]
pub struct Item {
    pub code: u32,
    /// Where its head stands, and how many content words follow.
    pub place: usize,
    pub count: usize,
    /// Item numbers; a genesis is its own parent.
    pub parent: usize,
    pub session: Option<usize>,
    pub mains_before: usize,
    pub time: u64,
    pub address: Digest,
    /// Bit c: an item of type c stands under this one.
    pub children: u64,
}

/// A round as its latest type 6 has it.
#[derive(Clone, Copy, Debug)]
struct Round {
    contests: Set,
    start: u64,
    end: u64,
}

/// A counted ballot: item number of the ballot, voter, weight in the cast's session.
#[derive(Clone, Copy, PartialEq, Eq, Debug)]
pub struct Counted {
    pub ballot: usize,
    pub voter: u32,
    pub weight: u32,
}

/// The rules that can be put otherwise: a weak hash shows collisions, and a wrong reading of when a ballot
/// may be opened or cast, of the roll, of the layout, or of contest sets, tries the checks.
#[derive(Clone, Copy)]
pub struct Rules {
    /// Of an item's hashed words, on a board of a curve.
    pub hash: fn(Curve, &[u32]) -> Digest,
    /// Of the contents of counted ballots.
    pub fingerprint: fn(Curve, &[u32]) -> [u32; FINGERPRINT],
    pub may_open: fn(&Opening) -> bool,
    /// Whether its track lets the ballot with this item number be cast.
    pub may_cast: fn(&History, usize) -> bool,
    pub is_good_roll: fn(&[u32]) -> bool,
    /// Whether the roll has what an item of this type with this content needs there.
    pub is_enrolled: fn(roll: &[u32], code: u32, content: &[u32]) -> bool,
    pub layout: LayoutRules,
    pub sets: SetRules,
}

/// As the paper has them.
pub const RULES: Rules = Rules {
    hash: Curve::hash,
    fingerprint: |_, message| sha256(message),
    may_open: is_spoiled,
    may_cast: |_, _| true,
    is_good_roll,
    is_enrolled,
    layout: LAYOUT_RULES,
    sets: SET_RULES,
};

/// How a board is laid out, and what is as wide as its curve has it.
#[derive(Clone, Copy)]
pub struct LayoutRules {
    /// The layout of a board, from all its words.
    pub of: fn(board: &[u32]) -> Layout,
    /// Whether all traits in a traits word are known.
    pub traits_fit: fn(u32) -> bool,
    /// Whether the table has this content count for a type.
    pub count_fits: fn(Layout, code: u32, n: usize) -> bool,
    /// The words of a signature, of a cryptogram, of a trustee's share, and of a verdict.
    pub signature: fn(Curve) -> usize,
    pub cryptogram: fn(Curve) -> usize,
    pub trustee: fn(Curve) -> usize,
    pub verdict: fn(Curve) -> usize,
    /// Whether the last word of a commitment, or of a cryptogram, ends with the zeros that it must have.
    pub commitment_fits: fn(Curve, commitment: &[u32]) -> bool,
    pub cryptogram_fits: fn(Curve, cryptogram: &[u32]) -> bool,
    /// As much of an address as the check with this number looks at.
    pub seen: fn(check: u32, Digest) -> Digest,
}

/// As the paper has them.
pub const LAYOUT_RULES: LayoutRules = LayoutRules {
    of: Layout::of,
    traits_fit: |traits| Layout::known(traits).is_some(),
    count_fits: Layout::count_fits,
    signature: |curve| curve.widths().signature,
    cryptogram: |curve| curve.widths().cryptogram,
    trustee: |_| TRUSTEE,
    verdict: |_| VERDICT_WORDS,
    commitment_fits: |curve, words| ends_with_zeros(words, curve.widths().commitment_zeros),
    cryptogram_fits: |_, words| ends_with_zeros(words, CRYPTOGRAM_ZEROS),
    seen: |_, address| address,
};

/// Whether so many low bits of the last word are zero.
pub fn ends_with_zeros(words: &[u32], zeros: u32) -> bool {
    words.last().is_some_and(|last| last.trailing_zeros() >= zeros)
}

/// How contest sets are read, and what is read beside them at a place that their width moves.
#[derive(Clone, Copy)]
pub struct SetRules {
    /// How many contest numbers there are.
    pub contests: fn(Width) -> u32,
    /// The set of one contest.
    pub one: fn(Width, u32) -> Set,
    /// The set in the content of a round, a session or a ballot.
    pub set: fn(Width, code: u32, content: &[u32]) -> Set,
    /// Whether a set of a round or a session has a contest, and none but those that are defined.
    pub is_defined: fn(Set, defined: Set) -> bool,
    /// The start and end in the content of a round.
    pub round_times: fn(Width, content: &[u32]) -> (u64, u64),
    /// How many cryptograms there are to be in a ballot with this content.
    pub cryptograms: fn(Layout, content: &[u32]) -> usize,
    /// The words of the cryptograms in a ballot's content.
    pub behind_set: fn(Layout, content: &[u32]) -> &[u32],
}

/// As the paper has them.
pub const SET_RULES: SetRules = SetRules {
    contests: Width::contests,
    one: |_, number| Set::one(number),
    set: Width::set,
    is_defined: |set, defined| !set.is_empty() && set.is_within(defined),
    round_times: Width::round_times,
    cryptograms: |layout, content| layout.sets.set(BALLOT, content).count(),
    behind_set: |layout, content| &content[layout.sets.words()..],
};

/// A voter opening in hand.
pub struct Opening<'a> {
    pub board: &'a [u32],
    /// The items before it.
    pub history: &'a History,
    /// The item number of the ballot that its track hangs on.
    pub ballot: usize,
    pub time: u64,
}

/// A spoil stands under the ballot already.
pub fn is_spoiled(opening: &Opening) -> bool {
    opening.history.has_under(opening.ballot, SPOIL)
}

/// What the items passed so far have established. Items are numbered from 1.
pub struct History {
    layout: Layout,
    items: Vec<Item>,
    /// Item numbers of the main items in order.
    mains: Vec<usize>,
    /// The first item with an address, main and hidden items apart.
    main_addresses: HashMap<Digest, usize>,
    hidden_addresses: HashMap<Digest, usize>,
    latest_config: Option<usize>,
    administrator: [u32; FINGERPRINT],
    ballot_box: [u32; FINGERPRINT],
    authorizer: Option<[u32; FINGERPRINT]>,
    /// Trustees m and threshold t.
    threshold: Option<(u32, u32)>,
    rounds: [Option<Round>; 16],
    contests: Set,
    intent: bool,
    genesis: bool,
    latest_session: HashMap<u32, usize>,
    counted: Vec<Counted>,
}

impl History {
    fn new(layout: Layout) -> History {
        History {
            layout,
            items: Vec::new(),
            mains: Vec::new(),
            main_addresses: HashMap::new(),
            hidden_addresses: HashMap::new(),
            latest_config: None,
            administrator: NO_KEY,
            ballot_box: NO_KEY,
            authorizer: None,
            threshold: None,
            rounds: [None; 16],
            contests: Set::EMPTY,
            intent: false,
            genesis: false,
            latest_session: HashMap::new(),
            counted: Vec::new(),
        }
    }

    /// How the board is laid out.
    pub fn layout(&self) -> Layout {
        self.layout
    }
    pub fn items(&self) -> usize {
        self.items.len()
    }
    pub fn mains(&self) -> usize {
        self.mains.len()
    }
    pub fn item(&self, number: usize) -> &Item {
        &self.items[number - 1]
    }
    /// The main item with this main number.
    pub fn main(&self, number: usize) -> &Item {
        self.item(self.mains[number - 1])
    }
    pub fn counted(&self) -> &[Counted] {
        &self.counted
    }
    /// Whether an item of a type stands under the one with this number.
    pub fn has_under(&self, number: usize, code: u32) -> bool {
        self.item(number).children & (1 << code) != 0
    }
    fn last_main(&self) -> Option<&Item> {
        self.mains.last().map(|&number| self.item(number))
    }
    fn open_rounds(&self, time: u64) -> impl Iterator<Item = &Round> {
        self.rounds.iter().flatten().filter(move |r| r.start <= time && time < r.end)
    }
}

/// The item in hand, taken apart.
struct Candidate<'a> {
    place: usize,
    kind: u32,
    code: u32,
    content: &'a [u32],
    hashed: &'a [u32],
    parent: Digest,
    previous: Digest,
    time: u64,
    address: Digest,
}

impl Candidate<'_> {
    /// The item whose head stands there, on a board of a curve with signatures of so many words.
    fn at(board: &[u32], place: usize, curve: Curve, signature: usize) -> Candidate<'_> {
        let head = board[place];
        let after = place + 1 + count(head);
        let previous = after + curve.widths().address;
        let hashed_end = place + count(head) + curve.hashed_frame();
        Candidate {
            place,
            kind: kind(head),
            code: code(head),
            content: &board[place + 1..after],
            hashed: &board[place..hashed_end],
            parent: curve.address(board, after),
            previous: curve.address(board, previous),
            time: time(board, hashed_end - 2),
            address: curve.address(board, hashed_end + signature),
        }
    }
}

/// The hashed words of an item on its board.
pub fn hashed<'a>(board: &'a [u32], curve: Curve, item: &Item) -> &'a [u32] {
    &board[item.place..item.place + item.count + curve.hashed_frame()]
}

/// The audit by the rules as they are.
pub fn audit(board: &[u32], verdicts: &[u32], roll: &[u32], index: &mut [u32], ballots: &mut [u32]) -> Report {
    audit_with(RULES, Board { words: board, verdicts, roll }, index, ballots).0
}

/// The audit by any rules; the history where the board is accepted.
pub fn audit_with(rules: Rules, board: Board, index: &mut [u32], ballots: &mut [u32]) -> (Report, Option<History>) {
    if board.words.len() > MAX_WORDS {
        return (refused(1, 0), None);
    }
    if index.len() < INDEX_NEED || ballots.len() < BALLOTS_NEED {
        return (refused(2, 0), None);
    }
    index.fill(0);
    ballots.fill(0);
    if !(rules.is_good_roll)(board.roll) {
        return (refused(20, 0), None);
    }
    match walk(rules, board) {
        Err(refusal) => (refused(refusal.number, refusal.items), None),
        Ok(history) => {
            write_index(&history, index);
            write_ballots(&history, ballots);
            (accepted(&history), Some(history))
        }
    }
}

pub fn refused(number: u32, items: usize) -> Report {
    Report { number, items: items as u32, ..Report::default() }
}

fn accepted(history: &History) -> Report {
    Report {
        number: 0,
        items: history.items() as u32,
        mains: history.mains() as u32,
        ballots: history.counted.len() as u32,
        weight: history.counted.iter().map(|c| u64::from(c.weight)).sum(),
        end: history.last_main().expect("an accepted board has a genesis").address,
    }
}

fn write_index(history: &History, index: &mut [u32]) {
    for (number, row) in (1..=history.items()).zip(index.chunks_mut(INDEX_ROW)) {
        let item = history.item(number);
        row[index_row::PLACE] = item.place as u32;
        row[index_row::PARENT] = item.parent as u32;
        row[index_row::SESSION] = item.session.map_or(NO_ITEM, |s| s as u32);
        row[index_row::MAINS_BEFORE] = item.mains_before as u32;
        row[index_row::CLOSED_BY] = closed_by(history, number).map_or(NO_ITEM, |c| c as u32);
    }
}

/// The item number of the cast or spoil under a ballot: the one that has it as its parent. None where
/// the ballot is open, or the item is no ballot.
fn closed_by(history: &History, number: usize) -> Option<usize> {
    if history.item(number).code != BALLOT {
        return None;
    }
    // A parent is earlier than what stands under it.
    (number + 1..=history.items()).find(|&later| {
        let item = history.item(later);
        matches!(item.code, CAST | SPOIL) && item.parent == number
    })
}

fn write_ballots(history: &History, ballots: &mut [u32]) {
    // The bound, and its reason: five main items for each, five before the first session.
    let count = history.counted.len();
    assert!(count <= MAX_BALLOTS && ballots.len() >= BALLOT_ROW * count, "every row has its place");
    assert!(count == 0 || 5 + 5 * count <= history.mains(), "every counted ballot has items of its own");
    for (counted, row) in history.counted.iter().zip(ballots.chunks_mut(BALLOT_ROW)) {
        row[ballot_row::BALLOT] = history.item(counted.ballot).mains_before as u32 + 1;
        row[ballot_row::VOTER] = counted.voter;
        row[ballot_row::WEIGHT] = counted.weight;
    }
}

/// 20: the roll has whole pairs, no more than there may be, and their voter numbers rise strictly.
pub fn is_good_roll(roll: &[u32]) -> bool {
    roll.len() % ROLL_ROW == 0 && roll.len() <= ROLL_MOST && rises(roll)
}

/// Whether each voter number is more than the one before it.
fn rises(roll: &[u32]) -> bool {
    for at in (ROLL_ROW..roll.len()).step_by(ROLL_ROW) {
        if roll[at - ROLL_ROW + roll_row::VOTER] >= roll[at + roll_row::VOTER] {
            return false;
        }
    }
    true
}

/// Refusals 3 and up, all but 20.
fn walk(rules: Rules, given: Board) -> Result<History, Refusal> {
    let (board, verdicts) = (given.words, given.verdicts);
    if board.is_empty() || kind(board[0]) == CLOSING {
        return Err(Refusal { number: 3, items: 0 });
    }
    let mut history = History::new((rules.layout.of)(board));
    let curve = history.layout.curve;
    let signature = (rules.layout.signature)(curve);
    let mut place = 0;
    loop {
        let items = history.items();
        let refuse = |number| Err(Refusal { number, items });
        if place == board.len() {
            return refuse(4);
        }
        let head = board[place];
        if kind(head) == CLOSING {
            let number = (head & 0x0fff_ffff) as usize;
            if number != items || place + 1 != board.len() || verdicts.len() > (rules.layout.verdict)(curve) * items {
                return refuse(18);
            }
            return Ok(history);
        }
        if items == MAX_ITEMS {
            return refuse(1);
        }
        if kind_of(code(head)) != Some(kind(head)) {
            return refuse(5);
        }
        if !(rules.layout.count_fits)(history.layout, code(head), count(head)) {
            return refuse(6);
        }
        let length = count(head) + curve.hashed_frame() + signature + curve.widths().address;
        if place + length > board.len() {
            return refuse(4);
        }
        let item = Candidate::at(board, place, curve, signature);
        let checked = check(rules, given, &history, &item);
        let (parent, session) = match checked {
            Ok(found) => found,
            Err(number) => return refuse(number),
        };
        append(rules.layout, &mut history, &item, parent, session);
        establish(rules.sets, &mut history, board, &item);
        place += length;
    }
}

/// Checks 7 to 16 of one item, and 21. Gives the item numbers of its parent and session.
fn check(rules: Rules, given: Board, history: &History, item: &Candidate) -> Result<(usize, Option<usize>), u32> {
    let (board, verdicts) = (given.words, given.verdicts);
    let number = history.items() + 1;
    let (layout, curve) = (rules.layout, history.layout.curve);

    // 7: the address.
    if (layout.seen)(7, (rules.hash)(curve, item.hashed)) != (layout.seen)(7, item.address) {
        return Err(7);
    }
    // 8: the previous item.
    let previous = match item.kind {
        MAIN => history.last_main().map_or(ZEROS, |main| main.address),
        _ => item.parent,
    };
    if (layout.seen)(8, item.previous) != (layout.seen)(8, previous) {
        return Err(8);
    }
    // 9: the parent.
    let parent = find_parent(layout, history, item, number).ok_or(9u32)?;
    // 10: the time.
    let earliest = match item.kind {
        MAIN => history.last_main().map_or(0, |main| main.time),
        _ => history.item(parent).time,
    };
    if item.time < earliest {
        return Err(10);
    }
    let session = match item.code {
        SESSION => Some(number),
        GENESIS => None,
        _ => history.item(parent).session,
    };
    if !in_phase(history, board, item, session) || !track_in_phase(rules, history, board, item, parent) {
        return Err(11);
    }
    if is_second(history, item, parent) {
        return Err(12);
    }
    if !content_fits(rules, history, board, item, session) {
        return Err(13);
    }
    // 21: the roll.
    if !(rules.is_enrolled)(given.roll, item.code, item.content) {
        return Err(21);
    }
    // 14: nine verdict words.
    let length = (layout.verdict)(curve);
    let at = (number - 1) * length;
    if verdicts.len() < at + length {
        return Err(14);
    }
    let verdict = verdicts[at];
    if verdict & !1 != VERDICT << 28 {
        return Err(14);
    }
    // 15: the writer's key.
    if eight(verdicts, at + 1) != writers_key(history, board, item, session) {
        return Err(15);
    }
    // 16: the verdict.
    if verdict & 1 == 0 {
        return Err(16);
    }
    Ok((parent, session))
}

/// The parent's item number, if it is found and as listed.
fn find_parent(layout: LayoutRules, history: &History, item: &Candidate, number: usize) -> Option<usize> {
    let listed = parent_of(item.code);
    let address = (layout.seen)(9, item.parent);
    if listed == Parent::Zeros {
        return (address == ZEROS).then_some(number);
    }
    let addresses = if item.code <= TRACK { &history.main_addresses } else { &history.hidden_addresses };
    let parent = *addresses.get(&address)?;
    let as_listed = match listed {
        Parent::Zeros => false,
        Parent::LatestConfig => history.latest_config == Some(parent),
        Parent::Type(code) => history.item(parent).code == code,
    };
    as_listed.then_some(parent)
}

/// 11: the phases.
fn in_phase(history: &History, board: &[u32], item: &Candidate, session: Option<usize>) -> bool {
    let code = item.code;
    if history.intent && code < INTENT {
        return false;
    }
    if is_voting(code) && history.open_rounds(item.time).next().is_none() {
        return false;
    }
    if code == SESSION && (history.threshold.is_none() || history.authorizer.is_none()) {
        return false;
    }
    if is_voting(code) && code != SESSION {
        let own = session.expect("a voting item has a session");
        let voter = content(board, history.item(own))[0];
        if history.latest_session.get(&voter) != Some(&own) {
            return false;
        }
    }
    if code == INTENT && history.threshold.is_none() {
        return false;
    }
    true
}

/// 11 as well: a voter opens a ballot that has been spoiled. The opening's parent is a verifier, the
/// verifier's a track start, and that one's the ballot. No other hidden item depends on a phase, and a cast
/// on no hidden item.
fn track_in_phase(rules: Rules, history: &History, board: &[u32], item: &Candidate, parent: usize) -> bool {
    match item.code {
        VOTER_OPENING => {
            let track = history.item(parent).parent;
            let ballot = history.item(track).parent;
            (rules.may_open)(&Opening { board, history, ballot, time: item.time })
        }
        CAST => (rules.may_cast)(history, parent),
        _ => true,
    }
}

/// 12: only one.
fn is_second(history: &History, item: &Candidate, parent: usize) -> bool {
    let under = |code: u32| history.has_under(parent, code);
    match item.code {
        GENESIS => history.genesis,
        THRESHOLD => history.threshold.is_some(),
        SERVER_COMMITMENT | BALLOT | EXTRACTION | CONFIRMATION => under(item.code),
        TRACK | VERIFIER | VOTER_OPENING | SERVER_OPENING => under(item.code),
        CAST | SPOIL => under(CAST) || under(SPOIL),
        _ => false,
    }
}

/// 13: the content.
fn content_fits(rules: Rules, history: &History, board: &[u32], item: &Candidate, session: Option<usize>) -> bool {
    let (sets, layout, words) = (rules.sets, rules.layout, item.content);
    let (width, curve) = (history.layout.sets, history.layout.curve);
    let contests_fit = || (sets.is_defined)((sets.set)(width, item.code, words), history.contests);
    match item.code {
        // Only the first genesis comes this far, so that its traits word is the board's.
        GENESIS => words.get(PLAIN_GENESIS).is_none_or(|&traits| (layout.traits_fit)(traits)),
        CONTEST => words[0] < (sets.contests)(width),
        THRESHOLD => {
            let (m, t) = (words[0], words[1]);
            1 <= t && t <= m && m <= 32
        }
        AUTHORIZER => words[0] == 1 || words[0] == 2,
        ROUND => {
            let (start, end) = (sets.round_times)(width, words);
            words[0] <= 15 && contests_fit() && start < end
        }
        SESSION => words[1] >= 1 && contests_fit(),
        VOTER_COMMITMENT | SERVER_COMMITMENT => (layout.commitment_fits)(curve, words),
        BALLOT => {
            let own = history.item(session.expect("a ballot has a session"));
            ballot_fits(rules, history, item, content(board, own))
        }
        EXTRACTION => words == fingerprint(rules, history, board),
        CONFIRMATION => {
            let set = words[0];
            let (m, t) = history.threshold.expect("an extraction follows a threshold");
            let below_m = if m == 32 { u32::MAX } else { (1 << m) - 1 };
            let shares = (layout.trustee)(curve) * set.count_ones() as usize;
            words.len() == 1 + shares && set & !below_m == 0 && set.count_ones() >= t
        }
        _ => true,
    }
}

/// The content of a ballot in a session with this content: as many cryptograms as contests, each contest in the
/// session's set and enabled by an open round.
fn ballot_fits(rules: Rules, history: &History, item: &Candidate, session: &[u32]) -> bool {
    let (sets, layout, words) = (rules.sets, history.layout, item.content);
    let cryptogram = (rules.layout.cryptogram)(layout.curve);
    if words.len() != layout.sets.words() + cryptogram * (sets.cryptograms)(layout, words) {
        return false;
    }
    let contests = (sets.set)(layout.sets, BALLOT, words);
    let allowed = (sets.set)(layout.sets, SESSION, session);
    let mut enabled = Set::EMPTY;
    for round in history.open_rounds(item.time) {
        enabled |= round.contests;
    }
    let mut cryptograms = (sets.behind_set)(layout, words).chunks_exact(cryptogram);
    contests.is_within(allowed)
        && contests.is_within(enabled)
        && cryptograms.all(|words| (rules.layout.cryptogram_fits)(layout.curve, words))
}

/// 21: a session names a voter of the roll, with that voter's weight.
pub fn is_enrolled(roll: &[u32], code: u32, content: &[u32]) -> bool {
    code != SESSION || is_on_roll(roll, content[0], content[1])
}

/// Whether a pair of the roll has this voter and this weight.
pub fn is_on_roll(roll: &[u32], voter: u32, weight: u32) -> bool {
    for pair in roll.chunks_exact(ROLL_ROW) {
        if pair[roll_row::VOTER] == voter && pair[roll_row::WEIGHT] == weight {
            return true;
        }
    }
    false
}

/// The hash over the contents of the counted ballots, in order.
fn fingerprint(rules: Rules, history: &History, board: &[u32]) -> [u32; FINGERPRINT] {
    let mut message = Vec::new();
    for counted in &history.counted {
        message.extend_from_slice(content(board, history.item(counted.ballot)));
    }
    (rules.fingerprint)(history.layout.curve, &message)
}

fn writers_key(history: &History, board: &[u32], item: &Candidate, session: Option<usize>) -> [u32; FINGERPRINT] {
    match writer_of(item.code) {
        // Only the first genesis comes this far, and it is checked under its own key.
        Writer::Administrator if item.code == GENESIS => eight(item.content, 1),
        Writer::Administrator => history.administrator,
        Writer::BallotBox => history.ballot_box,
        Writer::Authorizer => history.authorizer.expect("a session follows an authorizer"),
        Writer::Voter => {
            let own = session.expect("a voter's item has a session");
            eight(content(board, history.item(own)), 2)
        }
        Writer::Verifier => eight(item.content, 0),
    }
}

fn content<'a>(board: &'a [u32], item: &Item) -> &'a [u32] {
    &board[item.place + 1..item.place + 1 + item.count]
}

/// Puts an item that has passed behind the history.
fn append(layout: LayoutRules, history: &mut History, item: &Candidate, parent: usize, session: Option<usize>) {
    let number = history.items() + 1;
    let sought = (layout.seen)(9, item.address);
    history.items.push(Item {
        code: item.code,
        place: item.place,
        count: item.content.len(),
        parent,
        session,
        mains_before: history.mains(),
        time: item.time,
        address: item.address,
        children: 0,
    });
    if item.code != GENESIS {
        history.items[parent - 1].children |= 1 << item.code;
    }
    if item.kind == MAIN {
        history.mains.push(number);
        history.main_addresses.entry(sought).or_insert(number);
    } else {
        history.hidden_addresses.entry(sought).or_insert(number);
    }
    if is_config(item.code) {
        history.latest_config = Some(number);
    }
}

/// What an item establishes by its type; it is the last of the history.
fn establish(sets: SetRules, history: &mut History, board: &[u32], item: &Candidate) {
    let (number, width, words) = (history.items(), history.layout.sets, item.content);
    match item.code {
        GENESIS => {
            history.genesis = true;
            history.administrator = eight(words, 1);
            history.ballot_box = eight(words, 9);
        }
        CONTEST => history.contests |= (sets.one)(width, words[0]),
        THRESHOLD => history.threshold = Some((words[0], words[1])),
        AUTHORIZER => history.authorizer = Some(eight(words, 1)),
        ROUND => {
            let (start, end) = (sets.round_times)(width, words);
            let contests = (sets.set)(width, ROUND, words);
            history.rounds[words[0] as usize] = Some(Round { contests, start, end });
        }
        SESSION => {
            history.latest_session.insert(words[0], number);
        }
        CAST => {
            let Item { parent: ballot, session, .. } = *history.item(number);
            let own = content(board, history.item(session.expect("a cast has a session")));
            let (voter, weight) = (own[0], own[1]);
            history.counted.retain(|c| c.voter != voter);
            history.counted.push(Counted { ballot, voter, weight });
        }
        INTENT => history.intent = true,
        _ => {}
    }
}
