//! Sound boards from a seed: an election played out, with a note of what the audit must report.

use crate::format::*;
use crate::plan::{Address, Link, Plan, Previous, Spec, GOOD};
use crate::random::Random;
use crate::roll::{any_roll, pairs_of, roll_of, voters_of};
use crate::sha256::sha256;

/// What a board shall look like.
#[derive(Clone, Copy, Debug)]
pub struct Shape {
    /// The number of items, reached exactly.
    pub items: usize,
    /// The number of words, reached exactly; none: as it comes.
    pub words: Option<usize>,
    /// How often, in a hundred, contents are long rather than short.
    pub long: usize,
    /// How many voters take part.
    pub voters: usize,
    /// Whether the ballots are extracted at the end.
    pub extraction: bool,
}

/// What a genesis says of traits: nothing, or the word of a layout.
#[derive(Clone, Copy, PartialEq, Eq, Debug)]
pub enum Traits {
    Unsaid,
    Said(Layout),
}

impl Traits {
    pub const ALL: [Traits; 7] = [
        Traits::Unsaid,
        Traits::Said(LAYOUTS[0]),
        Traits::Said(LAYOUTS[1]),
        Traits::Said(LAYOUTS[2]),
        Traits::Said(LAYOUTS[3]),
        Traits::Said(LAYOUTS[4]),
        Traits::Said(LAYOUTS[5]),
    ];

    pub fn any(random: &mut Random) -> Traits {
        let layout = *random.pick(&LAYOUTS);
        Traits::of_layout(layout, random)
    }

    /// Those with which a board has a layout.
    pub fn of_layout(layout: Layout, random: &mut Random) -> Traits {
        match layout {
            Layout::PLAIN if random.chance(70) => Traits::Unsaid,
            _ => Traits::Said(layout),
        }
    }

    pub fn layout(self) -> Layout {
        match self {
            Traits::Unsaid => Layout::PLAIN,
            Traits::Said(layout) => layout,
        }
    }

    /// The traits word, where there is one.
    pub fn word(self) -> Option<u32> {
        match self {
            Traits::Unsaid => None,
            Traits::Said(layout) => Some(layout.traits()),
        }
    }
}

/// An item's index row, all but the place of its head, which is known once the words are laid out.
#[derive(Clone, Copy, Debug)]
pub struct Row {
    /// Item numbers, of the parent and of the session.
    pub parent: u32,
    pub session: u32,
    pub mains_before: u32,
    /// The item number of the cast or spoil under it.
    pub closed_by: u32,
}

impl Row {
    /// The position of the cast or spoil under it.
    pub fn closer(&self) -> Option<usize> {
        (self.closed_by != NO_ITEM).then(|| self.closed_by as usize - 1)
    }
}

/// The position of the ballot that a track hangs on, from an item of the track or the ballot itself.
pub fn ballot_of(items: &[Spec], rows: &[Row], position: usize) -> usize {
    match items[position].code {
        BALLOT => position,
        _ => ballot_of(items, rows, rows[position].parent as usize - 1),
    }
}

/// The audit's answer to a sound board, as known from its making.
#[derive(Clone, Debug, Default)]
pub struct Expected {
    /// One row an item.
    pub rows: Vec<Row>,
    pub mains: usize,
    /// Main number of the ballot, voter, weight: the order is written out, not taken from `format`, so that
    /// a wrong one there is noticed.
    pub ballots: Vec<[u32; 3]>,
}

#[derive(Clone, Debug)]
pub struct Made {
    pub plan: Plan,
    pub expected: Expected,
    pub layout: Layout,
}

impl Made {
    /// Gives a voter another number, if no other voter has it.
    pub fn rename(&mut self, from: u32, to: u32) {
        let mut pairs = pairs_of(&self.plan.roll);
        if voters_of(&self.plan.items).contains_key(&to) {
            return;
        }
        let weight = pairs.remove(&from).expect("a voter of the roll");
        pairs.insert(to, weight);
        self.plan.roll = roll_of(pairs);
        for session in self.plan.items.iter_mut().filter(|s| s.code == SESSION && s.content[0] == from) {
            session.content[0] = to;
        }
        for row in self.expected.ballots.iter_mut().filter(|row| row[1] == from) {
            row[1] = to;
        }
    }
}

#[derive(Clone, Copy)]
struct Round {
    number: u32,
    contests: Set,
    start: u64,
    end: u64,
}

struct Session {
    voter: u32,
    weight: u32,
    key: [u32; FINGERPRINT],
    contests: Set,
    position: usize,
}

/// A board in the making. `crowded` makes boards of another kind with it.
pub(crate) struct Maker<'a> {
    pub(crate) random: &'a mut Random,
    shape: Shape,
    traits: Traits,
    pub(crate) layout: Layout,
    pub(crate) items: Vec<Spec>,
    words: usize,
    expected: Expected,
    /// The time of the last main item.
    pub(crate) now: u64,
    pub(crate) administrator: [u32; FINGERPRINT],
    pub(crate) ballot_box: [u32; FINGERPRINT],
    pub(crate) authorizer: [u32; FINGERPRINT],
    pub(crate) contests: Set,
    rounds: Vec<Round>,
    trustees: u32,
    threshold: u32,
    pub(crate) config: usize,
    /// Whether an intent to extract stands.
    ended: bool,
    voters: Vec<u32>,
    sessions: Vec<Session>,
    /// Positions of items that may still get a child of the type that follows.
    commitments: Vec<usize>,
    answered: Vec<usize>,
    undecided: Vec<usize>,
    untracked: Vec<usize>,
    tracks: Vec<usize>,
    verifiers: Vec<usize>,
    opened: Vec<usize>,
    intents: Vec<usize>,
    extractions: Vec<usize>,
    /// Counted casts: position of the ballot, voter, weight.
    pub(crate) counted: Vec<(usize, u32, u32)>,
}

/// A random sound board of this shape, with no word of traits.
pub fn make(random: &mut Random, shape: Shape) -> Made {
    make_with(random, shape, Traits::Unsaid)
}

/// The same with these traits.
pub fn make_with(random: &mut Random, shape: Shape, traits: Traits) -> Made {
    for _ in 0..1_000 {
        if let Some(made) = try_make(random, shape, traits) {
            return made;
        }
    }
    panic!("no board of this shape can be made: {shape:?}, {traits:?}");
}

/// Wide boards of so many items have many contests, at times all 256.
const MANY_ITEMS: usize = 300;

/// A shape for a board of many contests, where sets are wide.
pub fn many_contests(random: &mut Random) -> Shape {
    Shape {
        items: random.between(MANY_ITEMS, MANY_ITEMS + 100),
        words: None,
        long: *random.pick(&[5, 60, 100]),
        voters: random.between(1, 9),
        extraction: random.chance(60),
    }
}

/// A shape for a board of up to `most` items.
pub fn any_shape(random: &mut Random, most: usize) -> Shape {
    let items = if random.chance(15) { random.between(1, 14.min(most)) } else { random.between(1, most) };
    Shape {
        items,
        words: None,
        long: *random.pick(&[0, 5, 20, 60]),
        voters: random.between(1, 2 + items / 12),
        extraction: random.chance(60),
    }
}

fn try_make(random: &mut Random, shape: Shape, traits: Traits) -> Option<Made> {
    let mut maker = Maker::new(random, shape, traits);
    for _ in 0..shape.voters.max(1) {
        let voter = if maker.random.chance(80) { maker.random.below(1000) as u32 } else { maker.random.word() };
        maker.voters.push(voter);
    }
    maker.run();
    if maker.items.len() != shape.items || shape.words.is_some_and(|w| w != maker.words) {
        return None;
    }
    Some(maker.finish())
}

/// The time of the genesis: 0, near it, of these years, or soon to need more than 32 bits.
fn first_time(random: &mut Random) -> u64 {
    match random.below(4) {
        0 => 0,
        1 => random.below(5) as u64,
        2 => 1_790_000_000_000 + random.below(1_000_000_000) as u64,
        _ => (1 << 32) - random.below(2_000) as u64,
    }
}

impl Maker<'_> {
    pub(crate) fn new(random: &mut Random, shape: Shape, traits: Traits) -> Maker<'_> {
        let now = first_time(random);
        let mut maker = Maker {
            shape,
            traits,
            layout: traits.layout(),
            items: Vec::new(),
            words: 1,
            expected: Expected::default(),
            now,
            administrator: random.eight(),
            ballot_box: random.eight(),
            authorizer: NO_KEY,
            contests: Set::EMPTY,
            rounds: Vec::new(),
            trustees: 0,
            threshold: 0,
            config: 0,
            ended: false,
            voters: Vec::new(),
            sessions: Vec::new(),
            commitments: Vec::new(),
            answered: Vec::new(),
            undecided: Vec::new(),
            untracked: Vec::new(),
            tracks: Vec::new(),
            verifiers: Vec::new(),
            opened: Vec::new(),
            intents: Vec::new(),
            extractions: Vec::new(),
            counted: Vec::new(),
            random,
        };
        if maker.random.chance(4) {
            maker.ballot_box = maker.administrator;
        }
        maker
    }

    pub(crate) fn finish(self) -> Made {
        let mut expected = self.expected;
        for &(ballot, voter, weight) in &self.counted {
            expected.ballots.push([expected.rows[ballot].mains_before + 1, voter, weight]);
        }
        let roll = any_roll(&voters_of(&self.items), self.random);
        Made { plan: Plan::new(self.items, roll), expected, layout: self.layout }
    }

    fn run(&mut self) {
        self.genesis();
        // The extraction needs three items at the least, and an exact size some texts before it.
        let at_end = if self.shape.extraction { self.random.between(3, 6) } else { 0 };
        let texts = if self.shape.words.is_some() { 24 } else { 0 };
        let before_end = self.shape.items.saturating_sub(at_end + texts);
        self.set_up(before_end);
        while self.items.len() < before_end {
            self.step();
        }
        if let Some(words) = self.shape.words {
            let extraction = if at_end > 0 { self.extraction_words(at_end) } else { 0 };
            self.fill(texts, words.saturating_sub(extraction));
        }
        if at_end > 0 && self.threshold > 0 {
            self.extract(at_end);
        }
        while self.items.len() < self.shape.items && self.shape.words.is_none() {
            if !self.ended {
                self.step();
            } else if !self.hidden_step() {
                self.intent();
            }
        }
    }

    fn length(&mut self, least: usize, most: usize) -> usize {
        if self.random.chance(self.long_now()) {
            self.random.between(least, most)
        } else {
            self.random.between(least, (least + 3).min(most))
        }
    }

    /// Where an exact size is wanted, long contents are chosen by how many words are left an item.
    fn long_now(&self) -> usize {
        match self.shape.words {
            None => self.shape.long,
            Some(words) => {
                let items_left = self.shape.items.saturating_sub(self.items.len()).max(1);
                let words_left = words.saturating_sub(self.words);
                if words_left / items_left > self.frame() + 42 {
                    100
                } else {
                    0
                }
            }
        }
    }

    /// The words of an item beside its content.
    fn frame(&self) -> usize {
        self.layout.curve.frame()
    }

    /// A time for the next main item: often the same, mostly a little later.
    pub(crate) fn later(&mut self) -> u64 {
        let step = match self.random.below(10) {
            0..=3 => 0,
            4..=8 => self.random.between(1, 50) as u64,
            _ => self.random.between(100, 5_000) as u64,
        };
        self.now + step
    }

    pub(crate) fn add(
        &mut self,
        code: u32,
        parent: usize,
        content: Vec<u32>,
        time: u64,
        key: [u32; FINGERPRINT],
    ) -> usize {
        let position = self.items.len();
        let kind = kind_of(code).expect("a listed type");
        let session = match code {
            SESSION => position as u32 + 1,
            GENESIS => NO_ITEM,
            _ => self.expected.rows[parent].session,
        };
        let mains_before = self.expected.mains as u32;
        self.expected.rows.push(Row { parent: parent as u32 + 1, session, mains_before, closed_by: NO_ITEM });
        if matches!(code, CAST | SPOIL) {
            self.expected.rows[parent].closed_by = position as u32 + 1;
        }
        if kind == MAIN {
            self.expected.mains += 1;
            self.now = time;
        }
        self.words += content.len() + self.frame();
        let signature = self.signature();
        self.items.push(Spec {
            kind,
            code,
            count: None,
            content,
            parent: if code == GENESIS { Link::Zeros } else { Link::Item(parent) },
            previous: Previous::Right,
            time,
            signature,
            signature_words: None,
            address: Address::Right,
            verdict: GOOD,
            key,
        });
        if is_config(code) {
            self.config = position;
        }
        position
    }

    /// Some words for a signature; behind those that the board's have, zeros.
    fn signature(&mut self) -> [u32; WIDEST_SIGNATURE] {
        let length = self.layout.curve.widths().signature;
        std::array::from_fn(|at| if at < length { self.random.word() } else { 0 })
    }

    fn configure(&mut self, code: u32, content: Vec<u32>) {
        let time = self.later();
        self.add(code, self.config, content, time, self.administrator);
    }

    pub(crate) fn genesis(&mut self) {
        let mut content = vec![self.random.word()];
        content.extend(self.administrator);
        content.extend(self.ballot_box);
        content.extend(self.traits.word());
        self.add(GENESIS, 0, content, self.now, self.administrator);
    }

    /// Contests, threshold, authorizer and a round, in some order, as far as they go.
    fn set_up(&mut self, most: usize) {
        let contests = self.contest_count();
        let mut wanted = vec![THRESHOLD, AUTHORIZER];
        wanted.extend(vec![CONTEST; contests]);
        for _ in 0..self.random.below(3) {
            wanted.push(*self.random.pick(&[TEXT, CONTEST, AUTHORIZER]));
        }
        while !wanted.is_empty() && self.items.len() < most {
            let at = self.random.below(wanted.len());
            match wanted.swap_remove(at) {
                THRESHOLD => self.add_threshold(),
                AUTHORIZER => self.add_authorizer(),
                CONTEST => self.add_contest(),
                _ => self.add_text(),
            }
        }
        for _ in 0..self.random.between(1, 3) {
            if self.items.len() < most && !self.contests.is_empty() {
                self.add_round(None);
            }
        }
    }

    /// How many contests are set up. Wide boards often have many for their items.
    fn contest_count(&mut self) -> usize {
        let many = self.shape.long >= 60 || self.shape.words.is_some();
        let contests = if many { self.random.between(20, 32) } else { self.random.between(1, 6) };
        let most = self.shape.items / 10;
        match self.layout.sets {
            Width::Wide if self.shape.items >= MANY_ITEMS => {
                let some = self.random.between(40, 255);
                (*self.random.pick(&[256, some])).min(self.shape.items - 44)
            }
            Width::Wide if many || self.random.chance(40) => self.random.between(2, 4 + 3 * most),
            _ => contests.min(1 + most),
        }
    }

    fn add_text(&mut self) {
        let length = self.length(0, 64);
        let content = self.random.words(length);
        self.configure(TEXT, content);
    }

    pub(crate) fn add_contest(&mut self) {
        let number = self.contest_number();
        let mut content = vec![number];
        let length = self.length(0, 64);
        content.extend(self.random.words(length));
        self.configure(CONTEST, content);
        self.contests |= Set::one(number);
    }

    /// All contests that a board of this width can have, in some order, without a text.
    pub(crate) fn add_all_contests(&mut self) {
        let mut numbers: Vec<u32> = Set::all(self.layout.sets).numbers().collect();
        self.random.shuffle(&mut numbers);
        for number in numbers {
            self.configure(CONTEST, vec![number]);
        }
        self.contests = Set::all(self.layout.sets);
    }

    /// A number for a round that no item before has; 16 of them can be asked for.
    pub(crate) fn new_round_number(&mut self) -> u32 {
        let numbers: Vec<u32> = (0..16).filter(|n| !self.has_round(*n)).collect();
        *self.random.pick(&numbers)
    }

    fn has_round(&self, number: u32) -> bool {
        self.items.iter().any(|s| s.code == ROUND && s.content[0] == number)
    }

    /// A number for a contest: mostly a new one, and on wide boards often one at an end of a set's word.
    fn contest_number(&mut self) -> u32 {
        let new = Set::all(self.layout.sets).minus(self.contests);
        if self.random.chance(70) && !new.is_empty() {
            let ends = Set::at_ends() & new;
            let at_end = self.layout.sets == Width::Wide && !ends.is_empty() && self.random.chance(50);
            self.random.contest(if at_end { ends } else { new })
        } else {
            self.random.below(self.layout.sets.contests() as usize) as u32
        }
    }

    pub(crate) fn add_threshold(&mut self) {
        let m = if self.random.chance(30) { self.random.between(1, 32) } else { self.random.between(1, 7) };
        let t = self.random.between(1, m);
        (self.trustees, self.threshold) = (m as u32, t as u32);
        let mut content = vec![m as u32, t as u32];
        content.extend(self.random.eight());
        self.configure(THRESHOLD, content);
    }

    pub(crate) fn add_authorizer(&mut self) {
        self.authorizer = self.random.eight();
        let mut content = vec![self.random.between(1, 2) as u32];
        content.extend(self.authorizer);
        self.configure(AUTHORIZER, content);
    }

    /// A round with some of the contests, or with all of those given.
    fn add_round(&mut self, with: Option<Set>) {
        let time = self.later();
        let number = match self.random.below(4) {
            0 if !self.rounds.is_empty() => self.random.pick(&self.rounds).number,
            _ => self.random.below(16) as u32,
        };
        let contests = with.unwrap_or(Set::EMPTY) | self.random.contests(self.contests);
        let start = match self.random.below(6) {
            0 => 0,
            1 => time + self.random.below(100) as u64,
            2 => time.saturating_sub(self.random.below(1 << 20) as u64),
            _ => time,
        };
        let end = match self.random.below(8) {
            0 => u64::MAX,
            1 => start + 1 + self.random.below(200) as u64,
            2 => time + (1 << 33),
            _ => start.max(time) + self.random.between(1_000, 1_000_000) as u64,
        };
        let content = round_content(self.layout.sets, number, contests, start, end);
        self.add(ROUND, self.config, content, time, self.administrator);
        self.rounds.retain(|r| r.number != number);
        self.rounds.push(Round { number, contests, start, end });
    }

    fn enabled(&self, time: u64) -> Set {
        let open = self.rounds.iter().filter(|r| r.start <= time && time < r.end);
        open.fold(Set::EMPTY, |set, r| set | r.contests)
    }

    /// A time at which a round is open; none where that takes a new round.
    fn voting_time(&mut self) -> Option<u64> {
        let mut times = vec![self.later(), self.later(), self.now];
        if self.random.chance(3) {
            // The first and the last moment of a round.
            let round = *self.random.pick(&self.rounds);
            times = vec![round.start, round.end - 1];
            times.retain(|&t| t < self.now + (1 << 34));
        }
        times.retain(|&t| t >= self.now && !self.enabled(t).is_empty());
        if times.is_empty() {
            None
        } else {
            Some(*self.random.pick(&times))
        }
    }

    /// One more item of the voting phase.
    fn step(&mut self) {
        let ready = self.threshold > 0 && self.authorizer != NO_KEY && !self.contests.is_empty();
        let choice = self.random.below(100);
        if choice < 3 || !ready {
            match self.random.below(4) {
                0 => self.add_contest(),
                1 if self.threshold > 0 => self.add_authorizer(),
                2 if !self.contests.is_empty() => self.add_round(None),
                _ => self.add_text(),
            }
            return;
        }
        // A spoiled ballot is often opened without delay.
        let hidden = if self.items.last().is_some_and(|s| s.code == SPOIL) { 60 } else { 18 };
        if choice < hidden && self.hidden_step() {
            return;
        }
        if self.rounds.is_empty() {
            return self.add_round(None);
        }
        let Some(time) = self.voting_time() else {
            return self.add_round(None);
        };
        match self.random.below(100) {
            0..=34 if !self.undecided.is_empty() => self.decide(time),
            0..=54 if !self.answered.is_empty() => self.ballot(time),
            0..=74 if !self.commitments.is_empty() => self.answer(time),
            0..=89 if !self.sessions.is_empty() => self.commit(time),
            _ => self.session(time),
        }
    }

    fn session(&mut self, time: u64) {
        let voter = *self.random.pick(&self.voters);
        let drawn = match self.random.below(8) {
            0 => u32::MAX,
            1 => self.random.word() | 1,
            _ => self.random.between(1, 9) as u32,
        };
        // The roll has one weight for each voter.
        let earlier = self.sessions.iter().find(|s| s.voter == voter);
        let weight = earlier.map_or(drawn, |s| s.weight);
        let key = match self.random.below(12) {
            0 if !self.sessions.is_empty() => self.random.pick(&self.sessions).key,
            _ => self.random.eight(),
        };
        let all = self.random.chance(40) || self.long_now() == 100;
        let contests = if all { self.contests } else { self.random.contests(self.contests) };
        let mut content = vec![voter, weight];
        content.extend(key);
        content.extend(self.random.eight());
        content.extend(contests.words(self.layout.sets));
        let position = self.add(SESSION, self.config, content, time, self.authorizer);
        // The voter's earlier session is overwritten: nothing may follow in it.
        self.sessions.retain(|s| s.voter != voter);
        self.sessions.push(Session { voter, weight, key, contests, position });
        let live: Vec<u32> = self.sessions.iter().map(|s| s.position as u32 + 1).collect();
        let rows = &self.expected.rows;
        for list in [&mut self.commitments, &mut self.answered, &mut self.undecided] {
            list.retain(|&i| live.contains(&rows[i].session));
        }
    }

    /// The session that an item is in.
    fn session_of(&self, position: usize) -> usize {
        let number = self.expected.rows[position].session as usize;
        self.sessions.iter().position(|s| s.position + 1 == number).expect("the session is live")
    }

    pub(crate) fn commitment(&mut self) -> Vec<u32> {
        let widths = self.layout.curve.widths();
        let mut content = self.random.words(widths.commitment - 1);
        content.push(self.random.word_with_zeros(widths.commitment_zeros));
        content
    }

    fn commit(&mut self, time: u64) {
        let at = self.random.below(self.sessions.len());
        let content = self.commitment();
        let (position, key) = (self.sessions[at].position, self.sessions[at].key);
        let added = self.add(VOTER_COMMITMENT, position, content, time, key);
        self.commitments.push(added);
    }

    fn take(random: &mut Random, list: &mut Vec<usize>) -> usize {
        let at = random.below(list.len());
        list.swap_remove(at)
    }

    fn answer(&mut self, time: u64) {
        let parent = Self::take(self.random, &mut self.commitments);
        let content = self.commitment();
        let added = self.add(SERVER_COMMITMENT, parent, content, time, self.ballot_box);
        self.answered.push(added);
    }

    fn ballot(&mut self, time: u64) {
        let parent = *self.random.pick(&self.answered);
        let session = self.session_of(parent);
        let (key, of_session) = (self.sessions[session].key, self.sessions[session].contests);
        let possible = of_session & self.enabled(time);
        if possible.is_empty() {
            return self.add_round(Some(of_session));
        }
        self.answered.retain(|&i| i != parent);
        let contests = self.chosen(possible);
        let content = self.ballot_content(contests);
        let added = self.add(BALLOT, parent, content, time, key);
        self.undecided.push(added);
        self.untracked.push(added);
    }

    /// The contests of a ballot, of those that are possible.
    fn chosen(&mut self, possible: Set) -> Set {
        let mut contests = match self.long_now() {
            100 => possible,
            long if self.random.chance(long) => self.random.contests(possible),
            _ if self.random.chance(70) => Set::one(self.random.contest(possible)),
            _ => {
                let some = self.random.contests(possible) & self.random.contests(possible);
                some | Set::one(self.random.contest(possible))
            }
        };
        if self.layout.sets == Width::Wide && self.random.chance(self.shape.long / 4) {
            contests = possible;
        }
        // Some words are left for the content of each item to come.
        let items_left = self.shape.items.saturating_sub(self.items.len());
        let left_out = self.words + (self.frame() + 57) * items_left;
        let words_left = self.shape.words.unwrap_or(MAX_WORDS).saturating_sub(left_out);
        let most = (words_left / self.layout.curve.widths().cryptogram).max(1);
        while contests.count() > most {
            contests = contests.minus(Set::one(self.random.contest(contests)));
        }
        contests
    }

    /// The content of a ballot with these contests.
    pub(crate) fn ballot_content(&mut self, contests: Set) -> Vec<u32> {
        let mut content = contests.words(self.layout.sets).to_vec();
        for _ in 0..contests.count() {
            content.extend(self.random.words(self.layout.curve.widths().cryptogram - 1));
            content.push(self.random.word_with_zeros(CRYPTOGRAM_ZEROS));
        }
        content
    }

    fn decide(&mut self, time: u64) {
        let ballot = Self::take(self.random, &mut self.undecided);
        let session = self.session_of(ballot);
        let Session { voter, weight, key, .. } = self.sessions[session];
        if self.random.chance(70) {
            self.add(CAST, ballot, Vec::new(), time, key);
            self.counted.retain(|c| c.1 != voter);
            self.counted.push((ballot, voter, weight));
        } else {
            self.add(SPOIL, ballot, Vec::new(), time, key);
        }
    }

    /// Whether the ballot that a track hangs on is spoiled, from an item of the track or the ballot itself.
    fn is_spoiled(&self, position: usize) -> bool {
        let ballot = ballot_of(&self.items, &self.expected.rows, position);
        self.expected.rows[ballot].closer().is_some_and(|closer| self.items[closer].code == SPOIL)
    }

    /// Items that may get a child of a hidden track, by the child's stage in it. A voter opens no ballot
    /// but a spoiled one.
    fn tracked(&mut self) -> [Vec<usize>; 4] {
        let openable = self.verifiers.iter().copied().filter(|&verifier| self.is_spoiled(verifier)).collect();
        let mut lists = [self.untracked.clone(), self.tracks.clone(), openable, self.opened.clone()];
        // Half of the time a spoiled ballot's track goes on, so that openings are not rare.
        if self.random.chance(50) && lists.iter().flatten().any(|&parent| self.is_spoiled(parent)) {
            lists = lists.map(|list| list.into_iter().filter(|&parent| self.is_spoiled(parent)).collect());
        }
        lists
    }

    /// One more item of a hidden track; false where none can follow.
    fn hidden_step(&mut self) -> bool {
        let lists = self.tracked();
        let possible: Vec<usize> = (0..4).filter(|&stage| !lists[stage].is_empty()).collect();
        if possible.is_empty() {
            return false;
        }
        let stage = *self.random.pick(&possible);
        let parent = *self.random.pick(&lists[stage]);
        let waiting = match stage {
            0 => &mut self.untracked,
            1 => &mut self.tracks,
            2 => &mut self.verifiers,
            _ => &mut self.opened,
        };
        waiting.retain(|&position| position != parent);
        let earliest = self.items[parent].time;
        // Often so early that a spoil before it has a later time.
        let time = match self.random.below(6) {
            0 | 1 => earliest,
            2 => earliest + self.random.below(20) as u64,
            3 => earliest.saturating_add(1 << 40),
            _ => earliest + self.random.below(5_000) as u64,
        };
        match stage {
            0 => {
                let added = self.add(TRACK, parent, Vec::new(), time, self.ballot_box);
                self.tracks.push(added);
            }
            1 => {
                let key = self.random.eight();
                let added = self.add(VERIFIER, parent, key.to_vec(), time, key);
                self.verifiers.push(added);
            }
            2 => {
                let session = self.expected.rows[parent].session as usize - 1;
                let key = eight(&self.items[session].content, 2);
                let length = self.length(1, 256);
                let content = self.random.words(length);
                let added = self.add(VOTER_OPENING, parent, content, time, key);
                self.opened.push(added);
            }
            _ => {
                let length = self.length(1, 256);
                let content = self.random.words(length);
                self.add(SERVER_OPENING, parent, content, time, self.ballot_box);
            }
        }
        true
    }

    /// Texts that bring the board to an exact number of words.
    fn fill(&mut self, texts: usize, words: usize) {
        for left in (1..=texts).rev() {
            let Some(room) = words.checked_sub(self.words) else { return };
            let share = room / left;
            if share < self.frame() || share > self.frame() + 64 {
                return;
            }
            let content = self.random.words(share - self.frame());
            self.configure(TEXT, content);
        }
    }

    /// The words that `extract` will add where a size is exact: no hidden items, least sets.
    fn extraction_words(&self, items: usize) -> usize {
        items * self.frame() + FINGERPRINT + 1 + TRUSTEE * self.threshold as usize
    }

    pub(crate) fn intent(&mut self) {
        let time = self.later();
        let added = self.add(INTENT, self.config, Vec::new(), time, self.administrator);
        self.intents.push(added);
        self.ended = true;
    }

    fn extract(&mut self, items: usize) {
        let exact = self.shape.words.is_some();
        let end = self.items.len() + items;
        if exact {
            for _ in 3..items {
                self.intent();
            }
        }
        self.intent();
        while self.items.len() < end {
            match self.random.below(if exact { 2 } else { 4 }) {
                0 if !self.extractions.is_empty() => self.confirm(exact),
                0 | 1 if !self.intents.is_empty() && (!exact || self.items.len() + 2 == end) => self.extraction(),
                2 => {
                    self.hidden_step();
                }
                3 => self.intent(),
                _ => {}
            }
        }
    }

    pub(crate) fn extraction(&mut self) {
        let parent = Self::take(self.random, &mut self.intents);
        let mut message = Vec::new();
        for &(ballot, _, _) in &self.counted {
            message.extend_from_slice(&self.items[ballot].content);
        }
        let content = sha256(&message).to_vec();
        let time = self.later();
        let added = self.add(EXTRACTION, parent, content, time, self.ballot_box);
        self.extractions.push(added);
    }

    pub(crate) fn confirm(&mut self, least: bool) {
        let parent = Self::take(self.random, &mut self.extractions);
        let below_m = if self.trustees == 32 { u32::MAX } else { (1 << self.trustees) - 1 };
        let mut set = if least { 0 } else { self.random.subset(below_m) };
        while set.count_ones() < self.threshold {
            set |= self.random.bit(below_m & !set);
        }
        let mut content = vec![set];
        content.extend(self.random.words(TRUSTEE * set.count_ones() as usize));
        let time = self.later();
        self.add(CONFIRMATION, parent, content, time, self.administrator);
    }
}
