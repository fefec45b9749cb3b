//! A watcher's notes for a board, of every sort, and whether they agree as far as their making tells it.

use crate::calls::places;
use crate::checks::{Case, Known};
use crate::format::*;
use crate::notes::{Agreement, Reason};
use crate::presented::{any_ending, Ending};
use crate::random::Random;

/// What a note is.
#[derive(Clone, Copy, PartialEq, Eq, Debug)]
pub enum Sort {
    /// Right: with the time of its main item, a later one, one with a greater high word and a low word of 0, or the latest
    /// that there is.
    SameTime,
    Later,
    LaterHigh,
    Latest,
    /// With the address of a hidden item, of none, or of a main item with a bit turned over.
    Hidden,
    Nothing,
    Changed,
    /// A right note with its address before its time, or with its words moved by one.
    AddressFirst,
    Shifted,
    /// With the main item before that of the note before, or any earlier one.
    Back,
    FarBack,
    /// With a time one less than its item's, or with a lesser high word and a greater low word.
    OneLess,
    HighLess,
    /// Several faults at once: an earlier main item and time 0; a hidden item and time 0.
    BackAndEarly,
    HiddenAndEarly,
}

/// The sorts that disagree.
const FAULTS: [Sort; 11] = [
    Sort::Hidden,
    Sort::Nothing,
    Sort::Changed,
    Sort::AddressFirst,
    Sort::Shifted,
    Sort::Back,
    Sort::FarBack,
    Sort::OneLess,
    Sort::HighLess,
    Sort::BackAndEarly,
    Sort::HiddenAndEarly,
];

impl Sort {
    /// Why such a note disagrees; none where it is right.
    pub fn reason(self) -> Option<Reason> {
        match self {
            Sort::SameTime | Sort::Later | Sort::LaterHigh | Sort::Latest => None,
            Sort::Back | Sort::FarBack | Sort::BackAndEarly => Some(Reason::OutOfOrder),
            Sort::OneLess | Sort::HighLess => Some(Reason::TooEarly),
            _ => Some(Reason::NoMainItem),
        }
    }
}

pub struct Noted {
    pub notes: Vec<u32>,
    /// Of each note, up to where they end otherwise.
    pub sorts: Vec<Sort>,
    pub ending: Ending,
    /// Whether two notes in a row are of one main item, and whether a time is less than that of the note before.
    pub repeated: bool,
    pub falling: bool,
    /// Whether there is a note for each main item.
    pub of_each: bool,
    /// Whether they agree, if the board is sound and there are no words but whole notes.
    pub agreement: Option<Agreement>,
    /// The refusal before the audit, as far as it is known.
    pub refusal: Option<u32>,
}

impl Noted {
    /// Any notes for a case.
    pub fn new(case: &Case, random: &mut Random) -> Noted {
        let items = Items::new(&case.words);
        if random.chance(3) && !items.parents.is_empty() {
            return Noted::of_words(items.inside(random));
        }
        let walk = items.walk(random);
        let made = items.notes_of(&walk, random);
        let mut noted = Noted::of_words(Vec::new());
        noted.ending = any_ending(random);
        noted.lay(&made, items.curve, random);
        noted.sorts = made.iter().map(|note| note.sort).collect();
        noted.repeated = made.windows(2).any(|two| two[0].main.is_some() && two[0].main == two[1].main);
        noted.falling = made.windows(2).any(|two| two[1].time < two[0].time);
        noted.of_each = !walk.is_empty() && walk.iter().copied().eq(0..items.mains.len());
        let first = made.iter().position(|note| note.sort.reason().is_some());
        let agreement = match first.and_then(|at| Some((at, made[at].sort.reason()?))) {
            Some((at, reason)) => Agreement::Disagrees(at as u32 + 1, reason),
            None => Agreement::AllAgree,
        };
        let sound = matches!(case.known, Known::Sound(..)) && noted.ending == Ending::Whole;
        noted.agreement = (sound && made.len() <= 1_024).then_some(agreement);
        noted.refusal = match noted.ending {
            Ending::Missing | Ending::TooMany => Some(23),
            Ending::Whole if made.len() > 1_024 => Some(23),
            _ => None,
        };
        noted
    }

    /// Right notes of the main items of a board, each with its item's time; of some in their order where there are more
    /// than there may be notes.
    pub fn of_all_mains(words: &[u32]) -> Noted {
        let items = Items::new(words);
        let step = items.mains.len().div_ceil(MAX_NOTES).max(1);
        let mains = items.mains.iter().rev().step_by(step).rev();
        Noted::of_words(mains.flat_map(|main| note_words(main.time, main.address)).collect())
    }

    /// These words, of which nothing is known.
    pub fn of_words(notes: Vec<u32>) -> Noted {
        Noted {
            notes,
            sorts: Vec::new(),
            ending: Ending::Whole,
            repeated: false,
            falling: false,
            of_each: false,
            agreement: None,
            refusal: None,
        }
    }

    /// Puts the words of the notes one behind the other, and ends them.
    fn lay(&mut self, made: &[Note], curve: Curve, random: &mut Random) {
        let other = *random.pick(&CURVES);
        if self.ending == Ending::OtherWidth && other != curve {
            return self.lay_as(made, curve, other, random);
        }
        self.notes = made.iter().flat_map(|note| &note.words).copied().collect();
        let some = random.between(1, curve.note() - 1);
        match self.ending {
            Ending::Missing if !made.is_empty() => self.notes.truncate(self.notes.len() - some),
            Ending::TooMany => self.notes.extend(random.words(some)),
            _ => self.ending = Ending::Whole,
        }
    }

    /// The same, each as wide as on another curve. At times they are as many as make whole notes by accident.
    fn lay_as(&mut self, made: &[Note], curve: Curve, other: Curve, random: &mut Random) {
        for note in made {
            let mut words = note.words.clone();
            words.resize(other.note(), 0);
            self.notes.extend(words);
        }
        let whole = |count: usize| count * other.note() % curve.note() == 0;
        if random.chance(50) && !made.is_empty() {
            let count = (made.len()..).find(|&count| whole(count)).expect("some number is whole");
            let first = self.notes[..other.note()].to_vec();
            self.notes.extend(first.repeat(count - made.len()));
        }
    }
}

/// A note, and the place of its main item among the main items, where it has one.
struct Note {
    sort: Sort,
    words: Vec<u32>,
    time: u64,
    main: Option<usize>,
}

pub fn note_words(time: u64, address: &[u32]) -> Vec<u32> {
    [&[(time >> 32) as u32, time as u32], address].concat()
}

/// A main item as a watcher sees it.
struct Main<'a> {
    address: &'a [u32],
    time: u64,
}

/// The items of a board, as far as a walk over the heads goes.
struct Items<'a> {
    words: &'a [u32],
    curve: Curve,
    mains: Vec<Main<'a>>,
    hidden: Vec<&'a [u32]>,
    /// Where the parent fields stand that have two words before them.
    parents: Vec<usize>,
}

impl<'a> Items<'a> {
    fn new(words: &'a [u32]) -> Items<'a> {
        let curve = Layout::of(words).curve;
        let mut items = Items { words, curve, mains: Vec::new(), hidden: Vec::new(), parents: Vec::new() };
        for place in places(words) {
            let end = place + count(words[place]) + curve.frame();
            if end > words.len() {
                break;
            }
            let address = &words[end - curve.widths().address..end];
            match kind(words[place]) {
                MAIN => {
                    let time = time(words, end - curve.receipt() - 2);
                    items.mains.push(Main { address, time });
                }
                _ => items.hidden.push(address),
            }
            if place > 0 {
                items.parents.push(place + 1 + count(words[place]));
            }
        }
        items
    }

    /// A note of the board's own words: a parent field and the two words before it.
    fn inside(&self, random: &mut Random) -> Vec<u32> {
        let parent = *random.pick(&self.parents);
        self.words[parent - 2..parent + self.curve.widths().address].to_vec()
    }

    /// The places of the main items that are noted, rising: any, each once, or one again and again.
    fn walk(&self, random: &mut Random) -> Vec<usize> {
        let most = self.mains.len();
        if most == 0 {
            return vec![0; how_many(random)];
        }
        if random.chance(12) {
            return (0..most).collect();
        }
        let count = how_many(random);
        let (first, last) = match random.below(8) {
            0 => (0, 0),
            1 => (most - 1, most - 1),
            2 => (most.saturating_sub(2), most - 1),
            _ => (0, most - 1),
        };
        let mut walk: Vec<usize> = (0..count).map(|_| random.between(first, last)).collect();
        walk.sort_unstable();
        walk
    }

    /// Notes of these main items, at times with one fault or with several.
    fn notes_of(&self, walk: &[usize], random: &mut Random) -> Vec<Note> {
        let faults = match random.below(10) {
            _ if walk.is_empty() => 0,
            0..=3 => 0,
            4..=7 => 1,
            _ => random.between(2, 6),
        };
        let mut faulty: Vec<usize> = (0..faults).map(|_| random.below(walk.len())).collect();
        // Often the first or the last.
        if faults > 0 && random.chance(30) {
            faulty[0] = *random.pick(&[0, walk.len() - 1]);
        }
        let falls = random.chance(15);
        let last = self.last_time();
        let mut made: Vec<Note> = Vec::new();
        for (at, &main) in walk.iter().enumerate() {
            let before = made.last().and_then(|note| note.main);
            made.push(match faulty.contains(&at) || self.mains.is_empty() {
                true => self.faulty_note(*random.pick(&FAULTS), main, before, random),
                // A time that falls from note to note, and is never too early.
                false if falls => self.note_at(Sort::Later, main, last.saturating_add((walk.len() - at) as u64)),
                false => self.right_note(main, random),
            });
        }
        made
    }

    fn last_time(&self) -> u64 {
        self.mains.iter().map(|main| main.time).max().unwrap_or(0)
    }

    fn note_at(&self, sort: Sort, main: usize, time: u64) -> Note {
        Note { sort, words: note_words(time, self.mains[main].address), time, main: Some(main) }
    }

    fn right_note(&self, main: usize, random: &mut Random) -> Note {
        let time = self.mains[main].time;
        let (sort, time) = match random.below(10) {
            0..=3 => (Sort::SameTime, time),
            4 => (Sort::LaterHigh, ((time >> 32) + 1) << 32),
            5 if random.chance(30) => (Sort::Latest, u64::MAX),
            6 => (Sort::Later, time.saturating_add(1)),
            _ => (Sort::Later, time.saturating_add(random.between(1, 5_000) as u64)),
        };
        self.note_at(sort, main, time)
    }

    /// A note with a fault of this sort, or of another where the board or the note before has no place for it. The main
    /// item is not earlier than that of the note before.
    fn faulty_note(&self, sort: Sort, main: usize, before: Option<usize>, random: &mut Random) -> Note {
        match sort {
            _ if self.mains.is_empty() => self.note_of_nothing(random),
            Sort::Nothing => self.note_of_nothing(random),
            Sort::Hidden | Sort::HiddenAndEarly if !self.hidden.is_empty() => {
                let early = sort == Sort::HiddenAndEarly;
                let time = if early { 0 } else { self.last_time() };
                Note { sort, words: note_words(time, self.hidden[random.below(self.hidden.len())]), time, main: None }
            }
            Sort::Back | Sort::FarBack | Sort::BackAndEarly => match before.filter(|&before| before > 0) {
                Some(before) => self.note_back(sort, before, random),
                None => self.note_changed(Sort::Changed, main, random),
            },
            Sort::OneLess | Sort::HighLess => self.note_too_early(sort, main, random),
            Sort::AddressFirst | Sort::Shifted => self.note_changed(sort, main, random),
            _ => self.note_changed(Sort::Changed, main, random),
        }
    }

    /// A note of an earlier main item than this one, which is not the first. With time 0 it is too early as well, if that
    /// is not the item's.
    fn note_back(&self, sort: Sort, before: usize, random: &mut Random) -> Note {
        let earlier = if sort == Sort::Back { before - 1 } else { random.below(before) };
        let own = self.mains[earlier].time;
        let time = if sort == Sort::BackAndEarly { 0 } else { own.saturating_add(random.below(2) as u64) };
        self.note_at(sort, earlier, time)
    }

    fn note_too_early(&self, sort: Sort, main: usize, random: &mut Random) -> Note {
        let time = self.mains[main].time;
        match time {
            0 => self.note_changed(Sort::Changed, main, random),
            _ if sort == Sort::HighLess && time >> 32 > 0 => {
                self.note_at(sort, main, ((time >> 32) - 1) << 32 | u64::from(u32::MAX))
            }
            _ => self.note_at(Sort::OneLess, main, time - 1),
        }
    }

    /// A right note that is changed so that its address is no item's.
    fn note_changed(&self, sort: Sort, main: usize, random: &mut Random) -> Note {
        let Note { mut words, time, .. } = self.right_note(main, random);
        match sort {
            Sort::AddressFirst => words.rotate_left(2),
            Sort::Shifted => words.rotate_right(1),
            _ => words[2 + random.below(self.curve.widths().address)] ^= 1 << random.below(32),
        }
        Note { sort, words, time, main: None }
    }

    fn note_of_nothing(&self, random: &mut Random) -> Note {
        let (width, time) = (self.curve.widths().address, self.last_time());
        let address = match random.below(3) {
            0 => vec![0; width],
            1 => vec![u32::MAX; width],
            _ => random.words(width),
        };
        Note { sort: Sort::Nothing, words: note_words(time, &address), time, main: None }
    }
}

/// How many notes there are: mostly a few, at times none, as many as there may be, or more.
fn how_many(random: &mut Random) -> usize {
    match random.below(50) {
        0..=2 => 0,
        3..=6 => 1,
        7..=9 => random.between(20, 100),
        10 => random.between(200, MAX_NOTES - 1),
        11 | 12 => MAX_NOTES,
        13 | 14 => MAX_NOTES + 1,
        15 => random.between(MAX_NOTES + 2, 2 * MAX_NOTES + 1),
        _ => random.between(2, 12),
    }
}
