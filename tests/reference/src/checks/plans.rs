//! The entry for plans against the reference, against an audit of the same board, and against what is known of boards from
//! their making.

use super::{call_audit, Case, Tally};
use crate::calls::{call_plan, places, Call};
use crate::format::*;
use crate::interface::*;
use crate::planned::{broken_beside, check_beside, Beside, OF_PLANS};
use crate::random::Random;
use crate::sound::{make_with, Shape, Traits};

/// The words of an answer: mostly enough, at times any number up to eight.
fn answer_length(random: &mut Random) -> usize {
    if random.chance(30) {
        random.below(9)
    } else {
        PLAN_ANSWER
    }
}

/// A plan of a board, and of the same board with its heads, its end or its closing word changed.
pub fn check_plan(with: &Interface, case: &Case, random: &mut Random, tally: &mut Tally) -> Result<(), String> {
    hold_plan(with, &case.words, random, tally)?;
    hold_plan(with, &changed(&case.words, random), random, tally).map(|_| ())
}

/// What was said of a board, with an answer of so many words.
#[derive(Clone, Copy)]
pub struct SaidOfPlan {
    pub answer: usize,
    pub said: Option<[u32; PLAN_ANSWER]>,
}

/// Holds a plan of these words to the reference. None where the library has no such entry.
pub fn hold_plan(
    with: &Interface,
    words: &[u32],
    random: &mut Random,
    tally: &mut Tally,
) -> Result<Option<SaidOfPlan>, String> {
    let answer = answer_length(random);
    let Some(call) = call_plan(with, words, answer, random, tally) else { return Ok(None) };
    call.hold()?;
    Ok(Some(SaidOfPlan { answer, said: call.said() }))
}

/// An answer of each length from 0 to 8 words.
pub fn check_plan_full(with: &Interface, case: &Case, random: &mut Random, tally: &mut Tally) -> Result<(), String> {
    (0..9).try_for_each(|length| call_plan(with, &case.words, length, random, tally).map_or(Ok(()), |call| call.hold()))
}

/// A plan and an audit by one implementation, each held to the other alone.
pub fn check_plan_told(with: &Interface, case: &Case, random: &mut Random, tally: &mut Tally) -> Result<(), String> {
    let audit = call_audit(with, case, LEAST, random, &mut Tally::default());
    check_plan_beside(with, &audit, random, tally)
}

/// A plan of the board of an audit by the same implementation, held to that alone.
pub fn check_plan_beside(with: &Interface, audit: &Call, random: &mut Random, tally: &mut Tally) -> Result<(), String> {
    beside(with, audit, random, tally, check_beside).unwrap_or(Ok(()))
}

/// Which properties a plan breaks beside an audit.
pub fn broken_by_plan(with: &Interface, case: &Case, seed: u64) -> [bool; OF_PLANS.len()] {
    let (random, tally) = (&mut Random::new(seed), &mut Tally::default());
    let audit = call_audit(with, case, LEAST, random, &mut Tally::default());
    beside(with, &audit, random, tally, broken_beside).unwrap_or([false; OF_PLANS.len()])
}

/// The least lengths of an audit's tables and of its answer.
const LEAST: [usize; 3] = [INDEX_NEED, BALLOTS_NEED, AUDIT_ANSWER];

/// None where there is no such entry, or no answer of the audit.
fn beside<T>(
    with: &Interface,
    audit: &Call,
    random: &mut Random,
    tally: &mut Tally,
    held: fn(&Beside) -> T,
) -> Option<T> {
    audit.said()?;
    let words = audit.board().words;
    let planned = call_plan(with, words, PLAN_ANSWER, random, tally)?.said()?;
    let audited = [audit_answer::NUMBER, audit_answer::ITEMS].map(|at| audit.answer()[at]);
    Some(held(&Beside { words, audited, index: audit.given_index(), planned }))
}

/// Holds a plan to what an audit says of the board: its number and its items. The rows of an accepted board are those of a
/// walk over its heads.
pub fn hold_beside(words: &[u32], audited: [u32; 2], planned: [u32; PLAN_ANSWER]) -> Result<(), String> {
    let row = |place: usize| [place as u32, 0, 0, 0, 0];
    let index: Vec<u32> = match audited[0] {
        0 => places(words).flat_map(row).collect(),
        _ => Vec::new(),
    };
    check_beside(&Beside { words, audited, index: &index, planned })
}

/// The words of a board that end before it does, or with another head, another closing word or words behind it.
pub fn changed(words: &[u32], random: &mut Random) -> Vec<u32> {
    let mut changed = words.to_vec();
    let heads: Vec<usize> = places(words).collect();
    if heads.is_empty() {
        return changed;
    }
    let at = random.below(heads.len());
    let (place, last) = (heads[at], changed.len() - 1);
    match random.below(9) {
        0 => changed.truncate(random.below(words.len())),
        // Cut before an item, with a closing word or without, with its number or another.
        1 | 2 => {
            changed.truncate(place);
            let any = random.below(1 << 28);
            let number = *random.pick(&[at, at, at + 1, at.saturating_sub(1), at | 1 << 16, any]);
            changed.extend(random.chance(80).then_some(CLOSING << 28 | number as u32));
        }
        3 => changed[place] = head(kind(words[place]), code(words[place]), random.below(300)),
        4 => changed[place] = head(random.below(15) as u32, code(words[place]), count(words[place])),
        5 => changed[place] = head(*random.pick(&[MAIN, HIDDEN]), random.below(70) as u32, count(words[place])),
        6 => changed[place] ^= 1 << random.below(32),
        7 => changed[last] ^= 1 << random.below(32),
        _ => changed.extend([0, random.word(), CLOSING << 28].iter().take(random.between(1, 3))),
    }
    changed
}

// ---- boards of which all is known from their making ----

/// What is tried of such boards, and how often each answer was given.
pub struct PlansTried {
    pub prefixes: usize,
    pub closed: usize,
    pub heads: usize,
    pub counts: usize,
    pub limits: usize,
    pub tally: Tally,
}

/// An implementation, and what it is called with beside a board.
struct Trial<'a> {
    with: &'a Interface,
    random: Random,
    tried: PlansTried,
}

/// Boards of each layout cut behind each word, closed there, and with each head wrong; items of each type with each count of
/// content words; boards at the limits.
pub fn plans_of_known_boards(with: &Interface) -> Result<PlansTried, String> {
    let tried = PlansTried { prefixes: 0, closed: 0, heads: 0, counts: 0, limits: 0, tally: Tally::default() };
    let mut trial = Trial { with, random: Random::new(10), tried };
    for layout in LAYOUTS {
        let shape = Shape { items: 40, words: None, long: 10, voters: 4, extraction: true };
        let words = make_with(&mut trial.random, shape, Traits::Said(layout)).plan.lay().words;
        trial.of_each_prefix(&words)?;
        trial.of_each_head(&words)?;
        trial.at_the_limits(layout)?;
    }
    trial.of_each_trait()?;
    trial.without_items()?;
    LAYOUTS.iter().try_for_each(|&layout| trial.of_each_count(layout))?;
    Ok(trial.tried)
}

impl Trial<'_> {
    /// Holds a plan to the reference, and to what is known; the answer has 4 to 8 words by turns.
    fn hold(&mut self, words: &[u32], right: [u32; PLAN_ANSWER]) -> Result<(), String> {
        let length = PLAN_ANSWER + words.len() % 5;
        match call_plan(self.with, words, length, &mut self.random, &mut self.tried.tally) {
            Some(call) => call.hold_said(right).and_then(|()| call.hold()),
            None => Ok(()),
        }
    }

    /// A sound board that ends behind each of its words, as it is, or with a closing word there.
    fn of_each_prefix(&mut self, words: &[u32]) -> Result<(), String> {
        let starts: Vec<usize> = places(words).collect();
        let closing = words.len() - 1;
        let whole = sums(words);
        self.hold(words, whole)?;
        for length in 0..words.len() {
            // The items that end there or before.
            let items = starts.iter().skip(1).chain([&closing]).filter(|&&end| end <= length).count() as u32;
            let right = if length == 0 { [3, 0, 0, 0] } else { [4, items, 0, 0] };
            self.hold(&words[..length], right)?;
            self.tried.prefixes += 1;
        }
        for (items, &end) in (1..).zip(starts.iter().skip(1).chain([&closing])) {
            let mut cut = [&words[..end], &[CLOSING << 28 | items, 0]].concat();
            self.hold(&cut, [18, items, 0, 0])?;
            cut.pop();
            self.hold(&cut, sums(&cut))?;
            for bit in 0..28 {
                cut[end] ^= 1 << bit;
                self.hold(&cut, [18, items, 0, 0])?;
                cut[end] ^= 1 << bit;
            }
            // A closing word in the place of an item's last word.
            cut.remove(end - 1);
            self.hold(&cut, [4, items, 0, 0])?;
            self.tried.closed += 31;
        }
        Ok(())
    }

    /// A sound board with each of its heads of another kind or type, and with a count that is too large.
    fn of_each_head(&mut self, words: &[u32]) -> Result<(), String> {
        let mut changed = words.to_vec();
        for (items, place) in (0..).zip(places(words)) {
            let right = words[place];
            let (kind, code, count) = (kind(right), code(right), count(right));
            for other in (0..15).filter(|&other| other != kind) {
                changed[place] = head(other, code, count);
                self.hold(&changed, [5, items, 0, 0])?;
            }
            for other in [0, 7, 15, 22, 31, 35, 47, 52, 99, 256 + code, 4_095] {
                changed[place] = head(kind, other, count);
                self.hold(&changed, [5, items, 0, 0])?;
            }
            changed[place] = head(kind, code, 65_535);
            self.hold(&changed, [6, items, 0, 0])?;
            changed[place] = CLOSING << 28;
            self.hold(&changed, if items == 0 { [3, 0, 0, 0] } else { [18, items, 0, 0] })?;
            changed[place] = right;
            self.tried.heads += 27;
        }
        Ok(())
    }

    /// A genesis, then an item of each type with each count of content words up to 600, of a ballot up to the most that there
    /// can be, and a closing word.
    fn of_each_count(&mut self, layout: Layout) -> Result<(), String> {
        let frame = layout.curve.frame();
        let first = genesis(layout);
        let mut words = [&first[..], &vec![0x3c3c_3c3c; MOST_CONTENT + frame + 2]].concat();
        for &of in &CODES {
            let kind = kind_of(of).expect("a type of the table");
            for n in 0..=if of == BALLOT { MOST_CONTENT } else { 600 } {
                let end = first.len() + n + frame;
                words[first.len()] = head(kind, of, n);
                let before = std::mem::replace(&mut words[end], CLOSING << 28 | 2);
                let right = if is_in_table(layout, of, n) { sums(&words[..=end]) } else { [6, 1, 0, 0] };
                self.hold(&words[..=end], right)?;
                words[end] = before;
                self.tried.counts += 1;
            }
        }
        Ok(())
    }

    /// A genesis with traits that are not known, a round and a cast: all have today's widths.
    fn of_each_trait(&mut self) -> Result<(), String> {
        let today = Layout::PLAIN;
        let parts = [TRAITS_HEAD, head(MAIN, ROUND, 6), head(MAIN, CAST, 0)].map(|head| filled(head, today.curve));
        let mut words = [&parts.concat()[..], &[CLOSING << 28 | 3]].concat();
        for traits in (3..32).flat_map(|bit| (0..6).map(move |known| 1 << bit | known)).chain([6, 7, u32::MAX]) {
            words[TRAITS_PLACE] = traits;
            self.hold(&words, known_sums(today, &[18, 6, 0], 0))?;
            self.tried.heads += 1;
        }
        Ok(())
    }

    /// As many items and as many words as there may be, one less and one more.
    fn at_the_limits(&mut self, layout: Layout) -> Result<(), String> {
        let close = |items: usize| CLOSING << 28 | items as u32;
        let cast = filled(head(MAIN, CAST, 0), layout.curve);
        let mut words = [&genesis(layout)[..], &cast.repeat(2_046)].concat();
        self.hold(&[&words[..], &[close(2_047)]].concat(), known_sums(layout, &[18], 2_046))?;
        self.hold(&[&words[..], &cast].concat(), [4, 2_048, 0, 0])?;
        words.extend(&cast);
        self.hold(&[&words[..], &[close(2_048)]].concat(), known_sums(layout, &[18], 2_047))?;
        self.hold(&[&words[..], &[close(2_048), 0]].concat(), [18, 2_048, 0, 0])?;
        for wrong in [0, 1, 2_047, 2_049, 4_096, 2_048 | 1 << 16] {
            self.hold(&[&words[..], &[close(wrong)]].concat(), [18, 2_048, 0, 0])?;
        }
        // A word that is no closing word, whatever else is wrong with it.
        for head in [cast[0], head(MAIN, 99, 0), head(MAIN, CAST, 9), head(0, 0, 0), head(HIDDEN, CAST, 0)] {
            self.hold(&[&words[..], &[head], &cast[1..], &[close(2_049)]].concat(), [1, 2_048, 0, 0])?;
            self.hold(&[&words[..], &[head]].concat(), [1, 2_048, 0, 0])?;
        }
        self.at_the_word_limit(layout)?;
        self.tried.limits += 20;
        Ok(())
    }

    /// Some words more and some less than there may be.
    fn at_the_word_limit(&mut self, layout: Layout) -> Result<(), String> {
        for length in [262_142, 262_143, 262_144, 262_145, 262_146] {
            let (words, contents) = openings(layout, length);
            let right = if length > 262_144 { [1, 0, 0, 0] } else { known_sums(layout, &contents, 0) };
            self.hold(&words, right)?;
            // Cut in its last item.
            self.hold(&words[..length - 9], [4, contents.len() as u32 - 1, 0, 0])?;
            self.tried.limits += 2;
        }
        Ok(())
    }

    /// No words, closing words, and one word of each kind; too many words of each kind.
    fn without_items(&mut self) -> Result<(), String> {
        self.hold(&[], [3, 0, 0, 0])?;
        for kind in 0..16 {
            for word in [kind << 28, kind << 28 | 1, kind << 28 | 0x0fff_ffff, head(kind, GENESIS, 17)] {
                let right = match (kind, word & 0x0fff_ffff) {
                    (CLOSING, _) => 3,
                    (MAIN, 0x0001_0011) => 4,
                    _ => 5,
                };
                self.hold(&[word], [right, 0, 0, 0])?;
                self.hold(&[word, 0], [right, 0, 0, 0])?;
                self.hold(&vec![word; 262_145], [1, 0, 0, 0])?;
                self.tried.limits += 3;
            }
        }
        Ok(())
    }
}

/// Boards at the limits, right ones and others: of 2,048 items and one more, of 262,144 words and one more, of none.
pub fn limit_boards() -> Vec<Vec<u32>> {
    let mut boards = vec![vec![], vec![CLOSING << 28], vec![CLOSING << 28 | 1], vec![CLOSING << 28; MAX_WORDS + 1]];
    for layout in LAYOUTS {
        let cast = filled(head(MAIN, CAST, 0), layout.curve);
        for items in [2_047, 2_048, 2_049] {
            let words = [&genesis(layout)[..], &cast.repeat(items - 1)].concat();
            boards.push([&words[..], &[CLOSING << 28 | items as u32]].concat());
            boards.push([&words[..], &[head(MAIN, 99, 0)]].concat());
            boards.push(words);
        }
        boards.extend([MAX_WORDS - 1, MAX_WORDS, MAX_WORDS + 1].map(|length| openings(layout, length).0));
    }
    boards
}

/// A genesis, openings of 256 words and others that bring the board to so many words. With the content words of its items.
fn openings(layout: Layout, length: usize) -> (Vec<u32>, Vec<usize>) {
    let frame = layout.curve.frame();
    let (mut words, mut contents) = (genesis(layout), vec![18]);
    let longest = filled(head(HIDDEN, VOTER_OPENING, 256), layout.curve);
    while words.len() + 2 * longest.len() < length {
        words.extend(&longest);
        contents.push(256);
    }
    let rest = length - 1 - words.len() - 2 * frame;
    for n in [rest / 2, rest - rest / 2] {
        words.extend(filled(head(HIDDEN, SERVER_OPENING, n), layout.curve));
        contents.push(n);
    }
    words.push(CLOSING << 28 | contents.len() as u32);
    assert_eq!(words.len(), length, "a board of so many words");
    (words, contents)
}

/// The most content words that an item can have, and some more: of a ballot of 256 contests on secp521r1.
const MOST_CONTENT: usize = 8 + 34 * 256 + 40;

/// An item with this head and words that are no heads.
fn filled(head: u32, curve: Curve) -> Vec<u32> {
    let mut words = vec![0x3c3c_3c3c; count(head) + curve.frame()];
    words[0] = head;
    words
}

/// A genesis of a layout, with its traits.
fn genesis(layout: Layout) -> Vec<u32> {
    let mut words = filled(TRAITS_HEAD, layout.curve);
    words[TRAITS_PLACE] = layout.traits();
    words
}

/// What is known of a board with a right closing word, from a walk over its heads.
fn sums(words: &[u32]) -> [u32; PLAN_ANSWER] {
    let contents: Vec<usize> = places(words).map(|place| count(words[place])).collect();
    known_sums(Layout::of(words), &contents, 0)
}

/// The plan of a board whose items have so many content words, and of so many more without any.
fn known_sums(layout: Layout, contents: &[usize], more: usize) -> [u32; PLAN_ANSWER] {
    // Hashed words without content, words of a block, and those that the padding needs at least.
    let (frame, block, padding) = match layout.curve {
        Curve::Secp256r1 => (19, 16, 3),
        Curve::Secp384r1 => (27, 32, 5),
        Curve::Secp521r1 => (35, 32, 5),
    };
    let blocks = |n: usize| (n + frame + padding + block - 1) / block;
    let sum = contents.iter().map(|&n| blocks(n)).sum::<usize>() + more * blocks(0);
    let items = (contents.len() + more) as u32;
    [0, items, 5 * items, sum as u32]
}

/// Whether the paper's table has so many content words for a type, written out once more.
fn is_in_table(layout: Layout, code: u32, n: usize) -> bool {
    let (set, most) = if layout.sets == Width::Wide { (8, 256) } else { (1, 32) };
    let (commitment, cryptogram) = [(9, 17), (13, 25), (17, 34)][layout.curve as usize];
    let times = |one: usize, most: usize, n: usize| n % one == 0 && (1..=most).contains(&(n / one));
    match code {
        1 => n == 17 || n == 18,
        2 => n <= 64,
        3 => (1..=65).contains(&n),
        4 => n == 10,
        5 => n == 9,
        6 => n == 5 + set,
        16 => n == 18 + set,
        17 | 18 => n == commitment,
        19 => n > set && times(cryptogram, most, n - set),
        33 | 49 => n == 8,
        34 => n > 1 && times(16, 32, n - 1),
        50 | 51 => (1..=256).contains(&n),
        _ => n == 0,
    }
}
