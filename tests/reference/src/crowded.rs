//! Crowded boards from a seed: as many counted ballots as the items allow, or nearly so many
//! with voters who cast again, so that rows of the ballot table move; and as many ballots as the
//! items allow, open, closed or opened.

use crate::format::*;
use crate::random::Random;
use crate::sound::{Made, Maker, Shape, Traits};

/// The types of the items that a counted ballot takes, in order.
const WHOLE: [u32; 5] = [SESSION, VOTER_COMMITMENT, SERVER_COMMITMENT, BALLOT, CAST];

/// What a voter who has cast may add: ways to cast again first, then such as leave the row.
const CAST_AGAIN: usize = 3;
const MORE: [&[u32]; 9] = [
    &[VOTER_COMMITMENT, SERVER_COMMITMENT, BALLOT, CAST],
    &[VOTER_COMMITMENT, SERVER_COMMITMENT, BALLOT, TRACK, CAST],
    &WHOLE,
    &[VOTER_COMMITMENT, SERVER_COMMITMENT, BALLOT, SPOIL],
    &[VOTER_COMMITMENT, SERVER_COMMITMENT, BALLOT, SPOIL, TRACK, VERIFIER, VOTER_OPENING],
    &[VOTER_COMMITMENT, SERVER_COMMITMENT, BALLOT, TRACK, VERIFIER, SPOIL, VOTER_OPENING, SERVER_OPENING],
    &[VOTER_COMMITMENT, SERVER_COMMITMENT, BALLOT],
    &[VOTER_COMMITMENT],
    &[SESSION],
];

/// One more item of a voter: who, and its type.
type Step = (usize, u32);

/// A cast: position of the ballot, voter, weight.
type Cast = (usize, u32, u32);

/// A voter, with the weight, 0 until there is a session, and the latest session's key.
#[derive(Clone)]
struct Voter {
    number: u32,
    weight: u32,
    key: [u32; FINGERPRINT],
    /// The position of the latest item of each type.
    latest: [usize; SERVER_OPENING as usize + 1],
}

impl Voter {
    fn new(number: u32) -> Voter {
        Voter { number, weight: 0, key: NO_KEY, latest: [0; SERVER_OPENING as usize + 1] }
    }
}

/// How heavy votes are. In a crowd every way brings the total past 32 bits.
#[derive(Clone, Copy)]
enum Weights {
    Greatest,
    Any,
    Mixed,
}

impl Weights {
    fn any(random: &mut Random) -> Weights {
        *random.pick(&[Weights::Greatest, Weights::Any, Weights::Mixed])
    }
}

/// A board in which so many voters cast as the shape says. Items that are left over go to
/// voters who cast again, or to other things that voters do.
pub fn crowded(random: &mut Random, shape: Shape) -> Made {
    crowded_with(random, shape, Traits::Unsaid)
}

/// The same with these traits.
pub fn crowded_with(random: &mut Random, shape: Shape, traits: Traits) -> Made {
    let mut maker = Maker::new(random, shape, traits);
    maker.genesis();
    add_config(&mut maker);
    let steps = steps(shape, maker.random);
    let times = times(&mut maker, steps.len());
    add_round(&mut maker, times[0], times[times.len() - 1]);
    let weights = Weights::any(maker.random);
    let mut voters: Vec<Voter> = numbers(shape.voters, maker.random).into_iter().map(Voter::new).collect();
    let casts = add_votes(&mut maker, &mut voters, weights, &steps, &times);
    maker.counted = last_casts(&casts);
    if shape.extraction {
        maker.intent();
        maker.extraction();
        maker.confirm(false);
    }
    assert_eq!(maker.items.len(), shape.items, "the items add up");
    maker.finish()
}

/// What becomes of each ballot of a board.
#[derive(Clone, Copy, Debug)]
pub enum Fate {
    Open,
    Closed,
    /// Spoiled first.
    Opened,
}

/// A board of 2,048 items with as many ballots of this fate as there can be, all in one session.
pub fn most_ballots(random: &mut Random, fate: Fate, traits: Traits) -> Made {
    let shape = Shape { items: MAX_ITEMS, words: None, long: 20, voters: 1, extraction: false };
    let mut maker = Maker::new(random, shape, traits);
    maker.genesis();
    add_config(&mut maker);
    let mut lanes = ballot_lanes(fate, maker.random);
    let lane_count = lanes.len();
    let steps = merge(&mut lanes, maker.random);
    let times = times(&mut maker, 1 + steps.len());
    add_round(&mut maker, times[0], times[steps.len()]);
    let weights = Weights::any(maker.random);
    let mut voter = Voter::new(maker.random.word());
    add_step(&mut maker, &mut voter, SESSION, times[0], weights);
    // Each lane goes on from the session by itself.
    let casts = add_votes(&mut maker, &mut vec![voter; lane_count], weights, &steps, &times[1..]);
    maker.counted = last_casts(&casts);
    assert_eq!(maker.items.len(), MAX_ITEMS, "the items add up");
    maker.finish()
}

/// A board with all contests that its width has, and a ballot of all of them for each voter, which is cast. The
/// rounds enable some of the contests each, and all together.
pub fn all_contests(random: &mut Random, voters: usize, traits: Traits) -> Made {
    let steps: Vec<Step> = (0..voters).flat_map(|who| WHOLE.map(|code| (who, code))).collect();
    let shape = Shape { items: 0, words: None, long: 0, voters, extraction: false };
    let mut maker = Maker::new(random, shape, traits);
    maker.genesis();
    maker.add_threshold();
    maker.add_authorizer();
    maker.add_all_contests();
    let times = times(&mut maker, steps.len());
    let all = maker.contests;
    for part in parts(all, maker.random) {
        maker.contests = part;
        add_round(&mut maker, times[0], times[times.len() - 1]);
    }
    maker.contests = all;
    let mut voters: Vec<Voter> = (0..voters as u32).map(Voter::new).collect();
    let casts = add_votes(&mut maker, &mut voters, Weights::Mixed, &steps, &times);
    maker.counted = last_casts(&casts);
    maker.intent();
    maker.extraction();
    maker.finish()
}

/// All contests in one round, those of each word in one of their own, or any that together are all.
fn parts(all: Set, random: &mut Random) -> Vec<Set> {
    let word = |at: u32| all.numbers().filter(|number| number / 32 == at).fold(Set::EMPTY, |set, n| set | Set::one(n));
    match random.below(3) {
        0 => vec![all],
        1 => (0..8).map(word).filter(|part| !part.is_empty()).collect(),
        _ => {
            let some = random.contests(all);
            let rest = all.minus(some);
            vec![some, if rest.is_empty() { all } else { rest }]
        }
    }
}

/// A lane for each ballot that there is room for behind the config and a session. What room is left
/// goes to hidden items.
fn ballot_lanes(fate: Fate, random: &mut Random) -> Vec<Vec<Step>> {
    let closers: &[u32] = *random.pick(&[&[CAST, SPOIL][..], &[CAST], &[SPOIL]]);
    let each = match fate {
        Fate::Open => 3,
        Fate::Closed => 4,
        Fate::Opened => 7,
    };
    let room = MAX_ITEMS - 5 - 1;
    let (count, left) = (room / each, room % each);
    let mut lanes = Vec::new();
    for who in 0..count {
        let more = if who < left { 1 } else { 0 };
        let mut codes = vec![VOTER_COMMITMENT, SERVER_COMMITMENT, BALLOT];
        match fate {
            Fate::Open => codes.extend(&[TRACK][..more]),
            Fate::Closed => {
                codes.extend(&[TRACK][..more]);
                codes.push(*random.pick(closers));
            }
            Fate::Opened => {
                codes.extend([TRACK, VERIFIER]);
                codes.insert(random.between(3, 5), SPOIL);
                codes.push(VOTER_OPENING);
                codes.extend(&[SERVER_OPENING][..more]);
            }
        }
        lanes.push(codes.into_iter().map(|code| (who, code)).collect());
    }
    lanes
}

/// A contest, a threshold and an authorizer, in some order.
fn add_config(maker: &mut Maker) {
    let mut config = [CONTEST, THRESHOLD, AUTHORIZER];
    maker.random.shuffle(&mut config);
    for code in config {
        match code {
            CONTEST => maker.add_contest(),
            THRESHOLD => maker.add_threshold(),
            _ => maker.add_authorizer(),
        }
    }
}

/// The voters' items, each at its time. Gives all casts in board order.
fn add_votes(maker: &mut Maker, voters: &mut [Voter], weights: Weights, steps: &[Step], times: &[u64]) -> Vec<Cast> {
    let mut casts = Vec::new();
    for (&(who, code), &time) in steps.iter().zip(times) {
        let voter = &mut voters[who];
        if code == CAST {
            casts.push((voter.latest[BALLOT as usize], voter.number, voter.weight));
        }
        add_step(maker, voter, code, time, weights);
    }
    casts
}

/// Of each voter the last cast, in board order.
fn last_casts(casts: &[Cast]) -> Vec<Cast> {
    let is_last = |i: usize| casts[i + 1..].iter().all(|later| later.1 != casts[i].1);
    (0..casts.len()).filter(|&i| is_last(i)).map(|i| casts[i]).collect()
}

/// Who adds what, in board order.
fn steps(shape: Shape, random: &mut Random) -> Vec<Step> {
    let others = if shape.extraction { 5 + 3 } else { 5 };
    let mut room = shape.items - others - WHOLE.len() * shape.voters;
    // The last few voters come while others cast again.
    let early = shape.voters - random.pick(&[0, 1, 5, 40]).min(&shape.voters);
    let lane = |who: usize| WHOLE.map(|code| (who, code)).to_vec();
    let mut first: Vec<Vec<Step>> = (0..early).map(lane).collect();
    let mut second: Vec<Vec<Step>> = vec![Vec::new(); shape.voters];
    for who in early..shape.voters {
        second[who] = lane(who);
    }
    let mut who = random.below(shape.voters);
    // One at the least casts again, where there is room for it.
    let mut cast_again = room >= MORE[0].len();
    while room > 0 {
        let ways = if cast_again { &MORE[..CAST_AGAIN] } else { &MORE[..] };
        let fitting: Vec<&[u32]> = ways.iter().copied().filter(|codes| codes.len() <= room).collect();
        let codes = *random.pick(&fitting);
        if random.chance(70) {
            who = random.below(shape.voters);
        }
        second[who].extend(codes.iter().map(|&code| (who, code)));
        room -= codes.len();
        cast_again = room >= MORE[0].len() && random.chance(60);
    }
    let mut steps = merge(&mut first, random);
    steps.extend(merge(&mut second, random));
    steps
}

/// The steps of all lanes, each lane's in its order: lane by lane, all first steps before all
/// second ones, or mixed.
fn merge(lanes: &mut Vec<Vec<Step>>, random: &mut Random) -> Vec<Step> {
    lanes.retain(|lane| !lane.is_empty());
    random.shuffle(lanes);
    let mut steps = Vec::new();
    match random.below(3) {
        0 => steps = lanes.concat(),
        1 => {
            let longest = lanes.iter().map(Vec::len).max().unwrap_or(0);
            for rank in 0..longest {
                steps.extend(lanes.iter().filter_map(|lane| lane.get(rank)));
                random.shuffle(lanes);
            }
        }
        _ => {
            // How many lanes are under way at a time.
            let width = *random.pick(&[2, 20, MAX_ITEMS]);
            let mut places = vec![0; lanes.len()];
            let mut open: Vec<usize> = Vec::new();
            let mut next = 0;
            loop {
                while open.len() < width && next < lanes.len() {
                    open.push(next);
                    next += 1;
                }
                if open.is_empty() {
                    break;
                }
                let at = random.below(open.len());
                let lane = open[at];
                steps.push(lanes[lane][places[lane]]);
                places[lane] += 1;
                if places[lane] == lanes[lane].len() {
                    open.swap_remove(at);
                }
            }
        }
    }
    steps
}

/// Times for so many items: all the same, or rising.
fn times(maker: &mut Maker, count: usize) -> Vec<u64> {
    let most = *maker.random.pick(&[0, 1, 50]);
    let mut time = maker.later();
    let mut times = Vec::new();
    for _ in 0..count {
        times.push(time);
        time += maker.random.between(0, most) as u64;
    }
    times
}

/// A round with the contest there is, often open no longer than from the first item to the last.
fn add_round(maker: &mut Maker, first: u64, last: u64) {
    let start = *maker.random.pick(&[first, 0]);
    let end = *maker.random.pick(&[last + 1, u64::MAX]);
    let number = maker.new_round_number();
    let content = round_content(maker.layout.sets, number, maker.contests, start, end);
    maker.add(ROUND, maker.config, content, maker.now, maker.administrator);
}

/// Different numbers, 0 and the greatest among them.
fn numbers(count: usize, random: &mut Random) -> Vec<u32> {
    let (first, step) = match random.below(4) {
        0 => (0, 1),
        1 => (u32::MAX - count as u32, 1),
        // Different in their high bits alone.
        2 => (random.word(), 1 << 23),
        _ => (random.word(), random.word() | 1),
    };
    let mut all: Vec<u32> = (0..count as u32).map(|i| step.wrapping_mul(i).wrapping_add(first)).collect();
    all.retain(|&number| number != 0 && number != u32::MAX);
    all.truncate(count - 2);
    all.extend([0, u32::MAX]);
    random.shuffle(&mut all);
    all
}

fn add_step(maker: &mut Maker, voter: &mut Voter, code: u32, time: u64, weights: Weights) {
    let content = match code {
        SESSION => new_session(maker, voter, weights),
        VOTER_COMMITMENT | SERVER_COMMITMENT => maker.commitment(),
        BALLOT => maker.ballot_content(maker.contests),
        VERIFIER => maker.random.words(8),
        VOTER_OPENING | SERVER_OPENING => maker.random.words(1),
        _ => Vec::new(),
    };
    let key = match code {
        SESSION => maker.authorizer,
        SERVER_COMMITMENT | TRACK | SERVER_OPENING => maker.ballot_box,
        VERIFIER => eight(&content, 0),
        _ => voter.key,
    };
    let parent = match parent_of(code) {
        Parent::Type(listed) => voter.latest[listed as usize],
        _ => maker.config,
    };
    voter.latest[code as usize] = maker.add(code, parent, content, time, key);
}

/// The content of a new session, whose key is the voter's from now on. All sessions of a voter have one weight.
fn new_session(maker: &mut Maker, voter: &mut Voter, weights: Weights) -> Vec<u32> {
    let drawn = match weights {
        Weights::Greatest => u32::MAX,
        Weights::Any => maker.random.word().max(1),
        Weights::Mixed if maker.random.chance(20) => u32::MAX,
        Weights::Mixed => maker.random.between(1, 9) as u32,
    };
    if voter.weight == 0 {
        voter.weight = drawn;
    }
    voter.key = maker.random.eight();
    let mut content = vec![voter.number, voter.weight];
    content.extend(voter.key);
    content.extend(maker.random.eight());
    content.extend(maker.contests.words(maker.layout.sets));
    content
}
