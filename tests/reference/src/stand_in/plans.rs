//! Mistakes about plans: what is counted, which words are refused, and in which order.

use super::{made, rules, About, Mistake};
use crate::format::*;
use crate::interface::{plan_answer, plan_words, PLAN_ANSWER};
use crate::planning::{blocks, plan_with, Planned};

/// The answer to a plan, with the mistake that is made; without one about plans, the reference's by the rules about layouts.
pub fn planned(words: &[u32]) -> [u32; PLAN_ANSWER] {
    match made().filter(|mistake| matches!(mistake.about(), About::Planned | About::PlanLimits | About::Plans)) {
        None => plan_words(&plan_with(rules().layout, words)),
        Some(mistake) => said(mistake, words),
    }
}

/// The heads that pass, and the refusal or 0.
fn walk(mistake: Mistake, words: &[u32], layout: Layout) -> (Vec<u32>, u32) {
    let (mut heads, mut place) = (Vec::new(), 0);
    if let Some(number) = before_heads(mistake, words) {
        return (heads, number);
    }
    let number = loop {
        let Some(&head) = words.get(place) else { break if mistake == Mistake::UnclosedPlanned { 0 } else { 4 } };
        let too_many = mistake == Mistake::CloseAtLimitRefused && heads.len() == MAX_ITEMS;
        if kind(head) == CLOSING && !too_many {
            break closing(mistake, &words[place..], &heads);
        }
        let length = count(head) + layout.curve.frame();
        if let Some(number) = of_head(mistake, layout, head, heads.len(), (length, words.len() - place)) {
            break number;
        }
        heads.push(head);
        place += length;
    };
    (heads, number)
}

/// The layout by the known bits alone, of which the number 3 is secp521r1.
fn by_highest_bit(words: &[u32]) -> Layout {
    let curve = traits(words).map_or(0, |traits| (traits & CURVE_BITS) >> CURVE_SHIFT);
    Layout { curve: CURVES[curve.min(2) as usize], ..Layout::of(words) }
}

fn before_heads(mistake: Mistake, words: &[u32]) -> Option<u32> {
    let most = match mistake {
        Mistake::WordsTo262143 => MAX_WORDS - 1,
        Mistake::WordsTo262145 => MAX_WORDS + 1,
        Mistake::WordsUncounted => usize::MAX,
        Mistake::WordsOfProgram => 16_384,
        _ => MAX_WORDS,
    };
    let oversize = (words.len() > most).then_some(1);
    let is_blank = match mistake {
        Mistake::EmptyTorn => words.first().is_some_and(|&first| kind(first) == CLOSING),
        Mistake::CloseFirstPlanned => words.is_empty(),
        _ => words.first().is_none_or(|&first| kind(first) == CLOSING),
    };
    let blank = is_blank.then_some(3);
    let unknown = mistake == Mistake::TraitsRefused && traits(words).is_some_and(|word| Layout::known(word).is_none());
    match mistake {
        Mistake::BlankBeforeOversize => blank.or(oversize),
        _ => oversize.or(blank).or(unknown.then_some(13)),
    }
}

/// What a head is refused by, behind so many items. The lengths are of its item and of the words that are left.
fn of_head(mistake: Mistake, layout: Layout, head: u32, items: usize, (length, left): (usize, usize)) -> Option<u32> {
    let most = match mistake {
        Mistake::ItemsTo2047 => MAX_ITEMS - 1,
        Mistake::ItemsTo2049 => MAX_ITEMS + 1,
        Mistake::ItemsUncounted => usize::MAX,
        _ => MAX_ITEMS,
    };
    let is_listed = match mistake {
        Mistake::KindUnseen => kind_of(code(head)).is_some(),
        Mistake::TypeUnseen => matches!(kind(head), MAIN | HIDDEN),
        Mistake::StrangersPass => true,
        Mistake::HiddenAmongMains => kind_of(code(head)).is_some_and(|right| kind(head) == right || kind(head) == MAIN),
        _ => kind_of(code(head)) == Some(kind(head)),
    };
    let fits = match mistake {
        Mistake::CountUnseen => true,
        Mistake::TypeUnseen | Mistake::StrangersPass if kind_of(code(head)).is_none() => true,
        _ => layout.count_fits(code(head), count(head)),
    };
    let is_torn = match mistake {
        Mistake::TornByTwo => length > left + 1,
        Mistake::TornWithoutMore => length >= left,
        Mistake::TornBySignature => length > left + layout.curve.receipt(),
        _ => length > left,
    };
    let limit = (items >= most).then_some(1);
    let (stranger, misfit, torn) = ((!is_listed).then_some(5), (!fits).then_some(6), is_torn.then_some(4));
    match mistake {
        Mistake::LimitAfterHead => stranger.or(misfit).or(torn).or(limit),
        Mistake::TornBeforeStranger => limit.or(torn).or(stranger).or(misfit),
        Mistake::TornBeforeMisfit => limit.or(stranger).or(torn).or(misfit),
        Mistake::MisfitBeforeStranger => limit.or(misfit).or(stranger).or(torn),
        _ => limit.or(stranger).or(misfit).or(torn),
    }
}

/// 18, or 0. The words are those from the closing word on.
fn closing(mistake: Mistake, rest: &[u32], heads: &[u32]) -> u32 {
    let (items, number) = (heads.len() as u32, rest[0] & 0x0fff_ffff);
    let is_right = match mistake {
        Mistake::CloseUnread => true,
        Mistake::CloseHasMains => number == mains(heads) as u32,
        Mistake::CloseOf16Bits => number & 0xffff == items,
        Mistake::CloseAtLeast => number >= items,
        _ => number == items,
    };
    let is_last = match mistake {
        Mistake::WordsBehindPass => true,
        Mistake::ZerosBehindPass => rest[1..].iter().all(|&word| word == 0),
        _ => rest.len() == 1,
    };
    if is_right && is_last {
        0
    } else {
        18
    }
}

fn mains(heads: &[u32]) -> usize {
    heads.iter().filter(|&&head| kind(head) == MAIN).count()
}

fn said(mistake: Mistake, words: &[u32]) -> [u32; PLAN_ANSWER] {
    let layout = if mistake == Mistake::CurveByHighestBit { by_highest_bit(words) } else { Layout::of(words) };
    let (heads, number) = walk(mistake, words, layout);
    let items = match mistake {
        Mistake::ItemsOfMains => mains(&heads),
        Mistake::ItemsWithClose => heads.len() + usize::from(number == 0),
        Mistake::RefusalAtNext => heads.len() + usize::from(number >= 4),
        Mistake::RefusalAtNone if number != 0 => 0,
        _ => heads.len(),
    };
    let index_words = match mistake {
        Mistake::RowOfFour => 4 * items,
        Mistake::RowsOfMains => INDEX_ROW * mains(&heads),
        Mistake::WholeIndex => INDEX_NEED,
        Mistake::RowsAsItems => items,
        _ => INDEX_ROW * items,
    };
    let blocks = counted(mistake, &heads).map(|&head| blocks_of(mistake, layout.curve, head)).sum::<usize>();
    let sums = Planned { number, items: items as u32, index_words: index_words as u32, blocks: blocks as u32 };
    let mut said = plan_words(&sums);
    if number != 0 {
        said[plan_answer::INDEX_WORDS] *= u32::from(mistake == Mistake::RefusalHasIndex);
        said[plan_answer::BLOCKS] *= u32::from(mistake == Mistake::RefusalHasBlocks);
    }
    if mistake == Mistake::SumsTurned {
        said.swap(plan_answer::INDEX_WORDS, plan_answer::BLOCKS);
    }
    said
}

/// The heads of the items whose blocks are counted.
fn counted(mistake: Mistake, heads: &[u32]) -> impl Iterator<Item = &u32> {
    let last = heads.len().saturating_sub(1);
    let is_counted = move |at: usize, head: u32| match mistake {
        Mistake::BlocksOfMains => kind(head) == MAIN,
        Mistake::GenesisUnhashed => at > 0,
        Mistake::LastUnhashed => at < last,
        _ => true,
    };
    heads.iter().enumerate().filter(move |&(at, &head)| is_counted(at, head)).map(|(_, head)| head)
}

fn blocks_of(mistake: Mistake, curve: Curve, head: u32) -> usize {
    let words = count(head) + curve.hashed_frame();
    // Words of a block, and the words that a length takes in it.
    let (block, length) = if curve == Curve::Secp256r1 { (16, 2) } else { (32, 4) };
    let up = |words: usize| words.div_ceil(block);
    match mistake {
        Mistake::ContentAlone => blocks(curve, count(head)),
        Mistake::ContentUncounted => blocks(curve, curve.hashed_frame()),
        Mistake::WholeItem => blocks(curve, count(head) + curve.frame()),
        Mistake::WithSignatureHashed => blocks(curve, words + curve.widths().signature),
        Mistake::HeadUnhashed => blocks(curve, words - 1),
        Mistake::BlocksOf19 => blocks(curve, count(head) + 19),
        Mistake::Unpadded => up(words),
        Mistake::FullBlocksAlone => words / block,
        Mistake::NoSecondBlock => words / block + 1,
        Mistake::NoRoomForOne => up(words + length),
        Mistake::AlwaysTwo => words / block + 2,
        Mistake::RoomOfTwo => up(words + length + 2),
        Mistake::LengthOf64 => up(words + 2 + 1),
        Mistake::LengthOf128 => up(words + 4 + 1),
        Mistake::BlocksOf64Bytes => blocks(Curve::Secp256r1, words),
        Mistake::BlocksOf128Bytes => blocks(Curve::Secp521r1, words),
        Mistake::Sha384In64 if curve == Curve::Secp384r1 => blocks(Curve::Secp256r1, words),
        Mistake::Sha512In64 if curve == Curve::Secp521r1 => blocks(Curve::Secp256r1, words),
        Mistake::FingerprintHashed => blocks(curve, words) + usize::from(code(head) == EXTRACTION),
        _ => blocks(curve, words),
    }
}
