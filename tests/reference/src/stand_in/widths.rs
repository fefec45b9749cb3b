//! Mistakes about the traits word and the widths of contest sets.

use super::{made, rolls, Mistake};
use crate::audit::{Board, LayoutRules, SetRules, LAYOUT_RULES, SET_RULES};
use crate::calls::places;
use crate::format::*;

/// The rules about layouts, one of which a mistake about traits or sets makes wrong.
pub fn layout_rules() -> LayoutRules {
    let mut rules = LAYOUT_RULES;
    match made() {
        Some(Mistake::LaterTraits) => rules.of = layout_of_last,
        Some(Mistake::AnyFirstHead) => {
            rules.of = |board| {
                let told = board.get(TRAITS_PLACE).and_then(|&traits| Layout::known(traits));
                told.unwrap_or(Layout::PLAIN)
            };
        }
        Some(Mistake::NarrowSets) => rules.of = |board| Layout { sets: Width::Narrow, ..Layout::of(board) },
        Some(Mistake::WideByHead) => {
            rules.of = |board| match board.first() {
                Some(&TRAITS_HEAD) => Layout { sets: Width::Wide, ..Layout::of(board) },
                _ => Layout::of(board),
            };
        }
        Some(Mistake::TraitsPass) => rules.traits_fit = |_| true,
        Some(Mistake::TraitPasses) => rules.traits_fit = |traits| (LAYOUT_RULES.traits_fit)(traits & !(1 << 9)),
        Some(Mistake::TraitsPassAsWide) => {
            rules.traits_fit = |_| true;
            rules.of = |board| match traits(board).map(Layout::known) {
                Some(None) => Layout { sets: Width::Wide, ..Layout::PLAIN },
                _ => Layout::of(board),
            };
        }
        _ => {}
    }
    LayoutRules { count_fits: count_rule(), ..rules }
}

/// The rules about sets, one of which a mistake makes wrong.
pub fn set_rules() -> SetRules {
    let mut rules = SET_RULES;
    match made() {
        Some(Mistake::BitsAcross) => rules.one = across,
        Some(Mistake::NumbersTo31) => rules.contests = |_| Width::Narrow.contests(),
        Some(Mistake::NumbersTo255) => rules.contests = |_| Width::Wide.contests(),
        Some(Mistake::TimesUnshifted) => rules.round_times = |_, content| Width::Narrow.round_times(content),
        Some(Mistake::CryptogramsOfFirstWord) => rules.cryptograms = |_, content| content[0].count_ones() as usize,
        Some(Mistake::CryptogramsUncounted) => {
            rules.cryptograms = |layout, content| layout.cryptograms(content).len();
        }
        Some(Mistake::CryptogramsUnshifted) => rules.behind_set = |_, content| &content[1..],
        Some(Mistake::CryptogramsUnseen) => rules.behind_set = first_cryptograms::<0>,
        Some(Mistake::FirstCryptograms) => rules.behind_set = first_cryptograms::<32>,
        Some(Mistake::CryptogramsTo200) => rules.behind_set = first_cryptograms::<200>,
        Some(Mistake::UndefinedLater) => {
            rules.is_defined = |set, defined| !set.is_empty() && set.first_word().is_within(defined);
        }
        Some(Mistake::EmptySets) => rules.is_defined = |set, defined| set.is_within(defined),
        Some(Mistake::EmptyFirstWord) => {
            rules.is_defined = |set, defined| !set.first_word().is_empty() && set.is_within(defined);
        }
        _ => {}
    }
    SetRules { set: set_rule(), ..rules }
}

/// How sets are read: of one type the first word alone, where that is the mistake.
fn set_rule() -> fn(Width, u32, &[u32]) -> Set {
    match made() {
        Some(Mistake::SessionsFirstWord) => |width, code, content| first_word_of(SESSION, width, code, content),
        Some(Mistake::RoundsFirstWord) => |width, code, content| first_word_of(ROUND, width, code, content),
        Some(Mistake::BallotsFirstWord) => |width, code, content| first_word_of(BALLOT, width, code, content),
        _ => SET_RULES.set,
    }
}

/// Which counts pass.
fn count_rule() -> fn(Layout, u32, usize) -> bool {
    match made() {
        Some(Mistake::GenesisOf17) => |layout, code, n| layout.count_fits(code, n) && (code != GENESIS || n == 17),
        Some(Mistake::LongGenesis) => |layout, code, n| layout.count_fits(code, n) || code == GENESIS && n > 17,
        Some(Mistake::CryptogramsTo32) => |layout, code, n| {
            let most = layout.sets.words() + 32 * layout.curve.widths().cryptogram;
            layout.count_fits(code, n) && (code != BALLOT || n <= most)
        },
        Some(Mistake::CryptogramsTo256) => |layout, code, n| {
            let wide = Layout { sets: Width::Wide, ..layout };
            layout.count_fits(code, n) || code == BALLOT && wide.count_fits(code, n + 7)
        },
        Some(Mistake::WideTrustees) => |layout, code, n| match (layout.sets, code) {
            (Width::Wide, CONFIRMATION) => n >= 7 && layout.count_fits(code, n - 7),
            _ => layout.count_fits(code, n),
        },
        _ => LAYOUT_RULES.count_fits,
    }
}

/// The layout by the last genesis that carries a traits word, wherever it stands.
fn layout_of_last(board: &[u32]) -> Layout {
    let last = places(board).filter(|&place| board[place] == TRAITS_HEAD).last();
    last.map_or(Layout::PLAIN, |place| Layout::of(&board[place..]))
}

fn across(width: Width, number: u32) -> Set {
    match width {
        Width::Wide => Set::at(number as usize % 8, number / 8),
        Width::Narrow => Set::one(number),
    }
}

fn first_cryptograms<const MOST: usize>(layout: Layout, content: &[u32]) -> &[u32] {
    let behind = (SET_RULES.behind_set)(layout, content);
    &behind[..behind.len().min(MOST * layout.curve.widths().cryptogram)]
}

fn first_word_of(wrong: u32, width: Width, code: u32, content: &[u32]) -> Set {
    let set = width.set(code, content);
    if code == wrong {
        set.first_word()
    } else {
        set
    }
}

/// The refusal that tests in a wrong order give in place of this one.
pub fn in_wrong_order(board: Board, number: u32, items: u32) -> u32 {
    let unknown = items == 0 && traits(board.words).is_some_and(|traits| !(LAYOUT_RULES.traits_fit)(traits));
    match (made(), number) {
        (Some(Mistake::TraitsBeforeAddress), 7..=12) if unknown => 13,
        (Some(Mistake::TraitsAfterVerdict), 13) if unknown && !rolls::has_verdict(board, 0) => 14,
        _ => number,
    }
}
