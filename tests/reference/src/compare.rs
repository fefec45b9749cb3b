//! Comparing a kept board with a later one.

use crate::audit::{audit_with, hashed, Board, Rules, RULES};

#[derive(Clone, Copy, PartialEq, Eq, Debug)]
pub enum Side {
    Kept,
    Later,
}

#[derive(Clone, Copy, PartialEq, Eq, Debug)]
pub enum Comparison {
    Refused {
        side: Side,
        number: u32,
        items: u32,
    },
    Apart,
    Same,
    /// The main numbers of the two items.
    Collision {
        kept: u32,
        later: u32,
    },
}

/// The two tables passed for one board.
pub struct Tables<'a> {
    pub index: &'a mut [u32],
    pub ballots: &'a mut [u32],
}

pub fn compare(kept: Board, later: Board, main_number: usize, kept_tables: Tables, later_tables: Tables) -> Comparison {
    compare_with([RULES; 2], kept, later, main_number, kept_tables, later_tables)
}

/// The comparison by any rules, those for the kept board and those for the later one.
pub fn compare_with(
    [kept_rules, later_rules]: [Rules; 2],
    kept: Board,
    later: Board,
    main_number: usize,
    kept_tables: Tables,
    later_tables: Tables,
) -> Comparison {
    let (report, history) = audit_with(kept_rules, kept, kept_tables.index, kept_tables.ballots);
    let Some(kept_history) = history else {
        return Comparison::Refused { side: Side::Kept, number: report.number, items: report.items };
    };
    let (report, history) = audit_with(later_rules, later, later_tables.index, later_tables.ballots);
    let Some(later_history) = history else {
        return Comparison::Refused { side: Side::Later, number: report.number, items: report.items };
    };
    if main_number == 0 || main_number > later_history.mains() {
        return Comparison::Refused { side: Side::Later, number: 19, items: report.items };
    }
    // Addresses of different widths are different, whatever their words.
    let curve = kept_history.layout().curve;
    if later_history.layout().curve != curve {
        return Comparison::Apart;
    }
    let mut a = kept_history.mains();
    let mut b = main_number;
    if kept_history.main(a).address != later_history.main(b).address {
        return Comparison::Apart;
    }
    while a >= 1 && b >= 1 {
        if hashed(kept.words, curve, kept_history.main(a)) != hashed(later.words, curve, later_history.main(b)) {
            return Comparison::Collision { kept: a as u32, later: b as u32 };
        }
        a -= 1;
        b -= 1;
    }
    Comparison::Same
}
