//! Boards dealt to machines by the blocks of their plans.

use std::cmp::Reverse;
use std::collections::BinaryHeap;

/// What a machine is dealt.
#[derive(Clone, Debug, Default, PartialEq, Eq)]
pub struct Share {
    /// The sum of its boards' blocks.
    pub blocks: u64,
    /// The places of its boards, in the order in which they were dealt.
    pub boards: Vec<usize>,
}

/// Deals boards by their blocks: the largest first, each to the machine that has the fewest so far; of equal boards, and of equal machines,
/// the first is taken. Those without a plan come last, in their order: nobody knows what they take, so each goes to a machine that has the
/// fewest of them, and among these to one that has the fewest blocks.
pub fn deal(boards: &[Option<u32>], machines: usize) -> Vec<Share> {
    let mut order: Vec<usize> = (0..boards.len()).collect();
    // What is equal stays in its order, and none is less than any number.
    order.sort_by_key(|&board| Reverse(boards[board]));
    let mut shares = vec![Share::default(); machines];
    let mut waiting: BinaryHeap<_> = (0..machines).map(|machine| Reverse((0, 0, machine))).collect();
    for board in order {
        let Some(mut lightest) = waiting.peek_mut() else { break };
        let (unplanned, blocks, machine) = &mut lightest.0;
        match boards[board] {
            Some(more) => *blocks += u64::from(more),
            None => *unplanned += 1,
        }
        shares[*machine].boards.push(board);
        shares[*machine].blocks = *blocks;
    }
    shares
}

/// The machine with the most blocks, the first of equal ones.
pub fn heaviest(shares: &[Share]) -> Option<(usize, &Share)> {
    shares.iter().enumerate().max_by_key(|(machine, share)| (share.blocks, Reverse(*machine)))
}

/// Blocks as a part of a sum, in per cent with one digit behind the point.
pub fn percent(blocks: u64, sum: u64) -> String {
    let tenths = (u128::from(blocks) * 1000 + u128::from(sum) / 2).checked_div(u128::from(sum)).unwrap_or(0);
    format!("{}.{} %", tenths / 10, tenths % 10)
}

#[cfg(test)]
mod tests {
    use super::*;

    fn dealt(boards: &[Option<u32>], machines: usize) -> Vec<(u64, Vec<usize>)> {
        deal(boards, machines).into_iter().map(|share| (share.blocks, share.boards)).collect()
    }

    #[test]
    fn the_largest_first_to_the_lightest() {
        let boards = [3, 9, 4, 9, 1].map(Some);
        assert_eq!(dealt(&boards, 1), [(26, vec![1, 3, 2, 0, 4])]);
        assert_eq!(dealt(&boards, 2), [(13, vec![1, 2]), (13, vec![3, 0, 4])]);
        assert_eq!(dealt(&boards, 3), [(9, vec![1]), (9, vec![3]), (8, vec![2, 0, 4])]);
        assert_eq!(dealt(&boards[..2], 4), [(9, vec![1]), (3, vec![0]), (0, vec![]), (0, vec![])]);
        assert_eq!(dealt(&[], 2), [(0, vec![]), (0, vec![])]);
    }

    /// They are spread, whatever the machines have beside them.
    #[test]
    fn boards_without_a_plan() {
        let boards = [None, Some(5), None, None, Some(9), None];
        assert_eq!(dealt(&boards, 2), [(9, vec![4, 2, 5]), (5, vec![1, 0, 3])]);
        assert_eq!(dealt(&[None; 5], 3), [(0, vec![0, 3]), (0, vec![1, 4]), (0, vec![2])]);
    }

    #[test]
    fn the_heaviest() {
        let share = |blocks| Share { blocks, boards: vec![] };
        let machine = |all: &[u64]| heaviest(&all.iter().copied().map(share).collect::<Vec<_>>()).map(|(at, _)| at);
        assert_eq!(
            [machine(&[1, 3, 3]), machine(&[0, 0]), machine(&[2]), machine(&[])],
            [Some(1), Some(0), Some(0), None]
        );
    }

    #[test]
    fn per_cent() {
        for (blocks, sum, said) in [
            (1, 3, "33.3 %"),
            (2, 3, "66.7 %"),
            (7, 7, "100.0 %"),
            (0, 7, "0.0 %"),
            (0, 0, "0.0 %"),
            (1, 2001, "0.0 %"),
            (1, 2000, "0.1 %"),
            (u64::MAX, u64::MAX, "100.0 %"),
        ] {
            assert_eq!(percent(blocks, sum), said);
        }
    }
}
