//! A plan of an audit, from the heads of a board's items alone: how many items there are, the words that their rows fill in
//! the index table, and the blocks over which their addresses are hashed.

use crate::audit::{LayoutRules, Refusal, LAYOUT_RULES};
use crate::format::*;

/// Number 0 is a plan. In a refusal the last two are 0.
#[derive(Clone, Copy, PartialEq, Eq, Debug, Default)]
pub struct Planned {
    pub number: u32,
    /// Of a refusal, those whose heads passed.
    pub items: u32,
    pub index_words: u32,
    pub blocks: u32,
}

/// Plans the audit of a board by the rules as they are.
pub fn plan(board: &[u32]) -> Planned {
    plan_with(LAYOUT_RULES, board)
}

/// The same by any rules about layouts.
pub fn plan_with(rules: LayoutRules, board: &[u32]) -> Planned {
    let curve = (rules.of)(board).curve;
    match messages(rules, board) {
        Err(Refusal { number, items }) => Planned { number, items: items as u32, ..Planned::default() },
        Ok(messages) => Planned {
            number: 0,
            items: messages.len() as u32,
            index_words: (INDEX_ROW * messages.len()) as u32,
            blocks: messages.iter().map(|&words| blocks(curve, words)).sum::<usize>() as u32,
        },
    }
}

/// How many words are hashed for each address of a board, or the refusal.
fn messages(rules: LayoutRules, board: &[u32]) -> Result<Vec<usize>, Refusal> {
    let mut messages = Vec::new();
    let refuse = |number, items| Err(Refusal { number, items });
    if board.len() > MAX_WORDS {
        return refuse(1, 0);
    }
    if board.first().is_none_or(|&first| kind(first) == CLOSING) {
        return refuse(3, 0);
    }
    let layout = (rules.of)(board);
    // Of an item behind its hashed words.
    let behind = (rules.signature)(layout.curve) + layout.curve.widths().address;
    let mut rest = board;
    while let Some(&head) = rest.first() {
        let items = messages.len();
        if kind(head) == CLOSING {
            let is_right = head & 0x0fff_ffff == items as u32 && rest.len() == 1;
            return if is_right { Ok(messages) } else { refuse(18, items) };
        }
        if items == MAX_ITEMS {
            return refuse(1, items);
        }
        if kind_of(code(head)) != Some(kind(head)) {
            return refuse(5, items);
        }
        if !(rules.count_fits)(layout, code(head), count(head)) {
            return refuse(6, items);
        }
        let hashed = count(head) + layout.curve.hashed_frame();
        if rest.len() < hashed + behind {
            return refuse(4, items);
        }
        messages.push(hashed);
        rest = &rest[hashed + behind..];
    }
    refuse(4, messages.len())
}

/// The blocks of a message of so many words, padded as FIPS 180-4 has it (5.1): a byte that begins with a one bit, zeros up
/// to the length, and the length at the end of a block, in 8 bytes of 64 or in 16 of 128.
pub fn blocks(curve: Curve, words: usize) -> usize {
    let block = curve.widths().block;
    let length = block / 8;
    let mut bytes = 4 * words + 1;
    while bytes % block != block - length {
        bytes += 1;
    }
    (bytes + length) / block
}

/// Known answers: words of a message, and its blocks on each curve. Those for n = 10 and n = 11 on secp256r1 (29 and 30
/// words) are the paper's; the others are around the ends of blocks.
pub fn check_blocks() -> Result<usize, String> {
    let known: [(usize, [usize; 3]); 15] = [
        (0, [1, 1, 1]),
        (13, [1, 1, 1]),
        (14, [2, 1, 1]),
        (15, [2, 1, 1]),
        (16, [2, 1, 1]),
        (27, [2, 1, 1]),
        (28, [2, 2, 2]),
        (29, [2, 2, 2]),
        (30, [3, 2, 2]),
        (31, [3, 2, 2]),
        (32, [3, 2, 2]),
        (59, [4, 2, 2]),
        (60, [4, 3, 3]),
        (64, [5, 3, 3]),
        (8_747, [547, 274, 274]),
    ];
    for (words, right) in known {
        let given = CURVES.map(|curve| blocks(curve, words));
        if given != right {
            return Err(format!("{words} words are hashed over {right:?} blocks, not {given:?}"));
        }
    }
    Ok(known.len())
}

#[cfg(test)]
mod tests {
    use super::*;

    #[test]
    fn known_blocks() {
        check_blocks().unwrap();
    }

    // A one bit and the length in 64 or 128 bits take 65 or 129 bits: the least number of blocks that has room for them.
    #[test]
    fn blocks_have_room() {
        for (curve, block, length) in [(CURVES[0], 512, 64), (CURVES[1], 1_024, 128), (CURVES[2], 1_024, 128)] {
            for words in 0..9_000 {
                let bits = 32 * words + 1 + length;
                assert_eq!(blocks(curve, words), bits / block + usize::from(bits % block != 0));
            }
        }
    }

    fn board(heads: &[u32], curve: Curve) -> Vec<u32> {
        let mut words = Vec::new();
        for &head in heads {
            words.push(head);
            words.resize(words.len() + count(head) + curve.frame() - 1, 0xabcd_ef01);
        }
        words.push(CLOSING << 28 | heads.len() as u32);
        words
    }

    fn said(board: &[u32]) -> [u32; 4] {
        crate::interface::plan_words(&plan(board))
    }

    #[test]
    fn genesis_and_more() {
        // 36 words, three blocks; 29, two; 30, three.
        assert_eq!(said(&board(&[0x1001_0011], CURVES[0])), [0, 1, 5, 3]);
        assert_eq!(said(&board(&[0x1001_0011, 0x1002_000a], CURVES[0])), [0, 2, 10, 5]);
        assert_eq!(said(&board(&[0x1001_0011, 0x1002_000b], CURVES[0])), [0, 2, 10, 6]);
        // On secp384r1 45 words, two blocks of 128 bytes, and 27, one; on secp521r1 53, two, and 35, two.
        for (traits, curve, blocks) in [(2, CURVES[1], 3), (4, CURVES[2], 4)] {
            let mut words = board(&[0x1001_0012, 0x1014_0000], curve);
            words[18] = traits;
            assert_eq!(said(&words), [0, 2, 10, blocks]);
        }
    }

    #[test]
    fn refusals() {
        let right = board(&[0x1001_0011, 0x1014_0000], CURVES[0]);
        assert_eq!(said(&[]), [3, 0, 0, 0]);
        assert_eq!(said(&[0xf000_0000]), [3, 0, 0, 0]);
        assert_eq!(said(&right[..59]), [4, 0, 0, 0]);
        assert_eq!(said(&right[..60]), [4, 1, 0, 0]);
        assert_eq!(said(&right[..103]), [4, 2, 0, 0]);
        assert_eq!(said(&[&right[..], &[0]].concat()), [18, 2, 0, 0]);
        assert_eq!(said(&[&right[..103], &[0xf000_0003]].concat()), [18, 2, 0, 0]);
        assert_eq!(said(&board(&[0x1001_0011, 0x1030_0000], CURVES[0])), [5, 1, 0, 0]);
        assert_eq!(said(&board(&[0x1001_0011, 0x1013_0013], CURVES[0])), [6, 1, 0, 0]);
        assert_eq!(said(&board(&[0x1014_0000; 2_048], CURVES[0])), [0, 2_048, 10_240, 4_096]);
        assert_eq!(said(&board(&[0x1014_0000; 2_049], CURVES[0])), [1, 2_048, 0, 0]);
        assert_eq!(said(&vec![0xf000_0000; 262_145]), [1, 0, 0, 0]);
        assert_eq!(said(&vec![0; 262_144]), [5, 0, 0, 0]);
    }
}
