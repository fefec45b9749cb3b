//! The format of a board: the curve that it is on, and how wide its sets of contests are. The board's own first item tells.

/// The head of a genesis that has no traits word, that of one which has, and where that word stands on the board that it opens.
const PLAIN_HEAD: u32 = 0x1001_0011;
const TRAITS_HEAD: u32 = 0x1001_0012;
pub const TRAITS_PLACE: usize = 18;

/// The bit of a traits word that makes sets of contests wide, and those that are the number of the curve. No other bit has a meaning.
const WIDE_CONTESTS: u32 = 1;
const CURVE_SHIFT: u32 = 1;
const CURVE_BITS: u32 = 3 << CURVE_SHIFT;

/// The traits word of a board, whatever it is; none where the first item does not carry one.
pub fn traits(board: &[u32]) -> Option<u32> {
    board.first().filter(|&&head| head == TRAITS_HEAD)?;
    board.get(TRAITS_PLACE).copied()
}

/// Whether the first item is a genesis that carries none.
pub fn has_no_traits(board: &[u32]) -> bool {
    board.first() == Some(&PLAIN_HEAD)
}

/// The bits of a traits word that have no meaning.
pub fn bits_without_meaning(traits: u32) -> impl Iterator<Item = u32> {
    let wrong = traits & !(WIDE_CONTESTS | CURVE_BITS);
    (0..u32::BITS).filter(move |bit| wrong >> bit & 1 == 1)
}

/// The number of the curve that a traits word chooses, whether there is one or not.
pub fn curve_number(traits: u32) -> u32 {
    (traits & CURVE_BITS) >> CURVE_SHIFT
}

/// A curve, and what goes by it. Widths are in words.
#[derive(Debug, PartialEq, Eq)]
pub struct Curve {
    pub name: &'static str,
    /// What an address is of the hashed words.
    pub hash: &'static str,
    pub address: usize,
    pub signature: usize,
    pub commitment: usize,
    /// So many low bits of a commitment's last word are zero.
    pub commitment_zeros: u32,
    pub cryptogram: usize,
}

const fn curve(name: &'static str, hash: &'static str, widths: [usize; 4], commitment_zeros: u32) -> Curve {
    let [signature, commitment, cryptogram, address] = widths;
    Curve { name, hash, address, signature, commitment, commitment_zeros, cryptogram }
}

impl Curve {
    /// The words of a receipt: a signature, and an address behind it.
    pub fn receipt(&self) -> usize {
        self.signature + self.address
    }

    /// The words of a watcher's note: a time, and an address behind it.
    pub fn note(&self) -> usize {
        TIME + self.address
    }
}

/// The words of a time, on every curve.
pub const TIME: usize = 2;

/// By their numbers. The widths: signature, commitment, cryptogram, address.
pub static CURVES: [Curve; 3] = [
    curve("secp256r1", "SHA-256", [16, 9, 17, 8], 24),
    curve("secp384r1", "SHA-384", [24, 13, 25, 12], 24),
    curve("secp521r1", "SHA-512", [33, 17, 34, 16], 8),
];

/// So many low bits of a cryptogram's last word are zero, on every curve.
pub const CRYPTOGRAM_ZEROS: u32 = 16;

/// What a set has as its members.
#[derive(Clone, Copy, Debug, PartialEq, Eq)]
pub enum Members {
    Contests,
    Trustees,
}

/// What an item has behind its content.
#[derive(Clone, Copy, Debug, PartialEq, Eq)]
pub enum Part {
    Parent,
    Previous,
    Time,
    Signature,
    Address,
}

/// In their order.
const PARTS: [Part; 5] = [Part::Parent, Part::Previous, Part::Time, Part::Signature, Part::Address];

/// What a rule goes by.
#[derive(Clone, Copy, Debug, PartialEq, Eq)]
pub enum By {
    Curve,
    Sets,
    Both,
}

#[derive(Clone, Copy, Debug, PartialEq, Eq)]
pub struct Format {
    pub curve: &'static Curve,
    contest_words: usize,
}

impl Format {
    /// That of a board without a traits word.
    pub const PLAIN: Format = Format { curve: &CURVES[0], contest_words: 1 };

    /// What a traits word gives; none where it is refused.
    pub fn of_traits(word: u32) -> Option<Format> {
        let curve = CURVES.get((word >> CURVE_SHIFT) as usize)?;
        Some(Format { curve, contest_words: if word & WIDE_CONTESTS == 0 { 1 } else { 8 } })
    }

    /// That of a board: plain where it has no traits word, and where that word is refused.
    pub fn of(board: &[u32]) -> Format {
        traits(board).and_then(Format::of_traits).unwrap_or(Format::PLAIN)
    }

    /// Those that a board can have, by their traits words.
    pub fn all() -> impl Iterator<Item = Format> {
        (0..).map_while(Format::of_traits)
    }

    /// Those that differ from this one in nothing but what a rule goes by; first those that differ in one thing alone.
    pub fn others(self, by: By) -> Vec<Format> {
        let is_other = |other: &Format| match by {
            By::Curve => other.contest_words == self.contest_words,
            By::Sets => other.curve == self.curve,
            By::Both => true,
        };
        let mut others: Vec<Format> = Format::all().filter(|&other| other != self).filter(is_other).collect();
        others.sort_by_key(|other| other.curve != self.curve && other.contest_words != self.contest_words);
        others
    }

    /// The words of a set.
    pub fn words(self, members: Members) -> usize {
        match members {
            Members::Contests => self.contest_words,
            Members::Trustees => 1,
        }
    }

    /// How many numbers a set can have, from 0 on.
    pub fn numbers(self, members: Members) -> usize {
        u32::BITS as usize * self.words(members)
    }

    /// The words that stand behind a set for each of its members: a cryptogram, or a trustee's share.
    pub fn each(self, members: Members) -> usize {
        match members {
            Members::Contests => self.curve.cryptogram,
            Members::Trustees => 16,
        }
    }

    /// The words of a part of an item.
    pub fn part(self, part: Part) -> usize {
        match part {
            Part::Parent | Part::Previous | Part::Address => self.curve.address,
            Part::Time => TIME,
            Part::Signature => self.curve.signature,
        }
    }

    /// How many words of other parts stand between the content and a part.
    pub fn before(self, part: Part) -> usize {
        PARTS.into_iter().take_while(|&other| other != part).map(|other| self.part(other)).sum()
    }

    /// The words of an item beside its content: the head and all parts.
    pub fn frame(self) -> usize {
        1 + PARTS.into_iter().map(|part| self.part(part)).sum::<usize>()
    }
}

#[cfg(test)]
mod tests {
    use super::*;

    fn board(head: u32, traits: u32) -> Vec<u32> {
        let mut board = vec![0; TRAITS_PLACE + 1];
        board[0] = head;
        board[TRAITS_PLACE] = traits;
        board
    }

    /// The papers' numbers, by traits words: frame, words of a signature, commitment, cryptogram, address and set of contests.
    const WIDTHS: [[usize; 6]; 6] = [
        [43, 16, 9, 17, 8, 1],
        [43, 16, 9, 17, 8, 8],
        [63, 24, 13, 25, 12, 1],
        [63, 24, 13, 25, 12, 8],
        [84, 33, 17, 34, 16, 1],
        [84, 33, 17, 34, 16, 8],
    ];

    fn widths(format: Format) -> [usize; 6] {
        let curve = format.curve;
        let set = format.words(Members::Contests);
        [format.frame(), curve.signature, curve.commitment, curve.cryptogram, curve.address, set]
    }

    #[test]
    fn each_traits_word() {
        for (word, right) in WIDTHS.iter().enumerate() {
            assert_eq!(widths(Format::of(&board(TRAITS_HEAD, word as u32))), *right, "traits {word}");
        }
        assert_eq!(Format::all().map(widths).collect::<Vec<_>>(), WIDTHS);
        for word in (6..100).chain((3..32).flat_map(|bit| [1 << bit, 1 << bit | 3, 1 << bit | 5])).chain([u32::MAX]) {
            assert_eq!(Format::of_traits(word), None, "traits {word:x}");
            assert_eq!(Format::of(&board(TRAITS_HEAD, word)), Format::PLAIN, "traits {word:x}");
        }
    }

    /// Another head, and words that end before the traits word, give the plain format.
    #[test]
    fn no_traits_word() {
        for head in [PLAIN_HEAD, TRAITS_HEAD + 1, 0x2001_0012, 0x1002_0012, 0xf000_0001] {
            assert_eq!(widths(Format::of(&board(head, 5))), WIDTHS[0], "head {head:08x}");
        }
        let board = board(TRAITS_HEAD, 5);
        for end in 0..=TRAITS_PLACE {
            assert_eq!(widths(Format::of(&board[..end])), WIDTHS[0], "{end} words");
        }
    }

    #[test]
    fn parts_follow_each_other() {
        for format in Format::all() {
            let mut behind = 0;
            for part in PARTS {
                assert_eq!(format.before(part), behind);
                behind += format.part(part);
            }
            assert_eq!(format.frame(), 1 + behind);
        }
        let places = |format: Format| PARTS.map(|part| format.before(part));
        assert_eq!(places(Format::PLAIN), [0, 8, 16, 18, 34]);
        assert_eq!(Format::of_traits(2).map(places), Some([0, 12, 24, 26, 50]));
        assert_eq!(Format::of_traits(5).map(places), Some([0, 16, 32, 34, 67]));
    }

    #[test]
    fn other_formats() {
        let traits = |others: Vec<Format>| -> Vec<usize> {
            others.iter().filter_map(|other| Format::all().position(|format| format == *other)).collect()
        };
        let wide_384 = Format::of_traits(3).expect("a format");
        assert_eq!(traits(wide_384.others(By::Sets)), [2]);
        assert_eq!(traits(wide_384.others(By::Curve)), [1, 5]);
        assert_eq!(traits(wide_384.others(By::Both)), [1, 2, 5, 0, 4]);
        assert_eq!(traits(Format::PLAIN.others(By::Both)), [1, 2, 4, 3, 5]);
    }

    #[test]
    fn bits_of_traits() {
        let bits = |word| bits_without_meaning(word).collect::<Vec<u32>>();
        assert!((0..8).all(|word| bits(word).is_empty()));
        assert_eq!((bits(0x8000_000f), bits(0x0000_0c06)), (vec![3, 31], vec![10, 11]));
        assert_eq!([0, 1, 2, 5, 6, 7, 0xffff_fff8, u32::MAX].map(curve_number), [0, 0, 1, 2, 3, 3, 0, 3]);
    }
}
