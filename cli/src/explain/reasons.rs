//! What each refusal is about, whatever the board.

/// What is wrong, and what to look at. `of_item`: it is about the item behind those that passed.
pub struct Reason {
    pub wrong: &'static str,
    pub look: &'static str,
    pub of_item: bool,
}

/// The reason of a refusal number; none for a number that no refusal has.
pub fn of(number: u32) -> Option<Reason> {
    let of_item = matches!(number, 5..=16 | 21);
    let (wrong, look) = match number {
        1 => ("too large: more words than the limit, or a 2049th item", "the size of board.words"),
        2 => ("a buffer of the calling program is too short", "the calling program"),
        3 => ("empty: no words, or the first is a closing word", "whether board.words was written"),
        4 => (
            "truncated: an item runs past the end, or there is no closing word",
            "how the files were copied; for item 1 also at the traits word, or whether it is missing",
        ),
        5 => ("its kind or type is unknown", "its head"),
        6 => (
            "its number of content words is not in the table of types",
            "the low 16 bits of its head; for types 6 and 16 to 19 also at the traits word, or whether it is missing",
        ),
        7 => (
            "its address is not the hash of its words",
            "whether a word of it was changed; for item 1 also at the traits word, or whether it is missing",
        ),
        8 => ("it does not name the item before it", "whether an item is missing, added or moved"),
        9 => ("its parent is not found, or not of the listed type", "its parent field"),
        10 => ("its time is earlier than that of the item before it", "its time field"),
        11 => ("it is out of phase", "the rounds and the order of the items"),
        12 => ("it is a second one where only one may stand", "the items under the same parent"),
        13 => (
            "its content is bad",
            "the content rule of its type; for types 1 and 3 also at the traits word, or whether it is missing",
        ),
        14 => ("it has no verdict", "its nine words in verdicts.words"),
        15 => ("its verdict was given for another key than the writer's", "the key fingerprint in the verdict"),
        16 => ("its signature is bad", "the log of the signature checker"),
        18 => ("bad closing word", "the end of board.words and of verdicts.words"),
        19 => ("no such item", "the number that was asked for"),
        20 => ("bad roll", "the size and the order of roll.words"),
        21 => ("its voter is not on the roll with its weight", "its first two content words, and roll.words"),
        22 => ("bad receipts: not whole ones, or more than 512", "the size of the file of receipts"),
        23 => ("bad notes: not whole ones, or more than 1024", "the size of the file of notes"),
        _ => return None,
    };
    Some(Reason { wrong, look, of_item })
}
