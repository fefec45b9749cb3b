//! What an explanation must say of each fault of the reference's list.

/// A fault's reason, without its type, and phrases of which one must occur in the explanation.
type Row = (&'static str, &'static [&'static str]);

const ODD: &[&str] = &["words, an odd number"];
const ONE: &[&str] = &["1 word, an odd number"];
const MANY: &[&str] = &["and a roll has at most 2048"];
const SORTED: &[&str] = &["is not sorted by voter number"];
const AGAIN: &[&str] = &[" again at word "];
const ANY_ROLL: &[&str] = &["an odd number", MANY[0], SORTED[0]];
const MISSING: &[&str] = &["does not have that voter", "roll.words is empty"];
const WEIGHT: &[&str] = &["has that voter with weight "];
const HIDDEN: &[&str] = &["as its previous field, which must equal its parent field"];
const HIDDEN_NAMES: &[&str] = &["is on a hidden track and names item "];
const FIRST: &[&str] = &["it is the first main item, whose previous field must be "];
const UNKNOWN: &[&str] = &["which no item before it has", FIRST[0], HIDDEN[0]];
const GENESIS: &[&str] = &["but the parent field of a genesis must be "];
const NO_PARENT: &[&str] = &["names a parent that is not found"];
const FIRST_ITEM: &[&str] = &["is the first item, so that no item before it can be its parent"];
const CUT: &[&str] = &["runs past the end of the file"];
const COUNT: &[&str] = &[" by its head "];
const HASH: &[&str] = &[
    "that is not the SHA-256 of its words ",
    "that is not the SHA-384 of its words ",
    "that is not the SHA-512 of its words ",
];
/// What would follow with other widths.
const OTHER_FRAME: &[&str] =
    &["; with the widths of secp256r1 ", "; with the widths of secp384r1 ", "; with the widths of secp521r1 "];
const OTHER_CURVE: &[&str] = &[" would fit secp"];
const ADDED: &[&str] = &["an item may have been added between, or this one moved"];
const CONFIG: &[&str] = &["as its parent, but the latest configuration item is item "];
const CAST: &[&str] = &["which was cast by item "];
const OPEN: &[&str] = &["which is open: neither cast nor spoiled"];
const CAST_OR_OPEN: &[&str] = &[CAST[0], OPEN[0]];
/// Its spoil may stand behind, under an open ballot.
const NOT_SPOILED: &[&str] = &[CAST[0], OPEN[0], "stands behind the opening"];
const ROUNDS: &[&str] = &["at what is in force: round "];
const START: &[&str] = &["but its start must be before its end"];
const EMPTY: &[&str] = &["its set of contests, at word ", "its set of contests, 8 words at word "];
const UNDEFINED: &[&str] = &["which no contest item before it defines"];
const ENABLED: &[&str] = &["enables that contest"];
const SESSION: &[&str] = &["does not have that contest"];
const NUMBER: &[&str] = &["but it must be at most 31. ", "but it must be at most 255. ", ", it must be at most 31; "];
const CRYPTOGRAM_COUNT: &[&str] = &[
    "with k from 1 to 32. Look at the low 16 bits of the head.",
    "with k from 1 to 256. Look at the low 16 bits of the head.",
];
const TRAITS: &[&str] = &[", but bit ", ", but bits "];
const CURVE_3: &[&str] = &["bits 1 and 2 give the number 3, which no curve has"];
const READ_AS: &[&str] = &[" has no meaning", " have no meaning"];
const CRYPTOGRAMS: &[&str] = &[" cryptogram. ", " cryptograms. "];
const COUNTED: &[&str] = &["that is not the SHA-256 of the content", "that is not the SHA-256 of the empty message"];
const BELOW: &[&str] = &["numbers are below "];
const BITS: &[&str] = &["bits of that word must be zero"];
const ADMINISTRATOR: &[&str] = &["which is that of the administrator (genesis item 1, at word 2, byte 8)"];
const NO_KEY: &[&str] = &["which is no key that the items name"];
const VERDICTS: &[&str] = &["more than nine for each of "];
const BEHIND: &[&str] = &["word stands behind it", "words stand behind it"];

const ROWS: &[Row] = &[
    ("3/no words", &["board.words has no words"]),
    ("3/closing word first", &["is a closing word, so that the board has no items"]),
    ("4/cut in an item", CUT),
    ("4/cut after a head", &["words, but there is 1 only"]),
    ("4/one word short", CUT),
    ("4/no closing word", &["without a closing word"]),
    ("4/roll, voter missing", CUT),
    ("4/width, ", CUT),
    ("4/curve, ", CUT),
    ("4/curve, genesis alone, laid out as on a smaller curve", OTHER_FRAME),
    ("4/curve, unknown traits, laid out as on their curve", READ_AS),
    ("5/kind", &["but an item has kind 1 (main) or kind 2 (hidden)"]),
    ("5/unlisted main type", &["kind 1 (main) and type "]),
    ("5/unlisted hidden type", &["kind 2 (hidden) and type "]),
    ("5/hidden type as main", &["has kind 2 (hidden)"]),
    ("5/main type as hidden", &["has kind 1 (main)"]),
    ("5/unlisted head as last word", &["which is not a listed type"]),
    ("5/roll, voter missing", &["but a session has kind 1 (main)"]),
    ("5/curve, hidden genesis", &["but a genesis has kind 1 (main)"]),
    ("6/head", COUNT),
    ("6/content", COUNT),
    ("6/head as last word", COUNT),
    ("6/roll, voter missing, misfit", &[", a session has 19", ", a session has 26"]),
    ("6/width, ", COUNT),
    (
        "6/width, wide board not said to be, a round",
        &[" would fit sets of eight words. Look at the low 16 bits of the head, and at "],
    ),
    (
        "6/width, narrow board said to be wide",
        &[" would fit sets of one word. Look at the low 16 bits of the head, and at the traits word, 0000000"],
    ),
    (
        "6/width, set of the other width",
        &[
            " would fit sets of one word. Look at the low 16 bits of the head, and at the traits word, 0000000",
            " would fit sets of eight words. Look at the low 16 bits of the head, and at the traits word, 0000000",
            " would fit sets of eight words. Look at the low 16 bits of the head, and at item 1 (genesis), which has no ",
        ],
    ),
    // Other curves may fit, too.
    ("6/width, set of the other width, type 19", &["sets of one word", "sets of eight words"]),
    // There is no genesis to look at.
    ("6/width, first is type ", &[" would fit sets of eight words. Look at the low 16 bits of the head."]),
    ("6/width, no cryptogram", CRYPTOGRAM_COUNT),
    ("6/width, a cryptogram over all", CRYPTOGRAM_COUNT),
    ("6/curve, cryptograms of another curve", OTHER_CURVE),
    ("6/curve, commitment of another curve", OTHER_CURVE),
    ("6/curve, shares as wide as signatures", COUNT),
    ("6/curve, fingerprint as wide as an address", COUNT),
    // There is no genesis to look at.
    (
        "6/curve, first is type ",
        &[
            " would fit secp384r1. Look at the low 16 bits of the head.",
            " would fit secp521r1. Look at the low 16 bits of the head.",
        ],
    ),
    ("7/", HASH),
    ("7/curve, laid out as on another curve", OTHER_FRAME),
    ("7/curve, unknown traits, laid out as on their curve", READ_AS),
    ("7/curve, number 3, laid out as on another", CURVE_3),
    ("8/one bit", UNKNOWN),
    ("8/zeros", &[" zeros in its previous field", HIDDEN[0]]),
    ("8/main names hidden", &["which is on a hidden track, but the main item before it is item "]),
    ("8/two back", ADDED),
    ("8/main names parent", ADDED),
    ("8/hidden names last main", HIDDEN_NAMES),
    ("8/hidden names item before", HIDDEN_NAMES),
    ("8/hidden, parent unknown too", HIDDEN),
    ("8/hidden first", HIDDEN),
    ("8/random", UNKNOWN),
    ("8/roll, voter missing, broken history", UNKNOWN),
    ("8/width, ", FIRST),
    ("8/curve, previous, a bit", UNKNOWN),
    ("8/curve, hidden previous, a bit", HIDDEN),
    ("8/curve, first previous, a bit", FIRST),
    ("9/genesis with a parent", GENESIS),
    ("9/hidden before its parent", &["as its parent, but that stands behind it"]),
    (
        "9/opening under a track start, not spoiled",
        &["(track start) as its parent, but the parent of a voter opening must be a verifier"],
    ),
    ("9/not found", &[NO_PARENT[0], GENESIS[0]]),
    ("9/one bit", NO_PARENT),
    ("9/zeros", &[" zeros in its parent field, as only a genesis may; "]),
    ("9/older config", CONFIG),
    ("9/no config", CONFIG),
    ("9/hidden parent", &["as its parent, but that is a hidden item"]),
    ("9/main parent", &["as its parent, but that is a main item"]),
    ("9/other type", &["as its parent, but the parent of "]),
    ("9/first", FIRST_ITEM),
    ("9/roll, voter missing", NO_PARENT),
    ("9/width, ", GENESIS),
    ("9/curve, genesis of 17 words", GENESIS),
    ("9/curve, text in the place of a genesis", FIRST_ITEM),
    ("9/curve, parent, a bit behind the eighth word", &[NO_PARENT[0], GENESIS[0]]),
    ("10/", &[", which is earlier than "]),
    ("11/after intent", &["(extraction intent), after which only "]),
    ("11/late", ROUNDS),
    ("11/replaced", ROUNDS),
    ("11/overwritten", &["which is not the latest of voter "]),
    ("11/no threshold", &["needs a threshold, but no such item"]),
    ("11/no authorizer", &["needs an authorizer, but no such item"]),
    ("11/no round", &["no round item stands before it"]),
    ("11/intent without threshold", &["needs a threshold, but no such item"]),
    ("11/opening beside a cast", CAST),
    ("11/opening before a cast", OPEN),
    ("11/opening on an open ballot", OPEN),
    ("11/opening, another ballot of the session spoiled", CAST_OR_OPEN),
    ("11/opening, another voter's ballot spoiled", CAST_OR_OPEN),
    ("11/opening, the spoil left out", OPEN),
    ("11/opening, a cast in the spoil's place", CAST),
    ("11/opening before its spoil", &["stands behind the opening"]),
    ("11/opening before its spoil, which has an earlier time", &["stands behind the opening"]),
    ("11/opening not spoiled, and a bad verdict", NOT_SPOILED),
    ("11/roll, voter missing, late", ROUNDS),
    ("12/genesis", &["item 1 is the board's genesis already"]),
    ("12/threshold", &["is the board's threshold already"]),
    ("12/cast after cast", &["was already cast by item "]),
    ("12/spoil after cast", &["was already cast by item "]),
    ("12/cast after spoil", &["was already spoiled by item "]),
    ("12/spoil after spoil", &["was already spoiled by item "]),
    ("12/cast after spoil and opening", &["was already spoiled by item "]),
    ("12/under a parent", &[" under the same parent, item "]),
    ("12/width, ", &["item 1 is the board's genesis already"]),
    ("12/curve, ", &["item 1 is the board's genesis already"]),
    ("13/contest number", NUMBER),
    ("13/threshold, t zero", &["has the threshold 0 at word "]),
    ("13/threshold, t over m", &["trustee only, by the word before it", "trustees only, by the word before it"]),
    ("13/threshold, m 33", &["has the number of trustees 33 at word "]),
    ("13/threshold, m zero", &["has the threshold 0 at word "]),
    ("13/threshold, m huge", &["but there may be at most 32"]),
    ("13/authorizer mode", &["but it must be 1 (identity) or 2 (credential)"]),
    ("13/round number", &["but it must be at most 15"]),
    ("13/round without contests", EMPTY),
    ("13/round, contest undefined", UNDEFINED),
    ("13/round, start is end", START),
    ("13/round, start after end", START),
    ("13/round, start after end in the high word", START),
    ("13/session weight 0", &["has the weight 0 at word "]),
    ("13/session without contests", EMPTY),
    ("13/session, contest undefined", UNDEFINED),
    ("13/cryptogram bits", &["as the last word of cryptogram "]),
    ("13/ballot, cryptogram too many", &[" cryptograms. "]),
    ("13/ballot, cryptogram too few", CRYPTOGRAMS),
    ("13/ballot without contests", &["has 0 contests in its set, 00000000", "has 0 contests in its set, 8 words at "]),
    ("13/ballot, contest not in session", SESSION),
    ("13/ballot, contest not enabled", ENABLED),
    ("13/ballot, contest undefined", SESSION),
    ("13/ballot, only a replaced round", ENABLED),
    ("13/fingerprint, one bit", COUNTED),
    ("13/fingerprint of none", COUNTED),
    ("13/fingerprint of all casts", COUNTED),
    ("13/fingerprint of all ballots", COUNTED),
    ("13/fingerprint of last ballots", COUNTED),
    ("13/fingerprint, reversed", COUNTED),
    ("13/fingerprint, order of first casts", COUNTED),
    ("13/fingerprint, order of ballots", COUNTED),
    ("13/fingerprint of live sessions", COUNTED),
    ("13/fingerprint of cryptograms", COUNTED),
    ("13/confirmation, trustee too many", &[" trustee shares. "]),
    ("13/confirmation, trustee too few", &[" trustee share. ", " trustee shares. "]),
    ("13/confirmation without trustees", &["has 0 trustees in its set, 00000000"]),
    ("13/confirmation, number m", BELOW),
    ("13/confirmation, number over m", BELOW),
    ("13/confirmation below threshold", &["are needed by the threshold, item "]),
    ("13/low bits", BITS),
    ("13/trait, bit ", TRAITS),
    ("13/width, all traits", TRAITS),
    ("13/width, traits ", TRAITS),
    ("13/width, unknown traits", TRAITS),
    ("13/curve, number 3", CURVE_3),
    ("13/curve, fingerprint by the curve's hash", COUNTED),
    ("13/curve, cryptograms of another curve, a count that fits", CRYPTOGRAMS),
    ("13/curve, shares as wide as signatures, a count that fits", &[" trustee shares. "]),
    ("13/curve, highest low bit of a commitment", BITS),
    ("13/curve, lowest low bit of a commitment", BITS),
    ("13/curve, low bit of a commitment", BITS),
    ("13/width, first contest number too many", NUMBER),
    ("13/width, wide board not said to be, a contest", &[" would fit sets of eight words. Look at this word, and at "]),
    ("13/width, contest undefined", UNDEFINED),
    ("13/width, contest not in session", SESSION),
    ("13/width, contest of a later word not in session", SESSION),
    ("13/width, contest not enabled", ENABLED),
    ("13/width, contest of a later word not enabled", ENABLED),
    ("13/width, bits counted across words", &[UNDEFINED[0], SESSION[0]]),
    ("13/width, as many cryptograms", CRYPTOGRAMS),
    ("13/width, cryptograms of ", CRYPTOGRAMS),
    ("13/width, bits of a late cryptogram", &["as the last word of cryptogram "]),
    ("13/all contests, bits of cryptogram 256", &["as the last word of cryptogram 256, "]),
    ("13/all contests, bits of one of the cryptograms", &["as the last word of cryptogram "]),
    ("13/roll, voter missing, session without contests", EMPTY),
    ("13/roll, voter missing, contest undefined", UNDEFINED),
    ("13/roll, voter missing, weight 0", &["has the weight 0 at word "]),
    ("13/roll, weight 0 on the roll, too", &["has the weight 0 at word "]),
    ("14/kind", &["stands where 30000001 (good) or 30000000 (bad) must stand"]),
    ("14/bits", &["stands where 30000001 (good) or 30000000 (bad) must stand"]),
    ("14/missing", &["none of its nine words is there", " of its nine words is there", " of its nine words are there"]),
    ("14/none at all", &["none of its nine words is there"]),
    ("15/random", NO_KEY),
    ("15/zeros", NO_KEY),
    ("15/one bit", NO_KEY),
    ("15/administrator", ADMINISTRATOR),
    // Both may have one key.
    ("15/ballot box", &["which is that of the ballot box (genesis item 1, at word 10, byte 40)", ADMINISTRATOR[0]]),
    ("15/authorizer", &["which is that of an authorizer (authorizer item "]),
    ("15/replaced authorizer", &["which is that of an authorizer (authorizer item "]),
    ("15/a voter", &["which is that of voter "]),
    ("15/voter's latest session", &["which is that of voter "]),
    ("16/verdict", &["has a bad signature: its verdict is 30000000"]),
    ("18/number", &["its number is "]),
    ("18/number of mains", &["its number is "]),
    ("18/words after", BEHIND),
    ("18/verdicts left", VERDICTS),
    ("18/closing word inside", BEHIND),
    ("18/cut, verdicts left", VERDICTS),
    ("20/roll, one word", ONE),
    ("20/roll, a word too few", &[ODD[0], ONE[0]]),
    ("20/roll, a word too many", &[ODD[0], ONE[0]]),
    ("20/roll, 4,095 words", &["has 4095 words, an odd number"]),
    ("20/roll, 4,097 words", &["has 4097 words, an odd number"]),
    ("20/roll, 2,049 pairs", &["has 2049 pairs of voter and weight"]),
    ("20/roll, many more pairs", MANY),
    ("20/roll, equal", AGAIN),
    ("20/roll, falling", SORTED),
    ("20/roll, two equal pairs", AGAIN),
    ("20/roll, two falling pairs", SORTED),
    ("20/roll, all equal", AGAIN),
    ("20/roll, all falling", SORTED),
    ("20/roll, the greatest, then 0", &["voter 4294967295 at word "]),
    ("20/roll, rising as signed numbers", SORTED),
    ("20/roll, the last is the first again", SORTED),
    ("20/roll, and", ANY_ROLL),
    ("21/roll, empty roll", &["roll.words is empty"]),
    ("21/roll, voter", MISSING),
    ("21/roll, roll has more weight", WEIGHT),
    ("21/roll, roll has less weight", WEIGHT),
    ("21/roll, roll has weight 0", &["has that voter with weight 0. "]),
    ("21/roll, one bit of the weight", WEIGHT),
    ("21/roll, weight", WEIGHT),
    ("21/roll, across two pairs", MISSING),
    ("21/roll, pair turned about", MISSING),
    ("21/roll, session's weight changed", WEIGHT),
    ("21/roll, second session's weight changed", WEIGHT),
    ("21/roll, session's voter changed", MISSING),
    ("21/roll, session of a voter with another weight", WEIGHT),
    ("21/roll, session added", MISSING),
];

/// The phrases for a reason: those of the longest row that begins it.
pub fn phrases(reason: &str) -> Option<&'static [&'static str]> {
    let rows = ROWS.iter().filter(|(of, _)| reason.starts_with(of));
    rows.max_by_key(|(of, _)| of.len()).map(|&(_, phrases)| phrases)
}

/// The rows that no reason begins with.
pub fn unused(reasons: &[&str]) -> Vec<&'static str> {
    let is_used = |of: &str| reasons.iter().any(|reason| reason.starts_with(of));
    ROWS.iter().map(|&(of, _)| of).filter(|of| !is_used(of)).collect()
}
