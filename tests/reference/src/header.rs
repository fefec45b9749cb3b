//! The header for callers in C: each name that it defines has the value that it has here. Copies of it
//! with a mistake show that the check can fail.

use crate::format::*;
use crate::interface::*;

/// What the header is to define, by #define or in an enum.
const NAMES: &[(&str, usize)] = &[
    ("TIRFOLMA_BOARD_WORDS", MAX_WORDS),
    ("TIRFOLMA_BOARD_ITEMS", MAX_ITEMS),
    ("TIRFOLMA_AUDIT_WORDS", AUDIT_ANSWER),
    ("TIRFOLMA_END_WORDS", END_WORDS),
    ("TIRFOLMA_INDEX_ROW_WORDS", INDEX_ROW),
    ("TIRFOLMA_INDEX_WORDS", INDEX_NEED),
    ("TIRFOLMA_BALLOT_ROW_WORDS", BALLOT_ROW),
    ("TIRFOLMA_BALLOT_WORDS", BALLOTS_NEED),
    ("TIRFOLMA_ROLL_ROW_WORDS", ROLL_ROW),
    ("TIRFOLMA_ROLL_WORDS", ROLL_MOST),
    ("TIRFOLMA_ROLL_VOTER", roll_row::VOTER),
    ("TIRFOLMA_ROLL_WEIGHT", roll_row::WEIGHT),
    ("TIRFOLMA_NUMBER", audit_answer::NUMBER),
    ("TIRFOLMA_ITEMS", audit_answer::ITEMS),
    ("TIRFOLMA_MAINS", audit_answer::MAINS),
    ("TIRFOLMA_BALLOTS", audit_answer::BALLOTS),
    ("TIRFOLMA_WEIGHT_HIGH", audit_answer::WEIGHT_HIGH),
    ("TIRFOLMA_WEIGHT_LOW", audit_answer::WEIGHT_LOW),
    ("TIRFOLMA_END", audit_answer::END),
    ("TIRFOLMA_ROW_PLACE", index_row::PLACE),
    ("TIRFOLMA_ROW_PARENT", index_row::PARENT),
    ("TIRFOLMA_ROW_SESSION", index_row::SESSION),
    ("TIRFOLMA_ROW_MAINS", index_row::MAINS_BEFORE),
    ("TIRFOLMA_ROW_CLOSER", index_row::CLOSED_BY),
    ("TIRFOLMA_NO_ITEM", NO_ITEM as usize),
    ("TIRFOLMA_COUNTED_BALLOT", ballot_row::BALLOT),
    ("TIRFOLMA_COUNTED_VOTER", ballot_row::VOTER),
    ("TIRFOLMA_COUNTED_WEIGHT", ballot_row::WEIGHT),
    ("TIRFOLMA_COMPARE_WORDS", COMPARE_ANSWER),
    ("TIRFOLMA_KIND", compare_answer::KIND),
    ("TIRFOLMA_BOARD", compare_answer::BOARD),
    ("TIRFOLMA_COMPARE_NUMBER", compare_answer::NUMBER),
    ("TIRFOLMA_COMPARE_ITEMS", compare_answer::ITEMS),
    ("TIRFOLMA_KEPT_MAIN", compare_answer::KEPT_MAIN),
    ("TIRFOLMA_LATER_MAIN", compare_answer::LATER_MAIN),
    ("TIRFOLMA_REFUSED", compare_kind::REFUSED as usize),
    ("TIRFOLMA_APART", compare_kind::APART as usize),
    ("TIRFOLMA_SAME", compare_kind::SAME as usize),
    ("TIRFOLMA_COLLISION", compare_kind::COLLISION as usize),
    ("TIRFOLMA_ANCESTRY_WORDS", ANCESTRY_ANSWER),
    ("TIRFOLMA_LIST_WORDS", LIST_NEED),
    ("TIRFOLMA_ANCESTRY_NUMBER", ancestry_answer::NUMBER),
    ("TIRFOLMA_ANCESTRY_COUNT", ancestry_answer::COUNT),
    ("TIRFOLMA_RECEIPTS", MAX_RECEIPTS),
    ("TIRFOLMA_RECEIPT_WORDS", Curve::Secp256r1.receipt()),
    ("TIRFOLMA_RECEIPT_WORDS_384", Curve::Secp384r1.receipt()),
    ("TIRFOLMA_RECEIPT_WORDS_521", Curve::Secp521r1.receipt()),
    ("TIRFOLMA_NO_CAST", NO_CAST as usize),
    ("TIRFOLMA_NOTES", MAX_NOTES),
    ("TIRFOLMA_NOTE_WORDS", Curve::Secp256r1.note()),
    ("TIRFOLMA_NOTE_WORDS_384", Curve::Secp384r1.note()),
    ("TIRFOLMA_NOTE_WORDS_521", Curve::Secp521r1.note()),
    ("TIRFOLMA_NOTES_ANSWER_WORDS", NOTES_ANSWER),
    ("TIRFOLMA_AGREEMENT", notes_answer::AGREEMENT),
    ("TIRFOLMA_FIRST_NOTE", notes_answer::NOTE),
    ("TIRFOLMA_NOT_HELD", agreement::NOT_HELD as usize),
    ("TIRFOLMA_ALL_AGREE", agreement::ALL_AGREE as usize),
    ("TIRFOLMA_NO_MAIN_ITEM", agreement::NO_MAIN_ITEM as usize),
    ("TIRFOLMA_OUT_OF_ORDER", agreement::OUT_OF_ORDER as usize),
    ("TIRFOLMA_TOO_EARLY", agreement::TOO_EARLY as usize),
    ("TIRFOLMA_PLAN_WORDS", PLAN_ANSWER),
    ("TIRFOLMA_PLAN_NUMBER", plan_answer::NUMBER),
    ("TIRFOLMA_PLAN_ITEMS", plan_answer::ITEMS),
    ("TIRFOLMA_PLAN_INDEX_WORDS", plan_answer::INDEX_WORDS),
    ("TIRFOLMA_PLAN_BLOCKS", plan_answer::BLOCKS),
    ("TIRFOLMA_EXPORT_ANSWER_WORDS", EXPORT_ANSWER),
    ("TIRFOLMA_EXPORT_LENGTH", export_answer::LENGTH),
    ("TIRFOLMA_EXPORT_BYTES", EXPORT_BYTES),
];

/// Against a second #include. It alone has no value.
const GUARD: &str = "TIRFOLMA_H";

/// Holds a header's text to the names: each is defined once, with its value, and no other is. Gives how
/// many there are.
pub fn check_header(text: &str) -> Result<usize, String> {
    let text = without_comments(text)?;
    let mut above: Vec<(&str, usize)> = Vec::new();
    for (name, written) in definitions(&text)? {
        let Some(&(_, right)) = NAMES.iter().find(|known| known.0 == name) else {
            return Err(format!("the header defines '{name}', which is not known here"));
        };
        if above.iter().any(|defined| defined.0 == name) {
            return Err(format!("the header defines {name} twice"));
        }
        if value(written, &above) != Some(right) {
            return Err(format!("the header has '{written}' for {name}, not {right}"));
        }
        above.push((name, right));
    }
    match NAMES.iter().find(|known| !above.contains(known)) {
        Some((name, _)) => Err(format!("the header does not define {name}")),
        None => Ok(above.len()),
    }
}

/// The text with a space in the place of each comment.
fn without_comments(text: &str) -> Result<String, String> {
    let mut parts = text.split("/*");
    let mut rest = parts.next().unwrap_or("").to_string();
    for part in parts {
        let (_, after) = part.split_once("*/").ok_or("a comment of the header has no end")?;
        rest.push(' ');
        rest += after;
    }
    Ok(rest)
}

/// The names that are defined, in their order, each with its value as it is written.
fn definitions(text: &str) -> Result<Vec<(&str, &str)>, String> {
    let mut found = Vec::new();
    // What stands between two lines for the preprocessor.
    let mut from = 0;
    let mut to = 0;
    for line in text.split_inclusive('\n') {
        if let Some(directive) = line.trim_start().strip_prefix('#') {
            add_enumerators(&text[from..to], &mut found)?;
            from = to + line.len();
            if let Some(defined) = directive.trim_start().strip_prefix("define") {
                let defined = defined.trim();
                let (name, value) = defined.split_once(char::is_whitespace).unwrap_or((defined, ""));
                if (name, value) != (GUARD, "") {
                    found.push((name, value.trim()));
                }
            }
        }
        to += line.len();
    }
    add_enumerators(&text[from..], &mut found)?;
    Ok(found)
}

fn add_enumerators<'a>(text: &'a str, found: &mut Vec<(&'a str, &'a str)>) -> Result<(), String> {
    for part in text.split("enum").skip(1) {
        let listed = part.trim_start().strip_prefix('{').and_then(|rest| rest.split_once('}'));
        let (listed, _) = listed.ok_or("an enum of the header cannot be read")?;
        for enumerator in listed.split(',') {
            let (name, value) = enumerator.split_once('=').unwrap_or((enumerator, ""));
            found.push((name.trim(), value.trim()));
        }
    }
    Ok(())
}

/// A sum of numbers and of names that are defined above, or in parentheses a product of them.
fn value(written: &str, above: &[(&str, usize)]) -> Option<usize> {
    let named = |name: &str| above.iter().find(|defined| defined.0 == name).map(|defined| defined.1);
    let value = |part: &str| number(part.trim()).or_else(|| named(part.trim()));
    match written.strip_prefix('(').and_then(|rest| rest.strip_suffix(')')) {
        Some(product) => product.split('*').map(value).product(),
        None => written.split('+').map(value).sum(),
    }
}

/// A number in decimal, unsigned where it ends with `u`. One that begins with another 0 is octal in C.
fn number(written: &str) -> Option<usize> {
    let digits = written.strip_suffix('u').unwrap_or(written);
    digits.parse().ok().filter(|number: &usize| number.to_string() == digits)
}

// ---- headers with a mistake ----

/// A change to a header that is right, and what the check must say of it.
struct Mistake {
    what: String,
    from: String,
    to: String,
    refusal: String,
}

/// Changes the header in each of these ways, and holds the check to what it must say. Gives how many
/// there are.
pub fn check_header_mistakes(text: &str) -> Result<usize, String> {
    let mistakes = mistakes(text)?;
    for Mistake { what, from, to, refusal } in &mistakes {
        if text.matches(from).count() != 1 {
            return Err(format!("the header does not have '{from}' once, to plant '{what}'"));
        }
        match check_header(&text.replace(from, to)) {
            Err(given) if given == *refusal => {}
            given => return Err(format!("the check of the header gives {given:?} for '{what}', not '{refusal}'")),
        }
    }
    Ok(mistakes.len())
}

fn mistakes(text: &str) -> Result<Vec<Mistake>, String> {
    let mut mistakes: Vec<Mistake> = MISTAKES
        .iter()
        .map(|mistake| {
            let [what, from, to, refusal] = mistake.map(str::to_string);
            Mistake { what, from, to, refusal }
        })
        .collect();
    // Each value is off by one.
    let text = without_comments(text)?;
    for (name, written) in definitions(&text)? {
        let right = NAMES.iter().find(|known| known.0 == name).map_or(0, |known| known.1);
        let wrong = right + 1;
        let between = if text.contains(&format!("#define {name} ")) { " " } else { " = " };
        mistakes.push(Mistake {
            what: format!("{name} is {wrong}"),
            from: format!("{name}{between}{written}"),
            to: format!("{name}{between}{wrong}"),
            refusal: format!("the header has '{wrong}' for {name}, not {right}"),
        });
    }
    Ok(mistakes)
}

/// What is wrong, the text that goes, the text in its place, and what the check must say.
const MISTAKES: [[&str; 4]; 26] = [
    ["a length is missing", "#define TIRFOLMA_LIST_WORDS 2048\n", "", "the header does not define TIRFOLMA_LIST_WORDS"],
    [
        "a length is a comment",
        "#define TIRFOLMA_ANCESTRY_WORDS 2\n",
        "/*\n#define TIRFOLMA_ANCESTRY_WORDS 2\n*/",
        "the header does not define TIRFOLMA_ANCESTRY_WORDS",
    ],
    ["a column is missing", "TIRFOLMA_COUNTED_VOTER = 1,", "", "the header does not define TIRFOLMA_COUNTED_VOTER"],
    [
        "a column is there twice",
        "TIRFOLMA_COUNTED_VOTER = 1,",
        "TIRFOLMA_COUNTED_VOTER = 1, TIRFOLMA_COUNTED_VOTER = 1,",
        "the header defines TIRFOLMA_COUNTED_VOTER twice",
    ],
    [
        "a column is a length, too",
        "#define TIRFOLMA_LIST_WORDS 2048\n",
        "#define TIRFOLMA_LIST_WORDS 2048\n#define TIRFOLMA_COUNTED_VOTER 1\n",
        "the header defines TIRFOLMA_COUNTED_VOTER twice",
    ],
    [
        "a length is not known",
        "#define TIRFOLMA_LIST_WORDS 2048\n",
        "#define TIRFOLMA_LIST_WORDS 2048\n#define TIRFOLMA_LIST_ROW_WORDS 1\n",
        "the header defines 'TIRFOLMA_LIST_ROW_WORDS', which is not known here",
    ],
    [
        "a name without a value is not known",
        "#define TIRFOLMA_LIST_WORDS 2048\n",
        "#define TIRFOLMA_LIST_WORDS 2048\n#define TIRFOLMA_LISTS\n",
        "the header defines 'TIRFOLMA_LISTS', which is not known here",
    ],
    [
        "a column is not known",
        "TIRFOLMA_COUNTED_WEIGHT = 2",
        "TIRFOLMA_COUNTED_WEIGHT = 2, TIRFOLMA_COUNTED_CAST = 3",
        "the header defines 'TIRFOLMA_COUNTED_CAST', which is not known here",
    ],
    [
        "a column without a number is not known",
        "TIRFOLMA_COUNTED_WEIGHT = 2",
        "TIRFOLMA_COUNTED_WEIGHT = 2, TIRFOLMA_COUNTED_CAST",
        "the header defines 'TIRFOLMA_COUNTED_CAST', which is not known here",
    ],
    ["a kind has no number", "TIRFOLMA_SAME = 2", "TIRFOLMA_SAME", "the header has '' for TIRFOLMA_SAME, not 2"],
    [
        "a number is octal",
        "#define TIRFOLMA_AUDIT_WORDS 22",
        "#define TIRFOLMA_AUDIT_WORDS 022",
        "the header has '022' for TIRFOLMA_AUDIT_WORDS, not 22",
    ],
    [
        "an end address has no words of its own",
        "#define TIRFOLMA_END_WORDS 16\n",
        "",
        "the header does not define TIRFOLMA_END_WORDS",
    ],
    [
        "a product has a wrong number",
        "(TIRFOLMA_BALLOT_ROW_WORDS * 408)",
        "(TIRFOLMA_BALLOT_ROW_WORDS * 409)",
        "the header has '(TIRFOLMA_BALLOT_ROW_WORDS * 409)' for TIRFOLMA_BALLOT_WORDS, not 1224",
    ],
    [
        "a product has a wrong name",
        "(TIRFOLMA_BALLOT_ROW_WORDS * 408)",
        "(TIRFOLMA_INDEX_ROW_WORDS * 408)",
        "the header has '(TIRFOLMA_INDEX_ROW_WORDS * 408)' for TIRFOLMA_BALLOT_WORDS, not 1224",
    ],
    [
        "a roll has a pair too many",
        "(TIRFOLMA_ROLL_ROW_WORDS * 2048)",
        "(TIRFOLMA_ROLL_ROW_WORDS * 2049)",
        "the header has '(TIRFOLMA_ROLL_ROW_WORDS * 2049)' for TIRFOLMA_ROLL_WORDS, not 4096",
    ],
    [
        "a pair has no weight",
        "TIRFOLMA_ROLL_VOTER = 0,\n    TIRFOLMA_ROLL_WEIGHT = 1",
        "TIRFOLMA_ROLL_VOTER = 0",
        "the header does not define TIRFOLMA_ROLL_WEIGHT",
    ],
    [
        "a pair has the weight first",
        "TIRFOLMA_ROLL_VOTER = 0,\n    TIRFOLMA_ROLL_WEIGHT = 1",
        "TIRFOLMA_ROLL_WEIGHT = 0,\n    TIRFOLMA_ROLL_VOTER = 1",
        "the header has '0' for TIRFOLMA_ROLL_WEIGHT, not 1",
    ],
    [
        "receipts of two curves are as wide",
        "#define TIRFOLMA_RECEIPT_WORDS_521 49",
        "#define TIRFOLMA_RECEIPT_WORDS_521 36",
        "the header has '36' for TIRFOLMA_RECEIPT_WORDS_521, not 49",
    ],
    [
        "a receipt without a cast has 0",
        "#define TIRFOLMA_NO_CAST 4294967295u",
        "#define TIRFOLMA_NO_CAST 0",
        "the header has '0' for TIRFOLMA_NO_CAST, not 4294967295",
    ],
    [
        "notes of two curves are as wide",
        "#define TIRFOLMA_NOTE_WORDS_384 14",
        "#define TIRFOLMA_NOTE_WORDS_384 18",
        "the header has '18' for TIRFOLMA_NOTE_WORDS_384, not 14",
    ],
    [
        "a sum has a wrong name",
        "TIRFOLMA_FIRST_NOTE = TIRFOLMA_AUDIT_WORDS + 1",
        "TIRFOLMA_FIRST_NOTE = TIRFOLMA_END_WORDS + 1",
        "the header has 'TIRFOLMA_END_WORDS + 1' for TIRFOLMA_FIRST_NOTE, not 23",
    ],
    [
        "a disagreement has no number",
        "TIRFOLMA_OUT_OF_ORDER = 3",
        "TIRFOLMA_OUT_OF_ORDER",
        "the header has '' for TIRFOLMA_OUT_OF_ORDER, not 3",
    ],
    [
        "a plan has a word too few",
        "#define TIRFOLMA_PLAN_WORDS 4\n",
        "#define TIRFOLMA_PLAN_WORDS 3\n",
        "the header has '3' for TIRFOLMA_PLAN_WORDS, not 4",
    ],
    [
        "a plan has no index words",
        "    TIRFOLMA_PLAN_INDEX_WORDS = 2,",
        "",
        "the header does not define TIRFOLMA_PLAN_INDEX_WORDS",
    ],
    [
        "a product has a name that is defined below it",
        "#define TIRFOLMA_INDEX_ROW_WORDS 5\n#define TIRFOLMA_INDEX_WORDS (TIRFOLMA_INDEX_ROW_WORDS * TIRFOLMA_BOARD_ITEMS)\n",
        "#define TIRFOLMA_INDEX_WORDS (TIRFOLMA_INDEX_ROW_WORDS * TIRFOLMA_BOARD_ITEMS)\n#define TIRFOLMA_INDEX_ROW_WORDS 5\n",
        "the header has '(TIRFOLMA_INDEX_ROW_WORDS * TIRFOLMA_BOARD_ITEMS)' for TIRFOLMA_INDEX_WORDS, not 10240",
    ],
    [
        "a product has no parentheses",
        "(TIRFOLMA_INDEX_ROW_WORDS * TIRFOLMA_BOARD_ITEMS)",
        "TIRFOLMA_INDEX_ROW_WORDS * TIRFOLMA_BOARD_ITEMS",
        "the header has 'TIRFOLMA_INDEX_ROW_WORDS * TIRFOLMA_BOARD_ITEMS' for TIRFOLMA_INDEX_WORDS, not 10240",
    ],
];
