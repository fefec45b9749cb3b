//! How an explanation names things: items, places, fingerprints, lists.

use crate::board::Head;
use crate::files::NAMES;
use crate::types;
use crate::types::code::EXTRACTION;

/// The files' names.
pub const BOARD: &str = NAMES[0];
pub const VERDICTS: &str = NAMES[1];
pub const ROLL: &str = NAMES[2];

/// A place in a file, words and bytes both counted from 0.
pub fn place(word: usize) -> String {
    format!("word {word}, byte {}", 4 * word)
}

/// An item that is named beside the refused one.
pub fn item(number: usize, code: u32) -> String {
    format!("item {number} ({})", types::name(code))
}

/// The refused item, at the start of a sentence; without its type where that is not known.
pub fn refused_item(number: usize, type_name: Option<&str>, word: usize) -> String {
    let name = type_name.map(|name| format!("{name}, ")).unwrap_or_default();
    format!("Item {number} ({name}at {} of {BOARD})", place(word))
}

/// A type with its article.
pub fn one(code: u32) -> String {
    let name = types::name(code);
    match code {
        EXTRACTION => name,
        _ if name.starts_with(['a', 'e', 'i', 'o', 'u']) => format!("an {name}"),
        _ => format!("a {name}"),
    }
}

/// A head, or another word, in hexadecimal.
pub fn hex(word: u32) -> String {
    format!("{word:08x}")
}

/// An address or a key fingerprint, by its first words.
pub fn start(words: &[u32]) -> String {
    let first: String = words.iter().take(2).map(|&word| hex(word)).collect();
    first + "..."
}

/// "a, b and c"; of more than so many the first, and how many more there are.
pub fn list(parts: &[String], most: usize) -> String {
    let more = parts.len().saturating_sub(most);
    let mut named = parts[..parts.len() - more].to_vec();
    if more > 0 {
        named.push(format!("{more} more"));
    }
    match named.split_last() {
        Some((last, [])) => last.clone(),
        Some((last, before)) => format!("{} and {last}", before.join(", ")),
        None => String::new(),
    }
}

/// A number of things, "1 word" or "3 words".
pub fn count(number: u64, what: &str) -> String {
    let end = if number == 1 { "" } else { "s" };
    format!("{number} {what}{end}")
}

/// A width as a word.
pub fn in_words(number: usize) -> String {
    match number {
        8 => "eight".to_string(),
        12 => "twelve".to_string(),
        16 => "sixteen".to_string(),
        _ => number.to_string(),
    }
}

/// The verb of a number of things.
pub fn are(number: u64) -> &'static str {
    if number == 1 {
        "is"
    } else {
        "are"
    }
}

/// A kind as the table of types has it.
pub fn kind(hidden: bool) -> &'static str {
    if hidden {
        "kind 2 (hidden)"
    } else {
        "kind 1 (main)"
    }
}

/// A head's type, by code and, where it is listed, by name.
pub fn type_of(head: Head) -> String {
    let code = head.code();
    match types::of_code(code) {
        Some(row) => format!("type {code} ({})", row.name),
        None => format!("type {code} ({code:03x} hexadecimal)"),
    }
}
