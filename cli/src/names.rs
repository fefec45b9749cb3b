//! Names of files as text that is safe to print: on one line, without a tab, and told apart whatever bytes they have.

use std::ffi::{OsStr, OsString};
use std::os::unix::ffi::{OsStrExt, OsStringExt};
use std::path::{Path, PathBuf};

/// The name as it is, but for a backslash (`\\`), line feed and tab (`\n`, `\t`), and other bytes and characters that steer a terminal or
/// are no text, by their bytes (`\x1b`).
pub fn shown(path: &Path) -> String {
    let mut text = String::new();
    for part in path.as_os_str().as_bytes().utf8_chunks() {
        for c in part.valid().chars() {
            match c {
                '\\' => text += "\\\\",
                '\n' => text += "\\n",
                '\t' => text += "\\t",
                c if steers(c) => escape(c.encode_utf8(&mut [0; 4]).as_bytes(), &mut text),
                c => text.push(c),
            }
        }
        escape(part.invalid(), &mut text);
    }
    text
}

/// The name that was shown so; none where a backslash has nothing of these behind it.
pub fn shown_back(text: &[u8]) -> Option<PathBuf> {
    let (mut name, mut rest) = (Vec::new(), text);
    while let Some((&first, behind)) = rest.split_first() {
        let (byte, taken) = match (first, behind) {
            (b'\\', [b'\\', ..]) => (b'\\', 2),
            (b'\\', [b'n', ..]) => (b'\n', 2),
            (b'\\', [b't', ..]) => (b'\t', 2),
            (b'\\', [b'x', high, low, ..]) => (hex_digit(*high)? << 4 | hex_digit(*low)?, 4),
            (b'\\', _) => return None,
            (byte, _) => (byte, 1),
        };
        name.push(byte);
        rest = &rest[taken..];
    }
    Some(OsString::from_vec(name).into())
}

fn hex_digit(digit: u8) -> Option<u8> {
    char::from(digit).to_digit(16).map(|value| value as u8)
}

fn escape(bytes: &[u8], text: &mut String) {
    for byte in bytes {
        text.push_str(&format!("\\x{byte:02x}"));
    }
}

/// Control characters, line and paragraph ends, and those that turn the direction of what follows, mark it, or fill no room.
pub fn steers(c: char) -> bool {
    let is_single =
        matches!(c, '\u{ad}' | '\u{61c}' | '\u{115f}' | '\u{1160}' | '\u{180e}' | '\u{3164}' | '\u{feff}' | '\u{ffa0}');
    let is_general = matches!(c, '\u{200b}'..='\u{200f}' | '\u{2028}'..='\u{202e}' | '\u{2060}'..='\u{206f}');
    let is_special = matches!(c, '\u{fff9}'..='\u{fffb}' | '\u{e0000}'..='\u{e0fff}');
    c.is_control() || is_single || is_general || is_special
}

/// The bytes of a name that is no text, in hexadecimal.
pub fn hex_if_no_text(name: &OsStr) -> Option<String> {
    name.to_str().is_none().then(|| name.as_bytes().iter().map(|b| format!("{b:02x}")).collect())
}
