//! The command line, read by the table of commands in help.rs.

use crate::help::{command, Command, COMMANDS};
use std::ffi::OsString;

/// What was asked for.
pub enum Asked {
    /// Text about the program.
    Text(String),
    Run(Call),
}

/// A command with its options and operands.
pub struct Call {
    pub command: &'static Command,
    pub operands: Vec<OsString>,
    flags: Vec<(&'static str, Option<OsString>)>,
}

impl Call {
    pub fn has(&self, flag: &str) -> bool {
        self.flags.iter().any(|given| given.0 == flag)
    }

    /// What was given with a flag, the last time that it was given.
    pub fn value(&self, flag: &str) -> Option<&OsString> {
        self.flags.iter().rev().find(|given| given.0 == flag).and_then(|given| given.1.as_ref())
    }
}

/// Reads the words behind the program's name. An error says what is wrong with them.
pub fn read(words: Vec<OsString>) -> Result<Asked, String> {
    let mut words = words.into_iter();
    let names = COMMANDS.iter().map(|command| command.name).collect::<Vec<_>>().join(", ");
    let first = words.next().ok_or(format!("no command; there are {names}, and --help"))?;
    let text = match first.to_str() {
        Some("--help" | "-h") => crate::help::overview(),
        Some("--version") => crate::help::version(),
        Some("--man") => crate::help::manual(),
        Some("--completion") => crate::help::completion(),
        _ => {
            let known = first.to_str().and_then(command);
            let known = known.ok_or(format!("no command {first:?}; there are {names}, and --help"))?;
            return call(known, words);
        }
    };
    match words.next() {
        Some(more) => Err(format!("{more:?} after {}", first.to_string_lossy())),
        None => Ok(Asked::Text(text)),
    }
}

fn call(command: &'static Command, mut words: impl Iterator<Item = OsString>) -> Result<Asked, String> {
    let mut call = Call { command, operands: Vec::new(), flags: Vec::new() };
    let mut options = true;
    while let Some(word) = words.next() {
        let text = word.to_string_lossy();
        if word.is_empty() {
            // As a folder's name it would stand for the folder in which the program runs.
            return Err("an operand is empty".to_string());
        } else if !options || !text.starts_with('-') || text == "-" {
            call.operands.push(word);
        } else if text == "--" {
            options = false;
        } else if text == "-h" || text == "--help" {
            // A folder may have that name: then nothing would be audited, with exit status 0.
            let alone = call.operands.is_empty() && call.flags.is_empty() && words.next().is_none();
            return match alone {
                true => Ok(Asked::Text(crate::help::detail(command))),
                false => Err(format!("{text} goes by itself; a folder of that name is ./{text}")),
            };
        } else {
            let (flag, joined) =
                text.split_once('=').map_or((&*text, None), |(flag, value)| (flag, Some(value.into())));
            let option = command.options.iter().find(|option| option.flag == flag);
            let option = option.ok_or(format!("{} has no option {text:?}", command.name))?;
            let value = match (option.value, joined) {
                (None, None) => None,
                (None, Some(_)) => return Err(format!("{flag} takes no value")),
                (Some(what), joined) => {
                    Some(joined.or_else(|| words.next()).ok_or(format!("{flag} takes a value, {what}"))?)
                }
            };
            call.flags.push((option.flag, value));
        }
    }
    let (least, most) = command.takes;
    if call.operands.len() < least || call.operands.len() > most {
        return Err(usage(command));
    }
    Ok(Asked::Run(call))
}

/// How a command is called.
pub fn usage(command: &Command) -> String {
    format!("usage: tirfolma {} [OPTION]... {}", command.name, command.operands)
}

/// A number in decimal digits alone.
pub fn number(what: &str, word: &OsString) -> Result<usize, String> {
    let digits = word.to_str().filter(|text| !text.is_empty() && text.bytes().all(|b| b.is_ascii_digit()));
    let digits = digits.ok_or(format!("{what} is a number, not {word:?}"))?;
    digits.parse().map_err(|_| format!("{what} is at most {}, not {digits}", usize::MAX))
}
