//! The C header as Rust: each #define and enumerator a constant, each prototype a function. It knows no more of C than the header uses, and
//! says so of anything else. tests/header.rs holds what it makes to a C compiler.

use std::fmt::Write;

/// What a parameter is in Rust: the words or bytes of a slice behind a pointer and their number, or a number by itself.
#[derive(Clone, Copy, PartialEq)]
enum Kind {
    Read,
    Written,
    Bytes,
    Number,
}

/// A function of the library, with its parameters as the header has them.
struct Function<'a> {
    name: &'a str,
    parameters: Vec<(&'a str, Kind)>,
}

/// Constants; `CONSTANTS`, all of them by name; `FUNCTIONS`, the parameters of each by name; the declarations, in `raw`; and for each
/// function one over slices, which is safe.
pub fn rust(text: &str) -> Result<String, String> {
    let text = without_comments(text)?;
    let Declared { constants, functions } = declared(&text)?;
    let mut out = String::new();
    for (name, value) in &constants {
        let _ = writeln!(out, "pub const {name}: usize = {value};");
    }
    let listed: String = constants.iter().map(|(name, _)| format!("(\"{name}\", {name}), ")).collect();
    let _ = writeln!(out, "pub const CONSTANTS: [(&str, usize); {}] = [{listed}];", constants.len());
    let listed: String = functions.iter().map(Function::listed).collect();
    let _ = writeln!(out, "pub const FUNCTIONS: [(&str, &[(&str, &str)]); {}] = [{listed}];", functions.len());
    let declared: String = functions.iter().map(Function::declared).collect();
    let _ = writeln!(out, "mod raw {{\nextern \"C\" {{\n{declared}}}\n}}");
    for function in &functions {
        out += &function.over_slices()?;
    }
    Ok(out)
}

impl Kind {
    fn raw(self) -> &'static str {
        match self {
            Kind::Read => "*const u32",
            Kind::Written => "*mut u32",
            Kind::Bytes => "*mut u8",
            Kind::Number => "usize",
        }
    }
}

impl Function<'_> {
    fn listed(&self) -> String {
        let parameters: Vec<_> = self.parameters.iter().map(|&(name, kind)| (name, kind.raw())).collect();
        format!("(\"{}\", &{parameters:?}), ", self.name)
    }

    fn declared(&self) -> String {
        let parameters: Vec<_> = self.parameters.iter().map(|(name, kind)| format!("{name}: {}", kind.raw())).collect();
        format!("    pub fn {}({}) -> bool;\n", self.name, parameters.join(", "))
    }

    /// A pointer and the number of its words or bytes behind it are a slice. What Rust asks of slices is what the header asks of buffers: words
    /// that are there, and none written that is also read or written through another.
    fn over_slices(&self) -> Result<String, String> {
        let (mut parameters, mut arguments) = (Vec::new(), Vec::new());
        let mut rest = self.parameters.iter();
        while let Some(&(name, kind)) = rest.next() {
            let (slice, pointer, unit) = match kind {
                Kind::Read => ("&[u32]", "as_ptr", "_words"),
                Kind::Written => ("&mut [u32]", "as_mut_ptr", "_words"),
                Kind::Bytes => ("&mut [u8]", "as_mut_ptr", "_bytes"),
                Kind::Number => {
                    parameters.push(format!("{name}: usize"));
                    arguments.push(name.to_string());
                    continue;
                }
            };
            let is_length = |next: &&(&str, Kind)| next.1 == Kind::Number && next.0.ends_with(unit);
            rest.next().filter(is_length).ok_or(format!("{name} has no length"))?;
            parameters.push(format!("{name}: {slice}"));
            arguments.push(format!("{name}.{pointer}(), {name}.len()"));
        }
        let (name, parameters, arguments) = (self.name, parameters.join(", "), arguments.join(", "));
        let call = format!("    unsafe {{ raw::{name}({arguments}) }}\n");
        Ok(format!("#[allow(clippy::too_many_arguments)]\npub fn {name}({parameters}) -> bool {{\n{call}}}\n"))
    }
}

/// The text with a space in the place of each comment.
fn without_comments(text: &str) -> Result<String, String> {
    let mut parts = text.split("/*");
    let mut rest = parts.next().unwrap_or("").to_string();
    for part in parts {
        let (_, after) = part.split_once("*/").ok_or("a comment has no end")?;
        rest.push(' ');
        rest += after;
    }
    Ok(rest)
}

/// What the header declares, in its order.
struct Declared<'a> {
    /// Names with their values, written as Rust has them.
    constants: Vec<(&'a str, String)>,
    functions: Vec<Function<'a>>,
}

/// Reads all of a header without comments. Lines for the preprocessor stand by themselves, and all else ends with a semicolon.
fn declared(text: &str) -> Result<Declared<'_>, String> {
    let mut declared = Declared { constants: Vec::new(), functions: Vec::new() };
    let (mut from, mut to, mut for_c) = (0, 0, true);
    for line in text.split_inclusive('\n') {
        if line.trim_start().starts_with('#') {
            if for_c {
                declarations(&text[from..to], &mut declared)?;
            }
            directive(line.trim(), &mut for_c, &mut declared)?;
            from = to + line.len();
        }
        to += line.len();
    }
    declarations(&text[from..], &mut declared)?;
    Ok(declared)
}

/// A line for the preprocessor. What is for C++ alone is passed over.
fn directive<'a>(line: &'a str, for_c: &mut bool, declared: &mut Declared<'a>) -> Result<(), String> {
    match line.split_once(' ').map_or((line, ""), |(word, rest)| (word, rest.trim())) {
        ("#ifndef" | "#define", "TIRFOLMA_H") => {}
        ("#include", "<stdbool.h>" | "<stddef.h>" | "<stdint.h>") => {}
        ("#ifdef", "__cplusplus") => *for_c = false,
        ("#endif", "") => *for_c = true,
        ("#define", defined) => {
            let (name, value) = defined.split_once(' ').ok_or(format!("'{line}' has no value"))?;
            declared.constants.push((name, expression(value)?));
        }
        _ => return Err(format!("'{line}' is not known here")),
    }
    Ok(())
}

/// Enums and prototypes.
fn declarations<'a>(text: &'a str, declared: &mut Declared<'a>) -> Result<(), String> {
    let text = text.trim();
    if text.is_empty() {
        return Ok(());
    }
    let text = text.strip_suffix(';').ok_or(format!("'{text}' has no end"))?;
    for part in text.split(';').map(str::trim) {
        if let Some(listed) = part.strip_prefix("enum {").and_then(|rest| rest.strip_suffix('}')) {
            for enumerator in listed.split(',') {
                let (name, value) =
                    enumerator.split_once('=').ok_or(format!("'{}' has no value", enumerator.trim()))?;
                declared.constants.push((name.trim(), expression(value)?));
            }
        } else {
            declared.functions.push(function(part)?);
        }
    }
    Ok(())
}

/// A number in decimal, a name, or a sum of products of these, which may stand in parentheses.
fn expression(text: &str) -> Result<String, String> {
    let text = text.trim();
    let sum = text.strip_prefix('(').and_then(|rest| rest.strip_suffix(')')).unwrap_or(text);
    let product = |term: &str| -> Option<String> {
        let factors: Option<Vec<&str>> = term.split('*').map(|factor| number_or_name(factor.trim())).collect();
        Some(factors?.join(" * "))
    };
    let terms: Option<Vec<String>> = sum.split('+').map(product).collect();
    Ok(terms.ok_or(format!("'{text}' is no value that is known here"))?.join(" + "))
}

/// As Rust has it.
fn number_or_name(text: &str) -> Option<&str> {
    let digits = text.strip_suffix('u').unwrap_or(text);
    let is_number = digits.parse::<u32>().is_ok_and(|number| number.to_string() == digits);
    let is_name = text.starts_with("TIRFOLMA_") && text.bytes().all(|b| b == b'_' || b.is_ascii_uppercase());
    match (is_number, is_name) {
        (true, _) => Some(digits),
        (_, true) => Some(text),
        _ => None,
    }
}

/// A prototype, which gives a bool.
fn function(part: &str) -> Result<Function<'_>, String> {
    let prototype =
        part.strip_prefix("bool ").and_then(|rest| rest.strip_suffix(')')).and_then(|rest| rest.split_once('('));
    let (name, listed) = prototype.ok_or(format!("'{part}' is no declaration that is known here"))?;
    let parameters: Result<_, String> = listed.split(',').map(parameter).collect();
    Ok(Function { name, parameters: parameters? })
}

fn parameter(text: &str) -> Result<(&str, Kind), String> {
    let text = text.trim();
    let kinds = [
        ("const uint32_t *", Kind::Read),
        ("uint32_t *", Kind::Written),
        ("uint8_t *", Kind::Bytes),
        ("size_t ", Kind::Number),
    ];
    for (c, kind) in kinds {
        if let Some(name) = text.strip_prefix(c) {
            if name.bytes().all(|b| b == b'_' || b.is_ascii_lowercase()) {
                return Ok((name, kind));
            }
        }
    }
    Err(format!("'{text}' is no parameter that is known here"))
}
