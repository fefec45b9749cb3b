//! JSON objects, written key by key.

use crate::names::steers;

/// An object, not yet closed.
pub struct Object(String);

impl Object {
    pub fn new() -> Object {
        Object("{".to_string())
    }

    /// A value that is JSON already.
    pub fn value(mut self, key: &str, value: &str) -> Object {
        if self.0.len() > 1 {
            self.0.push(',');
        }
        self.0 += &string(key);
        self.0.push(':');
        self.0 += value;
        self
    }

    pub fn text(self, key: &str, text: &str) -> Object {
        self.value(key, &string(text))
    }

    pub fn number(self, key: &str, number: impl Into<u64>) -> Object {
        self.value(key, &number.into().to_string())
    }

    /// null where there is none.
    pub fn number_or_null(self, key: &str, number: Option<impl Into<u64>>) -> Object {
        match number {
            Some(number) => self.number(key, number),
            None => self.value(key, "null"),
        }
    }

    /// null where there is none.
    pub fn text_or_null(self, key: &str, text: Option<String>) -> Object {
        match text {
            Some(text) => self.text(key, &text),
            None => self.value(key, "null"),
        }
    }

    pub fn end(mut self) -> String {
        self.0.push('}');
        self.0
    }
}

impl Default for Object {
    fn default() -> Self {
        Object::new()
    }
}

pub fn array(values: impl IntoIterator<Item = String>) -> String {
    format!("[{}]", values.into_iter().collect::<Vec<_>>().join(","))
}

pub fn string(text: &str) -> String {
    let mut out = String::with_capacity(text.len() + 2);
    out.push('"');
    for c in text.chars() {
        match c {
            '"' => out += "\\\"",
            '\\' => out += "\\\\",
            '\n' => out += "\\n",
            '\t' => out += "\\t",
            c if steers(c) => {
                for half in c.encode_utf16(&mut [0; 2]) {
                    out += &format!("\\u{half:04x}");
                }
            }
            c => out.push(c),
        }
    }
    out.push('"');
    out
}
