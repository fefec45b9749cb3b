//! JSON, read strictly: what RFC 8259 does not allow is refused, and so are duplicate keys. Numbers are whole and not negative.

use std::collections::BTreeMap;

#[derive(Clone, Debug, PartialEq)]
pub enum Json {
    Null,
    Bool(bool),
    Number(u64),
    Text(String),
    List(Vec<Json>),
    Object(BTreeMap<String, Json>),
}

impl Json {
    /// The value of a key of an object.
    pub fn get(&self, key: &str) -> &Json {
        self.find(key).unwrap_or_else(|| panic!("no {key} in {self:?}"))
    }
    pub fn find(&self, key: &str) -> Option<&Json> {
        match self {
            Json::Object(values) => values.get(key),
            other => panic!("no object: {other:?}"),
        }
    }
    pub fn number(&self, key: &str) -> u64 {
        match self.get(key) {
            Json::Number(number) => *number,
            other => panic!("{key} is no number: {other:?}"),
        }
    }
    pub fn text(&self, key: &str) -> &str {
        match self.get(key) {
            Json::Text(text) => text,
            other => panic!("{key} is no text: {other:?}"),
        }
    }
    pub fn list(&self, key: &str) -> &[Json] {
        match self.get(key) {
            Json::List(list) => list,
            other => panic!("{key} is no array: {other:?}"),
        }
    }
    pub fn keys(&self) -> Vec<&str> {
        match self {
            Json::Object(values) => values.keys().map(String::as_str).collect(),
            other => panic!("no object: {other:?}"),
        }
    }
}

/// One value, with nothing behind it.
pub fn parse(text: &str) -> Result<Json, String> {
    let mut reader = Reader { rest: text };
    let value = reader.value()?;
    reader.blanks();
    if !reader.rest.is_empty() {
        return Err(format!("{:?} behind the value", reader.rest));
    }
    Ok(value)
}

/// The objects of an output that has one to a line.
pub fn objects(text: &str) -> Vec<Json> {
    let object = |line: &str| parse(line).unwrap_or_else(|why| panic!("{why} in {line:?}"));
    assert!(text.is_empty() || text.ends_with('\n'), "the last line ends");
    let found: Vec<Json> = text.split_terminator('\n').map(object).collect();
    assert!(found.iter().all(|value| matches!(value, Json::Object(_))), "each line is an object");
    found
}

struct Reader<'a> {
    rest: &'a str,
}

impl Reader<'_> {
    fn blanks(&mut self) {
        self.rest = self.rest.trim_start_matches([' ', '\t', '\n', '\r']);
    }

    fn next(&mut self) -> Result<char, String> {
        let c = self.rest.chars().next().ok_or("it ends too soon")?;
        self.rest = &self.rest[c.len_utf8()..];
        Ok(c)
    }

    fn takes(&mut self, part: &str) -> bool {
        self.blanks();
        let rest = self.rest.strip_prefix(part);
        self.rest = rest.unwrap_or(self.rest);
        rest.is_some()
    }

    fn value(&mut self) -> Result<Json, String> {
        for (word, value) in [("null", Json::Null), ("true", Json::Bool(true)), ("false", Json::Bool(false))] {
            if self.takes(word) {
                return Ok(value);
            }
        }
        if self.takes("{") {
            return self.object();
        }
        if self.takes("[") {
            return self.list();
        }
        if self.takes("\"") {
            return Ok(Json::Text(self.string()?));
        }
        let end = self.rest.find(|c: char| !c.is_ascii_digit()).unwrap_or(self.rest.len());
        let (digits, rest) = self.rest.split_at(end);
        let number: u64 = digits.parse().map_err(|_| format!("no value at {:?}", self.rest))?;
        if number.to_string() != digits || rest.starts_with(['.', 'e', 'E']) {
            return Err(format!("no whole number at {:?}", self.rest));
        }
        self.rest = rest;
        Ok(Json::Number(number))
    }

    fn object(&mut self) -> Result<Json, String> {
        let mut values = BTreeMap::new();
        if self.takes("}") {
            return Ok(Json::Object(values));
        }
        loop {
            if !self.takes("\"") {
                return Err(format!("no key at {:?}", self.rest));
            }
            let key = self.string()?;
            if !self.takes(":") {
                return Err(format!("no colon at {:?}", self.rest));
            }
            let value = self.value()?;
            if values.insert(key.clone(), value).is_some() {
                return Err(format!("{key} is there twice"));
            }
            if self.takes("}") {
                return Ok(Json::Object(values));
            }
            if !self.takes(",") {
                return Err(format!("no comma at {:?}", self.rest));
            }
        }
    }

    fn list(&mut self) -> Result<Json, String> {
        let mut values = Vec::new();
        if self.takes("]") {
            return Ok(Json::List(values));
        }
        loop {
            values.push(self.value()?);
            if self.takes("]") {
                return Ok(Json::List(values));
            }
            if !self.takes(",") {
                return Err(format!("no comma at {:?}", self.rest));
            }
        }
    }

    fn string(&mut self) -> Result<String, String> {
        let mut text = String::new();
        loop {
            match self.next()? {
                '"' => return Ok(text),
                '\\' => text.push(self.escaped()?),
                c if c < ' ' => return Err(format!("{c:?} in a string")),
                c => text.push(c),
            }
        }
    }

    fn escaped(&mut self) -> Result<char, String> {
        Ok(match self.next()? {
            c @ ('"' | '\\' | '/') => c,
            'b' => '\u{8}',
            'f' => '\u{c}',
            'n' => '\n',
            'r' => '\r',
            't' => '\t',
            'u' => {
                let high = self.unit()?;
                if !(0xd800..0xdc00).contains(&high) {
                    return char::from_u32(high).ok_or(format!("\\u{high:04x} alone"));
                }
                if !self.rest.starts_with("\\u") {
                    return Err(format!("\\u{high:04x} alone"));
                }
                self.rest = &self.rest[2..];
                let low = self.unit()?;
                if !(0xdc00..0xe000).contains(&low) {
                    return Err(format!("\\u{high:04x} before \\u{low:04x}"));
                }
                char::from_u32(0x10000 + ((high - 0xd800) << 10) + (low - 0xdc00)).expect("a pair is a character")
            }
            c => return Err(format!("\\{c} in a string")),
        })
    }

    fn unit(&mut self) -> Result<u32, String> {
        let digits = self.rest.get(..4).filter(|four| four.bytes().all(|b| b.is_ascii_hexdigit()));
        let digits = digits.ok_or(format!("no four digits at {:?}", self.rest))?;
        self.rest = &self.rest[4..];
        u32::from_str_radix(digits, 16).map_err(|e| e.to_string())
    }
}
