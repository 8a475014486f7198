//! A small JSON reader for the expected output of the conformance set.

/// A JSON value; objects are not read.
#[derive(Clone, Debug, PartialEq, Eq)]
pub enum Value {
    /// null.
    Null,
    /// true or false.
    Bool(bool),
    /// A number, by its spelling.
    Number(String),
    /// A string in UTF-8, where a lone surrogate is its three-byte pattern.
    Text(Vec<u8>),
    /// An array.
    Array(Vec<Value>),
}

/// Reads one value that takes up all of the text.
pub fn parse(text: &str) -> Result<Value, String> {
    let mut reader = Reader {
        rest: text.trim_start_matches(BLANKS),
        whole: text,
    };
    let value = reader.value()?;
    reader.skip_blanks();
    if reader.rest.is_empty() {
        Ok(value)
    } else {
        Err(reader.error("something follows the value"))
    }
}

const BLANKS: [char; 4] = [' ', '\t', '\n', '\r'];

struct Reader<'a> {
    whole: &'a str,
    rest: &'a str,
}

impl Reader<'_> {
    fn error(&self, what: &str) -> String {
        format!("{what} at byte {}", self.whole.len() - self.rest.len())
    }

    fn skip_blanks(&mut self) {
        self.rest = self.rest.trim_start_matches(BLANKS);
    }

    fn pass(&mut self, prefix: &str) -> bool {
        match self.rest.strip_prefix(prefix) {
            Some(rest) => {
                self.rest = rest;
                true
            }
            None => false,
        }
    }

    fn value(&mut self) -> Result<Value, String> {
        if self.pass("null") {
            Ok(Value::Null)
        } else if self.pass("true") {
            Ok(Value::Bool(true))
        } else if self.pass("false") {
            Ok(Value::Bool(false))
        } else if self.pass("[") {
            self.array()
        } else if self.pass("\"") {
            self.string()
        } else {
            self.number()
        }
    }

    fn array(&mut self) -> Result<Value, String> {
        let mut items = Vec::new();
        self.skip_blanks();
        if self.pass("]") {
            return Ok(Value::Array(items));
        }
        loop {
            self.skip_blanks();
            items.push(self.value()?);
            self.skip_blanks();
            if self.pass("]") {
                return Ok(Value::Array(items));
            }
            if !self.pass(",") {
                return Err(self.error("a comma or ] is missing"));
            }
        }
    }

    /// A loose test is enough, since the spelling is compared with one that JSON allows.
    fn number(&mut self) -> Result<Value, String> {
        let is_part = |c: char| c.is_ascii_digit() || "+-.eE".contains(c);
        let length = self.rest.find(|c| !is_part(c)).unwrap_or(self.rest.len());
        let (spelling, rest) = self.rest.split_at(length);
        if spelling.parse::<f64>().is_err() {
            return Err(self.error("there is no value"));
        }
        self.rest = rest;
        Ok(Value::Number(spelling.to_string()))
    }

    fn string(&mut self) -> Result<Value, String> {
        let mut units: Vec<u16> = Vec::new();
        loop {
            let mut chars = self.rest.chars();
            let first = chars.next().ok_or(self.error("the string is not closed"))?;
            let rest = chars.as_str();
            match first {
                '"' => {
                    self.rest = rest;
                    return Ok(Value::Text(wide_utf8(&units)));
                }
                '\\' => units.push(self.escape()?),
                '\u{0}'..='\u{1f}' => return Err(self.error("a raw control character")),
                _ => {
                    units.extend(first.encode_utf16(&mut [0; 2]).iter());
                    self.rest = rest;
                }
            }
        }
    }

    fn escape(&mut self) -> Result<u16, String> {
        let letter = self.rest.chars().nth(1);
        let unit = match letter.ok_or(self.error("the escape is cut off"))? {
            'b' => 0x08,
            't' => 0x09,
            'n' => 0x0A,
            'f' => 0x0C,
            'r' => 0x0D,
            plain @ ('"' | '\\' | '/') => plain as u16,
            'u' => {
                let digits = self.rest.get(2..6).unwrap_or("");
                if !digits.bytes().all(|digit| digit.is_ascii_hexdigit()) {
                    return Err(self.error("a wrong escape"));
                }
                let unit =
                    u16::from_str_radix(digits, 16).map_err(|_| self.error("a wrong escape"))?;
                self.rest = &self.rest[6..];
                return Ok(unit);
            }
            _ => return Err(self.error("a wrong escape")),
        };
        self.rest = &self.rest[2..];
        Ok(unit)
    }
}

/// UTF-16 as UTF-8, with lone surrogates as three-byte patterns.
fn wide_utf8(units: &[u16]) -> Vec<u8> {
    let mut bytes = Vec::new();
    for decoded in char::decode_utf16(units.iter().copied()) {
        match decoded {
            Ok(character) => bytes.extend(character.encode_utf8(&mut [0; 4]).bytes()),
            Err(lone) => bytes.extend(surrogate_bytes(lone.unpaired_surrogate())),
        }
    }
    bytes
}

/// The three-byte pattern of a lone surrogate.
pub fn surrogate_bytes(unit: u16) -> [u8; 3] {
    let low_six = |bits: u16| 0x80 + (bits % 64) as u8;
    [0xED, low_six(unit / 64), low_six(unit)]
}

#[cfg(test)]
mod tests {
    use super::*;

    #[test]
    fn values_are_read() {
        let text = |bytes: &[u8]| Value::Text(bytes.to_vec());
        let number = |spelling: &str| Value::Number(spelling.to_string());
        let value = parse(" [[\"a\\n\\u00e9\\/\", -1.50e+2 ,null],\r\n[true,false,[]]]\n");
        let first = Value::Array(vec![
            text("a\né/".as_bytes()),
            number("-1.50e+2"),
            Value::Null,
        ]);
        let nothing = Value::Array(Vec::new());
        let second = Value::Array(vec![Value::Bool(true), Value::Bool(false), nothing]);
        assert_eq!(value, Ok(Value::Array(vec![first, second])));
    }

    #[test]
    fn surrogates_are_joined_or_kept() {
        let value = parse(r#""\ud83d\ud83d\ude00\udc00""#);
        let bytes = b"\xED\xA0\xBD\xF0\x9F\x98\x80\xED\xB0\x80".to_vec();
        assert_eq!(value, Ok(Value::Text(bytes)));
    }

    #[test]
    fn wrong_texts_are_refused() {
        for text in [
            "",
            "[",
            "[1,]",
            "\"a",
            "nul",
            "{}",
            "1 2",
            "\"\\x\"",
            "\"\\u12\"",
        ] {
            assert!(parse(text).is_err(), "{text}");
        }
    }
}
