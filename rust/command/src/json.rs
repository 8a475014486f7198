//! JSON for programs: one object on one line, whatever bytes are told of.

use crate::printable::glyphs;
use crate::printable::Glyph;
use std::fmt::Write;

/// An object as it is written, field by field.
pub struct Object(String);

impl Object {
    pub fn new() -> Self {
        Self("{".into())
    }

    fn field(mut self, name: &str, value: &str) -> Self {
        let comma = if self.0.len() > 1 { "," } else { "" };
        write!(self.0, "{comma}\"{name}\":{value}").expect("a string takes all");
        self
    }

    pub fn number(self, name: &str, value: usize) -> Self {
        self.field(name, &value.to_string())
    }

    pub fn number_or_null(self, name: &str, value: Option<usize>) -> Self {
        let value = value.map_or("null".into(), |value| value.to_string());
        self.field(name, &value)
    }

    pub fn string(self, name: &str, value: &[u8]) -> Self {
        self.field(name, &string(value))
    }

    pub fn string_or_null(self, name: &str, value: Option<&[u8]>) -> Self {
        let value = value.map_or("null".into(), string);
        self.field(name, &value)
    }

    pub fn line(self) -> String {
        self.0 + "}\n"
    }
}

/// Bytes that are no UTF-8 become U+FFFD, of which no parser complains.
fn string(bytes: &[u8]) -> String {
    let mut text = String::from("\"");
    for glyph in glyphs(bytes) {
        let pushed = match glyph {
            Glyph::Character(character @ ('"' | '\\')) => write!(text, "\\{character}"),
            Glyph::Character(character) if character.is_control() => {
                write!(text, "\\u{:04x}", u32::from(character))
            }
            Glyph::Character(character) => write!(text, "{character}"),
            Glyph::Byte(_) => write!(text, "{}", char::REPLACEMENT_CHARACTER),
        };
        pushed.expect("a string takes all");
    }
    text + "\""
}

#[cfg(test)]
mod tests {
    use super::*;

    #[test]
    fn any_bytes_are_a_string() {
        assert_eq!(
            string(b"a\"b\\c\n\x00\x7f"),
            r#""a\"b\\c\u000a\u0000\u007f""#
        );
        assert_eq!(string("é\u{2028}🚋".as_bytes()), "\"é\u{2028}🚋\"");
        assert_eq!(
            string(b"\xE9\xED\xA0\x80"),
            "\"\u{FFFD}\u{FFFD}\u{FFFD}\u{FFFD}\""
        );
    }

    #[test]
    fn an_object_is_one_line() {
        let object = Object::new()
            .number("number", 3)
            .string("file", b"a\nb")
            .string_or_null("reason", None);
        assert_eq!(
            object.number_or_null("cell", Some(2)).line(),
            "{\"number\":3,\"file\":\"a\\u000ab\",\"reason\":null,\"cell\":2}\n"
        );
    }
}
