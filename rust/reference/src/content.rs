//! The content of a sound cell.

use crate::dialect::{Dialect, Kind};
use crate::utf8;

/// A cell's kind and content.
#[derive(Clone, Debug, PartialEq, Eq)]
pub(crate) struct Cell {
    pub(crate) kind: Kind,
    pub(crate) content: Vec<u8>,
}

impl Cell {
    /// The cell of raw bytes that were scanned and found to be of this kind.
    pub(crate) fn from_raw(dialect: Dialect, kind: Kind, raw: &[u8]) -> Self {
        let content = match kind {
            Kind::Text => text(dialect, raw),
            Kind::Number => raw.to_vec(),
            Kind::True | Kind::False | Kind::Null => Vec::new(),
        };
        Self { kind, content }
    }
}

fn text(dialect: Dialect, raw: &[u8]) -> Vec<u8> {
    let Some(inside) = without_quotes(raw) else {
        return raw.to_vec();
    };
    match dialect {
        Dialect::Csvj => unescape(inside),
        Dialect::Tdif | Dialect::CsvPlus => undouble(inside),
    }
}

fn without_quotes(raw: &[u8]) -> Option<&[u8]> {
    raw.strip_prefix(b"\"")?.strip_suffix(b"\"")
}

/// Takes each doubled quote for one.
fn undouble(inside: &[u8]) -> Vec<u8> {
    let mut content = Vec::with_capacity(inside.len());
    let mut rest = inside;
    while let Some((&byte, after)) = rest.split_first() {
        content.push(byte);
        rest = if byte == b'"' { &after[1..] } else { after };
    }
    content
}

fn unescape(inside: &[u8]) -> Vec<u8> {
    let mut content = Vec::with_capacity(inside.len());
    let mut rest = inside;
    while let Some((&byte, after)) = rest.split_first() {
        if byte == b'\\' {
            let (code_point, length) = escaped(rest);
            utf8::push(code_point, &mut content);
            rest = &rest[length..];
        } else {
            content.push(byte);
            rest = after;
        }
    }
    content
}

/// The code point of the escape that the bytes start with, and its length.
fn escaped(bytes: &[u8]) -> (u32, usize) {
    match bytes[1] {
        b'b' => (0x08, 2),
        b't' => (0x09, 2),
        b'n' => (0x0A, 2),
        b'f' => (0x0C, 2),
        b'r' => (0x0D, 2),
        b'u' => escaped_units(bytes),
        itself => (u32::from(itself), 2),
    }
}

/// A high surrogate directly followed by a low one is one code point.
fn escaped_units(bytes: &[u8]) -> (u32, usize) {
    let unit = code_unit(&bytes[2..6]);
    match (unit, low_surrogate(&bytes[6..])) {
        (0xD800..=0xDBFF, Some(low)) => (0x10000 + ((unit - 0xD800) << 10) + (low - 0xDC00), 12),
        _ => (unit, 6),
    }
}

/// The low surrogate whose escape the bytes start with, if they do.
fn low_surrogate(bytes: &[u8]) -> Option<u32> {
    let digits = bytes.strip_prefix(b"\\u")?;
    Some(code_unit(&digits[..4])).filter(|unit| (0xDC00..=0xDFFF).contains(unit))
}

fn code_unit(digits: &[u8]) -> u32 {
    digits
        .iter()
        .fold(0, |unit, &digit| unit << 4 | hex_value(digit))
}

fn hex_value(digit: u8) -> u32 {
    match digit {
        b'0'..=b'9' => u32::from(digit - b'0'),
        _ => u32::from(digit | 0x20) - u32::from(b'a') + 10,
    }
}
