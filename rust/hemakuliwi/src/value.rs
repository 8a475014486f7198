//! A cell's kind and content together, and how they come from a cell's raw bytes.

use crate::refusal::accepted;
use crate::{raw, text, Dialect, Kind, Refusal};
use std::borrow::Cow;
use std::fmt;
use std::str::Utf8Error;

/// What a cell means, however it is spelt: a kind and a content.
///
/// Values come from [`decode`] and [`Cell::value`](crate::Cell::value), and [`write`](crate::write()) takes them. Strings, integers, truth
/// values and options of these are values too:
///
/// ```
/// use hemakuliwi::Value;
/// assert_eq!(Value::from("Harbour"), Value::text("Harbour"));
/// assert_eq!(Value::from(-3), Value::number("-3"));
/// assert_eq!(Value::from(true), Value::True);
/// assert_eq!(Value::from(None::<&str>), Value::Null);
/// ```
#[derive(Clone, PartialEq, Eq, Hash)]
pub enum Value<'a> {
    /// A text: UTF-8, in which a lone surrogate, that only an escape of CSVJ can make, stands as three bytes.
    Text(Cow<'a, [u8]>),
    /// A number, by its spelling, which is that of JSON. `1.0` and `1` are two values.
    Number(Cow<'a, str>),
    /// The value true.
    True,
    /// The value false.
    False,
    /// No value.
    Null,
}

impl<'a> Value<'a> {
    /// A text, from a string or from bytes.
    ///
    /// ```
    /// # use hemakuliwi::Value;
    /// assert_eq!(Value::text("Süd"), Value::text(b"S\xC3\xBCd"));
    /// ```
    pub fn text<T: AsRef<[u8]> + ?Sized>(text: &'a T) -> Self {
        Self::Text(Cow::Borrowed(text.as_ref()))
    }

    /// A number, by its spelling. Nothing is checked here; [`write`](crate::write()) refuses what is not spelt as a number.
    ///
    /// ```
    /// # use hemakuliwi::Value;
    /// assert_eq!(Value::number("2.40").content(), b"2.40");
    /// ```
    pub fn number<T: AsRef<str> + ?Sized>(spelling: &'a T) -> Self {
        Self::Number(Cow::Borrowed(spelling.as_ref()))
    }

    /// The kind.
    ///
    /// ```
    /// # use hemakuliwi::{Kind, Value};
    /// assert_eq!(Value::Null.kind(), Kind::Null);
    /// ```
    pub fn kind(&self) -> Kind {
        match self {
            Self::Text(_) => Kind::Text,
            Self::Number(_) => Kind::Number,
            Self::True => Kind::True,
            Self::False => Kind::False,
            Self::Null => Kind::Null,
        }
    }

    /// The content: a text's bytes, a number's spelling, and nothing for the other kinds.
    ///
    /// ```
    /// # use hemakuliwi::Value;
    /// assert_eq!(Value::text("Harbour").content(), b"Harbour");
    /// assert_eq!(Value::True.content(), b"");
    /// ```
    pub fn content(&self) -> &[u8] {
        match self {
            Self::Text(text) => text,
            Self::Number(spelling) => spelling.as_bytes(),
            Self::True | Self::False | Self::Null => &[],
        }
    }

    /// The content as a string.
    ///
    /// # Errors
    ///
    /// A lone surrogate, or bytes that are no text at all, which [`write`](crate::write()) would refuse.
    ///
    /// ```
    /// # use hemakuliwi::Value;
    /// assert_eq!(Value::text("Harbour").to_str(), Ok("Harbour"));
    /// assert!(Value::text(b"\xED\xA0\xBD").to_str().is_err());
    /// ```
    pub fn to_str(&self) -> Result<&str, Utf8Error> {
        std::str::from_utf8(self.content())
    }

    /// The content as a string, with U+FFFD for each lone surrogate.
    ///
    /// ```
    /// # use hemakuliwi::Value;
    /// assert_eq!(Value::text(b"\xED\xA0\xBD!").to_string_lossy(), "\u{FFFD}!");
    /// ```
    pub fn to_string_lossy(&self) -> Cow<'_, str> {
        text::lossy(Cow::Borrowed(self.content()))
    }

    /// The value of this kind with this content.
    pub(crate) fn of(kind: Kind, content: Cow<'a, [u8]>) -> Self {
        match kind {
            Kind::Text => Self::Text(content),
            Kind::Number => Self::Number(text::exact(content).expect("a number is spelt in ASCII")),
            Kind::True => Self::True,
            Kind::False => Self::False,
            Kind::Null => Self::Null,
        }
    }
}

impl fmt::Debug for Value<'_> {
    fn fmt(&self, f: &mut fmt::Formatter<'_>) -> fmt::Result {
        match self {
            Self::Text(text) => write!(f, "Text(b\"{}\")", text.escape_ascii()),
            Self::Number(spelling) => write!(f, "Number({spelling:?})"),
            Self::True => f.write_str("True"),
            Self::False => f.write_str("False"),
            Self::Null => f.write_str("Null"),
        }
    }
}

impl<'a> From<&'a str> for Value<'a> {
    fn from(text: &'a str) -> Self {
        Self::text(text)
    }
}

impl<'a> From<&'a String> for Value<'a> {
    fn from(text: &'a String) -> Self {
        Self::text(text)
    }
}

impl From<String> for Value<'_> {
    fn from(text: String) -> Self {
        Self::Text(Cow::Owned(text.into_bytes()))
    }
}

impl<'a> From<&'a [u8]> for Value<'a> {
    fn from(text: &'a [u8]) -> Self {
        Self::text(text)
    }
}

impl From<Vec<u8>> for Value<'_> {
    fn from(text: Vec<u8>) -> Self {
        Self::Text(Cow::Owned(text))
    }
}

impl From<bool> for Value<'_> {
    fn from(truth: bool) -> Self {
        if truth {
            Self::True
        } else {
            Self::False
        }
    }
}

macro_rules! from_integers {
    ($($integer:ty)*) => {$(
        impl From<$integer> for Value<'_> {
            fn from(number: $integer) -> Self {
                Self::Number(Cow::Owned(number.to_string()))
            }
        }
    )*};
}

from_integers!(i32 i64 u32 u64 usize);

/// Nothing is null.
impl<'a, T: Into<Value<'a>>> From<Option<T>> for Value<'a> {
    fn from(value: Option<T>) -> Self {
        value.map_or(Self::Null, Into::into)
    }
}

/// The same value, borrowed, so that values can be written and kept.
impl<'a> From<&'a Value<'_>> for Value<'a> {
    fn from(value: &'a Value<'_>) -> Self {
        match value {
            Value::Text(text) => Self::text(text),
            Value::Number(spelling) => Self::number(spelling),
            Value::True => Self::True,
            Value::False => Self::False,
            Value::Null => Self::Null,
        }
    }
}

/// What one cell means, from its raw bytes with its quotes. The value borrows from them where the content stands there as it is.
///
/// # Errors
///
/// [`Encoding`](crate::Fault::Encoding), [`Syntax`](crate::Fault::Syntax) or [`CutShort`](crate::Fault::CutShort). No record is named, and
/// the offset counts from the cell's start.
///
/// ```
/// use hemakuliwi::{decode, Dialect, Fault, Value};
/// assert_eq!(decode(Dialect::Csvj, br#""Old \"Mint\"""#)?, Value::text("Old \"Mint\""));
/// assert_eq!(decode(Dialect::Csvj, b"2.40")?, Value::number("2.40"));
/// assert_eq!(decode(Dialect::CsvPlus, b"2.40")?, Value::text("2.40"));
/// assert_eq!(decode(Dialect::Tdif, b"\\N")?, Value::Null);
///
/// let refusal = decode(Dialect::Tdif, b"\"Har").unwrap_err();
/// assert_eq!((refusal.fault, refusal.offset), (Fault::CutShort, 4));
/// assert_eq!(refusal.to_string(), "the cell ends at byte 4 before it is complete");
/// # Ok::<(), hemakuliwi::Refusal>(())
/// ```
pub fn decode(dialect: Dialect, raw: &[u8]) -> Result<Value<'_>, Refusal> {
    let (answer, content) = decoded(dialect, raw);
    accepted(answer.report)?;
    let kind = numbered(answer.kind);
    let content = verbatim(dialect, kind, raw).map_or(Cow::Owned(content), Cow::Borrowed);
    Ok(Value::of(kind, content))
}

/// The content of a sound cell.
pub(crate) fn content(dialect: Dialect, kind: Kind, raw: &[u8]) -> Cow<'_, [u8]> {
    match verbatim(dialect, kind, raw) {
        Some(content) => Cow::Borrowed(content),
        None => Cow::Owned(decoded(dialect, raw).1),
    }
}

/// The kind of this number, in an answer that has only these five.
pub(crate) fn numbered(kind: usize) -> Kind {
    Kind::ALL[kind - 1]
}

/// What the library answers to a cell, and the content, which is never longer than the cell.
fn decoded(dialect: Dialect, raw: &[u8]) -> (raw::DecodeAnswer, Vec<u8>) {
    let mut room = vec![0; raw.len()];
    let answer = raw::decode(dialect.number(), raw, &mut room);
    room.truncate(answer.length);
    (answer, room)
}

/// The content of a sound cell if it stands in the raw bytes as it is, without an escape and without a doubled quote.
fn verbatim(dialect: Dialect, kind: Kind, raw: &[u8]) -> Option<&[u8]> {
    let inner = match (kind, raw) {
        (Kind::True | Kind::False | Kind::Null, _) => return Some(&[]),
        (Kind::Text, [b'"', inner @ .., b'"']) => inner,
        _ => return Some(raw),
    };
    let escape = match dialect {
        Dialect::Csvj => b'\\',
        Dialect::Tdif | Dialect::CsvPlus => b'"',
    };
    (!inner.contains(&escape)).then_some(inner)
}
