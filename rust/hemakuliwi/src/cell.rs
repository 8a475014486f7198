//! A cell, where it stands in a file.

use crate::{text, value, Dialect, Kind, Value};
use std::borrow::Cow;
use std::fmt;
use std::ops::Range;
use std::str::Utf8Error;

/// A cell of a [`Table`](crate::Table). It borrows from the file, and outlives the table.
///
/// ```
/// use hemakuliwi::{read, Dialect, Kind};
/// let file = b"\"stop\",\"fare\"\n\"Old \\\"Mint\\\"\",2.40\n";
/// let table = read(Dialect::Csvj, file)?;
/// let cell = table.rows().next().and_then(|row| row.get(0)).unwrap();
/// assert_eq!(cell.kind(), Kind::Text);
/// assert_eq!(cell.raw(), br#""Old \"Mint\"""#);
/// assert_eq!(cell.raw(), &file[cell.range()]);
/// assert_eq!(*cell.content(), *br#"Old "Mint""#);
/// assert_eq!(cell.to_str().unwrap(), r#"Old "Mint""#);
/// # Ok::<(), hemakuliwi::Refusal>(())
/// ```
#[derive(Clone, Copy)]
pub struct Cell<'f> {
    dialect: Dialect,
    kind: Kind,
    raw: &'f [u8],
    start: usize,
}

impl<'f> Cell<'f> {
    /// The sound cell that stands here in a file.
    pub(crate) fn new(dialect: Dialect, kind: Kind, file: &'f [u8], range: Range<usize>) -> Self {
        Self {
            dialect,
            kind,
            start: range.start,
            raw: &file[range],
        }
    }

    /// The kind.
    ///
    /// ```
    /// # use hemakuliwi::{read, Dialect, Kind};
    /// let table = read(Dialect::Tdif, b"\"fare\"\n\\N\n")?;
    /// assert_eq!(table.rows().next().unwrap().get(0).unwrap().kind(), Kind::Null);
    /// # Ok::<(), hemakuliwi::Refusal>(())
    /// ```
    pub fn kind(&self) -> Kind {
        self.kind
    }

    /// The cell as it is spelt in the file, with its quotes.
    ///
    /// ```
    /// # use hemakuliwi::{read, Dialect};
    /// let table = read(Dialect::Csvj, b" \"fare\" \n")?;
    /// assert_eq!(table.header().get(0).unwrap().raw(), b"\"fare\"");
    /// # Ok::<(), hemakuliwi::Refusal>(())
    /// ```
    pub fn raw(&self) -> &'f [u8] {
        self.raw
    }

    /// The offset in the file at which the cell starts.
    ///
    /// ```
    /// # use hemakuliwi::{read, Dialect};
    /// let table = read(Dialect::CsvPlus, b"stop,fare\n")?;
    /// assert_eq!(table.header().get(1).unwrap().start(), 5);
    /// # Ok::<(), hemakuliwi::Refusal>(())
    /// ```
    pub fn start(&self) -> usize {
        self.start
    }

    /// The offset in the file at which the cell has ended.
    ///
    /// ```
    /// # use hemakuliwi::{read, Dialect};
    /// let table = read(Dialect::CsvPlus, b"stop,fare\n")?;
    /// assert_eq!(table.header().get(1).unwrap().end(), 9);
    /// # Ok::<(), hemakuliwi::Refusal>(())
    /// ```
    pub fn end(&self) -> usize {
        self.start + self.raw.len()
    }

    /// From the start up to the end.
    ///
    /// ```
    /// # use hemakuliwi::{read, Dialect};
    /// let table = read(Dialect::CsvPlus, b"stop,\n")?;
    /// assert_eq!(table.header().get(1).unwrap().range(), 5..5);
    /// # Ok::<(), hemakuliwi::Refusal>(())
    /// ```
    pub fn range(&self) -> Range<usize> {
        self.start()..self.end()
    }

    /// The content: a text without its quotes and escapes, a number as it is spelt, and nothing for the other kinds.
    ///
    /// It is borrowed from the file if it stands there as it is. Its bytes are UTF-8, with one exception: an escape of CSVJ can make a lone
    /// surrogate (`\ud83d` with no low surrogate after it), which is no character. It is kept as the three bytes that UTF-8's packing would
    /// give it, which is known as WTF-8, so that nothing is lost and CSVJ can be written from it again.
    ///
    /// ```
    /// # use hemakuliwi::{read, Dialect};
    /// use std::borrow::Cow;
    /// let table = read(Dialect::Csvj, br#""a","b\n","\ud83d"
    /// "#)?;
    /// let contents: Vec<_> = table.header().cells().map(|cell| cell.content()).collect();
    /// assert!(matches!(contents[0], Cow::Borrowed(b"a")));
    /// assert_eq!(contents[1], &b"b\n"[..]);
    /// assert_eq!(contents[2], &b"\xED\xA0\xBD"[..]);
    /// # Ok::<(), hemakuliwi::Refusal>(())
    /// ```
    pub fn content(&self) -> Cow<'f, [u8]> {
        value::content(self.dialect, self.kind, self.raw)
    }

    /// The content as a string.
    ///
    /// # Errors
    ///
    /// A lone surrogate, which no cell of TDIF and CSV+ has. The error says up to where the content is a string.
    ///
    /// ```
    /// # use hemakuliwi::{read, Dialect};
    /// let table = read(Dialect::Csvj, b"\"S\\u00fcd\",\"Nord\\ud83d\"\n")?;
    /// assert_eq!(table.header().get(0).unwrap().to_str().unwrap(), "Süd");
    /// assert_eq!(table.header().get(1).unwrap().to_str().unwrap_err().valid_up_to(), 4);
    /// # Ok::<(), hemakuliwi::Refusal>(())
    /// ```
    pub fn to_str(&self) -> Result<Cow<'f, str>, Utf8Error> {
        text::exact(self.content())
    }

    /// The content as a string, with U+FFFD for each lone surrogate.
    ///
    /// ```
    /// # use hemakuliwi::{read, Dialect};
    /// let table = read(Dialect::Csvj, b"\"Nord\\ud83d\"\n")?;
    /// assert_eq!(table.header().get(0).unwrap().to_string_lossy(), "Nord\u{FFFD}");
    /// # Ok::<(), hemakuliwi::Refusal>(())
    /// ```
    pub fn to_string_lossy(&self) -> Cow<'f, str> {
        text::lossy(self.content())
    }

    /// The kind and the content.
    ///
    /// ```
    /// # use hemakuliwi::{read, Dialect, Value};
    /// let table = read(Dialect::Csvj, b"\"fare\"\n2.40\n")?;
    /// assert_eq!(table.rows().next().unwrap().get(0).unwrap().value(), Value::number("2.40"));
    /// # Ok::<(), hemakuliwi::Refusal>(())
    /// ```
    pub fn value(&self) -> Value<'f> {
        Value::of(self.kind, self.content())
    }
}

/// The records of a table can be written as they are.
impl<'f> From<Cell<'f>> for Value<'f> {
    fn from(cell: Cell<'f>) -> Self {
        cell.value()
    }
}

impl fmt::Debug for Cell<'_> {
    fn fmt(&self, f: &mut fmt::Formatter<'_>) -> fmt::Result {
        let (kind, start) = (self.kind, self.start);
        write!(f, "{kind} b\"{}\" at {start}", self.raw.escape_ascii())
    }
}
