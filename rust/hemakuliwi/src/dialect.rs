//! The dialects, and the kinds of cells, by name and by number.

use crate::raw;
use std::error::Error;
use std::fmt;
use std::str::FromStr;

/// How a table is spelt.
///
/// ```
/// use hemakuliwi::Dialect;
/// let dialect: Dialect = "CSV+".parse()?;
/// assert_eq!(dialect, Dialect::CsvPlus);
/// assert_eq!((dialect.number(), dialect.name()), (3, "csv+"));
/// assert_eq!("2".parse(), Ok(Dialect::Tdif));
/// # Ok::<(), hemakuliwi::UnknownDialect>(())
/// ```
#[derive(Clone, Copy, Debug, PartialEq, Eq, PartialOrd, Ord, Hash)]
pub enum Dialect {
    /// Values as in JSON, with all five kinds of cells.
    Csvj,
    /// Quoted text, and `\N` for null.
    Tdif,
    /// Text alone, in quotes where it needs them.
    CsvPlus,
}

impl Dialect {
    /// The three of them, by number.
    ///
    /// ```
    /// # use hemakuliwi::Dialect;
    /// assert_eq!(Dialect::ALL.map(Dialect::name), ["csvj", "tdif", "csv+"]);
    /// ```
    pub const ALL: [Self; 3] = [Self::Csvj, Self::Tdif, Self::CsvPlus];

    /// The number by which the rules name it: 1, 2 or 3.
    ///
    /// ```
    /// # use hemakuliwi::Dialect;
    /// assert_eq!(Dialect::ALL.map(Dialect::number), [1, 2, 3]);
    /// ```
    pub const fn number(self) -> u32 {
        match self {
            Self::Csvj => raw::CSVJ,
            Self::Tdif => raw::TDIF,
            Self::CsvPlus => raw::CSV_PLUS,
        }
    }

    /// The dialect of this number, or none.
    ///
    /// ```
    /// # use hemakuliwi::Dialect;
    /// assert_eq!(Dialect::from_number(1), Some(Dialect::Csvj));
    /// assert_eq!(Dialect::from_number(4), None);
    /// ```
    pub const fn from_number(number: u32) -> Option<Self> {
        match number {
            raw::CSVJ => Some(Self::Csvj),
            raw::TDIF => Some(Self::Tdif),
            raw::CSV_PLUS => Some(Self::CsvPlus),
            _ => None,
        }
    }

    /// Its name in lower case.
    ///
    /// ```
    /// # use hemakuliwi::Dialect;
    /// assert_eq!(Dialect::CsvPlus.name(), "csv+");
    /// ```
    pub const fn name(self) -> &'static str {
        match self {
            Self::Csvj => "csvj",
            Self::Tdif => "tdif",
            Self::CsvPlus => "csv+",
        }
    }
}

impl fmt::Display for Dialect {
    fn fmt(&self, f: &mut fmt::Formatter<'_>) -> fmt::Result {
        f.pad(self.name())
    }
}

/// A name in any case, or a number in one digit.
impl FromStr for Dialect {
    type Err = UnknownDialect;

    fn from_str(word: &str) -> Result<Self, UnknownDialect> {
        Self::ALL
            .into_iter()
            .find(|dialect| {
                word.eq_ignore_ascii_case(dialect.name()) || word == dialect.number().to_string()
            })
            .ok_or_else(|| UnknownDialect {
                word: word.to_string(),
            })
    }
}

/// A word that names no dialect.
///
/// ```
/// use hemakuliwi::Dialect;
/// let error = "excel".parse::<Dialect>().unwrap_err();
/// assert_eq!(error.word(), "excel");
/// assert_eq!(error.to_string(), "\"excel\" names no dialect: there are csvj (1), tdif (2) and csv+ (3)");
/// ```
#[derive(Clone, Debug, PartialEq, Eq, Hash)]
pub struct UnknownDialect {
    word: String,
}

impl UnknownDialect {
    /// The word.
    ///
    /// ```
    /// # use hemakuliwi::Dialect;
    /// assert_eq!("".parse::<Dialect>().unwrap_err().word(), "");
    /// ```
    pub fn word(&self) -> &str {
        &self.word
    }
}

impl fmt::Display for UnknownDialect {
    fn fmt(&self, f: &mut fmt::Formatter<'_>) -> fmt::Result {
        write!(
            f,
            "{:?} names no dialect: there are csvj (1), tdif (2) and csv+ (3)",
            self.word
        )
    }
}

impl Error for UnknownDialect {}

/// What a cell is.
///
/// ```
/// use hemakuliwi::{read, Dialect, Kind};
/// let table = read(Dialect::Csvj, b"\"fare\"\n2.40\nnull\n")?;
/// let kinds: Vec<Kind> = table.rows().map(|row| row.get(0).unwrap().kind()).collect();
/// assert_eq!(kinds, [Kind::Number, Kind::Null]);
/// # Ok::<(), hemakuliwi::Refusal>(())
/// ```
#[derive(Clone, Copy, Debug, PartialEq, Eq, PartialOrd, Ord, Hash)]
pub enum Kind {
    /// A text, perhaps an empty one. All dialects have it.
    Text,
    /// A number, of which the spelling is kept. Only CSVJ has it.
    Number,
    /// The value true. Only CSVJ has it.
    True,
    /// The value false. Only CSVJ has it.
    False,
    /// No value. CSVJ and TDIF have it.
    Null,
}

impl Kind {
    /// The five of them, by number.
    ///
    /// ```
    /// # use hemakuliwi::Kind;
    /// assert_eq!(Kind::ALL.map(Kind::name), ["text", "number", "true", "false", "null"]);
    /// ```
    pub const ALL: [Self; 5] = [
        Self::Text,
        Self::Number,
        Self::True,
        Self::False,
        Self::Null,
    ];

    /// The number by which the rules name it: 1 to 5.
    ///
    /// ```
    /// # use hemakuliwi::Kind;
    /// assert_eq!(Kind::ALL.map(Kind::number), [1, 2, 3, 4, 5]);
    /// ```
    pub const fn number(self) -> u8 {
        match self {
            Self::Text => raw::TEXT,
            Self::Number => raw::NUMBER,
            Self::True => raw::TRUE,
            Self::False => raw::FALSE,
            Self::Null => raw::NULL,
        }
    }

    /// The kind of this number, or none.
    ///
    /// ```
    /// # use hemakuliwi::Kind;
    /// assert_eq!(Kind::from_number(5), Some(Kind::Null));
    /// assert_eq!(Kind::from_number(0), None);
    /// ```
    pub const fn from_number(number: u8) -> Option<Self> {
        match number {
            raw::TEXT => Some(Self::Text),
            raw::NUMBER => Some(Self::Number),
            raw::TRUE => Some(Self::True),
            raw::FALSE => Some(Self::False),
            raw::NULL => Some(Self::Null),
            _ => None,
        }
    }

    /// Its name in lower case.
    ///
    /// ```
    /// # use hemakuliwi::Kind;
    /// assert_eq!(Kind::Text.name(), "text");
    /// ```
    pub const fn name(self) -> &'static str {
        match self {
            Self::Text => "text",
            Self::Number => "number",
            Self::True => "true",
            Self::False => "false",
            Self::Null => "null",
        }
    }
}

impl fmt::Display for Kind {
    fn fmt(&self, f: &mut fmt::Formatter<'_>) -> fmt::Result {
        f.pad(self.name())
    }
}
