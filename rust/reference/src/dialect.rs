//! The dialects and the kinds of cells.

/// One of the three dialects.
#[derive(Clone, Copy, Debug, PartialEq, Eq)]
pub enum Dialect {
    /// Dialect 1.
    Csvj,
    /// Dialect 2.
    Tdif,
    /// Dialect 3.
    CsvPlus,
}

/// What a cell holds; the discriminants are the rules' kind numbers.
#[derive(Clone, Copy, Debug, PartialEq, Eq)]
pub enum Kind {
    /// Text, with the decoded bytes as content.
    Text = 1,
    /// A number, with its spelling as content.
    Number = 2,
    /// The word true.
    True = 3,
    /// The word false.
    False = 4,
    /// Null.
    Null = 5,
}

impl Dialect {
    /// The dialect of a number, if there is one.
    pub fn from_number(number: u32) -> Option<Self> {
        match number {
            1 => Some(Self::Csvj),
            2 => Some(Self::Tdif),
            3 => Some(Self::CsvPlus),
            _ => None,
        }
    }

    /// Whether the dialect can represent a cell of this kind.
    pub(crate) fn has(self, kind: Kind) -> bool {
        match self {
            Self::Csvj => true,
            Self::Tdif => matches!(kind, Kind::Text | Kind::Null),
            Self::CsvPlus => kind == Kind::Text,
        }
    }

    /// Whether the dialect takes two header names for the same one.
    pub(crate) fn same_name(self, one: &[u8], other: &[u8]) -> bool {
        match self {
            Self::Tdif => one.eq_ignore_ascii_case(other),
            Self::Csvj | Self::CsvPlus => one == other,
        }
    }

    /// The ending of a record in canonical text.
    pub(crate) fn ending(self) -> &'static [u8] {
        match self {
            Self::Csvj | Self::Tdif => b"\n",
            Self::CsvPlus => b"\r\n",
        }
    }
}

impl Kind {
    /// The kind of a number, if there is one.
    pub fn from_number(number: u8) -> Option<Self> {
        match number {
            1 => Some(Self::Text),
            2 => Some(Self::Number),
            3 => Some(Self::True),
            4 => Some(Self::False),
            5 => Some(Self::Null),
            _ => None,
        }
    }

    /// The rules' number for the kind.
    pub fn number(self) -> u8 {
        self as u8
    }
}
