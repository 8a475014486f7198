//! Reports, and their sentences.

/// The faults and refusals; the discriminants are the rules' numbers.
#[derive(Clone, Copy, Debug, PartialEq, Eq)]
pub enum Fault {
    /// The file ends before any record begins.
    NoRecord = 1,
    /// A byte breaks the UTF-8 table.
    Utf8 = 2,
    /// A byte that is not allowed where it is.
    Form = 3,
    /// The file ends too early.
    Cut = 4,
    /// The cell count differs from the header's.
    CellCount = 5,
    /// A header name repeats an earlier one.
    RepeatedName = 6,
    /// A header cell is not text.
    HeaderKind = 7,
    /// A limit is exceeded.
    Limit = 8,
    /// The target cannot represent the record.
    NotCarried = 9,
    /// A lent buffer is too short, or a piece too long.
    Room = 10,
    /// An unknown dialect number, or a call after an accepted end.
    Call = 11,
    /// A table given to the writer is not one.
    NotATable = 12,
}

/// The answer to a call: accepted, or which fault and where.
#[derive(Clone, Copy, Debug, PartialEq, Eq, Hash)]
pub struct Report {
    /// The fault's number; 0 for acceptance.
    pub number: usize,
    /// The record, counted from 1 (the header); 0 if none is named.
    pub record: usize,
    /// The column, counted from 1; 0 if none is named.
    pub column: usize,
    /// The offset in the file, counted from 0.
    pub offset: usize,
}

impl Report {
    /// The report of a call that succeeded.
    pub const ACCEPTED: Self = Self {
        number: 0,
        record: 0,
        column: 0,
        offset: 0,
    };

    /// Whether the call succeeded.
    pub fn is_accepted(&self) -> bool {
        *self == Self::ACCEPTED
    }

    /// A refusal that names no place.
    pub(crate) const fn refusal(fault: Fault) -> Self {
        Self {
            number: fault as usize,
            ..Self::ACCEPTED
        }
    }

    /// One plain sentence for the person who handed in the file.
    pub fn sentence(&self) -> String {
        if self.is_accepted() {
            return "The file was accepted.".to_string();
        }
        format!(
            "Fault {}{}: {}.",
            self.number,
            self.place(),
            self.explanation()
        )
    }

    /// Faults of the file have a place in it; 10, 11 and 12 have none.
    fn place(&self) -> String {
        let record = match self.record {
            0 => String::new(),
            1 => " in record 1 (the header)".to_string(),
            record => format!(" in record {record}"),
        };
        let column = match self.column {
            0 => String::new(),
            column => format!(", column {column}"),
        };
        match self.number {
            1..=9 => format!("{record}{column} at byte offset {}", self.offset),
            _ => String::new(),
        }
    }

    fn explanation(&self) -> &'static str {
        match self.number {
            1 => "the file ends before any record begins, so there is no header",
            2 => "this byte is not valid UTF-8 text",
            3 => "this byte cannot stand here",
            4 => "the file ends too early; its last part is cut off",
            5 => "this record does not have as many cells as the header",
            6 => "this column name has already been used in the header",
            7 => "a column name must be text",
            8 => {
                "a limit is exceeded (16,777,215 bytes in a file, 4,096 bytes in a record, \
                 64 columns)"
            }
            9 => "this record cannot be written in the chosen format without loss",
            10 => "the memory set aside for the answer is too small, or the piece is too long",
            11 => "the format is not known, or the file was already finished",
            12 => "the table to be written does not fit together",
            _ => "this fault number is not in use",
        }
    }
}

#[cfg(test)]
mod tests {
    use super::*;

    #[test]
    fn sentences_say_what_and_where() {
        let report = |number, record, column, offset| Report {
            number,
            record,
            column,
            offset,
        };
        for (report, sentence) in [
            (Report::ACCEPTED, "The file was accepted."),
            (
                report(6, 1, 2, 0),
                "Fault 6 in record 1 (the header), column 2 at byte offset 0: this column name \
                 has already been used in the header.",
            ),
            (
                report(3, 7, 0, 40),
                "Fault 3 in record 7 at byte offset 40: this byte cannot stand here.",
            ),
            (
                report(2, 0, 0, 0),
                "Fault 2 at byte offset 0: this byte is not valid UTF-8 text.",
            ),
            (
                report(12, 0, 0, 0),
                "Fault 12: the table to be written does not fit together.",
            ),
        ] {
            assert_eq!(report.sentence(), sentence);
        }
    }
}
