//! What is said of a table that is refused.

use crate::raw;
use std::error::Error;
use std::fmt;
use std::io;

/// Why something was refused. `docs/RULES.md`, section 6, says when each is given.
///
/// ```
/// use hemakuliwi::{read, Dialect, Fault};
/// let refusal = read(Dialect::Csvj, b"\"stop\",\"stop\"\n").unwrap_err();
/// assert_eq!(refusal.fault, Fault::RepeatedName);
/// assert_eq!(refusal.fault.number(), 6);
/// ```
#[derive(Clone, Copy, Debug, PartialEq, Eq, PartialOrd, Ord, Hash)]
pub enum Fault {
    /// The file ends before a record begins.
    NoRecord = 1,
    /// A byte breaks UTF-8.
    Encoding = 2,
    /// A byte that can't stand where it does.
    Syntax = 3,
    /// The file ends too early.
    CutShort = 4,
    /// A record has another number of cells than the header.
    CellCount = 5,
    /// A header name repeats an earlier one.
    RepeatedName = 6,
    /// A header cell is not text.
    HeaderKind = 7,
    /// More bytes or columns than the limits allow.
    Limit = 8,
    /// The target dialect can't carry the record.
    NotCarried = 9,
    /// Something lent is too short. Only the calls of [`raw`] are lent anything, so no other gives it.
    Room = 10,
    /// A call after the accepted end of a file.
    WrongCall = 11,
    /// What is to be written is no table.
    NoTable = 12,
}

impl Fault {
    /// The twelve of them, by number.
    ///
    /// ```
    /// # use hemakuliwi::Fault;
    /// assert!(Fault::ALL.iter().zip(1..).all(|(fault, number)| fault.number() == number));
    /// ```
    pub const ALL: [Self; 12] = [
        Self::NoRecord,
        Self::Encoding,
        Self::Syntax,
        Self::CutShort,
        Self::CellCount,
        Self::RepeatedName,
        Self::HeaderKind,
        Self::Limit,
        Self::NotCarried,
        Self::Room,
        Self::WrongCall,
        Self::NoTable,
    ];

    /// The number by which the rules name it: 1 to 12.
    ///
    /// ```
    /// # use hemakuliwi::Fault;
    /// assert_eq!(Fault::NotCarried.number(), 9);
    /// ```
    pub const fn number(self) -> usize {
        self as usize
    }

    /// The fault of this number, or none.
    ///
    /// ```
    /// # use hemakuliwi::Fault;
    /// assert_eq!(Fault::from_number(4), Some(Fault::CutShort));
    /// assert_eq!(Fault::from_number(0), None);
    /// ```
    pub const fn from_number(number: usize) -> Option<Self> {
        if 1 <= number && number <= Self::ALL.len() {
            Some(Self::ALL[number - 1])
        } else {
            None
        }
    }

    /// Whether it is the fault of a call, which names no place: 10, 11 or 12. The others are faults of a file, of a cell or of a table.
    ///
    /// ```
    /// # use hemakuliwi::Fault;
    /// assert!(Fault::NoTable.is_of_call());
    /// assert!(!Fault::Syntax.is_of_call());
    /// ```
    pub const fn is_of_call(self) -> bool {
        matches!(self, Self::Room | Self::WrongCall | Self::NoTable)
    }
}

/// A refusal: the fault, and where it is.
///
/// Records count from 1, and the header is record 1. Columns count from 1. Where none is named, the number is 0. The offset is that of the
/// faulty byte, or of the first byte of the faulty record, counted from 0; [`decode`](crate::decode) counts from the cell's start, and
/// [`write`](crate::write()), which has no file, leaves it 0.
///
/// ```
/// use hemakuliwi::{read, Dialect, Fault, Refusal};
/// let refusal = read(Dialect::CsvPlus, b"stop,fare\nHarbour\n").unwrap_err();
/// assert_eq!(refusal, Refusal { fault: Fault::CellCount, record: 2, column: 0, offset: 10 });
/// assert_eq!(refusal.to_string(), "record 2 has another number of cells than the header; it begins at byte 10");
/// ```
#[derive(Clone, Copy, Debug, PartialEq, Eq, Hash)]
pub struct Refusal {
    /// Why.
    pub fault: Fault,
    /// The record, counted from 1 (the header); 0 if none is named.
    pub record: usize,
    /// The column, counted from 1; 0 if none is named.
    pub column: usize,
    /// The offset in bytes, counted from 0.
    pub offset: usize,
}

impl Refusal {
    /// A refusal that names no place.
    pub(crate) const fn of_call(fault: Fault) -> Self {
        Self {
            fault,
            record: 0,
            column: 0,
            offset: 0,
        }
    }

    /// The refusal that an [`io::Error`] of a [`ConvertingWriter`](crate::ConvertingWriter) or a
    /// [`ConvertingReader`](crate::ConvertingReader) holds, or none if the writer or the reader below has failed.
    ///
    /// ```
    /// use hemakuliwi::{ConvertingReader, Dialect, Fault, Refusal};
    /// let mut reader = ConvertingReader::new(Dialect::Tdif, Dialect::Csvj, &b"\"stop\"\n\n"[..]);
    /// let error = std::io::read_to_string(&mut reader).unwrap_err();
    /// assert_eq!(Refusal::in_error(&error).unwrap().fault, Fault::Syntax);
    /// ```
    pub fn in_error(error: &io::Error) -> Option<Self> {
        error.get_ref()?.downcast_ref().copied()
    }
}

/// What a report of the library says: acceptance, or a refusal.
pub(crate) fn accepted(report: raw::Report) -> Result<(), Refusal> {
    if report.number == raw::ACCEPTED {
        return Ok(());
    }
    Err(Refusal {
        fault: Fault::from_number(report.number).expect("reports have the numbers 0 to 12"),
        record: report.record_number,
        column: report.column,
        offset: report.offset,
    })
}

/// One plain sentence; for a file it has the words of the proved program that converts standard input.
impl fmt::Display for Refusal {
    fn fmt(&self, f: &mut fmt::Formatter<'_>) -> fmt::Result {
        match self.fault {
            Fault::Encoding | Fault::Syntax | Fault::CutShort if self.record == 0 => {
                self.of_cell(f)
            }
            Fault::NoRecord | Fault::Encoding | Fault::Syntax | Fault::CutShort => self.of_byte(f),
            Fault::CellCount | Fault::RepeatedName | Fault::HeaderKind => self.of_record(f),
            Fault::Limit => self.of_limit(f),
            Fault::NotCarried => self.of_target(f),
            Fault::Room => f.write_str("what was lent is too short, or a piece too long"),
            Fault::WrongCall => {
                f.write_str("the file was ended before, and has no more to convert")
            }
            Fault::NoTable => f.write_str(
                "what is to be written is no table: it has no header, a record has another number \
                 of cells, a number is not spelt as one, or a text is not UTF-8",
            ),
        }
    }
}

impl Refusal {
    fn of_cell(&self, f: &mut fmt::Formatter<'_>) -> fmt::Result {
        let offset = self.offset;
        match self.fault {
            Fault::Encoding => write!(f, "byte {offset} of the cell is not UTF-8 text"),
            Fault::Syntax => write!(
                f,
                "byte {offset} of the cell can't stand there in this dialect"
            ),
            _ => write!(f, "the cell ends at byte {offset} before it is complete"),
        }
    }

    fn of_byte(&self, f: &mut fmt::Formatter<'_>) -> fmt::Result {
        let (record, offset) = (self.record, self.offset);
        match self.fault {
            Fault::NoRecord => write!(
                f,
                "the file ends at byte {offset} before record {record}, the header, begins"
            ),
            Fault::Encoding => write!(f, "at record {record}, byte {offset} is not UTF-8 text"),
            Fault::Syntax => write!(
                f,
                "at record {record}, byte {offset} can't stand there in a file of the source \
                 dialect"
            ),
            _ => write!(
                f,
                "the file ends at byte {offset} before record {record} is complete"
            ),
        }
    }

    fn of_record(&self, f: &mut fmt::Formatter<'_>) -> fmt::Result {
        let (record, column) = (self.record, self.column);
        match self.fault {
            Fault::CellCount => write!(
                f,
                "record {record} has another number of cells than the header"
            )?,
            Fault::RepeatedName => write!(
                f,
                "record {record}, the header, has in column {column} the name of an earlier column"
            )?,
            _ => write!(
                f,
                "record {record}, the header, has no name in column {column}, where the cell is \
                 not text"
            )?,
        }
        write!(f, "; it begins at byte {}", self.offset)
    }

    fn of_limit(&self, f: &mut fmt::Formatter<'_>) -> fmt::Result {
        write!(
            f,
            "at record {}, a limit is passed (16,777,215 bytes in a file, 4,096 bytes or 64 \
             columns in a record); byte {} is the first too many or, for columns, the record's first",
            self.record, self.offset
        )
    }

    fn of_target(&self, f: &mut fmt::Formatter<'_>) -> fmt::Result {
        let (record, column) = (self.record, self.column);
        let subject = if column == 0 {
            write!(
                f,
                "record {record} can't be written in the target dialect, which asks for a column \
                 or in which the record or the file gets too long"
            )?;
            "it"
        } else {
            write!(
                f,
                "column {column} of record {record} can't be written in the target dialect, which \
                 lacks such a cell or character or takes the name for an earlier one"
            )?;
            "the record"
        };
        // A data record at byte 0 is one that was to be written, and stands in no file.
        if record > 1 && self.offset == 0 {
            return Ok(());
        }
        write!(f, "; {subject} begins at byte {}", self.offset)
    }
}

impl Error for Refusal {}

/// A fault of a file is [`io::ErrorKind::InvalidData`], that of a call [`io::ErrorKind::InvalidInput`].
impl From<Refusal> for io::Error {
    fn from(refusal: Refusal) -> Self {
        let kind = if refusal.fault.is_of_call() {
            io::ErrorKind::InvalidInput
        } else {
            io::ErrorKind::InvalidData
        };
        Self::new(kind, refusal)
    }
}
