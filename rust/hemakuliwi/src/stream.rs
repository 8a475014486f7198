//! From a reader to a writer of the standard library.

use crate::{Converter, Dialect, Refusal};
use std::error::Error;
use std::fmt;
use std::io::{self, ErrorKind, Read, Write};

/// How much is asked of a reader at once.
const READ_BYTES: usize = 65_536;

/// What a file was converted to.
///
/// ```
/// use hemakuliwi::{convert_stream, Converted, Dialect};
/// let done = convert_stream(Dialect::CsvPlus, Dialect::Tdif, &b"stop\nHarbour\n"[..], Vec::new())?;
/// assert_eq!(done, Converted { bytes_read: 13, bytes_written: 17, records: 2 });
/// # Ok::<(), hemakuliwi::StreamError>(())
/// ```
#[derive(Clone, Copy, Debug, PartialEq, Eq, Hash)]
pub struct Converted {
    /// How many bytes the file has.
    pub bytes_read: usize,
    /// How many bytes were written.
    pub bytes_written: usize,
    /// How many records there are, the header too.
    pub records: usize,
}

impl Converted {
    /// What a converter has come to at its end.
    pub(crate) fn by(converter: &Converter) -> Self {
        Self {
            bytes_read: converter.bytes_taken(),
            bytes_written: converter.bytes_written(),
            records: converter.records_completed(),
        }
    }
}

/// Why a conversion between a reader and a writer has stopped. The sentence has the cause in it, and `source` is the cause.
///
/// ```
/// use hemakuliwi::{convert_stream, Dialect, StreamError};
/// let error = convert_stream(Dialect::CsvPlus, Dialect::Tdif, &b"a\nb,c\n"[..], Vec::new()).unwrap_err();
/// assert!(matches!(error, StreamError::Refused(refusal) if refusal.record == 2));
/// assert_eq!(error.to_string(), "record 2 has another number of cells than the header; it begins at byte 2");
/// ```
#[derive(Debug)]
pub enum StreamError {
    /// The file is refused. The records before the fault were written.
    Refused(Refusal),
    /// The reader has failed. The records that were complete were written.
    Read(io::Error),
    /// The writer has failed. How much it has taken before, it alone can tell.
    Write(io::Error),
}

impl fmt::Display for StreamError {
    fn fmt(&self, f: &mut fmt::Formatter<'_>) -> fmt::Result {
        match self {
            Self::Refused(refusal) => refusal.fmt(f),
            Self::Read(error) => write!(f, "the input can't be read: {error}"),
            Self::Write(error) => write!(f, "the output can't be written: {error}"),
        }
    }
}

impl Error for StreamError {
    fn source(&self) -> Option<&(dyn Error + 'static)> {
        Some(match self {
            Self::Refused(refusal) => refusal,
            Self::Read(error) | Self::Write(error) => error,
        })
    }
}

/// A fault of the file is as [`Refusal`] has it, and a failure of the reader or the writer is passed on.
impl From<StreamError> for io::Error {
    fn from(error: StreamError) -> Self {
        match error {
            StreamError::Refused(refusal) => refusal.into(),
            StreamError::Read(error) | StreamError::Write(error) => error,
        }
    }
}

/// Converts all that a reader gives, in constant memory, and writes each record once it has completed.
///
/// Reads that are interrupted are made again. What a read has completed goes to the writer at once and in one part, so neither of them needs
/// a buffer.
///
/// # Errors
///
/// A refusal or a failed read comes after every record that was complete has been written, and the writer has been flushed. If the writer
/// fails, that is what is reported, even where the file is refused too.
///
/// ```
/// use hemakuliwi::{convert_stream, Dialect};
/// let mut text = Vec::new();
/// let done = convert_stream(Dialect::CsvPlus, Dialect::Csvj, &b"stop,fare\nHarbour,2.40\n"[..], &mut text)?;
/// assert_eq!(text, b"\"stop\",\"fare\"\n\"Harbour\",\"2.40\"\n");
/// assert_eq!(done.records, 2);
/// # Ok::<(), hemakuliwi::StreamError>(())
/// ```
pub fn convert_stream<R: Read, W: Write>(
    from: Dialect,
    to: Dialect,
    reader: R,
    writer: W,
) -> Result<Converted, StreamError> {
    Converter::new(from, to).stream(reader, writer)
}

impl Converter {
    /// As [`convert_stream`], with a converter that can be asked afterwards, such as for the name of a column.
    ///
    /// # Errors
    ///
    /// As [`convert_stream`] has them. After a failed read the call can be made again, to go on with the same file. After a failed write
    /// the text that the writer did not take is lost; a [`ConvertingWriter`](crate::ConvertingWriter) keeps it.
    ///
    /// ```
    /// # use hemakuliwi::{Converter, Dialect, StreamError};
    /// let mut converter = Converter::new(Dialect::Csvj, Dialect::CsvPlus);
    /// let mut text = Vec::new();
    /// let file = &b"\"stop\",\"fare\"\n\"Harbour\",2.40\n"[..];
    /// match converter.stream(file, &mut text) {
    ///     Err(StreamError::Refused(refusal)) => assert_eq!(*converter.name(refusal.column - 1).unwrap(), *b"fare"),
    ///     other => panic!("{other:?}"),
    /// }
    /// assert_eq!(text, b"stop,fare\r\n");
    /// ```
    pub fn stream<R: Read, W: Write>(
        &mut self,
        mut reader: R,
        mut writer: W,
    ) -> Result<Converted, StreamError> {
        let outcome = self.pass(&mut reader, &mut writer);
        if !matches!(outcome, Err(StreamError::Write(_))) {
            writer.flush().map_err(StreamError::Write)?;
        }
        outcome.map(|()| Converted::by(self))
    }

    /// Passes the file on up to its end, and writes what each read has completed before the next one.
    fn pass<R: Read, W: Write>(
        &mut self,
        reader: &mut R,
        writer: &mut W,
    ) -> Result<(), StreamError> {
        let mut bytes = vec![0; READ_BYTES];
        let mut text = Vec::new();
        loop {
            let length = read_some(reader, &mut bytes).map_err(StreamError::Read)?;
            let outcome = match length {
                0 => self.end(&mut text),
                _ => self.piece(&bytes[..length], &mut text),
            };
            writer.write_all(&text).map_err(StreamError::Write)?;
            text.clear();
            outcome.map_err(StreamError::Refused)?;
            if length == 0 {
                return Ok(());
            }
        }
    }
}

fn read_some<R: Read>(reader: &mut R, bytes: &mut [u8]) -> io::Result<usize> {
    loop {
        match reader.read(bytes) {
            Err(error) if error.kind() == ErrorKind::Interrupted => {}
            answer => return answer,
        }
    }
}
