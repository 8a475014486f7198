//! A converter as a writer over another one.

use crate::{raw, Converted, Converter, Dialect, StreamError};
use std::fmt;
use std::io::{self, ErrorKind, Write};

/// A writer that takes a file in one dialect and gives the writer below it the other.
///
/// What is written to it may be cut anywhere; the writer below gets each record when it completes. The end has to be told, by
/// [`finish`](Self::finish): only then is it known whether the file is sound. Nothing is told when it is dropped.
///
/// A refusal is an [`io::Error`] that holds it, as [`Refusal::in_error`](crate::Refusal::in_error) tells. The records before the fault have
/// gone to the writer below, and every later write is refused the same way.
///
/// No record is lost if the writer below fails: what it has not taken waits here, and goes before all else when the next call is made. So
/// the error may come one call later than the bytes that it is about.
///
/// ```
/// use hemakuliwi::{ConvertingWriter, Dialect};
/// use std::io::Write;
/// let mut writer = ConvertingWriter::new(Dialect::CsvPlus, Dialect::Csvj, Vec::new());
/// writeln!(writer, "stop,fare")?;
/// write!(writer, "Harbour,")?;
/// assert_eq!(writer.get_ref(), b"\"stop\",\"fare\"\n");
/// writeln!(writer, "2.40")?;
/// let done = writer.finish()?;
/// assert_eq!(done.records, 2);
/// assert_eq!(writer.into_inner(), b"\"stop\",\"fare\"\n\"Harbour\",\"2.40\"\n");
/// # Ok::<(), Box<dyn std::error::Error>>(())
/// ```
pub struct ConvertingWriter<W> {
    converter: Converter,
    inner: W,
    /// Text of complete records, of which so many bytes were sent to the inner writer.
    text: Vec<u8>,
    sent: usize,
    has_ended: bool,
}

impl<W> ConvertingWriter<W> {
    /// A writer that takes the dialect `from`, over one that gets the dialect `to`.
    ///
    /// ```
    /// # use hemakuliwi::{ConvertingWriter, Dialect};
    /// let writer = ConvertingWriter::new(Dialect::CsvPlus, Dialect::Csvj, std::io::stdout());
    /// # let _ = writer;
    /// ```
    pub fn new(from: Dialect, to: Dialect, inner: W) -> Self {
        Self {
            converter: Converter::new(from, to),
            inner,
            text: Vec::new(),
            sent: 0,
            has_ended: false,
        }
    }

    /// The converter, which tells how far the file has come and the names of its columns.
    ///
    /// ```
    /// # use hemakuliwi::{ConvertingWriter, Dialect};
    /// # use std::io::Write;
    /// let mut writer = ConvertingWriter::new(Dialect::CsvPlus, Dialect::Csvj, Vec::new());
    /// writer.write_all(b"stop\nHarbour\nMi")?;
    /// assert_eq!(writer.converter().records_completed(), 2);
    /// # Ok::<(), std::io::Error>(())
    /// ```
    pub fn converter(&self) -> &Converter {
        &self.converter
    }

    /// The writer below.
    ///
    /// ```
    /// # use hemakuliwi::{ConvertingWriter, Dialect};
    /// # use std::io::Write;
    /// let mut writer = ConvertingWriter::new(Dialect::CsvPlus, Dialect::Csvj, Vec::new());
    /// writer.write_all(b"stop\nHarb")?;
    /// assert_eq!(writer.get_ref(), b"\"stop\"\n");
    /// # Ok::<(), std::io::Error>(())
    /// ```
    pub fn get_ref(&self) -> &W {
        &self.inner
    }

    /// The writer below. What is written to it directly comes between two records, as long as no write to it has failed.
    ///
    /// ```
    /// # use hemakuliwi::{ConvertingWriter, Dialect};
    /// let mut writer = ConvertingWriter::new(Dialect::CsvPlus, Dialect::Tdif, Vec::new());
    /// writer.get_mut().extend_from_slice(b"# fares\n");
    /// # assert_eq!(writer.into_inner(), b"# fares\n");
    /// ```
    pub fn get_mut(&mut self) -> &mut W {
        &mut self.inner
    }

    /// The writer below, which gets nothing more: call [`finish`](Self::finish) before.
    ///
    /// ```
    /// # use hemakuliwi::{ConvertingWriter, Dialect};
    /// # use std::io::Write;
    /// let mut writer = ConvertingWriter::new(Dialect::CsvPlus, Dialect::Tdif, Vec::new());
    /// writer.write_all(b"stop\n")?;
    /// writer.finish()?;
    /// assert_eq!(writer.into_inner(), b"\"stop\"\n");
    /// # Ok::<(), Box<dyn std::error::Error>>(())
    /// ```
    pub fn into_inner(self) -> W {
        self.inner
    }
}

impl<W: Write> ConvertingWriter<W> {
    /// The end of the file: the last record is sent, and the writer below is flushed. Once it was accepted, every later write is refused.
    ///
    /// # Errors
    ///
    /// [`Refused`](StreamError::Refused) comes after the writer below has got every record before the fault. After
    /// [`Write`](StreamError::Write) nothing is lost, and the call can be made again.
    ///
    /// ```
    /// # use hemakuliwi::{ConvertingWriter, Dialect, Fault, StreamError};
    /// # use std::io::Write;
    /// let mut writer = ConvertingWriter::new(Dialect::Tdif, Dialect::Csvj, Vec::new());
    /// writer.write_all(b"\"stop\"\n\"Harb")?;
    /// match writer.finish() {
    ///     Err(StreamError::Refused(refusal)) => assert_eq!(refusal.fault, Fault::CutShort),
    ///     other => panic!("{other:?}"),
    /// }
    /// assert_eq!(writer.into_inner(), b"\"stop\"\n");
    /// # Ok::<(), std::io::Error>(())
    /// ```
    pub fn finish(&mut self) -> Result<Converted, StreamError> {
        let mut outcome = Ok(());
        if !self.has_ended {
            outcome = self.converter.end(&mut self.text);
            self.has_ended = outcome.is_ok();
        }
        self.flush().map_err(StreamError::Write)?;
        outcome.map_err(StreamError::Refused)?;
        Ok(Converted::by(&self.converter))
    }

    /// Sends what waits, and keeps what the inner writer does not take.
    fn send(&mut self) -> io::Result<()> {
        while self.sent < self.text.len() {
            match self.inner.write(&self.text[self.sent..]) {
                Ok(0) => return Err(ErrorKind::WriteZero.into()),
                Ok(length) => self.sent += length,
                Err(error) if error.kind() == ErrorKind::Interrupted => {}
                Err(error) => return Err(error),
            }
        }
        self.text.clear();
        self.sent = 0;
        Ok(())
    }
}

impl<W: Write> Write for ConvertingWriter<W> {
    fn write(&mut self, bytes: &[u8]) -> io::Result<usize> {
        self.send()?;
        let length = bytes.len().min(raw::PIECE_BYTES);
        let outcome = self.converter.piece(&bytes[..length], &mut self.text);
        let sent = self.send();
        if let Err(refusal) = outcome {
            sent?;
            return Err(refusal.into());
        }
        // The bytes are taken even if the records that they complete have to wait: to fail here would ask for the same bytes again.
        Ok(length)
    }

    /// Sends the records that are complete. The record in hand can't go before it has completed.
    fn flush(&mut self) -> io::Result<()> {
        self.send()?;
        self.inner.flush()
    }
}

impl<W: fmt::Debug> fmt::Debug for ConvertingWriter<W> {
    fn fmt(&self, f: &mut fmt::Formatter<'_>) -> fmt::Result {
        f.debug_struct("ConvertingWriter")
            .field("converter", &self.converter)
            .field("inner", &self.inner)
            .field("waiting", &(self.text.len() - self.sent))
            .finish_non_exhaustive()
    }
}
