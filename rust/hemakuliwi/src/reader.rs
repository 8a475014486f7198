//! A converter as a reader over another one.

use crate::{raw, Converter, Dialect, Refusal};
use std::fmt;
use std::io::{self, BufRead, Read};

/// A reader that gives in one dialect what the reader below it gives in the other.
///
/// It has a buffer, so it is a [`BufRead`] too. Each record comes once it has completed. A refusal is an [`io::Error`] that holds it, as
/// [`Refusal::in_error`] tells; it comes after the records before the fault, and again from every later read. An error of the reader below
/// is given as it is, and reading can go on after it.
///
/// ```
/// use hemakuliwi::{ConvertingReader, Dialect};
/// use std::io::BufRead;
/// let file = &b"\"stop\",\"fare\"\r\"Harbour\",\"2.40\"\r"[..];
/// let reader = ConvertingReader::new(Dialect::Tdif, Dialect::CsvPlus, file);
/// let lines: Vec<String> = reader.lines().collect::<Result<_, _>>()?;
/// assert_eq!(lines, ["stop,fare", "Harbour,2.40"]);
/// # Ok::<(), std::io::Error>(())
/// ```
pub struct ConvertingReader<R> {
    converter: Converter,
    inner: R,
    piece: Vec<u8>,
    /// Text of complete records, of which so many bytes were given.
    text: Vec<u8>,
    given: usize,
    /// What the last call of the converter has come to.
    outcome: Result<(), Refusal>,
    has_ended: bool,
}

impl<R> ConvertingReader<R> {
    /// A reader that gives the dialect `to`, over one that gives the dialect `from`.
    ///
    /// ```
    /// # use hemakuliwi::{ConvertingReader, Dialect};
    /// let reader = ConvertingReader::new(Dialect::CsvPlus, Dialect::Csvj, &b"stop\n"[..]);
    /// assert_eq!(std::io::read_to_string(reader)?, "\"stop\"\n");
    /// # Ok::<(), std::io::Error>(())
    /// ```
    pub fn new(from: Dialect, to: Dialect, inner: R) -> Self {
        Self {
            converter: Converter::new(from, to),
            inner,
            piece: vec![0; raw::PIECE_BYTES],
            text: Vec::new(),
            given: 0,
            outcome: Ok(()),
            has_ended: false,
        }
    }

    /// The converter, which tells how far the file has come and the names of its columns.
    ///
    /// ```
    /// # use hemakuliwi::{ConvertingReader, Dialect};
    /// # use std::io::Read;
    /// let mut reader = ConvertingReader::new(Dialect::CsvPlus, Dialect::Csvj, &b"stop,fare\nHarbour,2.40"[..]);
    /// reader.read_to_end(&mut Vec::new())?;
    /// assert_eq!(reader.converter().records_completed(), 2);
    /// assert_eq!(*reader.converter().name(1).unwrap(), *b"fare");
    /// # Ok::<(), std::io::Error>(())
    /// ```
    pub fn converter(&self) -> &Converter {
        &self.converter
    }

    /// The reader below.
    ///
    /// ```
    /// # use hemakuliwi::{ConvertingReader, Dialect};
    /// let reader = ConvertingReader::new(Dialect::CsvPlus, Dialect::Csvj, &b"stop\n"[..]);
    /// assert_eq!(reader.get_ref().len(), 5);
    /// ```
    pub fn get_ref(&self) -> &R {
        &self.inner
    }

    /// The reader below. What is read from it directly is missing in the file.
    ///
    /// ```
    /// # use hemakuliwi::{ConvertingReader, Dialect};
    /// # use std::io::{read_to_string, Read};
    /// let mut reader = ConvertingReader::new(Dialect::CsvPlus, Dialect::Csvj, &b"length 5:stop\n"[..]);
    /// reader.get_mut().read_exact(&mut [0; 9])?;
    /// assert_eq!(read_to_string(reader)?, "\"stop\"\n");
    /// # Ok::<(), std::io::Error>(())
    /// ```
    pub fn get_mut(&mut self) -> &mut R {
        &mut self.inner
    }

    /// The reader below. What was read from it and not given yet is lost.
    ///
    /// ```
    /// # use hemakuliwi::{ConvertingReader, Dialect};
    /// let reader = ConvertingReader::new(Dialect::CsvPlus, Dialect::Csvj, &b"stop\n"[..]);
    /// assert_eq!(reader.into_inner(), b"stop\n");
    /// ```
    pub fn into_inner(self) -> R {
        self.inner
    }
}

impl<R: Read> BufRead for ConvertingReader<R> {
    fn fill_buf(&mut self) -> io::Result<&[u8]> {
        while self.given == self.text.len() && !self.has_ended {
            self.outcome?;
            let length = self.inner.read(&mut self.piece)?;
            self.text.clear();
            self.given = 0;
            self.outcome = match length {
                0 => self.converter.end(&mut self.text),
                _ => self.converter.piece(&self.piece[..length], &mut self.text),
            };
            self.has_ended = length == 0 && self.outcome.is_ok();
        }
        Ok(&self.text[self.given..])
    }

    fn consume(&mut self, amount: usize) {
        self.given = self.text.len().min(self.given + amount);
    }
}

impl<R: Read> Read for ConvertingReader<R> {
    fn read(&mut self, bytes: &mut [u8]) -> io::Result<usize> {
        let length = self.fill_buf()?.read(bytes)?;
        self.consume(length);
        Ok(length)
    }
}

impl<R: fmt::Debug> fmt::Debug for ConvertingReader<R> {
    fn fmt(&self, f: &mut fmt::Formatter<'_>) -> fmt::Result {
        f.debug_struct("ConvertingReader")
            .field("converter", &self.converter)
            .field("inner", &self.inner)
            .field("waiting", &(self.text.len() - self.given))
            .finish_non_exhaustive()
    }
}
