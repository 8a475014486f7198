//! From one dialect to another: a whole file in one call, or a file that comes in pieces.

use crate::refusal::accepted;
use crate::{raw, value, Dialect, Kind, Refusal};
use std::borrow::Cow;
use std::fmt;

/// A whole file in the dialect `from` to its canonical text in the dialect `to`.
///
/// A file can grow to six times its length, but to no more than 16,777,215 bytes. Room for that is asked for at once, since a call with too
/// little would have to be made again; what the text does not need is given back.
///
/// # Errors
///
/// The file's first fault, which is one of 1 to 9.
///
/// ```
/// use hemakuliwi::{convert, Dialect, Fault};
/// let text = convert(Dialect::Tdif, Dialect::Csvj, b"\"stop\",\"fare\"\n\"Old \"\"Mint\"\"\",\\N\n")?;
/// assert_eq!(text, b"\"stop\",\"fare\"\n\"Old \\\"Mint\\\"\",null\n");
///
/// let refusal = convert(Dialect::Csvj, Dialect::CsvPlus, b"\"stop\",\"fare\"\n\"Harbour\",2.40\n").unwrap_err();
/// assert_eq!((refusal.fault, refusal.record, refusal.column), (Fault::NotCarried, 2, 2));
/// # Ok::<(), hemakuliwi::Refusal>(())
/// ```
pub fn convert(from: Dialect, to: Dialect, file: &[u8]) -> Result<Vec<u8>, Refusal> {
    let mut text = vec![0; raw::convert_room(file.len())];
    let answer = raw::convert(from.number(), to.number(), file, &mut text);
    accepted(answer.report)?;
    text.truncate(answer.length);
    text.shrink_to_fit();
    Ok(text)
}

/// A converter of a file that comes in pieces, cut anywhere: each record is written when it completes.
///
/// It buffers the unfinished record and the header, 9 KB in all, and 48 KB to write to, however long the file is. A clone goes on from where the
/// converter stood.
///
/// Between a reader and a writer [`convert_stream`](crate::convert_stream) does all of it, or a
/// [`ConvertingWriter`](crate::ConvertingWriter) or [`ConvertingReader`](crate::ConvertingReader) over one of them.
///
/// ```
/// use hemakuliwi::{Converter, Dialect};
/// let mut converter = Converter::new(Dialect::CsvPlus, Dialect::Csvj);
/// let mut text = Vec::new();
/// converter.piece(b"stop,note\nHarbour,\"say \"", &mut text)?;
/// assert_eq!(text, b"\"stop\",\"note\"\n");
/// converter.piece(b"\"Mint\"\"\"", &mut text)?;
/// converter.end(&mut text)?;
/// assert_eq!(text, b"\"stop\",\"note\"\n\"Harbour\",\"say \\\"Mint\\\"\"\n");
/// # Ok::<(), hemakuliwi::Refusal>(())
/// ```
#[derive(Clone)]
pub struct Converter {
    source: Dialect,
    target: Dialect,
    state: Box<raw::Converter>,
    /// What a call of the library writes to. Kept from call to call, since it would have to be cleared if it were new.
    room: Vec<u8>,
    /// The fault that the file was refused for.
    refusal: Option<Refusal>,
    /// Whether the end has completed a record, which the state does not count.
    end_completed: bool,
    bytes_written: usize,
}

impl Converter {
    /// A converter before the first byte of a file in the dialect `from`, which writes the dialect `to`.
    ///
    /// ```
    /// # use hemakuliwi::{Converter, Dialect};
    /// let converter = Converter::new(Dialect::Csvj, Dialect::Tdif);
    /// assert_eq!((converter.source(), converter.target()), (Dialect::Csvj, Dialect::Tdif));
    /// ```
    pub fn new(from: Dialect, to: Dialect) -> Self {
        Self {
            source: from,
            target: to,
            state: Box::new(raw::Converter::new(from.number(), to.number())),
            room: vec![0; raw::PIECE_ROOM],
            refusal: None,
            end_completed: false,
            bytes_written: 0,
        }
    }

    /// The next bytes of the file, any number of them. The text of the records that they complete is added to `out`.
    ///
    /// # Errors
    ///
    /// The file's first fault, which is one of 1 to 9. The records before it are added to `out` too, and every later call is refused the
    /// same way.
    ///
    /// ```
    /// # use hemakuliwi::{Converter, Dialect, Fault};
    /// let mut converter = Converter::new(Dialect::Csvj, Dialect::CsvPlus);
    /// let mut text = Vec::new();
    /// let refusal = converter.piece(b"\"stop\"\n\"Harbour\"\n2.40\n", &mut text).unwrap_err();
    /// assert_eq!((refusal.fault, refusal.record), (Fault::NotCarried, 3));
    /// assert_eq!(text, b"stop\r\nHarbour\r\n");
    /// assert_eq!(converter.end(&mut text), Err(refusal));
    /// ```
    pub fn piece(&mut self, mut piece: &[u8], out: &mut Vec<u8>) -> Result<(), Refusal> {
        loop {
            let (part, rest) = piece.split_at(piece.len().min(raw::PIECE_BYTES));
            let answer = self.state.piece(part, &mut self.room);
            self.deliver(answer, out)?;
            if rest.is_empty() {
                return Ok(());
            }
            piece = rest;
        }
    }

    /// The end of the file. If it completes a record, which is so for a last one of CSV+ without an ending, its text is added to `out`.
    ///
    /// # Errors
    ///
    /// The file's first fault, as [`convert`] has it for all of its bytes. Once an end was accepted, every later call is refused as
    /// [`WrongCall`](crate::Fault::WrongCall).
    ///
    /// ```
    /// # use hemakuliwi::{Converter, Dialect, Fault};
    /// let mut converter = Converter::new(Dialect::CsvPlus, Dialect::Tdif);
    /// let mut text = Vec::new();
    /// converter.piece(b"stop", &mut text)?;
    /// assert_eq!(text, b"");
    /// converter.end(&mut text)?;
    /// assert_eq!(text, b"\"stop\"\n");
    /// assert_eq!(converter.end(&mut text).unwrap_err().fault, Fault::WrongCall);
    /// # Ok::<(), hemakuliwi::Refusal>(())
    /// ```
    pub fn end(&mut self, out: &mut Vec<u8>) -> Result<(), Refusal> {
        let answer = self.state.end(&mut self.room);
        self.deliver(answer, out)?;
        self.end_completed = answer.length > 0;
        Ok(())
    }

    /// Adds what a call has written to `out`, also if it was refused.
    fn deliver(&mut self, answer: raw::TextAnswer, out: &mut Vec<u8>) -> Result<(), Refusal> {
        out.extend_from_slice(&self.room[..answer.length]);
        self.bytes_written += answer.length;
        accepted(answer.report).inspect_err(|refusal| {
            if !refusal.fault.is_of_call() {
                self.refusal = Some(*refusal);
            }
        })
    }

    /// The dialect of the file.
    ///
    /// ```
    /// # use hemakuliwi::{Converter, Dialect};
    /// assert_eq!(Converter::new(Dialect::Csvj, Dialect::Tdif).source(), Dialect::Csvj);
    /// ```
    pub fn source(&self) -> Dialect {
        self.source
    }

    /// The dialect that is written.
    ///
    /// ```
    /// # use hemakuliwi::{Converter, Dialect};
    /// assert_eq!(Converter::new(Dialect::Csvj, Dialect::Tdif).target(), Dialect::Tdif);
    /// ```
    pub fn target(&self) -> Dialect {
        self.target
    }

    /// The fault of the file, if one was met.
    ///
    /// ```
    /// # use hemakuliwi::{Converter, Dialect};
    /// let mut converter = Converter::new(Dialect::Csvj, Dialect::Tdif);
    /// assert_eq!(converter.refusal(), None);
    /// let refusal = converter.end(&mut Vec::new()).unwrap_err();
    /// assert_eq!(converter.refusal(), Some(refusal));
    /// ```
    pub fn refusal(&self) -> Option<Refusal> {
        self.refusal
    }

    /// How many bytes of the file were taken: all that were given or, if a fault was met, those before its offset.
    ///
    /// ```
    /// # use hemakuliwi::{Converter, Dialect};
    /// let mut converter = Converter::new(Dialect::Tdif, Dialect::Csvj);
    /// converter.piece(b"\"stop\"\n\"Har", &mut Vec::new())?;
    /// assert_eq!(converter.bytes_taken(), 11);
    /// # Ok::<(), hemakuliwi::Refusal>(())
    /// ```
    pub fn bytes_taken(&self) -> usize {
        match self.refusal {
            Some(refusal) => refusal.offset,
            None => self.state.offset(),
        }
    }

    /// How many bytes of text the records completed have, in the dialect that is written.
    ///
    /// ```
    /// # use hemakuliwi::{Converter, Dialect};
    /// let mut converter = Converter::new(Dialect::Tdif, Dialect::CsvPlus);
    /// converter.piece(b"\"stop\"\n\"Har", &mut Vec::new())?;
    /// assert_eq!(converter.bytes_written(), b"stop\r\n".len());
    /// # Ok::<(), hemakuliwi::Refusal>(())
    /// ```
    pub fn bytes_written(&self) -> usize {
        self.bytes_written
    }

    /// How many records were completed, the header too.
    ///
    /// ```
    /// # use hemakuliwi::{Converter, Dialect};
    /// let mut converter = Converter::new(Dialect::CsvPlus, Dialect::Csvj);
    /// converter.piece(b"stop\nHarbour\nMint", &mut Vec::new())?;
    /// assert_eq!(converter.records_completed(), 2);
    /// converter.end(&mut Vec::new())?;
    /// assert_eq!(converter.records_completed(), 3);
    /// # Ok::<(), hemakuliwi::Refusal>(())
    /// ```
    pub fn records_completed(&self) -> usize {
        self.state.records() + usize::from(self.end_completed)
    }

    /// How many columns there are, once a piece has completed the header.
    ///
    /// ```
    /// # use hemakuliwi::{Converter, Dialect};
    /// let mut converter = Converter::new(Dialect::CsvPlus, Dialect::Csvj);
    /// converter.piece(b"stop,fare", &mut Vec::new())?;
    /// assert_eq!(converter.columns(), None);
    /// converter.piece(b"\n", &mut Vec::new())?;
    /// assert_eq!(converter.columns(), Some(2));
    /// # Ok::<(), hemakuliwi::Refusal>(())
    /// ```
    pub fn columns(&self) -> Option<usize> {
        (self.state.records() > 0).then_some(self.state.columns())
    }

    /// The name of the column at this place, counted from 0, once a piece has completed the header. It stays after a fault:
    ///
    /// ```
    /// # use hemakuliwi::{Converter, Dialect};
    /// let mut converter = Converter::new(Dialect::Csvj, Dialect::CsvPlus);
    /// let refusal = converter.piece(b"\"stop\",\"f\\u0061re\"\n\"Harbour\",2.40\n", &mut Vec::new()).unwrap_err();
    /// let name = converter.name(refusal.column - 1).unwrap();
    /// assert_eq!(*name, *b"fare");
    /// ```
    pub fn name(&self, column: usize) -> Option<Cow<'_, [u8]>> {
        let raw = self.state.name(column)?;
        Some(value::content(self.source, Kind::Text, raw))
    }

    /// The names of all columns, once a piece has completed the header; none before.
    ///
    /// ```
    /// # use hemakuliwi::{Converter, Dialect};
    /// let mut converter = Converter::new(Dialect::CsvPlus, Dialect::Csvj);
    /// converter.piece(b"stop,\"fare\"\n", &mut Vec::new())?;
    /// let names: Vec<_> = converter.names().collect();
    /// assert_eq!(names, [&b"stop"[..], b"fare"]);
    /// # Ok::<(), hemakuliwi::Refusal>(())
    /// ```
    pub fn names(&self) -> impl Iterator<Item = Cow<'_, [u8]>> {
        (0..).map_while(|column| self.name(column))
    }
}

impl fmt::Debug for Converter {
    fn fmt(&self, f: &mut fmt::Formatter<'_>) -> fmt::Result {
        f.debug_struct("Converter")
            .field("source", &self.source)
            .field("target", &self.target)
            .field("bytes_taken", &self.bytes_taken())
            .field("bytes_written", &self.bytes_written)
            .field("records_completed", &self.records_completed())
            .field("refusal", &self.refusal)
            .finish_non_exhaustive()
    }
}
