//! Records, and what lies between them: the byte order mark, comments, the LF of a TDIF CRLF.

use crate::cell;
use crate::cursor::{Cursor, Region, Stop};
use crate::dialect::{Dialect, Kind};
use crate::report::Fault;

const BYTE_ORDER_MARK: &[u8] = b"\xEF\xBB\xBF";

/// A cell as it lies in the file.
#[derive(Clone, Copy, Debug)]
pub(crate) struct RawCell<'a> {
    pub(crate) kind: Kind,
    /// The file offset of its first byte.
    pub(crate) start: usize,
    pub(crate) raw: &'a [u8],
}

/// A record as it lies in the file.
#[derive(Clone, Debug)]
pub(crate) struct RawRecord<'a> {
    /// The file offset of its first byte.
    pub(crate) start: usize,
    pub(crate) cells: Vec<RawCell<'a>>,
}

/// Where a scan between records is.
#[derive(Clone, Copy, Debug, PartialEq, Eq)]
pub(crate) enum Place {
    FileStart,
    LineStart,
    /// After a CR that ended a TDIF record or comment; an LF here belongs to that ending.
    AfterCr,
    Comment,
}

/// The records of a window of the file, in order.
pub(crate) struct Records<'a> {
    dialect: Dialect,
    window: &'a [u8],
    /// The file offset of the window's first byte.
    base: usize,
    /// Whether the file ends where the window does.
    last: bool,
    /// Up to here all is complete: records, the byte order mark, the characters of a comment.
    pos: usize,
    place: Place,
}

impl<'a> Records<'a> {
    /// The records of a whole file.
    pub(crate) fn of_file(dialect: Dialect, file: &'a [u8]) -> Self {
        Self::resume(dialect, file, 0, Place::FileStart, true)
    }

    /// The records of a window that starts where an earlier one left off.
    pub(crate) fn resume(
        dialect: Dialect,
        window: &'a [u8],
        base: usize,
        place: Place,
        last: bool,
    ) -> Self {
        Self {
            dialect,
            window,
            base,
            last,
            pos: 0,
            place,
        }
    }

    /// The bytes after all that is complete, where they are in the file, and the place there.
    pub(crate) fn unfinished(&self) -> (&'a [u8], usize, Place) {
        (&self.window[self.pos..], self.base + self.pos, self.place)
    }

    /// The next record, or none when the window ends between records.
    pub(crate) fn next_record(&mut self) -> Result<Option<RawRecord<'a>>, Stop> {
        match self.dialect {
            Dialect::Csvj => self.skip_mark()?,
            Dialect::Tdif => self.skip_comments()?,
            Dialect::CsvPlus => self.refuse_mark()?,
        }
        if self.pos == self.window.len() {
            return Ok(None);
        }
        let mut cursor = Cursor::in_record(self.window, self.base, self.pos);
        let start = cursor.offset();
        let cells = match self.dialect {
            Dialect::Csvj => csvj_cells(&mut cursor)?,
            Dialect::Tdif => tdif_cells(&mut cursor)?,
            Dialect::CsvPlus => csv_plus_cells(&mut cursor, self.last)?,
        };
        self.pos = cursor.pos();
        self.place = self.place_after_line();
        Ok(Some(RawRecord { start, cells }))
    }

    /// Only in TDIF does a lone CR end a line.
    fn place_after_line(&self) -> Place {
        if self.window[..self.pos].ends_with(b"\r") {
            Place::AfterCr
        } else {
            Place::LineStart
        }
    }

    fn between_records(&self) -> Cursor<'a> {
        Cursor::between_records(self.window, self.base, self.pos)
    }

    /// Once EF is read at offset 0, the byte order mark has to follow.
    fn skip_mark(&mut self) -> Result<(), Stop> {
        if self.place != Place::FileStart || self.window.first() != Some(&BYTE_ORDER_MARK[0]) {
            return Ok(());
        }
        let mut cursor = self.between_records();
        for &byte in BYTE_ORDER_MARK {
            cursor.pass_only(byte)?;
        }
        self.pos = cursor.pos();
        self.place = Place::LineStart;
        Ok(())
    }

    /// In CSV+ the third byte of a byte order mark is fault 3.
    fn refuse_mark(&self) -> Result<(), Stop> {
        if self.place == Place::FileStart && self.window.starts_with(BYTE_ORDER_MARK) {
            return Err(Stop::Fault(Fault::Form, 2));
        }
        Ok(())
    }

    fn skip_comments(&mut self) -> Result<(), Stop> {
        loop {
            let next = self.between_records().peek(Region::Outside)?;
            match (self.place, next) {
                (Place::Comment, _) => self.skip_comment_text()?,
                (Place::AfterCr, Some(b'\n')) => self.step(Place::LineStart),
                (_, Some(b'#')) => self.step(Place::Comment),
                _ => return Ok(()),
            }
        }
    }

    fn step(&mut self, place: Place) {
        self.pos += 1;
        self.place = place;
    }

    /// Passes a comment character by character, so that only a cut character is unfinished.
    fn skip_comment_text(&mut self) -> Result<(), Stop> {
        loop {
            let mut cursor = self.between_records();
            let byte = cursor.need(Region::Outside)?;
            cursor.pass_character(Region::Outside)?;
            self.pos = cursor.pos();
            if matches!(byte, b'\r' | b'\n') {
                self.place = self.place_after_line();
                return Ok(());
            }
        }
    }
}

/// Passes one cell and stores its span.
fn take_cell<'a>(dialect: Dialect, cursor: &mut Cursor<'a>) -> Result<RawCell<'a>, Stop> {
    let (start, first) = (cursor.offset(), cursor.pos());
    let kind = cell::scan(dialect, cursor)?;
    Ok(RawCell {
        kind,
        start,
        raw: cursor.bytes_from(first),
    })
}

fn csvj_cells<'a>(cursor: &mut Cursor<'a>) -> Result<Vec<RawCell<'a>>, Stop> {
    let mut cells = Vec::new();
    skip_blanks(cursor)?;
    if matches!(cursor.need(Region::Outside)?, b'\r' | b'\n') {
        pass_ending(cursor)?;
        return Ok(cells);
    }
    loop {
        cells.push(take_cell(Dialect::Csvj, cursor)?);
        skip_blanks(cursor)?;
        if !cursor.pass_any(b",")? {
            pass_ending(cursor)?;
            return Ok(cells);
        }
        skip_blanks(cursor)?;
    }
}

fn skip_blanks(cursor: &mut Cursor) -> Result<(), Stop> {
    while cursor.pass_any(b" \t")? {}
    Ok(())
}

/// Passes the LF or CRLF of a CSVJ or CSV+ record.
fn pass_ending(cursor: &mut Cursor) -> Result<(), Stop> {
    if cursor.need(Region::Outside)? == b'\r' {
        cursor.pass_uncounted();
    }
    cursor.pass_only(b'\n')
}

fn tdif_cells<'a>(cursor: &mut Cursor<'a>) -> Result<Vec<RawCell<'a>>, Stop> {
    let mut cells = Vec::new();
    loop {
        cells.push(take_cell(Dialect::Tdif, cursor)?);
        if cursor.pass_any(b"\r\n")? {
            return Ok(cells);
        }
        cursor.pass_only(b',')?;
    }
}

/// The end of the file may replace the last ending.
fn csv_plus_cells<'a>(cursor: &mut Cursor<'a>, last: bool) -> Result<Vec<RawCell<'a>>, Stop> {
    let mut cells = Vec::new();
    loop {
        cells.push(take_cell(Dialect::CsvPlus, cursor)?);
        if cursor.pass_any(b",")? {
            continue;
        }
        if !(last && cursor.at_end()) {
            pass_ending(cursor)?;
        }
        return Ok(cells);
    }
}
