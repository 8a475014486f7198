//! In which record and cell a byte stands. This goes by quotes, delimiters and line breaks alone and judges nothing: it is asked about
//! text in which the library has found no fault before the byte.

use crate::lines::{Cursor, Place, MARK};
use hemakuliwi::Dialect;

/// Goes over a text and knows the record and the cell of the next byte.
#[derive(Clone, Copy, Debug)]
pub struct Walk {
    dialect: Dialect,
    /// Whether the text begins with a byte order mark.
    is_marked: bool,
    cursor: Cursor,
    /// Where the record began, or would begin.
    record: Place,
    /// Where the cell began: after the delimiter.
    cell: Place,
    /// The number of the cell, from 1.
    cell_number: usize,
    /// How many records have ended.
    records_ended: usize,
    state: State,
}

#[derive(Clone, Copy, Debug, PartialEq, Eq)]
enum State {
    /// Before the first byte of a line.
    LineStart,
    /// As `LineStart`, after a CR, of whose ending an LF would be part.
    AfterCr,
    /// In a record and outside of quotes.
    Open,
    Quoted,
    /// Directly after a backslash of a CSVJ string.
    Escaped,
    Comment,
}

impl Walk {
    pub fn new(dialect: Dialect, is_marked: bool) -> Self {
        let cursor = Cursor::new();
        let start = cursor.place(None);
        Self {
            dialect,
            is_marked,
            cursor,
            record: start,
            cell: start,
            cell_number: 1,
            records_ended: 0,
            state: State::LineStart,
        }
    }

    pub fn place(&self, byte: Option<u8>) -> Place {
        self.cursor.place(byte)
    }

    pub fn offset(&self) -> usize {
        self.cursor.place(None).offset
    }

    pub fn record_start(&self) -> usize {
        self.record.offset
    }

    pub fn cell(&self) -> Place {
        self.cell
    }

    pub fn cell_number(&self) -> usize {
        self.cell_number
    }

    pub fn records_ended(&self) -> usize {
        self.records_ended
    }

    pub fn is_in_quotes(&self) -> bool {
        matches!(self.state, State::Quoted | State::Escaped)
    }

    pub fn is_in_comment(&self) -> bool {
        self.state == State::Comment
    }

    pub fn is_between_records(&self) -> bool {
        matches!(self.state, State::LineStart | State::AfterCr)
    }

    /// As it is at `byte`, the next one, or at the end of the text: where a record would begin with it, it has begun.
    pub fn at(mut self, byte: Option<u8>) -> Self {
        let is_rest_of_ending = self.state == State::AfterCr && byte == Some(b'\n');
        if self.is_between_records() && !self.is_at_mark() && !is_rest_of_ending {
            self.begin(byte);
        }
        self
    }

    fn is_at_mark(&self) -> bool {
        self.is_marked && self.offset() < MARK.len()
    }

    pub fn advance(&mut self, bytes: &[u8]) {
        let mut rest = bytes;
        while let Some((&byte, after)) = rest.split_first() {
            self.step(byte);
            let is_in_run = matches!(self.state, State::Open | State::Quoted | State::Comment);
            let run = if is_in_run { run_length(after) } else { 0 };
            self.cursor.pass(&after[..run]);
            rest = &after[run..];
        }
    }

    pub fn step(&mut self, byte: u8) {
        let is_mark = self.is_at_mark();
        *self = self.at(Some(byte));
        self.cursor.step(byte, is_mark);
        if is_mark {
            return;
        }
        self.state = match (self.state, byte) {
            (State::LineStart | State::AfterCr, _) => State::LineStart,
            (State::Comment, b'\r') => State::AfterCr,
            (State::Comment, b'\n') => State::LineStart,
            (State::Comment, _) => State::Comment,
            (State::Escaped, _) => State::Quoted,
            (State::Quoted, b'"') => State::Open,
            (State::Quoted, b'\\') if self.dialect == Dialect::Csvj => State::Escaped,
            (State::Quoted, _) => State::Quoted,
            (State::Open, b'"') => State::Quoted,
            (State::Open, b'\n') => self.ended(State::LineStart),
            (State::Open, b'\r') if self.dialect == Dialect::Tdif => self.ended(State::AfterCr),
            (State::Open, b',') => self.next_cell(),
            (State::Open, _) => State::Open,
        };
    }

    /// A line begins with this byte: a comment, or a record.
    fn begin(&mut self, byte: Option<u8>) {
        self.record = self.place(byte);
        self.cell = self.record;
        self.cell_number = 1;
        let is_comment = self.dialect == Dialect::Tdif && byte == Some(b'#');
        self.state = if is_comment {
            State::Comment
        } else {
            State::Open
        };
    }

    fn ended(&mut self, state: State) -> State {
        self.records_ended += 1;
        state
    }

    fn next_cell(&mut self) -> State {
        self.cell_number += 1;
        self.cell = self.place(None);
        State::Open
    }
}

/// How many bytes go by that change no state of a walk.
fn run_length(bytes: &[u8]) -> usize {
    let is_sign = |byte: &u8| matches!(byte, b'"' | b',' | b'\\' | b'\n' | b'\r');
    bytes.iter().position(is_sign).unwrap_or(bytes.len())
}

#[cfg(test)]
mod tests {
    use super::*;
    use harness::generate::sample;
    use harness::rng::Rng;
    use hemakuliwi::read;

    /// The record start, the cell's number and where it begins for the byte at an offset.
    fn at(dialect: Dialect, text: &[u8], offset: usize) -> (usize, usize, usize) {
        let mut walk = Walk::new(dialect, text.starts_with(&MARK));
        walk.advance(&text[..offset]);
        let walk = walk.at(text.get(offset).copied());
        (walk.record_start(), walk.cell_number(), walk.cell().offset)
    }

    #[test]
    fn quotes_hide_commas_and_line_breaks() {
        let text = b"a,\"x,\n\"\"y\",b\r\nc,d,e\n";
        assert_eq!(at(Dialect::CsvPlus, text, 7), (0, 2, 2));
        assert_eq!(at(Dialect::CsvPlus, text, 12), (0, 3, 11));
        assert_eq!(at(Dialect::CsvPlus, text, 17), (14, 2, 16));
    }

    #[test]
    fn escaped_quotes_end_no_string_of_csvj() {
        assert_eq!(at(Dialect::Csvj, br#""a\",\\",1"#, 9), (0, 2, 9));
        assert_eq!(at(Dialect::Csvj, b"\xEF\xBB\xBF\"a\", 1", 8), (3, 2, 7));
    }

    #[test]
    fn comments_of_tdif_are_no_records_and_its_endings_are_three() {
        let text = b"# a,\"b\r\n\"c\"\r\"d\"\r\n\"e\",\"f\"\n";
        assert_eq!(at(Dialect::Tdif, text, 9), (8, 1, 8));
        assert_eq!(at(Dialect::Tdif, text, 13), (12, 1, 12));
        assert_eq!(at(Dialect::Tdif, text, 22), (17, 2, 21));
        let mut walk = Walk::new(Dialect::Tdif, false);
        walk.advance(text);
        assert_eq!(walk.records_ended(), 3);
        assert!(walk.is_between_records());
    }

    #[test]
    fn cells_are_where_the_reader_finds_them() {
        let mut rng = Rng::new(5);
        let mut cells = 0;
        for _ in 0..4_000 {
            let dialect = rng.pick(&Dialect::ALL);
            let file = sample(&mut rng, harness::DIALECTS[dialect.number() as usize - 1].1).file;
            let Ok(table) = read(dialect, &file) else {
                continue;
            };
            let mut walk = Walk::new(dialect, file.starts_with(&MARK));
            for record in table.records() {
                for (column, cell) in record.cells().enumerate() {
                    walk.advance(&file[walk.offset()..cell.start()]);
                    let here = walk.at(file.get(cell.start()).copied());
                    assert_eq!(here.cell_number(), column + 1);
                    assert_eq!(here.records_ended(), record.number() - 1);
                    cells += 1;
                }
            }
        }
        assert!(cells > 10_000, "{cells} cells");
    }
}
