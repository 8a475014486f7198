//! What stands around the place of a fault: the record, the cell, and the bytes before and after it. Cells are found by the library's own
//! reader.

use crate::cells::Walk;
use crate::explain::{self, Reason};
use crate::lines::{Place, MARK};
use crate::trail::Text;
use hemakuliwi::raw::{COLUMNS, FILE_BYTES};
use hemakuliwi::{convert, read, Dialect, Fault, Kind, Refusal};
use std::ops::Range;
use std::str::from_utf8;

/// What is known of a file where it is refused.
pub struct Case<'a> {
    pub from: Dialect,
    pub to: Option<Dialect>,
    pub refusal: Refusal,
    pub text: Text<'a>,
    /// The names of the header, if it is complete.
    pub names: Vec<Vec<u8>>,
}

/// Where in a cell a byte stands.
#[derive(Clone, Copy, Debug, PartialEq, Eq)]
pub enum Standing {
    Mark,
    Comment,
    CellStart,
    /// In a number or a word of CSVJ, in `\N`, or in a plain cell of CSV+.
    Bare,
    Quoted,
    /// After a backslash of a CSVJ string.
    Escape,
    AfterQuote,
    /// After a CR that ends no record by itself.
    AfterCr,
}

/// A cell of a record.
pub struct Cell {
    pub kind: Kind,
    pub content: Vec<u8>,
    /// Where it stands in the record.
    pub range: Range<usize>,
}

/// A fault and what stands around it.
pub struct Scene<'a> {
    pub case: &'a Case<'a>,
    pub walk: Walk,
    pub byte: Option<u8>,
    pub standing: Standing,
    /// The cell as far as it goes before the place.
    pub before: &'a [u8],
    /// The record from its start, as far as it was read.
    pub record: &'a [u8],
    /// The cells of the record, if it is complete.
    pub cells: Vec<Cell>,
}

impl<'a> Scene<'a> {
    pub fn new(case: &'a Case<'a>) -> Self {
        let Refusal { fault, offset, .. } = case.refusal;
        let byte = case.text.byte(offset);
        let walk = case.text.walk_to(offset).at(byte);
        let before = case.text.between(walk.cell().offset, offset);
        let is_complete = matches!(
            fault,
            Fault::CellCount | Fault::RepeatedName | Fault::HeaderKind | Fault::NotCarried
        );
        let record = case.text.record(walk.record_start());
        let mut scene = Self {
            case,
            walk,
            byte,
            standing: Standing::CellStart,
            before,
            record,
            cells: if is_complete {
                cells_of(case.from, record)
            } else {
                Vec::new()
            },
        };
        scene.standing = scene.stands();
        scene
    }

    pub fn fault(&self) -> Fault {
        self.case.refusal.fault
    }

    pub fn dialect(&self) -> Dialect {
        self.case.from
    }

    fn stands(&self) -> Standing {
        let is_quoted = self.walk.is_in_quotes();
        if self.case.refusal.offset < MARK.len() && self.case.text.head().starts_with(&MARK) {
            return Standing::Mark;
        }
        if self.walk.is_in_comment() {
            return Standing::Comment;
        }
        if !is_quoted && self.before.last() == Some(&b'\r') {
            return Standing::AfterCr;
        }
        let is_space = |byte: &u8| self.case.from == Dialect::Csvj && matches!(byte, b' ' | b'\t');
        let begun = self.case.refusal.offset - self.character_start();
        let before = &self.before[..self.before.len().saturating_sub(begun)];
        match before.iter().find(|byte| !is_space(byte)) {
            None => Standing::CellStart,
            Some(b'"') if !is_quoted => Standing::AfterQuote,
            // Of the bytes from 20 on, only those of an escape are a fault inside of a string.
            Some(b'"') if self.fault() == Fault::Syntax && self.byte >= Some(0x20) => {
                Standing::Escape
            }
            Some(b'"') => Standing::Quoted,
            Some(_) => Standing::Bare,
        }
    }

    /// The cell of the report's column.
    pub fn cell(&self) -> Option<&Cell> {
        self.cells.get(self.case.refusal.column.checked_sub(1)?)
    }

    /// The bytes that are marked where the text is shown: the cell that the report names, an unfinished character and the byte that
    /// breaks it, or the one byte.
    pub fn marked(&self) -> Range<usize> {
        let Refusal { fault, offset, .. } = self.case.refusal;
        match self.cell() {
            Some(cell) => offset + cell.range.start..offset + cell.range.end,
            None if fault == Fault::Encoding => offset - self.unfinished().len()..offset + 1,
            None => offset..offset + 1,
        }
    }

    pub fn place(&self) -> Place {
        let start = match self.cell() {
            Some(_) => self.marked().start,
            None => self.case.refusal.offset,
        };
        self.case
            .text
            .walk_to(start)
            .place(self.case.text.byte(start))
    }

    /// The cell around the place, or the comment, from its first byte up to where it ends or as far as it was read.
    pub fn around(&self) -> &'a [u8] {
        let start = self.walk.cell().offset;
        let offset = self.case.refusal.offset;
        let mut walk = self.walk;
        let rest = self.case.text.from(offset);
        let length = rest.iter().position(|&byte| {
            walk.step(byte);
            walk.cell_number() > self.walk.cell_number() || walk.is_between_records()
        });
        self.case
            .text
            .between(start, offset + length.unwrap_or(rest.len()))
    }

    /// Where the cell begins whose quote is still open at a place where it should not be.
    pub fn opened(&self) -> Option<Place> {
        let is_too_late = matches!(self.fault(), Fault::CutShort | Fault::Limit);
        Some(self.walk.cell()).filter(|_| is_too_late && self.standing == Standing::Quoted)
    }

    /// How many cells the record has by its commas, sound or not, if it was read up to its end.
    pub fn cells_by_commas(&self) -> Option<usize> {
        let mut walk = self.case.text.walk_to(self.walk.record_start());
        walk.advance(self.record);
        walk.is_between_records().then(|| walk.cell_number())
    }

    /// Whether the record is sound but for the line break after it.
    pub fn lacks_line_end(&self) -> bool {
        let is_asked_for = self.case.from != Dialect::CsvPlus && self.standing != Standing::AfterCr;
        is_asked_for && !cells_of(self.case.from, &[self.record, b"\n"].concat()).is_empty()
    }

    /// The number of the cell in which the place is, if it is in one.
    pub fn cell_number(&self) -> Option<usize> {
        match self.fault() {
            Fault::RepeatedName | Fault::HeaderKind | Fault::NotCarried => {
                Some(self.case.refusal.column).filter(|&column| column > 0)
            }
            Fault::Encoding | Fault::Syntax | Fault::CutShort | Fault::Limit => {
                self.number_by_walk()
            }
            _ => None,
        }
    }

    fn number_by_walk(&self) -> Option<usize> {
        let is_named = !matches!(self.standing, Standing::Mark | Standing::Comment)
            && self.walk.cell_number() <= COLUMNS;
        let is_limit_of_all = matches!(
            self.reason(),
            Some(&explain::FILE_BYTES | &explain::COLUMNS)
        );
        (is_named && !is_limit_of_all).then(|| self.walk.cell_number())
    }

    /// The header name above the cell. In the header a cell is its own name.
    pub fn header_name(&self) -> Option<&[u8]> {
        let name = self.case.names.get(self.cell_number()? - 1);
        name.map(Vec::as_slice)
            .filter(|_| self.case.refusal.record > 1)
    }

    /// The bytes before the place that begin a character and do not end it.
    pub fn unfinished(&self) -> &'a [u8] {
        let offset = self.case.refusal.offset;
        let longest = (1..=3).rev().map(|length| {
            self.case
                .text
                .between(offset.saturating_sub(length), offset)
        });
        let is_unfinished = |bytes: &&[u8]| {
            from_utf8(bytes)
                .is_err_and(|error| error.valid_up_to() == 0 && error.error_len().is_none())
        };
        longest
            .filter(|bytes| bytes.first() >= Some(&0xC2))
            .find(is_unfinished)
            .unwrap_or(&[])
    }

    /// Where the character at the place begins: before it where a CSVJ file begins with a character that begins as a mark does.
    pub fn character_start(&self) -> usize {
        let begun = match self.fault() {
            Fault::Syntax => self.unfinished(),
            _ => &[],
        };
        self.case.refusal.offset - begun.len()
    }

    /// Which of a fault's several reasons holds.
    pub fn reason(&self) -> Option<&'static Reason> {
        let Refusal {
            fault,
            offset,
            column,
            ..
        } = self.case.refusal;
        match fault {
            Fault::Limit if offset == FILE_BYTES => Some(&explain::FILE_BYTES),
            Fault::Limit if offset == self.walk.record_start() => Some(&explain::COLUMNS),
            Fault::Limit => Some(&explain::RECORD_BYTES),
            Fault::NotCarried if column > 0 => Some(self.reason_of_cell()),
            Fault::NotCarried => Some(self.reason_of_record()),
            _ => None,
        }
    }

    /// Only a name of a header is left when a text has no lone surrogate, the one thing in content that is no UTF-8.
    fn reason_of_cell(&self) -> &'static Reason {
        match self.cell() {
            Some(cell) if cell.kind != Kind::Text => &explain::KIND,
            Some(cell) if from_utf8(&cell.content).is_err() => &explain::LONE_SURROGATE,
            _ => &explain::REPEATED_NAME,
        }
    }

    /// A record that the target can't carry by itself is too long; one that it can is too much.
    fn reason_of_record(&self) -> &'static Reason {
        let (from, to) = (self.case.from, self.case.to.unwrap_or(self.case.from));
        let is_header = self.case.refusal.record == 1;
        if is_header && self.cells.is_empty() {
            return &explain::NO_CELLS;
        }
        let mut alone = if is_header {
            Vec::new()
        } else {
            header_of(from, self.cells.len())
        };
        alone.extend_from_slice(self.record);
        match convert(from, to, &alone) {
            Ok(_) => &explain::FILE_TEXT,
            Err(_) => &explain::RECORD_TEXT,
        }
    }

    /// The column of the name that the name of the report repeats.
    pub fn repeated_column(&self) -> Option<usize> {
        let rule = self
            .case
            .to
            .filter(|_| self.fault() == Fault::NotCarried)
            .unwrap_or(self.case.from);
        let key = |cell: &Cell| match rule {
            Dialect::Tdif => cell.content.to_ascii_lowercase(),
            _ => cell.content.clone(),
        };
        let repeated = key(self.cell()?);
        self.cells
            .iter()
            .position(|cell| key(cell) == repeated)
            .map(|index| index + 1)
    }
}

/// The names 1, 2, 3 and so on, as a record.
fn header_of(dialect: Dialect, columns: usize) -> Vec<u8> {
    let quote = if dialect == Dialect::CsvPlus {
        ""
    } else {
        "\""
    };
    let names: Vec<String> = (1..=columns)
        .map(|number| format!("{quote}{number}{quote}"))
        .collect();
    (names.join(",") + "\n").into_bytes()
}

/// The cells of a record that is sound by itself, with up to as many columns as a table may have: those that the reader finds in it below
/// a header of as many names.
pub fn cells_of(dialect: Dialect, record: &[u8]) -> Vec<Cell> {
    let fewest = usize::from(dialect != Dialect::Csvj);
    (fewest..=COLUMNS)
        .find_map(|columns| cells_below(&header_of(dialect, columns), dialect, record))
        .unwrap_or_default()
}

fn cells_below(header: &[u8], dialect: Dialect, record: &[u8]) -> Option<Vec<Cell>> {
    let file = [header, record].concat();
    let table = read(dialect, &file).ok()?;
    let cells = table.record(2)?.cells().map(|cell| Cell {
        kind: cell.kind(),
        content: cell.content().into_owned(),
        range: cell.start() - header.len()..cell.end() - header.len(),
    });
    Some(cells.collect())
}

#[cfg(test)]
mod tests {
    use super::*;

    #[test]
    fn the_cells_of_a_record_are_found_by_the_reader() {
        let contents = |dialect, record: &[u8]| -> Vec<Vec<u8>> {
            cells_of(dialect, record)
                .into_iter()
                .map(|cell| cell.content)
                .collect()
        };
        assert_eq!(
            contents(Dialect::CsvPlus, b"a,\"b,\"\"\",\r\n"),
            [&b"a"[..], b"b,\"", b""]
        );
        assert_eq!(contents(Dialect::CsvPlus, b"\n"), [b""]);
        assert_eq!(contents(Dialect::Csvj, b"  \n").len(), 0);
        assert_eq!(
            contents(Dialect::Csvj, b"\"x\", 2 ,\"x\"\n"),
            [&b"x"[..], b"2", b"x"]
        );
        assert_eq!(contents(Dialect::Tdif, b"\\N,\"a\"\r"), [&b""[..], b"a"]);
        assert_eq!(contents(Dialect::CsvPlus, &[b','; 63]).len(), 64);
    }
}
