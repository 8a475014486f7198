//! The whole calls, each given all the room it can need.

use reference::limits::FILE_BYTES;
use reference::{convert, decode, read, write, Decoded, Report, Table};

/// A cell's kind number and content.
#[derive(Clone, Debug, PartialEq, Eq)]
pub struct Cell {
    /// The kind number.
    pub kind: u8,
    /// The content.
    pub content: Vec<u8>,
}

/// What the reader returns for an accepted file.
#[derive(Clone, Debug, PartialEq, Eq)]
pub struct ReadTable {
    /// The number of columns.
    pub columns: usize,
    /// The number of data records.
    pub records: usize,
    /// Where each cell starts.
    pub starts: Vec<usize>,
    /// Where each cell ends.
    pub ends: Vec<usize>,
    /// Each cell's kind number.
    pub kinds: Vec<u8>,
}

/// Reads a file.
pub fn read_whole(dialect: u32, file: &[u8]) -> Result<ReadTable, Report> {
    // A cell takes a byte or has a delimiter or ending after it, the last one aside.
    let room = file.len() + 1;
    let (mut starts, mut ends, mut kinds) = (vec![0; room], vec![0; room], vec![0; room]);
    let answer = read(dialect, file, &mut starts, &mut ends, &mut kinds);
    if !answer.report.is_accepted() {
        return Err(answer.report);
    }
    starts.truncate(answer.cells);
    ends.truncate(answer.cells);
    kinds.truncate(answer.cells);
    Ok(ReadTable {
        columns: answer.columns,
        records: answer.records,
        starts,
        ends,
        kinds,
    })
}

/// Decodes a cell.
pub fn decode_whole(dialect: u32, raw: &[u8]) -> Result<Cell, Report> {
    let mut room = vec![0; raw.len()];
    match decode(dialect, raw, &mut room) {
        Decoded::Refused(report) => Err(report),
        Decoded::Content { length, kind } => {
            room.truncate(length);
            Ok(Cell {
                kind: kind.number(),
                content: room,
            })
        }
    }
}

/// Reads a file and decodes each of its cells.
pub fn cells_of(dialect: u32, file: &[u8]) -> Result<(ReadTable, Vec<Cell>), Report> {
    let table = read_whole(dialect, file)?;
    let stretches = table.starts.iter().zip(&table.ends);
    let cells = stretches
        .map(|(&start, &end)| decode_whole(dialect, &file[start..end]))
        .collect::<Result<_, _>>()?;
    Ok((table, cells))
}

/// The writer's arguments: a table, or what is to be refused as none.
#[derive(Clone, Debug)]
pub struct TableLists {
    /// The bytes that the spans refer to.
    pub content: Vec<u8>,
    /// Where each cell's content starts.
    pub starts: Vec<usize>,
    /// Where each cell's content ends.
    pub ends: Vec<usize>,
    /// Each cell's kind number.
    pub kinds: Vec<u8>,
    /// The number of columns.
    pub columns: usize,
    /// The number of records, the header too.
    pub records: usize,
}

impl TableLists {
    /// Cells, given record by record, with one content directly after the other.
    pub fn of_cells(columns: usize, records: usize, cells: &[Cell]) -> Self {
        let mut lists = Self {
            content: Vec::new(),
            starts: Vec::new(),
            ends: Vec::new(),
            kinds: cells.iter().map(|cell| cell.kind).collect(),
            columns,
            records,
        };
        for cell in cells {
            lists.starts.push(lists.content.len());
            lists.content.extend(&cell.content);
            lists.ends.push(lists.content.len());
        }
        lists
    }

    /// As the writer takes it.
    pub fn table(&self) -> Table<'_> {
        Table {
            content: &self.content,
            starts: &self.starts,
            ends: &self.ends,
            kinds: &self.kinds,
            columns: self.columns,
            records: self.records,
        }
    }

    /// Room that is enough for its text, if it has one: 6 for each byte of a cell's content, 6 for each cell, 1 for each record.
    pub fn room(&self) -> usize {
        let lengths = self.starts.iter().zip(&self.ends);
        let room = lengths
            .map(|(start, end)| end.saturating_sub(*start).saturating_add(1))
            .fold(0, usize::saturating_add)
            .saturating_mul(6)
            .saturating_add(self.records);
        FILE_BYTES.min(room)
    }
}

/// Room that is enough for what a file of this length is converted to: a written record has at most 6 times (its counted bytes + 1), and
/// all records but the last have an ending, which is not counted (§15.10).
pub fn convert_room(file_length: usize) -> usize {
    FILE_BYTES.min(6 * (file_length + 1))
}

/// Converts a file.
pub fn convert_whole(source: u32, target: u32, file: &[u8]) -> Result<Vec<u8>, Report> {
    let mut out = vec![0; convert_room(file.len())];
    let answer = convert(source, target, file, &mut out);
    out.truncate(answer.written);
    accepted(answer.report, out)
}

/// Writes a table.
pub fn write_whole(target: u32, lists: &TableLists) -> Result<Vec<u8>, Report> {
    let mut out = vec![0; lists.room()];
    let answer = write(target, lists.table(), &mut out);
    out.truncate(answer.written);
    accepted(answer.report, out)
}

fn accepted<T>(report: Report, value: T) -> Result<T, Report> {
    assert_ne!(report.number, 10, "the room was enough");
    if report.is_accepted() {
        Ok(value)
    } else {
        Err(report)
    }
}
