//! The judgement of a record when it ends, and of the file when it ends.

use crate::content::Cell;
use crate::cursor::Stop;
use crate::dialect::{Dialect, Kind};
use crate::limits::COLUMNS;
use crate::records::{RawRecord, Records};
use crate::report::{Fault, Report};

/// What is wrong with a record as a whole.
#[derive(Clone, Copy, Debug, PartialEq, Eq)]
pub(crate) struct Refusal {
    pub(crate) fault: Fault,
    pub(crate) column: usize,
}

impl Refusal {
    pub(crate) fn at(self, record: usize, offset: usize) -> Report {
        Report {
            number: self.fault as usize,
            record,
            column: self.column,
            offset,
        }
    }
}

/// How far the records of a table have gone by.
#[derive(Clone, Copy, Debug, Default, PartialEq, Eq)]
pub(crate) struct Progress {
    /// The records so far, all sound.
    pub(crate) records: usize,
    /// The header's number of cells, once it has gone by.
    pub(crate) columns: usize,
}

/// What the end of the bytes left.
#[derive(Clone, Copy, Debug, PartialEq, Eq)]
pub(crate) enum Rest {
    /// They end between records.
    Nothing,
    /// They end inside a byte order mark, comment or record.
    Unfinished,
}

impl Progress {
    /// Checks the records one by one and passes on the sound ones, up to the first fault.
    pub(crate) fn run(
        &mut self,
        dialect: Dialect,
        records: &mut Records,
        mut take: impl FnMut(&RawRecord, &[Cell], Part) -> Result<(), Refusal>,
    ) -> Result<Rest, Report> {
        loop {
            let raw = match records.next_record() {
                Ok(Some(raw)) => raw,
                Ok(None) => return Ok(Rest::Nothing),
                Err(Stop::End) => return Ok(Rest::Unfinished),
                Err(Stop::Fault(fault, offset)) => {
                    return Err(Refusal { fault, column: 0 }.at(self.records + 1, offset));
                }
            };
            let cells = decoded(dialect, &raw);
            let part = self.next_part();
            check(dialect, part, &cells)
                .and_then(|()| take(&raw, &cells, part))
                .map_err(|refusal| refusal.at(self.records + 1, raw.start))?;
            self.records += 1;
            self.columns = cells.len();
        }
    }

    /// The judgement of a file that ends here.
    pub(crate) fn finish(&self, rest: Rest, length: usize) -> Result<(), Report> {
        let fault = match rest {
            Rest::Unfinished => Fault::Cut,
            Rest::Nothing if self.records == 0 => Fault::NoRecord,
            Rest::Nothing => return Ok(()),
        };
        Err(Refusal { fault, column: 0 }.at(self.records + 1, length))
    }

    fn next_part(&self) -> Part {
        match self.records {
            0 => Part::Header,
            _ => Part::Data {
                columns: self.columns,
            },
        }
    }
}

/// Which part of the table a record is.
#[derive(Clone, Copy, Debug, PartialEq, Eq)]
pub(crate) enum Part {
    Header,
    /// A data record, under a header with so many cells.
    Data {
        columns: usize,
    },
}

fn decoded(dialect: Dialect, record: &RawRecord) -> Vec<Cell> {
    let cells = record.cells.iter();
    cells
        .map(|cell| Cell::from_raw(dialect, cell.kind, cell.raw))
        .collect()
}

/// Faults 8 (columns), 7, 6 and 5, in this order.
pub(crate) fn check(dialect: Dialect, part: Part, cells: &[Cell]) -> Result<(), Refusal> {
    let refuse = |fault, column| Err(Refusal { fault, column });
    if cells.len() > COLUMNS {
        return refuse(Fault::Limit, 0);
    }
    match part {
        Part::Header => {
            if let Some(index) = cells.iter().position(|cell| cell.kind != Kind::Text) {
                return refuse(Fault::HeaderKind, index + 1);
            }
            if let Some(column) = repeated_name(dialect, cells) {
                return refuse(Fault::RepeatedName, column);
            }
        }
        Part::Data { columns } => {
            if cells.len() != columns {
                return refuse(Fault::CellCount, 0);
            }
        }
    }
    Ok(())
}

/// The first column whose name is that of an earlier one.
pub(crate) fn repeated_name(dialect: Dialect, names: &[Cell]) -> Option<usize> {
    let repeats = |index: &usize| {
        let same = |earlier: &Cell| dialect.same_name(&earlier.content, &names[*index].content);
        names[..*index].iter().any(same)
    };
    (0..names.len()).find(repeats).map(|index| index + 1)
}
