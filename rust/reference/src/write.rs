//! The canonical writer.

use crate::cell::is_number;
use crate::checks::{check, Part};
use crate::content::Cell;
use crate::convert::Converted;
use crate::dialect::{Dialect, Kind};
use crate::report::{Fault, Report};
use crate::text::Output;
use crate::utf8;

/// A table for the writer: its cells record by record, as spans of the content.
#[derive(Clone, Copy, Debug)]
pub struct Table<'a> {
    /// The bytes that the spans refer to.
    pub content: &'a [u8],
    /// Where each cell's content starts.
    pub starts: &'a [usize],
    /// Where each cell's content ends.
    pub ends: &'a [usize],
    /// Each cell's kind number.
    pub kinds: &'a [u8],
    /// The number of columns.
    pub columns: usize,
    /// The number of records, the header too.
    pub records: usize,
}

/// Writes the canonical text of a table.
pub fn write(target: u32, table: Table, out: &mut [u8]) -> Converted {
    Converted::deliver(whole_text(target, table), out)
}

fn whole_text(target: u32, table: Table) -> Result<Vec<u8>, Report> {
    let target = Dialect::from_number(target).ok_or(Report::refusal(Fault::Call))?;
    let cells = sound_cells(table).ok_or(Report::refusal(Fault::NotATable))?;
    let mut output = Output::new(target);
    let mut text = Vec::new();
    for index in 0..table.records {
        let record = &cells[index * table.columns..][..table.columns];
        let part = match index {
            0 => Part::Header,
            _ => Part::Data {
                columns: table.columns,
            },
        };
        // Names are compared by the target's rule here, so 6 is reported in place of 9's clash.
        check(target, part, record)
            .and_then(|()| output.append(part, record, &mut text))
            .map_err(|refusal| refusal.at(index + 1, 0))?;
    }
    Ok(text)
}

/// All cells, if the table is one.
fn sound_cells(table: Table) -> Option<Vec<Cell>> {
    let count = table.columns.checked_mul(table.records)?;
    let lengths = [table.starts.len(), table.ends.len(), table.kinds.len()];
    if table.records == 0 || lengths != [count; 3] {
        return None;
    }
    (0..count).map(|index| sound_cell(table, index)).collect()
}

fn sound_cell(table: Table, index: usize) -> Option<Cell> {
    let kind = Kind::from_number(table.kinds[index])?;
    let content = table
        .content
        .get(table.starts[index]..table.ends[index])?
        .to_vec();
    let sound = match kind {
        Kind::Text => utf8::is_content(&content),
        Kind::Number => is_number(&content),
        Kind::True | Kind::False | Kind::Null => content.is_empty(),
    };
    sound.then_some(Cell { kind, content })
}
