//! The cell decoder.

use crate::cell;
use crate::content::Cell;
use crate::cursor::{Cursor, Stop};
use crate::dialect::{Dialect, Kind};
use crate::report::{Fault, Report};

/// The decoder's answer.
#[derive(Clone, Copy, Debug, PartialEq, Eq)]
pub enum Decoded {
    /// The cell is sound and its content is in the room.
    Content {
        /// The content's length.
        length: usize,
        /// The cell's kind.
        kind: Kind,
    },
    /// The cell was refused and the room left as it was.
    Refused(Report),
}

/// Decodes the raw bytes of one cell into the room.
pub fn decode(dialect: u32, raw: &[u8], room: &mut [u8]) -> Decoded {
    let cell = match sound_cell(dialect, raw) {
        Ok(cell) => cell,
        Err(report) => return Decoded::Refused(report),
    };
    let length = cell.content.len();
    if length > room.len() {
        return Decoded::Refused(Report::refusal(Fault::Room));
    }
    room[..length].copy_from_slice(&cell.content);
    Decoded::Content {
        length,
        kind: cell.kind,
    }
}

fn sound_cell(dialect: u32, raw: &[u8]) -> Result<Cell, Report> {
    let dialect = Dialect::from_number(dialect).ok_or(Report::refusal(Fault::Call))?;
    let kind = scan_alone(dialect, raw).map_err(|stop| match stop {
        Stop::Fault(fault, offset) => refusal_at(fault, offset),
        Stop::End => refusal_at(Fault::Cut, raw.len()),
    })?;
    Ok(Cell::from_raw(dialect, kind, raw))
}

/// Passes a cell that nothing may follow.
fn scan_alone(dialect: Dialect, raw: &[u8]) -> Result<Kind, Stop> {
    let mut cursor = Cursor::unlimited(raw);
    let kind = cell::scan(dialect, &mut cursor)?;
    if !cursor.at_end() {
        return Err(cursor.fault(Fault::Form));
    }
    Ok(kind)
}

/// The decoder's offsets count from the cell's start, and it names no record.
fn refusal_at(fault: Fault, offset: usize) -> Report {
    Report {
        offset,
        ..Report::refusal(fault)
    }
}
