//! The whole-file reader.

use crate::checks::Progress;
use crate::dialect::Dialect;
use crate::records::Records;
use crate::report::{Fault, Report};

/// The reader's answer; the counts are 0 on refusal.
#[derive(Clone, Copy, Debug, PartialEq, Eq)]
pub struct ReadAnswer {
    /// Acceptance, or the first fault.
    pub report: Report,
    /// The number of columns.
    pub columns: usize,
    /// The number of data records.
    pub records: usize,
    /// The number of cells, the header's too.
    pub cells: usize,
}

/// The span and kind of a cell.
struct Span {
    start: usize,
    end: usize,
    kind: u8,
}

/// Reads a file and lists where each cell starts and ends and what kind it is.
pub fn read(
    dialect: u32,
    file: &[u8],
    starts: &mut [usize],
    ends: &mut [usize],
    kinds: &mut [u8],
) -> ReadAnswer {
    let (progress, spans) = match spans(dialect, file) {
        Ok(table) => table,
        Err(report) => return refusal(report),
    };
    let room = starts.len().min(ends.len()).min(kinds.len());
    if spans.len() > room {
        return refusal(Report::refusal(Fault::Room));
    }
    for (index, span) in spans.iter().enumerate() {
        starts[index] = span.start;
        ends[index] = span.end;
        kinds[index] = span.kind;
    }
    ReadAnswer {
        report: Report::ACCEPTED,
        columns: progress.columns,
        records: progress.records - 1,
        cells: spans.len(),
    }
}

fn refusal(report: Report) -> ReadAnswer {
    ReadAnswer {
        report,
        columns: 0,
        records: 0,
        cells: 0,
    }
}

fn spans(dialect: u32, file: &[u8]) -> Result<(Progress, Vec<Span>), Report> {
    let dialect = Dialect::from_number(dialect).ok_or(Report::refusal(Fault::Call))?;
    let mut progress = Progress::default();
    let mut spans = Vec::new();
    let mut records = Records::of_file(dialect, file);
    let rest = progress.run(dialect, &mut records, |raw, _, _| {
        spans.extend(raw.cells.iter().map(|cell| Span {
            start: cell.start,
            end: cell.start + cell.raw.len(),
            kind: cell.kind.number(),
        }));
        Ok(())
    })?;
    progress.finish(rest, file.len())?;
    Ok((progress, spans))
}
