//! The reader. Each comparison takes the reader that is compared with the reference implementation, so that wrong ones can be tried too.

use super::{hex, report};
use crate::counts::Counts;
use crate::generate::sample;
use crate::lists::{lengths, Lists, Reader};
use crate::rng::Rng;
use crate::whole::read_whole;
use crate::{DIALECTS, UNKNOWN};
use reference::limits::COLUMNS;
use reference::ReadAnswer;

/// The proved reader, answering in the reference's terms.
pub fn proved_reader(
    dialect: u32,
    file: &[u8],
    starts: &mut [usize],
    ends: &mut [usize],
    kinds: &mut [u8],
) -> ReadAnswer {
    let answer = hemakuliwi::raw::read(dialect, file, starts, ends, kinds);
    ReadAnswer {
        report: report(answer.report),
        columns: answer.columns,
        records: answer.records,
        cells: answer.cells,
    }
}

/// Reads a file with both and compares the answers and the whole lists.
pub fn read_agrees(
    reader: Reader,
    dialect: u32,
    file: &[u8],
    lengths: [usize; 3],
) -> Result<ReadAnswer, String> {
    let (ours, answer) = Lists::read(reader, dialect, file, lengths);
    let (theirs, wanted) = Lists::read(reference::read, dialect, file, lengths);
    if answer != wanted || ours != theirs {
        return Err(format!(
            "read {dialect} {} with lists of {lengths:?} places\nanswered      {answer:?}\nthe reference {wanted:?}\n\
             left {:?}",
            hex(file),
            ours.differences(&theirs)
        ));
    }
    Ok(answer)
}

/// Reads a file with both: with places to spare, with just as many as it has cells, and with one too few.
pub fn read_in_rooms(reader: Reader, dialect: u32, file: &[u8]) -> Result<ReadAnswer, String> {
    let cells = read_whole(dialect, file).map_or(0, |table| table.starts.len());
    for shortest in cells.saturating_sub(1)..=cells {
        for lengths in lengths(shortest, file) {
            read_agrees(reader, dialect, file, lengths)?;
        }
    }
    read_agrees(reader, dialect, file, [cells + COLUMNS; 3])
}

/// Compares the readers on this many random files, some of them read by another dialect or by none.
///
/// A report of an unknown dialect is counted for the dialect that the file was made in.
pub fn read_random(reader: Reader, seed: u64, count: usize) -> Result<Counts, String> {
    let mut rng = Rng::new(seed);
    let mut counts = Counts::default();
    for _ in 0..count {
        let (made_in, dialect) = rng.pick(&DIALECTS);
        let file = sample(&mut rng, dialect).file;
        let (asked, counted) = match rng.below(100) {
            0..=1 => (rng.pick(&UNKNOWN), made_in),
            2..=6 => rng.pick(&[(1, 1), (2, 2), (3, 3)]),
            _ => (made_in, made_in),
        };
        // A cell takes a byte or has a delimiter or ending after it, the last one aside.
        let enough = [file.len() + 1; 3];
        let answer = read_agrees(reader, asked, &file, enough)?;
        counts.add(counted, answer.report.number);
        let lengths = random_lengths(&mut rng, answer.cells, &file);
        let answer = read_agrees(reader, asked, &file, lengths)?;
        counts.add(counted, answer.report.number);
    }
    Ok(counts)
}

/// Lengths of the lists of which the shortest is about the number of cells, or any.
fn random_lengths(rng: &mut Rng, cells: usize, file: &[u8]) -> [usize; 3] {
    let shortest = match rng.below(4) {
        0 => cells.saturating_sub(1),
        1 => cells,
        2 => cells + 1,
        _ => rng.between(0, file.len() + 1),
    };
    let mut lengths = [0; 3].map(|_: usize| shortest + rng.pick(&[0, 1, 9]));
    lengths[rng.below(3)] = shortest;
    lengths
}
