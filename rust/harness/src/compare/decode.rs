//! The decoder.

use super::{agree, hex};
use crate::counts::Counts;
use crate::generate::{mutate, sample};
use crate::rng::Rng;
use crate::whole::read_whole;
use crate::{DIALECTS, UNKNOWN};
use hemakuliwi::raw::{decode, DecodeAnswer};
use reference::{Decoded, Report};

fn refused(report: Report) -> DecodeAnswer {
    DecodeAnswer {
        report: hemakuliwi::raw::Report {
            number: report.number,
            record_number: report.record,
            column: report.column,
            offset: report.offset,
        },
        length: 0,
        kind: 0,
    }
}

/// The reference's answer in the proved call's terms.
fn expected(dialect: u32, raw: &[u8], room: &mut [u8]) -> DecodeAnswer {
    match reference::decode(dialect, raw, room) {
        Decoded::Refused(report) => refused(report),
        Decoded::Content { length, kind } => DecodeAnswer {
            length,
            kind: kind.number().into(),
            ..refused(Report::ACCEPTED)
        },
    }
}

/// Decodes a raw cell with both and compares the answers and the whole room.
pub fn decode_agrees(dialect: u32, raw: &[u8], room: usize) -> Result<DecodeAnswer, String> {
    agree(
        || format!("decode {dialect} {}", hex(raw)),
        room,
        |room| decode(dialect, raw, room),
        |room| expected(dialect, raw, room),
    )
}

/// Compares the decoders on raw cells of random files, some of them changed, and on parts of files.
///
/// A report of an unknown dialect is counted for the dialect that the file was made in.
pub fn decode_random(seed: u64, count: usize) -> Result<Counts, String> {
    let mut rng = Rng::new(seed);
    let mut counts = Counts::default();
    let mut done = 0;
    while done < count {
        let (number, dialect) = rng.pick(&DIALECTS);
        let file = sample(&mut rng, dialect).file;
        for mut raw in raw_cells(&mut rng, number, &file) {
            if rng.percent(40) {
                mutate(&mut rng, &mut raw);
            }
            let dialect = if rng.percent(2) {
                rng.pick(&UNKNOWN)
            } else {
                number
            };
            let room = rng.between(0, raw.len() + 2);
            for room in [room, raw.len() + 1] {
                counts.add(number, decode_agrees(dialect, &raw, room)?.report.number);
                done += 1;
            }
        }
    }
    Ok(counts)
}

fn raw_cells(rng: &mut Rng, dialect: u32, file: &[u8]) -> Vec<Vec<u8>> {
    match read_whole(dialect, file) {
        Ok(table) => {
            let stretches = table.starts.iter().zip(&table.ends);
            stretches
                .map(|(start, end)| file[*start..*end].to_vec())
                .collect()
        }
        Err(_) => vec![file[rng.below(file.len() + 1)..].to_vec()],
    }
}
