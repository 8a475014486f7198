//! Random cases with the reference implementation's answers, so that the prover can compare the definitions with it.

use crate::generate::{mutate, sample};
use crate::ledger::{self, Session};
use crate::rng::Rng;
use crate::vectors::{Bytes, Call, Case, Fault, PieceCall, TableShape};
use crate::whole::{convert_whole, decode_whole, read_whole};
use crate::DIALECTS;
use reference::limits::PIECE_ROOM;
use reference::{Dialect, Report};

/// Longer files say little more and take the prover long.
const LONGEST: usize = 400;

/// As many random cases as required: files to read, to convert whole and in pieces, and raw cells to decode.
pub fn cases(seed: u64, count: usize) -> Result<Vec<Case>, String> {
    let mut rng = Rng::new(seed);
    (0..count)
        .map(|index| {
            let (source, dialect) = rng.pick(&DIALECTS);
            let (target, _) = rng.pick(&DIALECTS);
            let file = short_file(&mut rng, dialect);
            let call = match rng.below(4) {
                0 => read_case(source, &file),
                1 => convert_case(source, target, &file),
                2 => pieces_case(&mut rng, source, target, &file)?,
                _ => decode_case(&mut rng, source, &file),
            };
            Ok(Case {
                name: format!("random {}", index + 1),
                place: format!("seed {seed}"),
                call,
            })
        })
        .collect()
}

fn short_file(rng: &mut Rng, dialect: Dialect) -> Vec<u8> {
    loop {
        let file = sample(rng, dialect).file;
        if file.len() <= LONGEST {
            return file;
        }
    }
}

fn fault(report: Report) -> Fault {
    Fault {
        number: report.number,
        record: report.record,
        column: report.column,
        offset: report.offset,
    }
}

fn read_case(dialect: u32, file: &[u8]) -> Call {
    let shape = |table: crate::whole::ReadTable| TableShape {
        columns: table.columns,
        records: table.records,
        cells: Some(
            table
                .starts
                .iter()
                .zip(&table.ends)
                .zip(&table.kinds)
                .map(|((start, end), kind)| (*start, *end, *kind))
                .collect(),
        ),
    };
    Call::Read {
        dialect,
        file: Bytes::from(file),
        room: None,
        expected: read_whole(dialect, file).map(shape).map_err(fault),
    }
}

fn convert_case(source: u32, target: u32, file: &[u8]) -> Call {
    let expected = convert_whole(source, target, file);
    Call::Convert {
        source,
        target,
        file: Bytes::from(file),
        room: None,
        expected: expected.map(|text| Bytes::from(&text[..])).map_err(fault),
    }
}

/// Raw bytes of a cell, some of them changed, or any part of a file.
fn decode_case(rng: &mut Rng, dialect: u32, file: &[u8]) -> Call {
    let mut raw = match read_whole(dialect, file) {
        Ok(table) if !table.starts.is_empty() => {
            let cell = rng.below(table.starts.len());
            file[table.starts[cell]..table.ends[cell]].to_vec()
        }
        _ => file[rng.below(file.len() + 1)..].to_vec(),
    };
    if rng.percent(50) {
        mutate(rng, &mut raw);
    }
    let decoded = decode_whole(dialect, &raw);
    Call::Decode {
        dialect,
        raw: Bytes::from(&raw[..]),
        room: None,
        expected: decoded
            .map(|cell| (cell.kind, Bytes::from(&cell.content[..])))
            .map_err(fault),
    }
}

/// The file in a few pieces, with end calls, repeated calls and buffers that are too short among them.
fn pieces_case(rng: &mut Rng, source: u32, target: u32, file: &[u8]) -> Result<Call, String> {
    let mut session = Session::new(source, target);
    let mut calls = Vec::new();
    let mut rest = file;
    loop {
        let room = if rng.percent(10) {
            PIECE_ROOM - 1
        } else {
            PIECE_ROOM
        };
        let ends = rest.is_empty() || rng.percent(5);
        let piece = &rest[..rng.between(0, rest.len())];
        let call = if ends {
            ledger::Call::End(room)
        } else {
            ledger::Call::Piece(piece, room)
        };
        let answer = session.make(&call)?;
        let refused = answer.report.number != 0;
        if !ends && answer.report.number != 10 {
            rest = &rest[piece.len()..];
        }
        calls.push(PieceCall {
            piece: (!ends).then(|| Bytes::from(piece)),
            room: Some(room),
            fault: refused.then(|| fault(answer.report)),
            text: Bytes::from(&answer.text[..]),
        });
        if ends && rng.percent(70) {
            break;
        }
    }
    Ok(Call::Pieces {
        source,
        target,
        calls,
    })
}
