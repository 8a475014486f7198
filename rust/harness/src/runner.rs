//! Runs vector cases against the reference implementation, with all that a case leaves unsaid: which places of
//! a lent buffer stay as they were, which room is just enough, and the piece converter's answers
//! for each file that a case reads or converts.

use crate::ledger::{check_calls, completed_text, Answer, Call as LedgerCall, Session};
use crate::lists::{lengths, Lists, Reader, SHORT_FILE};
use crate::rooms::{Room, WholeConverter, Writer};
use crate::vectors::{Bytes, Call, Case, Fault, PieceCall, TableArguments, TableShape};
use crate::whole::convert_whole;
use reference::limits::{FILE_BYTES, PIECE_BYTES, PIECE_ROOM};
use reference::{convert, decode, read, write, Converted, Decoded, ReadAnswer, Report};
use std::fmt;
use std::thread;

/// The fewest cases that have to name each dialect.
pub const LEAST_PER_DIALECT: usize = 80;
/// The fewest `read` cases.
pub const LEAST_READ: usize = 400;
/// The fewest `decode` cases.
pub const LEAST_DECODE: usize = 100;
/// The fewest `convert` cases.
pub const LEAST_CONVERT: usize = 100;
/// The fewest `write` cases.
pub const LEAST_WRITE: usize = 80;
/// The fewest `pieces` cases.
pub const LEAST_PIECES: usize = 40;

/// Files up to this length are cut at every place.
const CUT_EVERYWHERE: usize = 200;

/// How many cases ran.
#[derive(Clone, Copy, Debug, Default)]
pub struct Tally {
    read: usize,
    decode: usize,
    convert: usize,
    write: usize,
    pieces: usize,
    /// The cases that name dialects 1, 2 and 3.
    dialects: [usize; 3],
}

impl Tally {
    fn count(&mut self, call: &Call) {
        let (counter, dialects) = match *call {
            Call::Read { dialect, .. } => (&mut self.read, [dialect; 2]),
            Call::Decode { dialect, .. } => (&mut self.decode, [dialect; 2]),
            Call::Convert { source, target, .. } => (&mut self.convert, [source, target]),
            Call::Write { target, .. } => (&mut self.write, [target; 2]),
            Call::Pieces { source, target, .. } => (&mut self.pieces, [source, target]),
        };
        *counter += 1;
        for (number, counter) in (1..).zip(&mut self.dialects) {
            *counter += usize::from(dialects.contains(&number));
        }
    }

    /// An error if there are too few cases to mean anything.
    pub fn check_minimums(&self) -> Result<(), String> {
        let mut counts = vec![
            ("read", self.read, LEAST_READ),
            ("decode", self.decode, LEAST_DECODE),
            ("convert", self.convert, LEAST_CONVERT),
            ("write", self.write, LEAST_WRITE),
            ("pieces", self.pieces, LEAST_PIECES),
        ];
        let names = ["dialect 1", "dialect 2", "dialect 3"];
        let dialects = names.into_iter().zip(self.dialects);
        counts.extend(dialects.map(|(name, count)| (name, count, LEAST_PER_DIALECT)));
        let short: Vec<String> = counts
            .iter()
            .filter(|(_, count, least)| count < least)
            .map(|(name, count, least)| format!("{name}: {count} cases, {least} are needed"))
            .collect();
        if short.is_empty() {
            Ok(())
        } else {
            Err(short.join("\n"))
        }
    }
}

impl fmt::Display for Tally {
    fn fmt(&self, formatter: &mut fmt::Formatter) -> fmt::Result {
        let [csvj, tdif, csv_plus] = self.dialects;
        write!(
            formatter,
            "{} read, {} decode, {} convert, {} write, {} pieces; \
             {csvj} name CSVJ, {tdif} TDIF, {csv_plus} CSV+",
            self.read, self.decode, self.convert, self.write, self.pieces
        )
    }
}

/// The cases are checked by two threads, every other one by each: they share nothing.
const THREADS: usize = 2;

/// Runs all cases; the error lists all differences.
pub fn run(cases: &[Case]) -> Result<Tally, String> {
    let mut tally = Tally::default();
    for case in cases {
        tally.count(&case.call);
    }
    let differences: Vec<String> = thread::scope(|scope| {
        let threads: Vec<_> = (0..THREADS)
            .map(|first| scope.spawn(move || differences(&cases[first.min(cases.len())..])))
            .collect();
        let ended = threads.into_iter().map(|thread| thread.join());
        ended
            .flat_map(|told| told.expect("checking ends"))
            .collect()
    });
    if differences.is_empty() {
        Ok(tally)
    } else {
        Err(differences.join("\n"))
    }
}

/// The differences in the first of these cases and in those that run in the same thread.
fn differences(cases: &[Case]) -> Vec<String> {
    let cases = cases.iter().step_by(THREADS);
    let told = cases.map(|case| (case, check(&case.call)));
    told.filter_map(|(case, result)| {
        let difference = result.err()?;
        Some(format!("{} ({}): {difference}", case.place, case.name))
    })
    .collect()
}

fn check(call: &Call) -> Result<(), String> {
    match call {
        Call::Read {
            dialect,
            file,
            room,
            expected,
        } => {
            let file = file.to_vec();
            check_read(read, *dialect, &file, *room, expected)?;
            check_cuts(*dialect, *dialect, &file)
        }
        Call::Decode {
            dialect,
            raw,
            room,
            expected,
        } => check_decode(*dialect, &raw.to_vec(), *room, expected),
        Call::Convert {
            source,
            target,
            file,
            room,
            expected,
        } => {
            let file = file.to_vec();
            check_convert(convert, *source, *target, &file, *room, expected)?;
            check_converted_pieces(*source, *target, &file, expected)
        }
        Call::Write {
            target,
            table,
            room,
            expected,
        } => check_write(write, *target, table, *room, expected),
        Call::Pieces {
            source,
            target,
            calls,
        } => check_piece_calls(*source, *target, calls),
    }
}

fn ensure(holds: bool, what: impl FnOnce() -> String) -> Result<(), String> {
    if holds {
        Ok(())
    } else {
        Err(what())
    }
}

fn report(fault: Fault) -> Report {
    Report {
        number: fault.number,
        record: fault.record,
        column: fault.column,
        offset: fault.offset,
    }
}

const ROOM: Report = Report {
    number: 10,
    ..Report::ACCEPTED
};

/// Reads a case's file with a reader; the answer and the lists have to be the expected ones.
pub fn check_read(
    reader: Reader,
    dialect: u32,
    file: &[u8],
    room: Option<usize>,
    expected: &Result<TableShape, Fault>,
) -> Result<(), String> {
    match expected {
        Ok(shape) => check_accepted_read(reader, dialect, file, room, shape),
        Err(fault) if fault.number == 10 => {
            let room = room.ok_or("fault 10 needs a room")?;
            check_refused_read(reader, dialect, file, room, ROOM)?;
            let (_, answer) = Lists::read(reader, dialect, file, [file.len() + 1; 3]);
            ensure(answer.report.is_accepted() && answer.cells > room, || {
                format!("10 is wrong, as the answer with enough room is {answer:?}")
            })
        }
        Err(fault) => {
            let room = room.unwrap_or(0);
            check_refused_read(reader, dialect, file, room, report(*fault))
        }
    }
}

fn check_accepted_read(
    reader: Reader,
    dialect: u32,
    file: &[u8],
    room: Option<usize>,
    shape: &TableShape,
) -> Result<(), String> {
    let count = shape.columns * (shape.records + 1);
    let expected = ReadAnswer {
        report: Report::ACCEPTED,
        columns: shape.columns,
        records: shape.records,
        cells: count,
    };
    for room in [Some(count), room].into_iter().flatten() {
        for lengths in lengths(room, file) {
            let (lists, answer) = Lists::read(reader, dialect, file, lengths);
            ensure(answer == expected, || {
                format!("read with room {room}: {answer:?}, expected {expected:?}")
            })?;
            let cells = lists.cells(count);
            ensure(
                shape.cells.as_ref().is_none_or(|listed| *listed == cells),
                || format!("read {cells:?}, expected {:?}", shape.cells),
            )?;
            ensure(lists.untouched_from(count), || {
                "read wrote past the count".to_string()
            })?;
        }
    }
    match count.checked_sub(1) {
        Some(too_short) => check_refused_read(reader, dialect, file, too_short, ROOM),
        None => Ok(()),
    }
}

fn check_refused_read(
    reader: Reader,
    dialect: u32,
    file: &[u8],
    room: usize,
    expected: Report,
) -> Result<(), String> {
    let expected = ReadAnswer {
        report: expected,
        columns: 0,
        records: 0,
        cells: 0,
    };
    for lengths in lengths(room, file) {
        let (lists, answer) = Lists::read(reader, dialect, file, lengths);
        ensure(answer == expected, || {
            format!("read with room {room}: {answer:?}, expected {expected:?}")
        })?;
        ensure(lists.untouched_from(0), || {
            "read wrote although it refused".to_string()
        })?;
    }
    Ok(())
}

fn check_decode(
    dialect: u32,
    raw: &[u8],
    room: Option<usize>,
    expected: &Result<(u8, Bytes), Fault>,
) -> Result<(), String> {
    let mut text = Vec::new();
    if let Ok((kind, content)) = expected {
        text = content.to_vec();
        let answer = decode(dialect, raw, &mut vec![0; text.len()]);
        let found = match answer {
            Decoded::Content { kind, .. } => kind.number(),
            Decoded::Refused(_) => 0,
        };
        ensure(found == *kind, || {
            format!("decoded as {answer:?}, expected kind {kind}")
        })?;
    }
    let call = |out: &mut [u8]| match decode(dialect, raw, out) {
        Decoded::Content { length, .. } => Converted {
            report: Report::ACCEPTED,
            written: length,
        },
        Decoded::Refused(report) => Converted { report, written: 0 },
    };
    check_text(call, room, expected.as_ref().err(), &text)
}

/// Converts a case's file with a converter; the answer and the room have to be the expected ones.
pub fn check_convert(
    converter: WholeConverter,
    source: u32,
    target: u32,
    file: &[u8],
    room: Option<usize>,
    expected: &Result<Bytes, Fault>,
) -> Result<(), String> {
    let text = expected.as_ref().map_or_else(|_| Vec::new(), Bytes::to_vec);
    let call = |out: &mut [u8]| converter(source, target, file, out);
    check_text(call, room, expected.as_ref().err(), &text)
}

/// Passes a case's file to the piece converter, which has to return what the case expects of the whole file.
fn check_converted_pieces(
    source: u32,
    target: u32,
    file: &[u8],
    expected: &Result<Bytes, Fault>,
) -> Result<(), String> {
    let (report, text) = match expected {
        Ok(text) => (Report::ACCEPTED, text.to_vec()),
        Err(Fault { number: 10, .. }) => {
            let text = convert_whole(source, target, file);
            (Report::ACCEPTED, text.map_err(|report| report.sentence())?)
        }
        Err(fault) => {
            let before = file.get(..fault.offset).unwrap_or(file);
            (report(*fault), completed_text(source, target, before))
        }
    };
    check_pieces_of(source, target, file, report, &text)
}

/// Writes a case's table with a writer; the answer and the room have to be the expected ones.
pub fn check_write(
    writer: Writer,
    target: u32,
    table: &TableArguments,
    room: Option<usize>,
    expected: &Result<Bytes, Fault>,
) -> Result<(), String> {
    let text = expected.as_ref().map_or_else(|_| Vec::new(), Bytes::to_vec);
    let lists = table.to_lists();
    let call = |out: &mut [u8]| writer(target, lists.table(), out);
    check_text(call, room, expected.as_ref().err(), &text)
}

/// Checks a call that fills one buffer with the text, if there is no fault.
fn check_text(
    call: impl Fn(&mut [u8]) -> Converted,
    room: Option<usize>,
    fault: Option<&Fault>,
    text: &[u8],
) -> Result<(), String> {
    match fault {
        None => {
            check_output(&call, text.len() + 7, Report::ACCEPTED, text)?;
            if text.len() <= SHORT_FILE {
                check_output(&call, text.len(), Report::ACCEPTED, text)?;
            }
            if let Some(room) = room {
                check_output(&call, room, Report::ACCEPTED, text)?;
            }
            match text.len().checked_sub(1) {
                Some(too_short) => check_output(&call, too_short, ROOM, &[]),
                None => Ok(()),
            }
        }
        Some(Fault { number: 10, .. }) => {
            let room = room.ok_or("fault 10 needs a room")?;
            check_output(&call, room, ROOM, &[])?;
            let answer = call(&mut vec![0; FILE_BYTES]);
            ensure(answer.report.is_accepted() && answer.written > room, || {
                format!("10 is wrong, as the answer with enough room is {answer:?}")
            })
        }
        Some(fault) => {
            check_output(&call, 0, report(*fault), &[])?;
            check_output(&call, room.unwrap_or(64), report(*fault), &[])
        }
    }
}

/// Makes the call with this room: it has to write the text and nothing else.
fn check_output(
    call: &impl Fn(&mut [u8]) -> Converted,
    room: usize,
    expected: Report,
    text: &[u8],
) -> Result<(), String> {
    let (lent, answer) = Room::lend(room, call);
    let expected = Converted {
        report: expected,
        written: text.len(),
    };
    ensure(answer == expected, || {
        format!("with room {room}: {answer:?}, expected {expected:?}")
    })?;
    let written = lent.text(text.len());
    ensure(written == text, || {
        format!("wrote {}, expected {}", show(written), show(text))
    })?;
    ensure(lent.untouched_from(text.len()), || {
        "wrote beside its text".to_string()
    })
}

/// Bytes as a person reads them, shortened.
fn show(bytes: &[u8]) -> String {
    const MOST: usize = 400;
    let start = &bytes[..bytes.len().min(MOST)];
    let more = if bytes.len() > MOST { "..." } else { "" };
    format!("'{}'{more} ({} bytes)", start.escape_ascii(), bytes.len())
}

/// Hands a file that is not too long to the piece converter in two pieces, cut at every place.
fn check_cuts(source: u32, target: u32, file: &[u8]) -> Result<(), String> {
    if file.len() > CUT_EVERYWHERE {
        return Ok(());
    }
    for cut in 0..=file.len() {
        let (first, second) = file.split_at(cut);
        let calls = [
            LedgerCall::Piece(first, PIECE_ROOM),
            LedgerCall::Piece(second, PIECE_ROOM),
            LedgerCall::End(PIECE_ROOM),
        ];
        check_calls(source, target, &calls)?;
    }
    Ok(())
}

/// Hands a file to the piece converter in several ways; the joined text has to be this one.
fn check_pieces_of(
    source: u32,
    target: u32,
    file: &[u8],
    expected: Report,
    text: &[u8],
) -> Result<(), String> {
    check_cuts(source, target, file)?;
    let sizes: &[usize] = match file.len() {
        0..=SHORT_FILE => &[1, 7, 1_000, PIECE_BYTES],
        _ => &[PIECE_BYTES],
    };
    for &size in sizes {
        let joined = converted_by(source, target, file, size)?;
        ensure(joined.report == expected && joined.text == text, || {
            format!(
                "pieces of {size} bytes gave {:?} and {}, expected {expected:?} and {}",
                joined.report,
                show(&joined.text),
                show(text)
            )
        })?;
    }
    Ok(())
}

/// The report and the joined text of a file handed over in pieces of this size.
fn converted_by(source: u32, target: u32, file: &[u8], size: usize) -> Result<Answer, String> {
    let mut session = Session::new(source, target);
    let mut text = Vec::new();
    let pieces = file
        .chunks(size)
        .map(|piece| LedgerCall::Piece(piece, PIECE_ROOM));
    for call in pieces.chain([LedgerCall::End(PIECE_ROOM)]) {
        let answer = session.make(&call)?;
        text.extend(answer.text);
        let is_end = matches!(call, LedgerCall::End(_));
        if is_end || !answer.report.is_accepted() {
            return Ok(Answer {
                report: answer.report,
                text,
            });
        }
    }
    Err("no end call was made".to_string())
}

/// Makes the calls of a case; each answer has to be the expected one.
pub fn check_pieces(
    calls: &[PieceCall],
    mut make: impl FnMut(&LedgerCall) -> Result<Answer, String>,
) -> Result<(), String> {
    with_calls(calls, |made| {
        for (index, (call, expected)) in made.iter().zip(calls).enumerate() {
            let answer = make(call)?;
            let report = expected.fault.map_or(Report::ACCEPTED, report);
            let text = expected.text.to_vec();
            ensure(answer.report == report && answer.text == text, || {
                format!(
                    "call {}: {:?} and {}, expected {report:?} and {}",
                    index + 1,
                    answer.report,
                    show(&answer.text),
                    show(&text)
                )
            })?;
        }
        Ok(())
    })
}

/// The calls of a case as the ledger takes them.
fn with_calls<T>(calls: &[PieceCall], take: impl FnOnce(&[LedgerCall]) -> T) -> T {
    let pieces: Vec<Option<Vec<u8>>> = calls
        .iter()
        .map(|call| call.piece.as_ref().map(Bytes::to_vec))
        .collect();
    let made: Vec<LedgerCall> = pieces
        .iter()
        .zip(calls)
        .map(|(piece, call)| {
            let room = call.room.unwrap_or(PIECE_ROOM);
            match piece {
                Some(piece) => LedgerCall::Piece(piece, room),
                None => LedgerCall::End(room),
            }
        })
        .collect();
    take(&made)
}

fn check_piece_calls(source: u32, target: u32, calls: &[PieceCall]) -> Result<(), String> {
    let mut session = Session::new(source, target);
    check_pieces(calls, |call| session.make(call))?;
    let pieces = calls.iter().filter_map(|call| call.piece.as_ref());
    if pieces.map(Bytes::len).sum::<usize>() <= SHORT_FILE {
        with_calls(calls, |made| check_calls(source, target, made))?;
    }
    Ok(())
}
