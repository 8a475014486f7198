//! Random files: the library's types say what its lent calls say.

use crate::ends::{Sink, Source};
use crate::made::{file, Rng};
use hemakuliwi::{
    convert, convert_stream, decode, raw, read, write, Cell, Converter, ConvertingReader,
    ConvertingWriter, Dialect, Fault, Refusal, StreamError, Value,
};
use std::borrow::Cow;
use std::collections::BTreeSet;
use std::io::{Read, Write};

const FILES: usize = 6_000;

/// The text that a file is converted to, up to its fault if it has one, and what is reported.
type Outcome = (Vec<u8>, Result<(), Refusal>);

/// What a report says in the library's types.
fn told(report: raw::Report) -> Result<(), Refusal> {
    match Fault::from_number(report.number) {
        None => Ok(()),
        Some(fault) => Err(Refusal {
            fault,
            record: report.record_number,
            column: report.column,
            offset: report.offset,
        }),
    }
}

/// What the lent calls make of a file in pieces.
fn lent_pieces(from: Dialect, to: Dialect, file: &[u8]) -> Outcome {
    let mut converter = raw::Converter::new(from.number(), to.number());
    let mut room = vec![0; raw::PIECE_ROOM];
    let mut text = Vec::new();
    for piece in file.chunks(raw::PIECE_BYTES) {
        let answer = converter.piece(piece, &mut room);
        text.extend_from_slice(&room[..answer.length]);
        if answer.report.number != raw::ACCEPTED {
            return (text, told(answer.report));
        }
    }
    let answer = converter.end(&mut room);
    text.extend_from_slice(&room[..answer.length]);
    (text, told(answer.report))
}

#[test]
fn tables_are_those_of_the_lent_reader_and_decoder() {
    let mut rng = Rng::new(1);
    let (mut accepted, mut faults) = (0, BTreeSet::new());
    let (mut borrowed, mut owned) = (0, 0);
    for turn in 0..FILES {
        let dialect = Dialect::ALL[turn % 3];
        let file = file(&mut rng, dialect);
        let (mut starts, mut ends, mut kinds) = ([0; 99], [0; 99], [0; 99]);
        let answer = raw::read(dialect.number(), &file, &mut starts, &mut ends, &mut kinds);
        let table = match (read(dialect, &file), told(answer.report)) {
            (Ok(table), Ok(())) => table,
            (Err(refusal), Err(expected)) => {
                assert_eq!(refusal, expected, "{}", file.escape_ascii());
                faults.insert(refusal.fault);
                continue;
            }
            (other, expected) => panic!("{other:?} {expected:?} {}", file.escape_ascii()),
        };
        accepted += 1;
        assert_eq!((table.dialect(), table.file()), (dialect, &file[..]));
        assert_eq!(
            (table.columns(), table.rows().len()),
            (answer.columns, answer.records)
        );
        let cells: Vec<_> = table.records().flatten().collect();
        assert_eq!(cells.len(), answer.cells);
        for (cell, place) in cells.iter().zip(0..) {
            assert_eq!(cell.range(), starts[place]..ends[place]);
            assert_eq!(cell.kind().number(), kinds[place]);
            match decoded_content(dialect, &file, cell) {
                Cow::Borrowed(_) => borrowed += 1,
                Cow::Owned(_) => owned += 1,
            }
        }
    }
    assert!(
        accepted > FILES / 4 && FILES - accepted > FILES / 4,
        "{accepted} accepted"
    );
    assert!(
        borrowed > 1_000 && owned > 1_000,
        "{borrowed} borrowed, {owned} owned"
    );
    assert!(faults.into_iter().eq(Fault::ALL[..7].iter().copied()));
}

/// The content of a cell, which is that of the lent decoder.
fn decoded_content<'f>(dialect: Dialect, file: &[u8], cell: &Cell<'f>) -> Cow<'f, [u8]> {
    assert_eq!(cell.raw(), &file[cell.range()]);
    let mut room = [0; raw::RECORD_BYTES];
    let answer = raw::decode(dialect.number(), cell.raw(), &mut room);
    assert_eq!(answer.kind, cell.kind().number().into());
    let content = cell.content();
    assert_eq!(*content, room[..answer.length]);
    content
}

#[test]
fn texts_are_those_of_the_lent_converters_however_the_file_comes() {
    let mut rng = Rng::new(2);
    let (mut accepted, mut faults) = (0, BTreeSet::new());
    for turn in 0..FILES {
        let (from, to) = (Dialect::ALL[turn % 3], Dialect::ALL[turn / 3 % 3]);
        let file = file(&mut rng, from);
        let (text, report) = lent_pieces(from, to, &file);

        let mut room = vec![0; raw::convert_room(file.len())];
        let answer = raw::convert(from.number(), to.number(), &file, &mut room);
        let whole = told(answer.report).map(|()| room[..answer.length].to_vec());
        assert_eq!(convert(from, to, &file), whole);
        assert_eq!(whole, report.map(|()| text.clone()));

        let pieces = in_pieces(&mut rng, from, to, &file);
        assert_eq!(pieces, (text.clone(), report), "{}", file.escape_ascii());
        let streamed = streamed(&mut rng, from, to, &file);
        assert_eq!(streamed, (text.clone(), report), "{}", file.escape_ascii());
        let written = written(&mut rng, from, to, &file);
        assert_eq!(written, (text.clone(), report), "{}", file.escape_ascii());
        let read = read_out(&mut rng, from, to, &file);
        assert_eq!(read, (text, report), "{}", file.escape_ascii());

        match report {
            Ok(()) => accepted += 1,
            Err(refusal) => drop(faults.insert(refusal.fault)),
        }
    }
    assert!(
        accepted > FILES / 5 && FILES - accepted > FILES / 4,
        "{accepted} accepted"
    );
    assert!(
        faults.len() == 8 && faults.contains(&Fault::NotCarried),
        "{faults:?}"
    );
}

fn in_pieces(rng: &mut Rng, from: Dialect, to: Dialect, file: &[u8]) -> Outcome {
    let mut converter = Converter::new(from, to);
    let mut text = Vec::new();
    let mut rest = file;
    while !rest.is_empty() {
        let (piece, after) = rest.split_at(rng.below(rest.len() + 1));
        if let Err(refusal) = converter.piece(piece, &mut text) {
            assert_eq!(converter.records_completed(), refusal.record - 1);
            assert_eq!(converter.bytes_taken(), refusal.offset);
            return (text, Err(refusal));
        }
        rest = after;
        assert_eq!(converter.bytes_taken(), file.len() - rest.len());
    }
    let report = converter.end(&mut text);
    if let Ok(table) = read(from, file) {
        if report.is_ok() {
            assert_eq!(converter.records_completed(), table.records().len());
        }
        let names: Vec<_> = table.header().cells().map(|cell| cell.content()).collect();
        assert!(converter
            .columns()
            .is_none_or(|columns| columns == names.len()));
        assert!(converter.columns().is_none() || converter.names().eq(names));
    }
    (text, report)
}

fn streamed(rng: &mut Rng, from: Dialect, to: Dialect, file: &[u8]) -> Outcome {
    let source = Source::new(file, 1 + rng.below(9)).interrupted();
    let mut sink = Sink::new(1 + rng.below(9));
    let outcome = convert_stream(from, to, source, &mut sink);
    assert_eq!(sink.flushed, sink.taken.len());
    let report = match outcome {
        Ok(done) => {
            assert_eq!(
                (done.bytes_read, done.bytes_written),
                (file.len(), sink.taken.len())
            );
            Ok(())
        }
        Err(StreamError::Refused(refusal)) => Err(refusal),
        Err(other) => panic!("{other}"),
    };
    (sink.taken, report)
}

fn written(rng: &mut Rng, from: Dialect, to: Dialect, file: &[u8]) -> Outcome {
    let mut writer = ConvertingWriter::new(from, to, Sink::new(1 + rng.below(9)));
    let pieces = file.chunks(1 + rng.below(9));
    let met = pieces
        .map(|piece| writer.write_all(piece))
        .find_map(Result::err);
    let report = match writer.finish() {
        Ok(_) => Ok(()),
        Err(StreamError::Refused(refusal)) => Err(refusal),
        Err(other) => panic!("{other}"),
    };
    if let Some(error) = met {
        assert_eq!(Refusal::in_error(&error), report.err());
    }
    (writer.into_inner().taken, report)
}

fn read_out(rng: &mut Rng, from: Dialect, to: Dialect, file: &[u8]) -> Outcome {
    let mut reader = ConvertingReader::new(from, to, Source::new(file, 1 + rng.below(9)));
    let mut text = Vec::new();
    let mut bytes = vec![0; 1 + rng.below(9)];
    loop {
        match reader.read(&mut bytes) {
            Ok(0) => return (text, Ok(())),
            Ok(length) => text.extend_from_slice(&bytes[..length]),
            Err(error) => return (text, Err(Refusal::in_error(&error).unwrap())),
        }
    }
}

#[test]
fn a_table_read_and_written_is_the_file_converted() {
    let mut rng = Rng::new(3);
    let mut compared = 0;
    for turn in 0..FILES {
        let (from, to) = (Dialect::ALL[turn % 3], Dialect::ALL[turn / 3 % 3]);
        let file = file(&mut rng, from);
        let Ok(table) = read(from, &file) else {
            continue;
        };
        match (write(to, table.records()), convert(from, to, &file)) {
            (Ok(written), Ok(converted)) => assert_eq!(written, converted),
            (Err(written), Err(converted)) => {
                assert_eq!(converted.fault, Fault::NotCarried);
                assert_eq!(written.record, converted.record);
                assert_eq!(written.offset, 0);
            }
            (written, converted) => panic!("{written:?} {converted:?} {}", file.escape_ascii()),
        }
        compared += 1;
    }
    assert!(compared > FILES / 4);
}

#[test]
fn cells_are_decoded_as_the_lent_decoder_does() {
    let mut rng = Rng::new(4);
    let (mut sound, mut faults) = (0, BTreeSet::new());
    for turn in 0..FILES {
        let dialect = Dialect::ALL[turn % 3];
        let file = file(&mut rng, dialect);
        let cells: Vec<&[u8]> = file.split(|byte| b",\r\n".contains(byte)).collect();
        let cell = rng.pick(&cells);
        let mut room = vec![0; cell.len()];
        let answer = raw::decode(dialect.number(), cell, &mut room);
        match decode(dialect, cell) {
            Ok(value) => {
                assert_eq!(told(answer.report), Ok(()));
                assert_eq!(usize::from(value.kind().number()), answer.kind);
                assert_eq!(value.content(), &room[..answer.length]);
                sound += 1;
            }
            Err(refusal) => {
                assert_eq!(told(answer.report), Err(refusal));
                faults.insert(refusal.fault);
            }
        }
    }
    assert!(sound > FILES / 4);
    assert!(faults
        .into_iter()
        .eq([Fault::Encoding, Fault::Syntax, Fault::CutShort]));
}

/// A value of any kind, sound or not.
fn value(rng: &mut Rng) -> Value<'static> {
    const TEXTS: [&[u8]; 8] = [
        b"a",
        b"A",
        b"",
        b"\"",
        b"\r\n\x01",
        b"\xED\xA0\x80",
        b"\xED\xB0\x80",
        b"S\xC3\xBCd",
    ];
    match rng.below(16) {
        0..=10 => Value::text(rng.pick(&TEXTS)),
        11 => Value::number(rng.pick(&["0", "-1.5e-7", "2.40"])),
        12 => Value::from(rng.percent(50)),
        13 => Value::Null,
        14 => Value::number(rng.pick(&["", "1.", "+1", "0x1", "2,40"])),
        _ => Value::text(rng.pick(&[&b"\x80"[..], b"\xC3", b"\xED\xA0\x80\xED\xB0\x80"])),
    }
}

/// What the lent writer answers to rows of so many columns.
fn lent_writer(dialect: Dialect, rows: &[Vec<Value>], columns: usize) -> Result<Vec<u8>, Refusal> {
    let cells: Vec<&Value> = rows.iter().flatten().collect();
    let content: Vec<u8> = cells
        .iter()
        .flat_map(|value| value.content().to_vec())
        .collect();
    let ends: Vec<usize> = cells
        .iter()
        .scan(0, |end, value| {
            *end += value.content().len();
            Some(*end)
        })
        .collect();
    let starts: Vec<usize> = [0].iter().chain(&ends).copied().take(ends.len()).collect();
    let kinds: Vec<u8> = cells.iter().map(|value| value.kind().number()).collect();
    let table = raw::Table {
        content: &content,
        starts: &starts,
        ends: &ends,
        kinds: &kinds,
        columns,
        records: rows.len(),
    };
    let mut room = vec![0; 4_096];
    let answer = raw::write(dialect.number(), table, &mut room);
    told(answer.report).map(|()| room[..answer.length].to_vec())
}

#[test]
fn tables_are_written_as_by_the_lent_writer() {
    let mut rng = Rng::new(5);
    let (mut accepted, mut faults) = (0, BTreeSet::new());
    for turn in 0..FILES {
        let dialect = Dialect::ALL[turn % 3];
        let columns = rng.below(4);
        let rows: Vec<Vec<Value>> = (0..rng.below(4))
            .map(|_| (0..columns).map(|_| value(&mut rng)).collect())
            .collect();
        let written = write(dialect, &rows);
        let columns = rows.first().map_or(0, Vec::len);
        assert_eq!(written, lent_writer(dialect, &rows, columns), "{rows:?}");
        match written {
            Ok(text) => {
                let table = read(dialect, &text).unwrap();
                let back = table
                    .records()
                    .map(|record| record.cells().map(Value::from).collect());
                assert_eq!(back.collect::<Vec<Vec<Value>>>(), rows);
                accepted += 1;
            }
            Err(refusal) => drop(faults.insert(refusal.fault)),
        }
    }
    assert!(accepted > FILES / 10, "{accepted} accepted");
    let expected = [
        Fault::RepeatedName,
        Fault::HeaderKind,
        Fault::NotCarried,
        Fault::NoTable,
    ];
    assert!(faults.into_iter().eq(expected));
}
