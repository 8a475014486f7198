//! Random files, from fixed seeds.

use harness::calls::random_calls;
use harness::counts::Counts;
use harness::generate::{mutate, sample};
use harness::ledger::check_calls;
use harness::rng::Rng;
use harness::whole::{
    cells_of, convert_whole, decode_whole, read_whole, write_whole, Cell, TableLists,
};
use harness::{DIALECTS, UNKNOWN};
use reference::limits::RECORD_BYTES;
use reference::Report;
use std::collections::BTreeSet;

#[test]
fn files_are_read_as_they_were_made() {
    let mut rng = Rng::new(1);
    let mut counts = Counts::default();
    for round in 0..150_000 {
        let (number, dialect) = DIALECTS[round % 3];
        let sample = sample(&mut rng, dialect);
        let outcome = cells_of(number, &sample.file);
        counts.add(
            number,
            outcome.as_ref().map_or_else(|report| report.number, |_| 0),
        );
        match (outcome, sample.records) {
            (Err(report), None) => check_place(number, &sample.file, report),
            (Err(report), Some(_)) => panic!("{report:?} for {}", sample.file.escape_ascii()),
            (Ok(_), None) => {}
            (Ok((table, cells)), Some(records)) => {
                assert_eq!(table.columns, records[0].len());
                assert_eq!(table.records, records.len() - 1);
                assert_eq!(cells, records.concat(), "{}", sample.file.escape_ascii());
            }
        }
    }
    counts.print("reading");
    counts.require([0], 20_000).unwrap();
    counts.require(1..=8, 1_000).unwrap();
}

/// Nothing after a fault has a part in it, and nothing before it is at fault.
fn check_place(dialect: u32, file: &[u8], report: Report) {
    let show = || file.escape_ascii();
    match report.number {
        1 | 4 => assert_eq!(report.offset, file.len(), "{}", show()),
        2 | 3 => {
            let up_to = read_whole(dialect, &file[..=report.offset]);
            assert_eq!(up_to, Err(report), "{}", show());
            let before = read_whole(dialect, &file[..report.offset]);
            let is_earlier = matches!(before, Err(Report { number: 2 | 3, .. }));
            assert!(!is_earlier, "{}", show());
        }
        _ => assert!(report.offset < file.len(), "{}", show()),
    }
}

#[test]
fn cells_are_decoded_as_they_are_read() {
    let mut rng = Rng::new(4);
    let mut counts = Counts::default();
    for round in 0..60_000 {
        let (number, dialect) = DIALECTS[round % 3];
        let file = sample(&mut rng, dialect).file;
        let Ok(table) = read_whole(number, &file) else {
            continue;
        };
        for (&start, &end) in table.starts.iter().zip(&table.ends) {
            let mut raw = file[start..end].to_vec();
            if rng.percent(60) {
                mutate(&mut rng, &mut raw);
            }
            if raw.len() <= RECORD_BYTES {
                counts.add(number, check_decoded(number, &raw));
            }
        }
    }
    counts.print("decoding");
    counts.require([0], 20_000).unwrap();
    counts.require(2..=4, 2_000).unwrap();
}

/// Compares the decoder with the reader of a file in which the cell is the only data, and gives
/// the decoder's number.
fn check_decoded(dialect: u32, raw: &[u8]) -> usize {
    let show = || raw.escape_ascii();
    let header: &[u8] = b"\"h\"\n";
    let cut_off = [header, raw].concat();
    let ended = [header, raw, b"\n"].concat();
    let read = read_whole(dialect, &ended);
    let stands_alone = read.as_ref().is_ok_and(|table| {
        table.kinds.len() == 2 && (table.starts[1], table.ends[1]) == (4, 4 + raw.len())
    });
    let decoded = decode_whole(dialect, raw);
    assert_eq!(decoded.is_ok(), stands_alone, "{}", show());
    let Err(report) = decoded else {
        return 0;
    };
    assert_eq!((report.record, report.column), (0, 0), "{}", show());
    let in_file = Report {
        record: 2,
        offset: 4 + report.offset,
        ..report
    };
    match report.number {
        2 => assert_eq!(read, Err(in_file), "{}", show()),
        3 => {
            // After a sound cell, what can't continue the cell may still continue the file.
            let may_follow = matches!(raw[report.offset], b',' | b'\r' | b'\n' | b' ' | b'\t');
            let is_comment = dialect == 2 && raw.starts_with(b"#");
            assert!(
                may_follow || is_comment || read == Err(in_file),
                "{}",
                show()
            );
        }
        4 => {
            assert_eq!(report.offset, raw.len(), "{}", show());
            let outcome = read_whole(dialect, &cut_off);
            assert!(raw.is_empty() || outcome == Err(in_file), "{}", show());
        }
        _ => panic!("{report:?} for {}", show()),
    }
    report.number
}

#[test]
fn files_are_converted_as_they_are_read_and_written() {
    let mut rng = Rng::new(2);
    let mut counts = Counts::default();
    for round in 0..90_000 {
        let (source, dialect) = DIALECTS[round % 3];
        let file = sample(&mut rng, dialect).file;
        let read = cells_of(source, &file);
        for (target, _) in DIALECTS {
            let converted = convert_whole(source, target, &file);
            let number = converted
                .as_ref()
                .map_or_else(|report| report.number, |_| 0);
            counts.add(source, number);
            match &read {
                // Fault 9 of an earlier record comes before the reader's fault.
                Err(report) if number == 9 => {
                    assert!(converted.is_err_and(|carried| carried.record < report.record));
                }
                Err(report) => assert_eq!(converted, Err(*report), "{}", file.escape_ascii()),
                Ok((table, cells)) => {
                    let columns = table.columns;
                    let lists = TableLists::of_cells(columns, table.records + 1, cells);
                    let written = write_whole(target, &lists);
                    check_written(target, &cells[..columns], converted, written);
                }
            }
        }
        if let Ok((_, cells)) = read {
            check_canonical(source, &file, &cells);
        }
    }
    counts.print("converting");
    counts.require([0], 15_000).unwrap();
    counts.require(1..=9, 700).unwrap();
}

/// The converter and the writer agree, save that the writer reports 6 for the clash.
fn check_written(
    target: u32,
    names: &[Cell],
    converted: Result<Vec<u8>, Report>,
    written: Result<Vec<u8>, Report>,
) {
    let expected = match clash(target, names) {
        Some(column) => Err(Report {
            number: 6,
            record: 1,
            column,
            offset: 0,
        }),
        None => converted.map_err(|report| Report {
            offset: 0,
            ..report
        }),
    };
    assert_eq!(written, expected);
}

/// The column of the first name that repeats an earlier one in the target.
fn clash(target: u32, names: &[Cell]) -> Option<usize> {
    let fold = |name: &Cell| match target {
        2 => name.content.to_ascii_lowercase(),
        _ => name.content.clone(),
    };
    let names: Vec<Vec<u8>> = names.iter().map(fold).collect();
    (1..names.len())
        .find(|&index| names[..index].contains(&names[index]))
        .map(|index| index + 1)
}

/// A file's canonical text in its own dialect has the same cells and is its own canonical text.
fn check_canonical(dialect: u32, file: &[u8], cells: &[Cell]) {
    let text = convert_whole(dialect, dialect, file);
    let text = text.unwrap_or_else(|report| panic!("{report:?} for {}", file.escape_ascii()));
    let read_back = cells_of(dialect, &text).map(|(_, cells)| cells);
    assert_eq!(read_back.as_deref(), Ok(cells), "{}", file.escape_ascii());
    let again = convert_whole(dialect, dialect, &text);
    assert_eq!(again.as_ref(), Ok(&text), "{}", file.escape_ascii());
}

#[test]
fn pieces_follow_the_ledger() {
    let mut rng = Rng::new(3);
    let mut counts = Counts::default();
    for round in 0..60_000 {
        let (source, dialect) = DIALECTS[round % 3];
        let file = sample(&mut rng, dialect).file;
        let target = if rng.percent(2) {
            rng.pick(&UNKNOWN)
        } else {
            rng.pick(&[1, 2, 3])
        };
        let calls = random_calls(&mut rng, &file);
        let answers = check_calls(source, target, &calls).unwrap_or_else(|error| panic!("{error}"));
        // A fault is repeated by the calls after it, but counts once.
        let numbers: BTreeSet<usize> = answers.iter().map(|answer| answer.report.number).collect();
        for number in numbers {
            counts.add(source, number);
        }
    }
    counts.print("calling");
    counts.require([0], 15_000).unwrap();
    counts.require(1..=11, 150).unwrap();
}
