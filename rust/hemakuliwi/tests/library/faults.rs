//! Each fault by its number: which call gives it, its place, and its sentence.

use hemakuliwi::{
    convert, convert_stream, decode, raw, read, write, Converter, Dialect, Fault, Refusal,
    StreamError, Value,
};
use std::collections::BTreeSet;
use std::io;
use Dialect::{CsvPlus, Csvj, Tdif};

/// A file, its fault by number, record, column and offset, and the sentence for it.
type Case = (Dialect, Dialect, &'static [u8], [usize; 4], &'static str);

const FILES: [Case; 13] = [
    (Csvj, Tdif, b"", [1, 1, 0, 0], "the file ends at byte 0 before record 1, the header, begins"),
    (Tdif, Csvj, b"# a\n", [1, 1, 0, 4], "the file ends at byte 4 before record 1, the header, begins"),
    (CsvPlus, Csvj, b"a\n\xFF\n", [2, 2, 0, 2], "at record 2, byte 2 is not UTF-8 text"),
    (
        Tdif,
        Csvj,
        b"\"a\"\n\n",
        [3, 2, 0, 4],
        "at record 2, byte 4 can't stand there in a file of the source dialect",
    ),
    (Csvj, Csvj, b"\"a\"", [4, 1, 0, 3], "the file ends at byte 3 before record 1 is complete"),
    (
        Csvj,
        Csvj,
        b"\"a\"\n\n",
        [5, 2, 0, 4],
        "record 2 has another number of cells than the header; it begins at byte 4",
    ),
    (
        Csvj,
        Csvj,
        b"\xEF\xBB\xBF\"a\",\"\\u0061\"\n",
        [6, 1, 2, 3],
        "record 1, the header, has in column 2 the name of an earlier column; it begins at byte 3",
    ),
    (
        Tdif,
        Csvj,
        b"\"a\",\\N\n",
        [7, 1, 2, 0],
        "record 1, the header, has no name in column 2, where the cell is not text; it begins at byte 0",
    ),
    (
        CsvPlus,
        Csvj,
        b"a\n,,,,,,,,,,,,,,,,,,,,,,,,,,,,,,,,,,,,,,,,,,,,,,,,,,,,,,,,,,,,,,,,\n",
        [8, 2, 0, 2],
        "at record 2, a limit is passed (16,777,215 bytes in a file, 4,096 bytes or 64 columns in a record); byte 2 is the first too \
         many or, for columns, the record's first",
    ),
    (
        Csvj,
        CsvPlus,
        b"\"a\"\n\"b\"\nnull\n",
        [9, 3, 1, 8],
        "column 1 of record 3 can't be written in the target dialect, which lacks such a cell or character or takes the name for an \
         earlier one; the record begins at byte 8",
    ),
    (
        Csvj,
        Tdif,
        b"\"a\",\"A\"\n",
        [9, 1, 2, 0],
        "column 2 of record 1 can't be written in the target dialect, which lacks such a cell or character or takes the name for an \
         earlier one; the record begins at byte 0",
    ),
    (
        Csvj,
        Tdif,
        b"\n",
        [9, 1, 0, 0],
        "record 1 can't be written in the target dialect, which asks for a column or in which the record or the file gets too long; it \
         begins at byte 0",
    ),
    (
        Csvj,
        Tdif,
        b"\"a\"\n\"\\ud83d\"\n",
        [9, 2, 1, 4],
        "column 1 of record 2 can't be written in the target dialect, which lacks such a cell or character or takes the name for an \
         earlier one; the record begins at byte 4",
    ),
];

fn numbers(refusal: Refusal) -> [usize; 4] {
    let Refusal {
        fault,
        record,
        column,
        offset,
    } = refusal;
    [fault.number(), record, column, offset]
}

#[test]
fn every_call_for_files_has_the_same_fault_and_place() {
    for (from, to, file, expected, sentence) in FILES {
        let refusal = convert(from, to, file).unwrap_err();
        assert_eq!(numbers(refusal), expected, "{}", file.escape_ascii());
        assert_eq!(refusal.to_string(), sentence);

        // Fault 9 is about a target, and reading has none.
        match expected[0] {
            9 => drop(read(from, file).unwrap()),
            _ => assert_eq!(read(from, file).unwrap_err(), refusal),
        }

        let mut converter = Converter::new(from, to);
        let mut text = Vec::new();
        let in_pieces = converter
            .piece(file, &mut text)
            .and_then(|()| converter.end(&mut text));
        assert_eq!(in_pieces, Err(refusal));
        assert_eq!(converter.refusal(), Some(refusal));
        assert_eq!(converter.records_completed(), refusal.record - 1);
        assert_eq!(converter.bytes_taken(), refusal.offset);
        assert_eq!(converter.bytes_written(), text.len());

        let error = convert_stream(from, to, file, io::sink()).unwrap_err();
        assert!(matches!(error, StreamError::Refused(same) if same == refusal));
        assert_eq!(error.to_string(), sentence);
    }
    let given: BTreeSet<usize> = FILES.iter().map(|case| case.3[0]).collect();
    assert!(given.into_iter().eq(1..=9));
}

#[test]
fn a_file_or_a_record_too_long_is_refused_at_the_first_byte_too_many() {
    let mut record = vec![b'a'; raw::RECORD_BYTES];
    assert!(read(CsvPlus, &record).is_ok());
    record.push(b'a');
    assert_eq!(
        numbers(read(CsvPlus, &record).unwrap_err()),
        [8, 1, 0, 4_096]
    );

    let file = b"a\n".repeat(raw::FILE_BYTES / 2 + 1_000_000);
    let refusal = read(CsvPlus, &file).unwrap_err();
    assert_eq!(numbers(refusal), [8, 8_388_608, 0, raw::FILE_BYTES]);
    assert_eq!(
        convert(CsvPlus, CsvPlus, &file[..raw::FILE_BYTES])
            .unwrap_err()
            .fault,
        Fault::NotCarried
    );
    assert_eq!(
        convert(CsvPlus, Csvj, &file).unwrap_err().fault,
        Fault::NotCarried
    );
}

#[test]
fn a_cell_is_refused_by_its_own_offsets() {
    let cases: [(Dialect, &[u8], [usize; 4], &str); 3] = [
        (
            CsvPlus,
            b"ab\xFF",
            [2, 0, 0, 2],
            "byte 2 of the cell is not UTF-8 text",
        ),
        (
            Csvj,
            b"01",
            [3, 0, 0, 1],
            "byte 1 of the cell can't stand there in this dialect",
        ),
        (
            Tdif,
            b"\"a\"\"",
            [4, 0, 0, 4],
            "the cell ends at byte 4 before it is complete",
        ),
    ];
    for (dialect, cell, expected, sentence) in cases {
        let refusal = decode(dialect, cell).unwrap_err();
        assert_eq!(numbers(refusal), expected);
        assert_eq!(refusal.to_string(), sentence);
    }
}

#[test]
fn a_table_that_is_written_is_refused_by_record_and_column() {
    let text = Value::text::<str>;
    let wide = vec![text("a"); raw::COLUMNS + 1];
    let cases: [(Dialect, Vec<Vec<Value>>, [usize; 4]); 8] = [
        (Tdif, vec![wide], [8, 1, 0, 0]),
        (Csvj, vec![vec![text("a"), Value::True]], [7, 1, 2, 0]),
        (
            Tdif,
            vec![vec![text("a"), text("b"), text("A")]],
            [6, 1, 3, 0],
        ),
        (
            CsvPlus,
            vec![vec![text("a")], vec![text("b")], vec![Value::Null]],
            [9, 3, 1, 0],
        ),
        (Tdif, vec![vec![]], [9, 1, 0, 0]),
        (Csvj, vec![], [12, 0, 0, 0]),
        (
            Csvj,
            vec![vec![text("a")], vec![Value::number("01")]],
            [12, 0, 0, 0],
        ),
        (
            Csvj,
            vec![
                vec![text("a")],
                vec![Value::text(b"\xED\xA0\xBD\xED\xB8\x80")],
            ],
            [12, 0, 0, 0],
        ),
    ];
    for (dialect, rows, expected) in cases {
        let refusal = write(dialect, &rows).unwrap_err();
        assert_eq!(numbers(refusal), expected, "{rows:?}");
        if expected[1] > 1 {
            assert!(!refusal.to_string().contains("byte"), "{refusal}");
        }
    }
}

#[test]
fn rows_that_are_uneven_are_no_table_even_if_they_add_up() {
    for lengths in [
        &[2, 1][..],
        &[2, 3],
        &[2, 1, 3],
        &[1, 0],
        &[0, 1],
        &[2, 4, 0],
    ] {
        let rows = lengths.iter().map(|length| vec!["a"; *length]);
        let refusal = write(Csvj, rows).unwrap_err();
        assert_eq!(numbers(refusal), [12, 0, 0, 0], "{lengths:?}");
        assert!(refusal.to_string().contains("no table"));
    }
}

#[test]
fn a_call_after_the_end_is_wrong_and_changes_nothing() {
    let mut converter = Converter::new(CsvPlus, Csvj);
    let mut text = Vec::new();
    converter.piece(b"a\nb", &mut text).unwrap();
    converter.end(&mut text).unwrap();
    let wrong = Refusal {
        fault: Fault::WrongCall,
        record: 0,
        column: 0,
        offset: 0,
    };
    for _ in 0..2 {
        assert_eq!(converter.piece(b"c\n", &mut text), Err(wrong));
        assert_eq!(converter.piece(b"", &mut text), Err(wrong));
        assert_eq!(converter.end(&mut text), Err(wrong));
    }
    assert_eq!(text, b"\"a\"\n\"b\"\n");
    assert_eq!(
        (converter.bytes_taken(), converter.records_completed()),
        (3, 2)
    );
    assert_eq!(converter.refusal(), None);
    assert_eq!(
        wrong.to_string(),
        "the file was ended before, and has no more to convert"
    );
}

#[test]
fn after_a_fault_every_call_is_refused_so_an_empty_piece_too() {
    let mut converter = Converter::new(CsvPlus, Csvj);
    let mut text = Vec::new();
    let refusal = converter.piece(b"a\n\"b\"c", &mut text).unwrap_err();
    assert_eq!(converter.piece(b"", &mut text), Err(refusal));
    assert_eq!(converter.piece(b"d\n", &mut text), Err(refusal));
    assert_eq!(converter.end(&mut text), Err(refusal));
    assert_eq!(text, b"\"a\"\n");
}

#[test]
fn faults_and_numbers_are_the_same_twelve() {
    for number in 0..20 {
        let fault = Fault::from_number(number);
        assert_eq!(fault.is_some(), (1..=12).contains(&number));
        assert_eq!(fault.map_or(number, Fault::number), number);
        assert_eq!(
            fault.is_some_and(Fault::is_of_call),
            (10..=12).contains(&number)
        );
    }
    assert_eq!(Fault::from_number(raw::ROOM), Some(Fault::Room));
    assert_eq!(Fault::from_number(usize::MAX), None);
}

#[test]
fn a_refusal_passes_through_an_io_error() {
    for (fault, kind) in [
        (Fault::Syntax, io::ErrorKind::InvalidData),
        (Fault::NotCarried, io::ErrorKind::InvalidData),
        (Fault::WrongCall, io::ErrorKind::InvalidInput),
        (Fault::NoTable, io::ErrorKind::InvalidInput),
    ] {
        let refusal = Refusal {
            fault,
            record: 2,
            column: 1,
            offset: 7,
        };
        let error = io::Error::from(refusal);
        assert_eq!(
            (error.kind(), Refusal::in_error(&error)),
            (kind, Some(refusal))
        );
        assert_eq!(error.to_string(), refusal.to_string());
    }
    assert_eq!(Refusal::in_error(&io::ErrorKind::InvalidData.into()), None);
    assert_eq!(Refusal::in_error(&io::Error::other("torn")), None);
}
