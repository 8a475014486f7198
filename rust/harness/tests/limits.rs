//! The file limit, read and written.

use harness::generate::file_of;
use harness::ledger::{Call, Session};
use reference::limits::{FILE_BYTES, PIECE_BYTES, PIECE_ROOM};
use reference::{convert, read, Report};

fn limit(number: usize, record: usize, offset: usize) -> Report {
    Report {
        number,
        record,
        column: 0,
        offset,
    }
}

/// The report of a file handed over in pieces, and how much was written.
fn by_pieces(source: u32, target: u32, file: &[u8]) -> (Report, usize) {
    let mut session = Session::new(source, target);
    let mut written = 0;
    let pieces = file.chunks(PIECE_BYTES);
    let calls = pieces.map(|piece| Call::Piece(piece, PIECE_ROOM));
    for call in calls.chain([Call::End(PIECE_ROOM)]) {
        let answer = session.make(&call).expect("only the text is written");
        written += answer.text.len();
        if !answer.report.is_accepted() {
            return (answer.report, written);
        }
    }
    (Report::ACCEPTED, written)
}

#[test]
fn a_file_may_be_full_but_no_fuller() {
    let quoted = format!("\"{}\"\n", "y".repeat(2_000));
    let plain = format!("{}\r\n", "y".repeat(2_000));
    for (dialect, header, record, last) in [
        (1, "\"a\"\n", &quoted, ("\"", "\"\n")),
        (2, "\"a\"\n", &quoted, ("\"", "\"\r")),
        (3, "a\r\n", &plain, ("", "\r\n")),
    ] {
        let (mut file, records) = file_of(header, record, last, FILE_BYTES);
        let cells = &mut vec![0; records];
        let answer = read(
            dialect,
            &file,
            cells,
            &mut vec![0; records],
            &mut vec![0; records],
        );
        assert_eq!(answer.report, Report::ACCEPTED);
        assert_eq!(answer.records, records - 1);
        assert_eq!(
            by_pieces(dialect, dialect, &file),
            (Report::ACCEPTED, FILE_BYTES)
        );

        // The record before is complete, so that the byte too many names the next one. In TDIF
        // it is the LF of a CRLF, in the others it would begin a record.
        file.push(b'\n');
        let expected = limit(8, records + 1, FILE_BYTES);
        let answer = read(dialect, &file, &mut [], &mut [], &mut []);
        assert_eq!(answer.report, expected);
        assert_eq!(by_pieces(dialect, dialect, &file), (expected, FILE_BYTES));
    }
}

#[test]
fn a_byte_too_many_inside_a_record_names_that_record() {
    let record = format!("\"{}\"\n", "y".repeat(2_000));
    let (file, records) = file_of("\"a\"\n", &record, ("\"", "\"\n"), FILE_BYTES + 1);
    for dialect in [1, 2, 3] {
        let expected = limit(8, records, FILE_BYTES);
        let answer = read(dialect, &file, &mut [], &mut [], &mut []);
        assert_eq!(answer.report, expected);
        assert_eq!(by_pieces(dialect, dialect, &file).0, expected);
    }
}

#[test]
fn the_output_may_be_full_but_no_fuller() {
    // Each CSV+ record grows by the CR of its ending.
    let records = FILE_BYTES / 3;
    let mut file = "x\n".repeat(records).into_bytes();
    let mut out = vec![0; FILE_BYTES];
    let answer = convert(3, 3, &file, &mut out);
    assert_eq!(
        (answer.report, answer.written),
        (Report::ACCEPTED, FILE_BYTES)
    );
    file.extend(b"\n\"");
    let expected = limit(9, records + 1, 2 * records);
    assert_eq!(convert(3, 3, &file, &mut out).report, expected);
    assert_eq!(by_pieces(3, 3, &file), (expected, FILE_BYTES));
}
