//! The sixteen examples of the rules.

use reference::{convert, read, Report};

const CSVJ: u32 = 1;
const TDIF: u32 = 2;
const CSV_PLUS: u32 = 3;

fn report(number: usize, record: usize, column: usize, offset: usize) -> Report {
    Report {
        number,
        record,
        column,
        offset,
    }
}

fn read_report(dialect: u32, file: &[u8]) -> Report {
    read(dialect, file, &mut [0; 8], &mut [0; 8], &mut [0; 8]).report
}

fn convert_text(source: u32, target: u32, file: &[u8]) -> Result<Vec<u8>, Report> {
    let mut out = [0; 64];
    let answer = convert(source, target, file, &mut out);
    if answer.report.is_accepted() {
        Ok(out[..answer.written].to_vec())
    } else {
        Err(answer.report)
    }
}

#[test]
fn e1_to_e8() {
    assert_eq!(read_report(CSVJ, b""), report(1, 1, 0, 0));
    let empty = read(CSVJ, b"\n", &mut [], &mut [], &mut []);
    assert_eq!(empty.report, Report::ACCEPTED);
    assert_eq!((empty.columns, empty.records, empty.cells), (0, 0, 0));
    assert_eq!(read_report(CSVJ, br#""a""#), report(4, 1, 0, 3));
    assert_eq!(read_report(CSVJ, b"\"a\",\n"), report(3, 1, 0, 4));
    assert_eq!(read_report(CSVJ, b"\"\",\"\"\n"), report(6, 1, 2, 0));
    assert_eq!(read_report(CSVJ, b"\"a\"\n01\n"), report(3, 2, 0, 5));
    assert_eq!(read_report(CSVJ, b"\"a\"\n\n"), report(5, 2, 0, 4));
    assert_eq!(
        read_report(CSVJ, b"\"\\u0061\",\"a\"\n"),
        report(6, 1, 2, 0)
    );
}

#[test]
fn e9_to_e16() {
    assert_eq!(
        convert_text(TDIF, CSVJ, b"\"a\"\r\n\\N\r"),
        Ok(b"\"a\"\nnull\n".to_vec())
    );
    assert_eq!(read_report(TDIF, b"\"a\"\n\n"), report(3, 2, 0, 4));
    let names = b"\"a\",\"A\"\n";
    assert_eq!(read_report(CSVJ, names), Report::ACCEPTED);
    assert_eq!(convert_text(CSVJ, TDIF, names), Err(report(9, 1, 2, 0)));
    assert_eq!(
        convert_text(CSV_PLUS, CSV_PLUS, b"a\n\n"),
        Ok(b"a\r\n\"\"\r\n".to_vec())
    );
    assert_eq!(read_report(CSV_PLUS, b"a\""), report(3, 1, 0, 1));
    let lone = b"\"a\"\n\"\\ud83d\"\n";
    assert_eq!(read_report(CSVJ, lone), Report::ACCEPTED);
    assert_eq!(convert_text(CSVJ, TDIF, lone), Err(report(9, 2, 1, 4)));
    assert_eq!(read_report(CSV_PLUS, b"a\rb"), report(3, 1, 0, 2));
    assert_eq!(read_report(TDIF, b"\\N\n"), report(7, 1, 1, 0));
}
