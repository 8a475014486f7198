//! The proved reader against every vector and against the reference implementation, and wrong readers against the same comparison.

use harness::compare::{
    agreed, proved_reader, read_agrees, read_in_rooms, read_random, vectors_agree,
};
use harness::generate::file_of;
use harness::lists::Reader;
use harness::runner::{check_read, LEAST_READ};
use harness::vectors::{short_files, Call};
use harness::whole::read_whole;
use harness::{vectors_folder, UNKNOWN};
use reference::limits::FILE_BYTES;
use reference::{read, ReadAnswer, Report};
use std::iter::zip;

#[test]
fn every_vector_is_read_as_it_says() {
    vectors_agree("the proved reader", LEAST_READ, |case| match &case.call {
        Call::Read {
            dialect,
            file,
            room,
            expected,
        } => {
            let file = file.to_vec();
            Some(check_read(proved_reader, *dialect, &file, *room, expected))
        }
        _ => None,
    });
}

#[test]
fn files_of_all_vectors_are_read_as_the_reference_does() {
    let files = short_files(&vectors_folder()).expect("the vectors are of their format");
    for file in &files {
        for dialect in [1, 2, 3].into_iter().chain(UNKNOWN) {
            agreed(read_in_rooms(proved_reader, dialect, file));
        }
    }
    eprintln!(
        "the proved reader: {} files of the vectors agree in every dialect",
        files.len()
    );
    assert!(files.len() >= 1_000);
}

#[test]
fn random_files_are_read_as_the_reference_does() {
    const FILES: usize = 400_000;
    let counts = agreed(read_random(proved_reader, 1, FILES));
    counts.print(&format!("the proved reader on {FILES} random files"));
    agreed(counts.require([0], 50_000));
    agreed(counts.require([1, 2, 3, 4, 5, 6, 7, 8, 10, 11], 2_000));
}

#[test]
fn files_about_the_limit_are_read_as_the_reference_does() {
    let csvj = "\"Harbour\", 2.40,null ,true\r\n";
    let tdif = "\"Harbour\",\"a\r\"\"b\"\"\",\\N,\"\"\r\n";
    let csv_plus = "Harbour,\"a\r\n\"\"b\"\"\",,\u{e9}\n";
    for (dialect, record, last) in [
        (1, csvj, ("1,2,3,\"", "\"\n")),
        (1, csvj, ("1,2,3,\"", "\" \r\n")),
        (2, tdif, ("\\N,\\N,\\N,\"", "\"\r")),
        (2, tdif, ("\\N,\\N,\\N,\"", "\"\r\n")),
        (3, csv_plus, (",,,", "")),
        (3, csv_plus, (",,,", "\r\n")),
    ] {
        for length in FILE_BYTES - 1..=FILE_BYTES + 2 {
            let (file, records) = file_of("\"a\",\"b\",\"c\",\"d\"\n", record, last, length);
            let cells = 4 * records;
            let lengths = [cells + 1, cells, cells + 2];
            let answer = agreed(read_agrees(proved_reader, dialect, &file, lengths));
            match answer.report.number {
                0 => assert!(length <= FILE_BYTES && answer.cells == cells),
                number => assert!(length > FILE_BYTES && number == 8),
            }
        }
    }
}

/// A refusal that names no place.
fn refusal(number: usize) -> ReadAnswer {
    ReadAnswer {
        report: Report {
            number,
            ..Report::ACCEPTED
        },
        columns: 0,
        records: 0,
        cells: 0,
    }
}

/// A list without its last place.
fn shorter<T>(list: &mut [T]) -> &mut [T] {
    let length = list.len().saturating_sub(1);
    &mut list[..length]
}

const WRONG_READERS: [(&str, Reader); 11] = [
    (
        "a stretch of CSVJ takes in a blank",
        |dialect, file, starts, ends, kinds| {
            let answer = read(dialect, file, starts, ends, kinds);
            for end in &mut ends[..answer.cells] {
                *end += usize::from(dialect == 1 && file.get(*end) == Some(&b' '));
            }
            answer
        },
    ),
    (
        "as many places as cells are too few",
        |dialect, file, starts, ends, kinds| {
            read(
                dialect,
                file,
                shorter(starts),
                shorter(ends),
                shorter(kinds),
            )
        },
    ),
    (
        "only the starts can be too few",
        |dialect, file, starts, ends, kinds| {
            let room = starts.len();
            match read(dialect, file, starts, ends, kinds).report.number {
                10 => read(
                    dialect,
                    file,
                    starts,
                    &mut vec![0; room],
                    &mut vec![0; room],
                ),
                _ => read(dialect, file, starts, ends, kinds),
            }
        },
    ),
    (
        "a refusal writes to a list",
        |dialect, file, starts, ends, kinds| {
            let answer = read(dialect, file, starts, ends, kinds);
            if let (5, Some(kind)) = (answer.report.number, kinds.first_mut()) {
                *kind = 1;
            }
            answer
        },
    ),
    (
        "the place after the last cell is written",
        |dialect, file, starts, ends, kinds| {
            let answer = read(dialect, file, starts, ends, kinds);
            if let (0, Some(start)) = (answer.report.number, starts.get_mut(answer.cells)) {
                *start = file.len();
            }
            answer
        },
    ),
    ("null is text", |dialect, file, starts, ends, kinds| {
        let answer = read(dialect, file, starts, ends, kinds);
        let nulls = kinds.iter_mut().filter(|kind| **kind == 5);
        nulls.for_each(|kind| *kind = 1);
        answer
    }),
    (
        "the header is a data record",
        |dialect, file, starts, ends, kinds| {
            let mut answer = read(dialect, file, starts, ends, kinds);
            answer.records += usize::from(answer.report.is_accepted());
            answer
        },
    ),
    (
        "too few places come before a fault",
        |dialect, file, starts, ends, kinds| {
            let answer = read(dialect, file, starts, ends, kinds);
            match answer.report.number {
                1..=8 if starts.is_empty() => refusal(10),
                _ => answer,
            }
        },
    ),
    (
        "the low byte of the number tells the dialect",
        |dialect, file, starts, ends, kinds| read(dialect & 0xFF, file, starts, ends, kinds),
    ),
    (
        "a record of 4,096 bytes is too long",
        |dialect, file, starts, ends, kinds| match read_whole(dialect, file) {
            Ok(table) if zip(&table.starts, &table.ends).any(|(s, e)| e - s == 4_096) => refusal(8),
            _ => read(dialect, file, starts, ends, kinds),
        },
    ),
    (
        "a comment is no longer than a record",
        |dialect, file, starts, ends, kinds| {
            let mut lines = file.split(|byte| matches!(byte, b'\r' | b'\n'));
            match lines.any(|line| line.starts_with(b"#") && line.len() > 4_096) {
                true if dialect == 2 => refusal(8),
                _ => read(dialect, file, starts, ends, kinds),
            }
        },
    ),
];

#[test]
fn wrong_readers_are_noticed() {
    for (wrong, reader) in WRONG_READERS {
        assert!(read_random(reader, 1, 20_000).is_err(), "{wrong}");
    }
    assert!(read_random(read, 1, 20_000).is_ok());
}
