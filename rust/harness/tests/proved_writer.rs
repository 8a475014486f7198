//! The proved writer against every vector and against the reference implementation. Wrong writers are tried in `wrong_texts`.

use harness::compare::{
    agreed, proved_writer, vectors_agree, write_agrees, write_in_rooms, write_random,
};
use harness::generate::beside_content;
use harness::runner::{check_write, LEAST_WRITE};
use harness::vectors::Call;
use harness::whole::TableLists;
use harness::UNKNOWN;
use reference::limits::FILE_BYTES;

#[test]
fn every_vector_is_written_as_it_says() {
    vectors_agree("the proved writer", LEAST_WRITE, |case| match &case.call {
        Call::Write {
            target,
            table,
            room,
            expected,
        } => Some(check_write(proved_writer, *target, table, *room, expected)),
        _ => None,
    });
}

#[test]
fn tables_of_all_vectors_are_written_as_the_reference_does() {
    vectors_agree("the proved writer in every dialect", LEAST_WRITE, |case| {
        let Call::Write { table, .. } = &case.call else {
            return None;
        };
        let lists = table.to_lists();
        let mut targets = [1, 2, 3].into_iter().chain(UNKNOWN);
        Some(
            targets
                .try_for_each(|target| write_in_rooms(proved_writer, target, &lists).map(|_| ())),
        )
    });
}

#[test]
fn random_tables_are_written_as_the_reference_does() {
    const TABLES: usize = 100_000;
    let counts = agreed(write_random(proved_writer, 1, TABLES));
    counts.print(&format!("the proved writer on {TABLES} random tables"));
    agreed(counts.require([0], 50_000));
    agreed(counts.require([6, 7, 8, 9, 10, 11, 12], 1_000));
}

/// Records of one cell, all but the last of which share a content of a thousand bytes, whose text has this many bytes.
fn table_of_length(target: u32, length: usize) -> TableLists {
    let beside = beside_content(target);
    let record = 1_000 + beside;
    // The header has a name of one byte.
    let records = (length - 1 - beside) / record;
    let last = length - (1 + beside) - (records - 1) * record - beside;
    let mut ends = vec![1];
    ends.resize(records, 1_000);
    ends.push(last);
    TableLists {
        content: vec![b'x'; last.max(1_000)],
        starts: vec![0; records + 1],
        ends,
        kinds: vec![1; records + 1],
        columns: 1,
        records: records + 1,
    }
}

#[test]
fn texts_about_the_limit_are_written_as_the_reference_does() {
    for target in [1, 2, 3] {
        for length in FILE_BYTES..=FILE_BYTES + 1 {
            let lists = table_of_length(target, length);
            for room in FILE_BYTES - 1..=FILE_BYTES {
                let answer = agreed(write_agrees(proved_writer, target, &lists, room));
                let number = match (length > FILE_BYTES, room < FILE_BYTES) {
                    (true, _) => 9,
                    (false, true) => 10,
                    (false, false) => 0,
                };
                assert_eq!(answer.report.number, number, "{target}, room {room}");
            }
        }
    }
}

#[test]
fn records_without_cells_are_written_as_the_reference_does() {
    for (records, number) in [
        (1, 0),
        (FILE_BYTES, 0),
        (FILE_BYTES + 1, 9),
        (usize::MAX, 9),
    ] {
        let lists = TableLists::of_cells(0, records, &[]);
        for target in [1, 2, 3] {
            let answer = agreed(write_agrees(proved_writer, target, &lists, FILE_BYTES));
            // Only CSVJ has a header without cells.
            let number = if target == 1 { number } else { 9 };
            assert_eq!(answer.report.number, number, "{target}, {records} records");
        }
    }
}
