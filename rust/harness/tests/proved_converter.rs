//! The proved converter against every vector and against the reference implementation. Wrong converters are tried in `wrong_texts`.

use harness::compare::{
    agreed, convert_agrees, convert_in_rooms, convert_random, proved_converter, vectors_agree,
};
use harness::generate::{file_of, file_of_long_text};
use harness::runner::{check_convert, LEAST_CONVERT};
use harness::vectors::{short_files, Call};
use harness::whole::convert_room;
use harness::{vectors_folder, DIALECTS, UNKNOWN};
use reference::limits::FILE_BYTES;

#[test]
fn every_vector_is_converted_as_it_says() {
    vectors_agree("the proved converter", LEAST_CONVERT, |case| {
        let Call::Convert {
            source,
            target,
            file,
            room,
            expected,
        } = &case.call
        else {
            return None;
        };
        let file = file.to_vec();
        Some(check_convert(
            proved_converter,
            *source,
            *target,
            &file,
            *room,
            expected,
        ))
    });
}

#[test]
fn files_of_all_vectors_are_converted_as_the_reference_does() {
    let files = agreed(short_files(&vectors_folder()));
    let numbers = [1, 2, 3, UNKNOWN[0], UNKNOWN[2]];
    for file in &files {
        for (from, to) in numbers.map(|from| numbers.map(|to| (from, to))).concat() {
            agreed(convert_in_rooms(proved_converter, from, to, file));
        }
    }
    eprintln!(
        "the proved converter: {} files of the vectors agree in all nine pairs",
        files.len()
    );
    assert!(files.len() >= 1_000);
}

#[test]
fn random_files_are_converted_as_the_reference_does() {
    const FILES: usize = 120_000;
    let by_target = agreed(convert_random(proved_converter, 1, FILES));
    for ((target, _), counts) in DIALECTS.iter().zip(by_target) {
        let what = format!("the proved converter on {FILES} random files, to dialect {target}");
        counts.print(&what);
        agreed(counts.require([0, 10], 3_000));
        agreed(counts.require([1, 2, 3, 4, 5, 6, 7, 8, 11], 1_000));
        // A record is as long in its own dialect's canonical text, or shorter, so that it can always be represented.
        let others = DIALECTS.map(|(source, _)| source).into_iter();
        for source in others.filter(|source| source != target) {
            assert!(counts.of(source, 9) >= 200, "{source} to {target}");
        }
    }
}

/// A file of this many bytes.
fn file_about_the_limit(dialect: u32, length: usize) -> Vec<u8> {
    let (record, last) = match dialect {
        1 => (
            "\"Harbour\", \"a\\r\\n\\\"b\\\"\",\"\" ,\"\u{e9}\"\r\n",
            ("\"1\",\"2\",\"3\",\"", "\"\n"),
        ),
        2 => (
            "\"Harbour\",\"a\r\n\"\"b\"\"\",\"\",\"\u{e9}\"\r\n",
            ("\"1\",\"2\",\"3\",\"", "\"\r"),
        ),
        _ => (
            "\"Harbour\",\"a\r\n\"\"b\"\"\",\"\",\"\u{e9}\"\n",
            ("\"1\",\"2\",\"3\",\"", "\""),
        ),
    };
    file_of("\"a\",\"b\",\"c\",\"d\"\n", record, last, length).0
}

#[test]
fn files_about_the_limit_are_converted_as_the_reference_does() {
    for (from, _) in DIALECTS {
        for length in FILE_BYTES..=FILE_BYTES + 1 {
            let file = file_about_the_limit(from, length);
            for (to, _) in DIALECTS {
                let room = convert_room(file.len());
                let answer = agreed(convert_agrees(proved_converter, from, to, &file, room));
                let expected = if length > FILE_BYTES { 8 } else { 0 };
                // In another dialect the text may become too long before the file does.
                let number = answer.report.number;
                let is_right = number == expected || (from != to && number == 9);
                assert!(is_right, "{number} for {from} to {to}, {length} bytes");
            }
        }
    }
}

#[test]
fn texts_about_the_limit_are_written_as_the_reference_does() {
    for (to, _) in DIALECTS {
        for more in 0..2 {
            let file = file_of_long_text(to, more);
            for room in FILE_BYTES - 1..=FILE_BYTES {
                let answer = agreed(convert_agrees(proved_converter, 3, to, &file, room));
                let number = match (more, room < FILE_BYTES) {
                    (0, false) => 0,
                    (0, true) => 10,
                    _ => 9,
                };
                assert_eq!(answer.report.number, number, "to {to}, room {room}");
            }
        }
    }
}
