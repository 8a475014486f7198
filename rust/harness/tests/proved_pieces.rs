//! The proved piece converter, lent and by value, against every vector, the ledger, the reference implementation and the proved whole
//! converter. Wrong ones are tried in `wrong_pieces`.

use harness::compare::{
    agreed, made_up_random, output, pieces_random, proved_lent, vectors_agree, PieceComparison,
    Trial, PROVED_PIECES,
};
use harness::generate::{file_of, file_of_long_text};
use harness::ledger::Call;
use harness::runner::{check_pieces, LEAST_PIECES};
use harness::vectors::{self, short_files};
use harness::{vectors_folder, DIALECTS};
use reference::limits::{FILE_BYTES, PIECE_BYTES, PIECE_ROOM};
use std::collections::BTreeSet;

#[test]
fn every_vector_is_answered_as_it_says() {
    let mut output = output();
    vectors_agree("the proved piece converter", LEAST_PIECES, |case| {
        let vectors::Call::Pieces {
            source,
            target,
            calls,
        } = &case.call
        else {
            return None;
        };
        Some(PROVED_PIECES.into_iter().try_for_each(|converter| {
            let mut trial = Trial::new(converter, *source, *target);
            check_pieces(calls, |call| trial.make(call, &mut output))
        }))
    });
}

/// Longer files are not cut in the middle of a part that repeats a few bytes.
const CUT_EVERYWHERE: usize = 1_000;
/// How far from the ends of such a part it is cut.
const NEAR: usize = 10;
/// How many bytes are few.
const FEW: usize = 6;

/// The places at which a file is cut, but for those at which a cut has nothing new to show.
fn telling_cuts(file: &[u8]) -> Vec<usize> {
    let is_telling = |&cut: &usize| {
        let (start, end) = (cut.saturating_sub(NEAR), file.len().min(cut + NEAR));
        let near = &file[start..end];
        let repeats = |count: usize| near[count..] == near[..near.len() - count];
        let is_inside = near.len() == 2 * NEAR && (1..=FEW).any(repeats);
        file.len() <= CUT_EVERYWHERE || !is_inside || cut % 1_024 == 0
    };
    all_cuts(file).into_iter().filter(is_telling).collect()
}

fn all_cuts(file: &[u8]) -> Vec<usize> {
    (0..=file.len()).collect()
}

/// Cuts each file of the vectors at these places, in all nine pairs of dialects.
fn cut_files_agree(cuts: fn(&[u8]) -> Vec<usize>) {
    let files: BTreeSet<Vec<u8>> = agreed(short_files(&vectors_folder())).into_iter().collect();
    let mut comparison = PieceComparison::new(&PROVED_PIECES);
    let mut count = 0;
    for file in &files {
        let places = cuts(file);
        let pairs = DIALECTS.map(|(source, _)| DIALECTS.map(|(target, _)| (source, target)));
        for (source, target) in pairs.concat() {
            let places = places.iter().copied();
            count += agreed(comparison.cuts_agree(source, target, file, places));
        }
    }
    eprintln!(
        "the proved piece converter: {} files of the vectors agree in all nine pairs, {count} cuts",
        files.len()
    );
    assert!(files.len() >= 1_000 && count >= 250_000);
}

#[test]
fn files_of_all_vectors_may_be_cut_anywhere() {
    cut_files_agree(telling_cuts);
}

#[test]
#[ignore = "it takes minutes; `files_of_all_vectors_may_be_cut_anywhere` leaves out cuts in the middle of repeated bytes"]
fn files_of_all_vectors_may_be_cut_at_every_place() {
    cut_files_agree(all_cuts);
}

/// Random lists of calls, with two seeds, so that two processors may share them.
fn random_calls_agree(seed: u64) {
    const LISTS: usize = 50_000;
    let counts = agreed(pieces_random(&PROVED_PIECES, seed, LISTS));
    counts.print(&format!(
        "the proved piece converter on {LISTS} random lists of calls"
    ));
    agreed(counts.require([0], 10_000));
    agreed(counts.require(1..=11, 150));
}

#[test]
fn random_calls_are_answered_as_the_ledger_says() {
    random_calls_agree(1);
}

#[test]
fn more_random_calls_are_answered_as_the_ledger_says() {
    random_calls_agree(2);
}

#[test]
fn calls_over_states_that_no_calls_made_end_and_stay_inside() {
    const STATES: usize = 100_000;
    let counts = agreed(made_up_random(&PROVED_PIECES, 1, STATES));
    eprintln!("the proved piece converter on {STATES} states that no calls made: {counts:?}");
    let counts = [
        counts.checked,
        counts.accepted,
        counts.faults,
        counts.nowhere,
    ];
    assert!(counts.into_iter().all(|count| count >= 10_000));
}

#[test]
fn a_new_converter_is_zeros() {
    for (source, target) in [(1, 3), (0, u32::MAX), (2, 2)] {
        let state = hemakuliwi::raw::Converter::new(source, target);
        assert_eq!((state.source, state.target), (source, target));
        assert!(state.numbers.iter().all(|number| *number == 0));
        assert!(state
            .ends
            .iter()
            .chain(&state.name_ends)
            .all(|end| *end == 0));
        assert!(state
            .bytes
            .iter()
            .chain(&state.names)
            .all(|byte| *byte == 0));
    }
}

/// A file in the largest pieces, and its end.
fn in_pieces(file: &[u8]) -> Vec<Call<'_>> {
    let pieces = file.chunks(PIECE_BYTES);
    let calls = pieces.map(|piece| Call::Piece(piece, PIECE_ROOM));
    calls.chain([Call::End(PIECE_ROOM)]).collect()
}

#[test]
fn files_about_the_limit_are_converted_as_the_reference_does() {
    let mut comparison = PieceComparison::new(&[proved_lent]);
    for (dialect, record, last) in [
        (
            1,
            "\"Harbour\", \"a\\r\\n\\\"b\\\"\",2.40\r\n",
            ("\"1\",\"2\",\"", "\"\n"),
        ),
        (
            2,
            "\"Harbour\",\"a\r\n\"\"b\"\"\",\\N\r\n",
            ("\"1\",\"2\",\"", "\"\r"),
        ),
        (3, "Harbour,\"a\r\n\"\"b\"\"\",\u{e9}\r\n", ("1,2,", "")),
    ] {
        for length in FILE_BYTES..=FILE_BYTES + 1 {
            let (file, _) = file_of("\"a\",\"b\",\"c\"\n", record, last, length);
            let calls = in_pieces(&file);
            let answers = agreed(comparison.calls_agree(dialect, dialect, &calls));
            let number = answers.last().map(|answer| answer.report.number);
            assert_eq!(number, Some(if length > FILE_BYTES { 8 } else { 0 }));
        }
    }
}

#[test]
fn texts_about_the_limit_are_written_as_the_reference_does() {
    let mut comparison = PieceComparison::new(&[proved_lent]);
    for (to, _) in DIALECTS {
        for more in 0..2 {
            let file = file_of_long_text(to, more);
            let answers = agreed(comparison.calls_agree(3, to, &in_pieces(&file)));
            let number = answers.last().map(|answer| answer.report.number);
            assert_eq!(number, Some(9 * more), "to {to}");
        }
    }
}
