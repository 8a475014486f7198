//! The command that compares all calls on random inputs, and that its rounds notice a wrong call.

use harness::compare::{
    proved_converter, proved_lent, proved_reader, proved_writer, Calls, Totals, PROVED,
};
use reference::Report;
use std::process::{Command, Output};

fn compare(words: &[&str]) -> Output {
    let command = env!("CARGO_BIN_EXE_compare");
    let ran = Command::new(command).args(words).output();
    ran.expect("the command runs")
}

#[test]
fn a_seed_and_a_count_give_the_same_run() {
    let run = |seed| compare(&["--seed", seed, "--count", "2000"]);
    let (first, again, other) = (run("7"), run("7"), run("9"));
    assert!(first.status.success() && other.status.success());
    assert!(first.stdout.ends_with(b"2000 inputs agree, seed 7\n"));
    assert_eq!(first.stdout, again.stdout);
    let counts = |output: &Output| output.stdout[..output.stdout.len() / 2].to_vec();
    assert_ne!(counts(&first), counts(&other));
}

#[test]
fn a_time_limit_ends_a_run() {
    let run = compare(&["--seed", "1", "--seconds", "0"]);
    assert!(run.status.success());
    assert!(run.stdout.ends_with(b"0 inputs agree, seed 1\n"));
}

#[test]
fn a_command_line_without_a_sound_seed_is_refused() {
    for words in [
        &[][..],
        &["7"],
        &["--seed"],
        &["--seed", "x"],
        &["--count", "1"],
        &["--seed", "1", "--tests", "1"],
    ] {
        assert_eq!(compare(words).status.code(), Some(2), "{words:?}");
    }
}

/// Each is wrong in one call and in nothing else, and shown with the call that notices it.
const WRONG: [(&str, Calls); 4] = [
    (
        "read ",
        Calls {
            reader: |dialect, file, starts, ends, kinds| {
                let mut answer = proved_reader(dialect, file, starts, ends, kinds);
                answer.records += usize::from(answer.cells > 5);
                answer
            },
            ..PROVED
        },
    ),
    (
        "convert ",
        Calls {
            converter: |from, to, file, room| {
                let answer = proved_converter(from, to, file, room);
                if (from, to, answer.written) == (2, 3, 0) {
                    room.iter_mut().rev().take(1).for_each(|byte| *byte = 0);
                }
                answer
            },
            ..PROVED
        },
    ),
    (
        "write ",
        Calls {
            writer: |target, table, room| {
                let mut answer = proved_writer(target, table, room);
                if answer.report.number == 12 {
                    answer.report = Report {
                        record: 1,
                        ..answer.report
                    };
                }
                answer
            },
            ..PROVED
        },
    ),
    (
        "a converter from ",
        Calls {
            pieces: &[proved_lent, |state, call, out| {
                let made = proved_lent(state, call, out);
                if made.report.number == 10 {
                    state.names[0] ^= 1;
                }
                made
            }],
            ..PROVED
        },
    ),
];

#[test]
fn a_round_notices_a_wrong_call_and_shows_its_input() {
    for (shown, calls) in WRONG {
        let mut totals = Totals::default();
        let difference = totals.round(&calls, 1).expect_err(shown);
        assert!(difference.starts_with(shown), "{difference}");
        assert_eq!(totals.inputs(), 0);
    }
    assert_eq!(Totals::default().round(&PROVED, 1), Ok(()));
}
