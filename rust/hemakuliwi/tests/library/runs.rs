//! The stored runs of the proved program on standard input: the same words, texts and sentences come from the library.

use hemakuliwi::{convert_stream, Dialect, StreamError};
use std::fs;
use std::path::{Path, PathBuf};

/// The fewest stored runs that convert: nine pairs of dialects, nine faults and an empty input.
const LEAST_RUNS: usize = 19;

fn folder() -> PathBuf {
    Path::new(env!("CARGO_MANIFEST_DIR")).join("../harness/tests/program_runs/runs")
}

/// The two dialects that the arguments of a run name, unless they are arguments that the program refuses.
fn dialects(words: &str) -> Option<(Dialect, Dialect)> {
    let words: Vec<&str> = words.lines().collect();
    match words[..] {
        [from, to] => Some((from.parse().ok()?, to.parse().ok()?)),
        _ => None,
    }
}

#[test]
fn the_program_and_the_library_write_and_say_the_same() {
    let mut runs = 0;
    for entry in fs::read_dir(folder()).expect("the folder of the runs") {
        let args = entry.expect("an entry").path();
        if args.extension().is_none_or(|ending| ending != "args") {
            continue;
        }
        let part = |ending: &str| fs::read(args.with_extension(ending)).expect("a part of a run");
        let said = String::from_utf8(part("err")).expect("a sentence");
        let words = fs::read_to_string(&args).expect("arguments");
        let Some((from, to)) = dialects(&words) else {
            assert!(said.starts_with("usage: "), "{}", args.display());
            continue;
        };

        let mut text = Vec::new();
        let sentence = match convert_stream(from, to, &part("in")[..], &mut text) {
            Ok(_) => String::new(),
            Err(StreamError::Refused(refusal)) => {
                format!("refused ({}): {refusal}\n", refusal.fault.number())
            }
            Err(other) => panic!("{other}"),
        };
        assert_eq!(sentence, said, "{}", args.display());
        assert_eq!(text, part("out"), "{}", args.display());
        runs += 1;
    }
    assert!(runs >= LEAST_RUNS, "{runs} runs");
}
