//! The vectors and the CSVJ conformance set.

use harness::{conformance, runner, vectors, vectors_folder};

#[test]
fn vectors_agree() {
    let cases = vectors::load_folder(&vectors_folder()).unwrap_or_else(|error| panic!("{error}"));
    let tally = runner::run(&cases).unwrap_or_else(|error| panic!("{error}"));
    eprintln!("vectors: {tally}");
    tally
        .check_minimums()
        .unwrap_or_else(|error| panic!("{error}"));
}

#[test]
fn conformance_set_agrees() {
    let folder = vectors_folder().join("csvj-conformance");
    let tally = conformance::run(&folder).unwrap_or_else(|error| panic!("{error}"));
    eprintln!(
        "conformance set: {} accepted, {} rejected",
        tally.accepted, tally.rejected
    );
}
