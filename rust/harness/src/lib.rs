//! Runs the vectors, the CSVJ conformance set and random tests against the reference implementation, compares the proved calls with it,
//! states the vectors for the prover, and reads what refused each must-fail edit.

pub mod antt;
pub mod calls;
pub mod clauses;
#[cfg(feature = "proved")]
pub mod compare;
pub mod conformance;
pub mod counts;
pub mod edit_logs;
pub mod examples;
pub mod figures;
pub mod frames;
pub mod generate;
pub mod installed;
pub mod json;
pub mod ledger;
pub mod lists;
pub mod programs;
pub mod python;
pub mod rng;
pub mod rooms;
pub mod runner;
pub mod sampled;
pub mod vectors;
pub mod whole;

use reference::Dialect;
use std::path::{Path, PathBuf};

/// The dialects with their numbers.
pub const DIALECTS: [(u32, Dialect); 3] = [
    (1, Dialect::Csvj),
    (2, Dialect::Tdif),
    (3, Dialect::CsvPlus),
];

/// Numbers of no dialect; one of them has the low byte of a dialect's.
pub const UNKNOWN: [u32; 4] = [0, 4, 257, u32::MAX];

/// The repository's root folder.
pub fn repository() -> PathBuf {
    Path::new(env!("CARGO_MANIFEST_DIR")).join("../..")
}

/// The folder of the vectors.
pub fn vectors_folder() -> PathBuf {
    repository().join("vectors")
}
