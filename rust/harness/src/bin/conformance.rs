//! Runs a CSVJ conformance set: `conformance [FOLDER]`.

use harness::{conformance, vectors_folder};
use std::env;
use std::path::PathBuf;
use std::process::ExitCode;

fn main() -> ExitCode {
    let folder = env::args_os()
        .nth(1)
        .map_or_else(|| vectors_folder().join("csvj-conformance"), PathBuf::from);
    match conformance::run(&folder) {
        Ok(tally) => {
            println!(
                "The set agrees: {} files accepted, {} rejected.",
                tally.accepted, tally.rejected
            );
            ExitCode::SUCCESS
        }
        Err(differences) => {
            eprintln!("{differences}");
            ExitCode::FAILURE
        }
    }
}
