//! Runs the vectors of a folder: `vectors [FOLDER]`.

use harness::{runner, vectors, vectors_folder};
use std::env;
use std::path::PathBuf;
use std::process::ExitCode;

fn main() -> ExitCode {
    let folder = env::args_os()
        .nth(1)
        .map_or_else(vectors_folder, PathBuf::from);
    let outcome = vectors::load_folder(&folder)
        .and_then(|cases| runner::run(&cases))
        .and_then(|tally| tally.check_minimums().map(|()| tally));
    match outcome {
        Ok(tally) => {
            println!("All cases agree: {tally}.");
            ExitCode::SUCCESS
        }
        Err(differences) => {
            eprintln!("{differences}");
            ExitCode::FAILURE
        }
    }
}
