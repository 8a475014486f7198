//! Writes the vectors, and random cases with the reference implementation's answers, as a crate of equations about the definitions, to
//! be proved by computation.
//!
//! `definitions FOLDER [COUNT [SEED]]` makes FOLDER a repository of two crates: `model`, copied from this one, and
//! `vectors`. `rt check` in the folder of `vectors` then computes every case. COUNT is how many random cases there are.

use std::fs;
use std::io;
use std::path::Path;
use std::process::ExitCode;

use harness::{antt, repository, sampled, vectors, vectors_folder};

/// How many random cases there are unless the command says otherwise.
const RANDOM_CASES: usize = 2_000;

fn main() -> ExitCode {
    let arguments: Vec<String> = std::env::args().skip(1).collect();
    let numbers: Result<Vec<u64>, _> = arguments.iter().skip(1).map(|word| word.parse()).collect();
    let (Some(folder), Ok(numbers)) = (arguments.first(), numbers) else {
        eprintln!("usage: definitions FOLDER [COUNT [SEED]]");
        return ExitCode::from(2);
    };
    let count = numbers
        .first()
        .map_or(RANDOM_CASES, |count| *count as usize);
    let seed = numbers.get(1).map_or(1, |seed| *seed);
    match write_repository(Path::new(folder), count, seed) {
        Ok(said) => {
            println!("{said}");
            ExitCode::SUCCESS
        }
        Err(error) => {
            eprintln!("definitions: {error}");
            ExitCode::FAILURE
        }
    }
}

fn write_repository(folder: &Path, count: usize, seed: u64) -> Result<String, String> {
    let mut cases = vectors::load_folder(&vectors_folder())?;
    let by_hand = cases.len();
    cases.extend(sampled::cases(seed, count)?);
    let module = antt::module(&cases);
    let proofs = folder.join("crates/vectors/proofs");
    let sources = folder.join("crates/vectors/src");
    let made = (|| -> io::Result<()> {
        if folder.exists() {
            fs::remove_dir_all(folder)?;
        }
        fs::create_dir_all(&proofs)?;
        fs::create_dir_all(&sources)?;
        fs::write(folder.join("crates.txt"), "model:\nvectors: model\n")?;
        fs::write(
            sources.join("lib.rt"),
            "// The vectors, computed by the prover.\n#![tactic(auto)]\n",
        )?;
        fs::write(proofs.join("Lib.antt"), "pub mod Vectors\n")?;
        fs::write(proofs.join("Vectors.antt"), &module.text)?;
        let model = repository().join("crates/model");
        for part in ["src", "specs", "proofs"] {
            copy(&model.join(part), &folder.join("crates/model").join(part))?;
        }
        Ok(())
    })();
    made.map_err(|error| format!("{}: {error}", folder.display()))?;
    Ok(format!(
        "definitions: {} of {by_hand} vectors and {count} random cases stated as equations, {} left to the programs for \
         their length",
        module.stated - count,
        module.left_out
    ))
}

fn copy(from: &Path, to: &Path) -> io::Result<()> {
    fs::create_dir_all(to)?;
    for entry in fs::read_dir(from)? {
        let entry = entry?;
        let target = to.join(entry.file_name());
        if entry.file_type()?.is_dir() {
            copy(&entry.path(), &target)?;
        } else {
            fs::copy(entry.path(), target)?;
        }
    }
    Ok(())
}
