//! The figures of the documents: `figures` prints them, `figures --write` writes `docs/FIGURES.md` and the figures of the other documents,
//! and `figures --times LOG` takes the seconds that each proof took from what `scripts/check-times.sh` printed.

use harness::figures::{count, crates, documents, FILE};
use harness::repository;
use std::env;
use std::fs;
use std::path::Path;
use std::process::ExitCode;

fn main() -> ExitCode {
    let words: Vec<String> = env::args().skip(1).collect();
    let words: Vec<&str> = words.iter().map(String::as_str).collect();
    let outcome = match words[..] {
        [] => print(),
        ["--write"] => write(),
        ["--times", log] => write_times(log),
        _ => {
            eprintln!("usage: figures [--write | --times LOG]");
            return ExitCode::from(2);
        }
    };
    match outcome {
        Ok(()) => ExitCode::SUCCESS,
        Err(error) => {
            eprintln!("figures: {error}");
            ExitCode::FAILURE
        }
    }
}

fn print() -> Result<(), String> {
    print!("{}", count(&repository())?.print());
    Ok(())
}

fn write() -> Result<(), String> {
    let figures = count(&repository())?;
    let file = repository().join(FILE);
    let generated = figures.file()?;
    if fs::read_to_string(&file).is_ok_and(|old| old == generated) {
        println!("{FILE} is up to date");
    } else {
        replace(&file, &generated)?;
    }
    for path in documents(&repository())? {
        let in_file = |error: String| format!("{}: {error}", path.display());
        let old = fs::read_to_string(&path).map_err(|error| in_file(error.to_string()))?;
        let new = figures.fill(&old).map_err(in_file)?;
        if new != old {
            replace(&path, &new)?;
        }
    }
    Ok(())
}

fn write_times(log: &str) -> Result<(), String> {
    let text = fs::read_to_string(log).map_err(|error| format!("{log}: {error}"))?;
    let times = crates::renewed_times(&repository(), &text)?;
    replace(&repository().join(crates::TIMES), &times)
}

fn replace(path: &Path, text: &str) -> Result<(), String> {
    fs::write(path, text).map_err(|error| format!("{}: {error}", path.display()))?;
    let root = repository();
    let name = path.strip_prefix(&root).unwrap_or(path);
    println!("{} is written", name.display());
    Ok(())
}
