//! Whether each must-fail edit was refused by a fact: `edit_logs LOG [FOLDER]` reads what `rt ci` or `rt must-fail` printed, in the file
//! LOG, of the edits of the repository or of another folder that is laid out so, and prints a line for each edit that says nothing.

use harness::edit_logs::verdicts;
use harness::repository;
use std::env;
use std::fs;
use std::path::PathBuf;
use std::process::ExitCode;

fn main() -> ExitCode {
    let words: Vec<String> = env::args().skip(1).collect();
    let (log, root) = match &words[..] {
        [log] if !log.starts_with('-') => (log, repository()),
        [log, folder] if !log.starts_with('-') => (log, PathBuf::from(folder)),
        _ => {
            eprintln!("usage: edit_logs LOG [FOLDER]");
            return ExitCode::from(2);
        }
    };
    let read = fs::read(log).map_err(|error| format!("{log}: {error}"));
    let verdicts = match read.and_then(|printed| verdicts(&root, &String::from_utf8_lossy(&printed))) {
        Ok(verdicts) => verdicts,
        Err(error) => {
            eprintln!("edit_logs: {error}");
            return ExitCode::FAILURE;
        }
    };
    let mut refused = 0;
    for (edit, verdict) in &verdicts {
        match verdict {
            Ok(_) => refused += 1,
            Err(reason) => println!("{edit}: {reason}"),
        }
    }
    if refused == verdicts.len() && refused > 0 {
        println!("{refused} edits refused by a law or a proof's fact");
        return ExitCode::SUCCESS;
    }
    println!("{refused} of {} edits refused by a law or a proof's fact", verdicts.len());
    ExitCode::FAILURE
}
