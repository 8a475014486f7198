//! Measures the proved reader against memcpy, the reference implementation and other readers, and the proved converters, of whole files
//! and of files in pieces, against the reference implementation and other libraries, and prints all in one run, at its end which
//! thresholds the proved calls meet.
//!
//! All contestants run over the same tables in rounds. Each has to find as many cells as the reference implementation, or to write the
//! same text. Speeds are in MB (10^6 bytes) a second, by the best round and by the median one. Other libraries are passed in as peers, so
//! that this package builds where they are not installed.

mod converting;
mod measure;
mod reading;
mod thresholds;
mod workload;

pub use converting::ConvertingPeer;
pub use reading::ReadingPeer;

use harness::DIALECTS;
use std::env;
use std::ffi::OsString;
use std::path::PathBuf;
use std::process::ExitCode;
use thresholds::{Measured, Scope};

/// How often each contestant runs over each table, unless the command line says otherwise.
const ROUNDS: usize = 9;

const USAGE: &str = "usage: benchmark [FOLDER [ROUNDS]]\n       benchmark --thresholds [ROUNDS]";

/// Other libraries.
#[derive(Default)]
pub struct Peers<'a> {
    /// Their names and versions.
    pub versions: String,
    /// The readers among them.
    pub reading: &'a [ReadingPeer],
    /// The converters made of them.
    pub converting: &'a [ConvertingPeer],
}

impl Peers<'_> {
    fn are_missing(&self) -> bool {
        self.reading.is_empty() && self.converting.is_empty()
    }
}

/// What the command line requires.
struct Command {
    scope: Scope,
    /// The folder of the tables; without one they are of the benchmark's own making.
    folder: Option<PathBuf>,
    rounds: usize,
}

impl Command {
    fn parse(mut arguments: impl Iterator<Item = OsString>) -> Option<Self> {
        let (scope, folder) = match arguments.next() {
            None => (Scope::Everything, None),
            Some(word) if word == "--thresholds" => (Scope::Thresholds, None),
            Some(word) => (Scope::Everything, Some(PathBuf::from(word))),
        };
        let rounds = match arguments.next() {
            None => ROUNDS,
            Some(word) => word.to_str()?.parse().ok()?,
        };
        let is_sound = rounds > 0 && arguments.next().is_none();
        is_sound.then_some(Self {
            scope,
            folder,
            rounds,
        })
    }
}

/// Measures as the command line says.
pub fn main(peers: &Peers) -> ExitCode {
    let Some(command) = Command::parse(env::args_os().skip(1)) else {
        eprintln!("{USAGE}");
        return ExitCode::from(2);
    };
    match run(&command, peers) {
        Ok(()) => ExitCode::SUCCESS,
        Err(error) => {
            eprintln!("benchmark: {error}");
            ExitCode::FAILURE
        }
    }
}

fn run(command: &Command, peers: &Peers) -> Result<(), String> {
    let (scope, rounds) = (command.scope, command.rounds);
    if scope == Scope::Thresholds && peers.are_missing() {
        return Err(
            "the thresholds are about csv, csv-core and serde_json, which are not installed"
                .to_string(),
        );
    }
    match scope {
        Scope::Everything => println!(
            "{rounds} rounds; MB is 10^6 bytes; 'reader' is the proved reader's speed as a part of this one's"
        ),
        Scope::Thresholds => println!("{rounds} rounds"),
    }
    if let Some(folder) = &command.folder {
        return measure_files(&workload::files(folder)?, rounds, peers);
    }
    let measured = measure_own_tables(scope, rounds, peers)?;
    if peers.are_missing() {
        println!("\ncsv, csv-core and serde_json were not measured, so no threshold was checked");
    } else {
        thresholds::print(&measured, &peers.versions);
    }
    Ok(())
}

fn measure_files(paths: &[PathBuf], rounds: usize, peers: &Peers) -> Result<(), String> {
    let scope = Scope::Everything;
    for path in paths {
        reading::compare(&workload::load(path)?, rounds, peers.reading, scope)?;
    }
    converting::print_head();
    for path in paths {
        let table = workload::load(path)?;
        for target in DIALECTS {
            converting::compare(&table, target, rounds, peers.converting, scope)?;
        }
    }
    Ok(())
}

fn measure_own_tables(scope: Scope, rounds: usize, peers: &Peers) -> Result<Vec<Measured>, String> {
    let mut measured = Vec::new();
    for table in workload::tables(scope) {
        measured.push(reading::compare(&table, rounds, peers.reading, scope)?);
    }
    if scope == Scope::Everything {
        converting::print_head();
    }
    for (table, target) in workload::conversions(scope) {
        let peers = peers.converting;
        measured.extend(converting::compare(&table, target, rounds, peers, scope)?);
    }
    Ok(measured)
}
