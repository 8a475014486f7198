//! Files read.

use crate::measure::{in_rounds, Contestant, Speeds};
use crate::thresholds::{Measured, Scope, Task};
use crate::workload::Table;
use harness::compare::proved_reader;
use harness::lists::Reader;
use harness::whole::read_whole;
use reference::Dialect;
use std::hint::black_box;

/// The proved reader among the contestants.
pub const PROVED: &str = "proved reader";

/// Another reader.
pub struct ReadingPeer {
    /// Its name.
    pub name: &'static str,
    /// The dialect whose files it is measured on.
    pub dialect: Dialect,
    /// The file as this reader takes it. It is not measured, and the reader's speed is that for what it takes.
    pub prepare: fn(&[u8]) -> Vec<u8>,
    /// Reads a prepared file and returns how many cells it has.
    pub read: fn(&[u8]) -> usize,
}

/// The cells of a file, as a reader lists them.
#[derive(PartialEq, Eq)]
struct Cells {
    starts: Vec<usize>,
    ends: Vec<usize>,
    kinds: Vec<u8>,
}

impl Cells {
    fn room(cells: usize) -> Self {
        Self {
            starts: vec![0; cells],
            ends: vec![0; cells],
            kinds: vec![0; cells],
        }
    }

    /// Reads a file into the lists and returns how many cells it has; none on refusal.
    fn fill(&mut self, reader: Reader, dialect: u32, file: &[u8]) -> usize {
        let (starts, ends, kinds) = (&mut self.starts, &mut self.ends, &mut self.kinds);
        reader(dialect, file, starts, ends, kinds).cells
    }
}

/// Measures on one table what the scope takes, and prints that if it is everything.
pub fn compare(
    table: &Table,
    rounds: usize,
    peers: &[ReadingPeer],
    scope: Scope,
) -> Result<Measured, String> {
    let (dialect, file) = (table.number, &table.file[..]);
    let task = Task::Read(table.dialect);
    let is_taken = |name: &str| scope.takes(task, &table.name, name);
    let cells = read_whole(dialect, file)
        .map_err(|report| format!("{}: {}", table.title(), report.sentence()))?
        .kinds
        .len();
    let (mut ours, mut theirs) = (Cells::room(cells), Cells::room(cells));
    ours.fill(proved_reader, dialect, file);
    theirs.fill(reference::read, dialect, file);
    if ours != theirs {
        return Err(format!("{}: the cells differ", table.title()));
    }
    let mut copy = vec![0; file.len()];
    let peers: Vec<(&ReadingPeer, Vec<u8>)> = peers
        .iter()
        .filter(|peer| peer.dialect == table.dialect && is_taken(peer.name))
        .map(|peer| (peer, (peer.prepare)(file)))
        .collect();
    let mut contestants = vec![
        Contestant::new("memcpy", file, |file| {
            copy.copy_from_slice(file);
            black_box(&mut copy);
            cells
        }),
        Contestant::new(PROVED, file, |file| {
            let found = ours.fill(proved_reader, dialect, file);
            black_box(&mut ours);
            found
        }),
        Contestant::new("reference implementation", file, |file| {
            let found = theirs.fill(reference::read, dialect, file);
            black_box(&mut theirs);
            found
        }),
    ];
    contestants.retain(|contestant| is_taken(contestant.name()));
    contestants.extend(
        peers
            .iter()
            .map(|(peer, prepared)| Contestant::new(peer.name, prepared, peer.read)),
    );
    let speeds = in_rounds(&mut contestants, rounds, cells, "cells")
        .map_err(|error| format!("{}: {error}", table.title()))?;
    if scope == Scope::Everything {
        print_speeds(table, cells, &speeds);
    }
    Ok(Measured {
        task,
        table: table.name.clone(),
        speeds,
    })
}

/// Of memcpy, the proved reader, the reference implementation and the peers.
fn print_speeds(table: &Table, cells: usize, speeds: &[Speeds]) {
    println!(
        "\n{}: {} bytes, {cells} cells",
        table.title(),
        table.file.len()
    );
    println!(
        "  {:26} {:>10} {:>9} {:>8}   {:>10} {:>9} {:>8}",
        "", "best MB/s", "of memcpy", "reader", "median", "of memcpy", "reader"
    );
    let (copy, reader) = (&speeds[0], &speeds[1]);
    for speed in speeds {
        println!(
            "  {:26} {:>10.1} {:>9.4} {:>8.3}   {:>10.1} {:>9.4} {:>8.3}",
            speed.name,
            speed.best,
            speed.best / copy.best,
            reader.best / speed.best,
            speed.median,
            speed.median / copy.median,
            reader.median / speed.median
        );
    }
}
