//! The thresholds: the part of a peer's speed that a proved call is to have at least, job by job, and the table that reports whether it
//! has.

use crate::measure::Speeds;
use crate::workload::{FARES, NOTES, SCRIPTS, SETTLEMENTS};
use crate::{converting, reading};
use reference::Dialect::{self, CsvPlus, Csvj, Tdif};

/// What is done with a table.
#[derive(Clone, Copy, PartialEq, Eq)]
pub enum Task {
    /// Reading a file of this dialect.
    Read(Dialect),
    /// Converting a file of the first dialect to the second.
    Convert(Dialect, Dialect),
}

/// A proved call beside a peer, on tables that each have a threshold.
struct Job {
    name: &'static str,
    task: Task,
    /// The contestant that is proved.
    proved: &'static str,
    /// The contestant that it is compared with.
    peer: &'static str,
    tables: &'static [&'static str],
    /// For each table the part of the peer's speed that is to be reached, by the best round and by the median one.
    thresholds: &'static [f64],
}

const ALL: &[&str] = &[FARES.name, SETTLEMENTS.name, NOTES.name];

const JOBS: [Job; 8] = [
    Job {
        name: "read CSV+, both passes",
        task: Task::Read(CsvPlus),
        proved: reading::PROVED,
        peer: "csv-core",
        tables: ALL,
        thresholds: &[0.85, 0.85, 1.2],
    },
    Job {
        name: "read CSVJ, both passes",
        task: Task::Read(Csvj),
        proved: reading::PROVED,
        peer: "serde_json, values skipped",
        tables: ALL,
        thresholds: &[0.8, 0.8, 1.0],
    },
    Job {
        name: "CSV+ to CSVJ, whole",
        task: Task::Convert(CsvPlus, Csvj),
        proved: converting::PROVED,
        peer: "csv, serde_json",
        tables: ALL,
        thresholds: &[1.0, 1.0, 1.5],
    },
    Job {
        name: "CSVJ to CSV+, whole",
        task: Task::Convert(Csvj, CsvPlus),
        proved: converting::PROVED,
        peer: "serde_json, csv",
        tables: ALL,
        thresholds: &[1.0, 0.95, 0.95],
    },
    Job {
        name: "TDIF to CSVJ, whole",
        task: Task::Convert(Tdif, Csvj),
        proved: converting::PROVED,
        peer: "csv, serde_json",
        tables: ALL,
        thresholds: &[1.1, 1.0, 1.5],
    },
    Job {
        name: "pieces of 4,096, lent, CSV+ to CSVJ",
        task: Task::Convert(CsvPlus, Csvj),
        proved: converting::PIECES_OF_4_096,
        peer: "csv, serde_json",
        tables: ALL,
        thresholds: &[1.2, 1.3, 1.7],
    },
    Job {
        name: "pieces of 64, lent, CSV+ to CSVJ",
        task: Task::Convert(CsvPlus, Csvj),
        proved: converting::PIECES_OF_64,
        peer: "csv, serde_json",
        tables: ALL,
        thresholds: &[0.6, 0.5, 0.7],
    },
    Job {
        name: "nearly all non-ASCII, read CSV+, both passes",
        task: Task::Read(CsvPlus),
        proved: reading::PROVED,
        peer: "csv, StringRecord",
        tables: &[SCRIPTS.name],
        thresholds: &[0.85],
    },
];

impl Job {
    fn is_about(&self, task: Task, table: &str) -> bool {
        self.task == task && self.tables.contains(&table)
    }

    /// The peer, and what it is given where that is not the file.
    fn peer(&self) -> String {
        match self.task {
            Task::Convert(Tdif, _) => format!("{} on the table as CSV+", self.peer),
            _ => self.peer.to_string(),
        }
    }
}

/// What is measured.
#[derive(Clone, Copy, PartialEq, Eq)]
pub enum Scope {
    /// All contestants on all tables.
    Everything,
    /// Those that have a threshold, and the peers that they are compared with.
    Thresholds,
}

impl Scope {
    /// Whether anything is measured of this task on the table of this name.
    pub fn has(self, task: Task, table: &str) -> bool {
        self == Self::Everything || JOBS.iter().any(|job| job.is_about(task, table))
    }

    /// Whether a contestant is measured there.
    pub fn takes(self, task: Task, table: &str, contestant: &str) -> bool {
        let mut jobs = JOBS.iter().filter(|job| job.is_about(task, table));
        self == Self::Everything || jobs.any(|job| [job.proved, job.peer].contains(&contestant))
    }
}

/// What was measured of a task on a table, in rounds.
pub struct Measured {
    /// The task.
    pub task: Task,
    /// The table's name.
    pub table: String,
    /// How fast each contestant was.
    pub speeds: Vec<Speeds>,
}

impl Measured {
    fn speeds_of(&self, contestant: &str) -> Option<&Speeds> {
        self.speeds.iter().find(|speeds| speeds.name == contestant)
    }
}

/// A proved call's speed as a part of a peer's, on one table.
struct Ratio {
    best: f64,
    median: f64,
}

impl Job {
    /// For each table, as far as both contestants were measured on it.
    fn ratios(&self, measured: &[Measured]) -> Vec<Option<Ratio>> {
        let on_table = |table: &&str| {
            let measured = measured
                .iter()
                .find(|measured| (measured.task, measured.table.as_str()) == (self.task, *table))?;
            let proved = measured.speeds_of(self.proved)?;
            let peer = measured.speeds_of(self.peer)?;
            Some(Ratio {
                best: proved.best / peer.best,
                median: proved.median / peer.median,
            })
        };
        self.tables.iter().map(on_table).collect()
    }

    fn outcome(&self, ratios: &[Option<Ratio>]) -> &'static str {
        let reaches = |(ratio, threshold): (&Option<Ratio>, &f64)| {
            let ratio = ratio.as_ref()?;
            Some(ratio.best >= *threshold && ratio.median >= *threshold)
        };
        let reached: Option<Vec<bool>> = ratios.iter().zip(self.thresholds).map(reaches).collect();
        match reached {
            None => "not measured",
            Some(reached) if reached.contains(&false) => "not met",
            Some(_) => "met",
        }
    }

    fn row(&self, measured: &[Measured]) -> [String; 6] {
        let ratios = self.ratios(measured);
        let by = |round: fn(&Ratio) -> f64| {
            let shown = ratios.iter().map(|ratio| match ratio {
                Some(ratio) => format!("{:.3}", round(ratio)),
                None => "-".to_string(),
            });
            shown.collect::<Vec<_>>().join(" / ")
        };
        let thresholds = self.thresholds.iter();
        let thresholds: Vec<String> = thresholds.map(|one| format!("{one:.2}")).collect();
        [
            self.name.to_string(),
            self.peer(),
            by(|ratio| ratio.best),
            by(|ratio| ratio.median),
            thresholds.join(" / "),
            self.outcome(&ratios).to_string(),
        ]
    }
}

/// Prints a row for each job, as `docs/TESTING.md` has them.
pub fn print(measured: &[Measured], versions: &str) {
    println!(
        "\nthe thresholds: the proved call's speed as a part of the peer's on {}, in the last row on {}; met where it reaches the \
         threshold on each table, by the best round and by the median one",
        ALL.join(" / "),
        SCRIPTS.name
    );
    println!("the peers: {versions}\n");
    let head = ["job", "peer", "best", "median", "threshold", ""].map(str::to_string);
    let mut rows = vec![head];
    rows.extend(JOBS.iter().map(|job| job.row(measured)));
    let widths = [0, 1, 2, 3, 4, 5].map(|column| {
        let cells = rows.iter().map(|row| row[column].len());
        cells.max().unwrap_or(0)
    });
    rows.insert(1, widths.map(|width| "-".repeat(width)));
    for row in rows {
        let cells = row.iter().zip(widths);
        let cells: Vec<String> = cells
            .map(|(cell, width)| format!("{cell:width$}"))
            .collect();
        println!("| {} |", cells.join(" | "));
    }
}

#[cfg(test)]
mod tests {
    use super::*;

    /// The first job on its first table, with the peer at 100 MB a second, and the other tables at twice the threshold.
    fn measured(best: f64, median: f64) -> Vec<Measured> {
        let job = &JOBS[0];
        let on_table = |(index, table): (usize, &&str)| {
            let speeds = |name, best, median| Speeds { name, best, median };
            let (best, median) = match index {
                0 => (best, median),
                _ => {
                    let twice = 200.0 * job.thresholds[index];
                    (twice, twice)
                }
            };
            Measured {
                task: job.task,
                table: table.to_string(),
                speeds: vec![
                    speeds(job.proved, best, median),
                    speeds(job.peer, 100.0, 100.0),
                ],
            }
        };
        job.tables.iter().enumerate().map(on_table).collect()
    }

    fn outcome(measured: &[Measured]) -> &'static str {
        JOBS[0].outcome(&JOBS[0].ratios(measured))
    }

    #[test]
    fn a_threshold_is_met_by_both_rounds_on_each_table() {
        assert_eq!(outcome(&measured(85.0, 85.0)), "met");
        assert_eq!(outcome(&measured(84.9, 90.0)), "not met");
        assert_eq!(outcome(&measured(90.0, 84.9)), "not met");
        let all = measured(90.0, 90.0);
        assert_eq!(outcome(&all[1..]), "not measured");
        assert_eq!(JOBS[0].row(&all[1..])[2], "- / 1.700 / 2.400");
    }

    #[test]
    fn each_table_of_a_job_has_a_threshold() {
        assert!(JOBS
            .iter()
            .all(|job| job.tables.len() == job.thresholds.len()));
    }
}
