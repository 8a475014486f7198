//! Compares the proved calls with the reference implementation on random inputs: `compare --seed S [--count N] [--seconds T]`.
//!
//! Round k of a run has the seed S + k, so that a seed and a count give the same inputs each time, and a round in which the two differ can
//! be run alone.

use harness::compare::{Totals, PROVED, ROUND};
use std::process::ExitCode;
use std::time::{Duration, Instant};

const USAGE: &str = "usage: compare --seed S [--count N] [--seconds T]
compares rounds of random inputs until there are N of them, until T seconds are over, or until there is a difference";

/// How often a long run reports its progress.
const PULSE: Duration = Duration::from_secs(60);

/// What the command line requires.
struct Run {
    seed: u64,
    rounds: usize,
    time: Duration,
}

impl Run {
    fn parse(mut words: impl Iterator<Item = String>) -> Option<Self> {
        let (mut seed, mut rounds, mut time) = (None, usize::MAX, Duration::MAX);
        while let Some(word) = words.next() {
            let number: u64 = words.next()?.parse().ok()?;
            match word.as_str() {
                "--seed" => seed = Some(number),
                "--count" => rounds = usize::try_from(number).ok()?.div_ceil(ROUND),
                "--seconds" => time = Duration::from_secs(number),
                _ => return None,
            }
        }
        let seed = seed?;
        Some(Self { seed, rounds, time })
    }
}

fn main() -> ExitCode {
    let Some(run) = Run::parse(std::env::args().skip(1)) else {
        eprintln!("{USAGE}");
        return ExitCode::from(2);
    };
    let began = Instant::now();
    let mut next_pulse = PULSE;
    let mut totals = Totals::default();
    let seeds = (run.seed..).take(run.rounds);
    for seed in seeds.take_while(|_| began.elapsed() < run.time) {
        if let Err(difference) = totals.round(&PROVED, seed) {
            println!("{difference}\nagain: compare --seed {seed} --count {ROUND}");
            return ExitCode::FAILURE;
        }
        if began.elapsed() >= next_pulse {
            next_pulse += PULSE;
            eprintln!("{} inputs agree so far", totals.inputs());
        }
    }
    print!("{totals}");
    println!("{} inputs agree, seed {}", totals.inputs(), run.seed);
    eprintln!("in {} s", began.elapsed().as_secs());
    ExitCode::SUCCESS
}
