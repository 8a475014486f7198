//! Measuring in rounds, in each of which every contestant runs once, so that other load of the machine affects all alike, and without
//! the time for which other threads had the processor.

use std::fs;
use std::hint::black_box;
use std::time::{Duration, Instant};

/// Runs over bytes and returns how many cells they have, or how many bytes it wrote.
type Work<'a> = Box<dyn FnMut(&[u8]) -> usize + 'a>;

/// A reader or a converter, or what it is measured by, with what it reads.
pub struct Contestant<'a> {
    name: &'static str,
    input: &'a [u8],
    /// The length that its speed is computed for.
    length: usize,
    work: Work<'a>,
    seconds: Vec<f64>,
}

impl<'a> Contestant<'a> {
    /// A contestant that has not run. Its speed is computed for what it reads.
    pub fn new(name: &'static str, input: &'a [u8], work: impl FnMut(&[u8]) -> usize + 'a) -> Self {
        Self {
            name,
            input,
            length: input.len(),
            work: Box::new(work),
            seconds: Vec::new(),
        }
    }

    /// Its name.
    pub fn name(&self) -> &'static str {
        self.name
    }

    /// The same one, whose speed is computed for this many bytes.
    pub fn measured_for(self, length: usize) -> Self {
        Self { length, ..self }
    }

    /// One run, which is measured. Both readings of the waiting time are inside the time from which it is subtracted.
    fn run(&mut self) -> usize {
        let began = Instant::now();
        let waited_before = waited();
        let done = (self.work)(black_box(self.input));
        let waiting = waited() - waited_before;
        let seconds = began.elapsed().saturating_sub(waiting).as_secs_f64();
        self.seconds.push(seconds);
        done
    }

    fn speeds(&self) -> Speeds {
        let mut seconds = self.seconds.clone();
        seconds.sort_by(f64::total_cmp);
        let megabytes = self.length as f64 / 1e6;
        Speeds {
            name: self.name,
            best: megabytes / seconds[0],
            median: megabytes / seconds[seconds.len() / 2],
        }
    }
}

/// How long this thread has had to wait for a processor so far; nothing where the system does not report it.
fn waited() -> Duration {
    let statistics = fs::read_to_string("/proc/thread-self/schedstat").unwrap_or_default();
    let waited = statistics.split_whitespace().nth(1);
    let nanoseconds = waited.and_then(|word| word.parse().ok()).unwrap_or(0);
    Duration::from_nanos(nanoseconds)
}

/// How fast a contestant was, in MB a second.
pub struct Speeds {
    /// The contestant's name.
    pub name: &'static str,
    /// In its best round.
    pub best: f64,
    /// In its median round.
    pub median: f64,
}

/// As many rounds, after one that does not count. Each run has to return the expected number of `what`.
pub fn in_rounds(
    contestants: &mut [Contestant],
    rounds: usize,
    expected: usize,
    what: &str,
) -> Result<Vec<Speeds>, String> {
    for round in 0..=rounds {
        for contestant in contestants.iter_mut() {
            let done = contestant.run();
            if done != expected {
                let name = contestant.name;
                return Err(format!("{name} has {done} {what} and not {expected}"));
            }
            if round == 0 {
                contestant.seconds.clear();
            }
        }
    }
    Ok(contestants.iter().map(Contestant::speeds).collect())
}
