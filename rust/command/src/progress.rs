//! How far a long input is, on standard error where that is a terminal that can erase a line: nothing for the first half second, and
//! nothing left at the end.

use crate::paint::is_dumb;
use std::io::{self, IsTerminal, Write};
use std::time::{Duration, Instant};

const QUIET: Duration = Duration::from_millis(500);
const BETWEEN: Duration = Duration::from_millis(100);

pub struct Progress {
    started: Instant,
    /// When it is shown again; none if it is never shown.
    next: Option<Instant>,
    is_shown: bool,
}

impl Progress {
    /// Where the input or the output itself is a terminal, it would stand in the midst of it, and nobody waits for it.
    pub fn new(is_wanted: bool) -> Self {
        let started = Instant::now();
        let is_wanted = is_wanted && io::stderr().is_terminal() && !is_dumb();
        Self {
            started,
            next: is_wanted.then_some(started + QUIET),
            is_shown: false,
        }
    }

    pub fn tick(&mut self, bytes: usize, records: Option<usize>) {
        let now = Instant::now();
        if self.next.is_some_and(|next| next <= now) {
            self.next = Some(now + BETWEEN);
            self.is_shown = true;
            // Nothing depends on whether it is seen.
            let _ = write!(
                io::stderr(),
                "\r\x1b[K{}",
                line(bytes, records, now - self.started)
            );
        }
    }
}

impl Drop for Progress {
    fn drop(&mut self) {
        if self.is_shown {
            let _ = write!(io::stderr(), "\r\x1b[K");
        }
    }
}

fn line(bytes: usize, records: Option<usize>, elapsed: Duration) -> String {
    let records = records.map_or(String::new(), |records| format!(", {records} records"));
    let rate = bytes as f64 / elapsed.as_secs_f64().max(1e-3);
    format!("{}{records}, {}/s", size(bytes as f64), size(rate))
}

fn size(bytes: f64) -> String {
    match bytes {
        0.0..1e3 => format!("{bytes:.0} B"),
        1e3..1e6 => format!("{:.1} kB", bytes / 1e3),
        _ => format!("{:.1} MB", bytes / 1e6),
    }
}

#[cfg(test)]
mod tests {
    use super::*;

    #[test]
    fn a_line_has_bytes_records_and_rate() {
        assert_eq!(
            line(2_500_000, Some(12), Duration::from_secs(2)),
            "2.5 MB, 12 records, 1.2 MB/s"
        );
        assert_eq!(line(999, None, Duration::from_secs(1)), "999 B, 999 B/s");
    }
}
