//! Which reports a test met, so that one that never met a case is no test of it.

use crate::DIALECTS;
use std::fmt::{Display, Formatter, Result as Printed};
use std::ops::AddAssign;

/// How often each report number came up in each dialect.
#[derive(Clone, Debug, Default, PartialEq, Eq)]
pub struct Counts([[usize; 13]; 3]);

impl Counts {
    /// Counts a report of a file or cell of this dialect.
    pub fn add(&mut self, dialect: u32, number: usize) {
        self.0[dialect as usize - 1][number] += 1;
    }

    /// How often a report number came up in a dialect.
    pub fn of(&self, dialect: u32, number: usize) -> usize {
        self.0[dialect as usize - 1][number]
    }

    /// Prints the counts to standard error.
    pub fn print(&self, what: &str) {
        for ((dialect, _), counts) in DIALECTS.iter().zip(&self.0) {
            eprintln!("{what}, dialect {dialect}: reports by number {counts:?}");
        }
    }

    /// An error unless each of these numbers came up often enough in each dialect.
    pub fn require(
        &self,
        numbers: impl IntoIterator<Item = usize>,
        least: usize,
    ) -> Result<(), String> {
        for number in numbers {
            for ((dialect, _), counts) in DIALECTS.iter().zip(&self.0) {
                // CSV+ has text only, so that no header cell can be of another kind.
                let can_arise = (*dialect, number) != (3, 7);
                if can_arise && counts[number] < least {
                    return Err(format!("dialect {dialect} has too few reports {number}"));
                }
            }
        }
        Ok(())
    }
}

impl AddAssign<&Self> for Counts {
    fn add_assign(&mut self, other: &Self) {
        let places = self.0.iter_mut().zip(&other.0);
        for (count, more) in places.flat_map(|(counts, more)| counts.iter_mut().zip(more)) {
            *count += more;
        }
    }
}

/// A line for each dialect, with the numbers that came up.
impl Display for Counts {
    fn fmt(&self, out: &mut Formatter) -> Printed {
        for ((_, dialect), counts) in DIALECTS.iter().zip(&self.0) {
            write!(out, "    {:<7}", format!("{dialect:?}"))?;
            for (number, count) in counts.iter().enumerate().filter(|(_, count)| **count > 0) {
                write!(out, "  {number}: {count}")?;
            }
            writeln!(out)?;
        }
        Ok(())
    }
}
