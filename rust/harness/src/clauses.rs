//! The clauses of `docs/RULES.md`, by their numbers.

use std::fmt;

/// A clause's number: section and place in it.
#[derive(Clone, Copy, Debug, PartialEq, Eq, PartialOrd, Ord)]
pub struct Clause(pub u32, pub u32);

impl fmt::Display for Clause {
    fn fmt(&self, f: &mut fmt::Formatter<'_>) -> fmt::Result {
        write!(f, "{}.{}", self.0, self.1)
    }
}

/// A number N.M at the beginning of a text, and how many bytes it has.
pub fn number(text: &str) -> Option<(Clause, usize)> {
    let digits = |s: &str| s.bytes().take_while(u8::is_ascii_digit).count();
    let section = digits(text);
    let rest = text[section..].strip_prefix('.')?;
    let place = digits(rest);
    let clause = Clause(text[..section].parse().ok()?, rest[..place].parse().ok()?);
    Some((clause, section + 1 + place))
}

/// The clause that a line declares: its number in bold at the beginning of the line or of a table's row.
pub fn declared(line: &str) -> Option<Clause> {
    let line = line.strip_prefix("| ").unwrap_or(line);
    let bold = line.strip_prefix("**")?;
    let (clause, length) = number(bold)?;
    bold[length..].starts_with("**").then_some(clause)
}
