//! The reference implementation: reads, writes and converts tables in three dialects, CSVJ (1), TDIF (2) and CSV+ (3). It is written
//! from the rules (docs/RULES.md) with the standard library only, is not proved, and shares nothing with the proved one.
//!
//! A file is scanned by position, one record at a time (`records`); each record is checked as a whole when it ends (`checks`) and, if
//! converting, written as the target's canonical text (`text`). The whole-file calls scan the whole file; the piece converter scans the
//! bytes of the current record followed by the new piece.

mod cell;
mod checks;
mod content;
mod convert;
mod cursor;
mod decode;
mod dialect;
pub mod limits;
mod pieces;
mod read;
mod records;
mod report;
mod text;
mod utf8;
mod write;

pub use convert::{convert, Converted};
pub use decode::{decode, Decoded};
pub use dialect::{Dialect, Kind};
pub use pieces::Converter;
pub use read::{read, ReadAnswer};
pub use report::{Fault, Report};
pub use write::{write, Table};
