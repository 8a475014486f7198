//! Tables in three dialects, [CSVJ](Dialect::Csvj), [TDIF](Dialect::Tdif) and [CSV+](Dialect::CsvPlus): read, written and converted by a
//! library of which every function is proved, for every input.
//!
//! A whole file is read to its records and cells:
//!
//! ```
//! use hemakuliwi::{read, Dialect, Value};
//!
//! let file = br#""stop","fare"
//! "Harbour",2.40
//! "Old \"Mint\"",null
//! "#;
//! let table = read(Dialect::Csvj, file)?;
//! assert_eq!((table.columns(), table.rows().len()), (2, 2));
//! for row in table.rows() {
//!     for cell in row {
//!         println!("{} at byte {}: {}", cell.kind(), cell.start(), cell.to_string_lossy());
//!     }
//! }
//! let fare = table.column_named("fare").expect("a column of fares");
//! let fares: Vec<Value> = table.rows().flat_map(|row| row.get(fare)).map(|cell| cell.value()).collect();
//! assert_eq!(fares, [Value::number("2.40"), Value::Null]);
//! # Ok::<(), hemakuliwi::Refusal>(())
//! ```
//!
//! It is [converted](convert) to the canonical text of another dialect:
//!
//! ```
//! use hemakuliwi::{convert, Dialect};
//!
//! let text = convert(Dialect::Tdif, Dialect::Csvj, br#""stop","fare"
//! "Old ""Mint""",\N
//! "#)?;
//! assert_eq!(text, br#""stop","fare"
//! "Old \"Mint\"",null
//! "#);
//! # Ok::<(), hemakuliwi::Refusal>(())
//! ```
//!
//! A file that comes from a reader is converted in constant memory, each record once it has completed:
//!
//! ```no_run
//! use hemakuliwi::{convert_stream, Dialect};
//! use std::io::{stdin, stdout};
//!
//! let done = convert_stream(Dialect::CsvPlus, Dialect::Csvj, stdin().lock(), stdout().lock())?;
//! eprintln!("{} records, {} bytes", done.records, done.bytes_written);
//! # Ok::<(), hemakuliwi::StreamError>(())
//! ```
//!
//! [`ConvertingWriter`] and [`ConvertingReader`] do this as a writer or a reader over another one, and a [`Converter`] takes pieces from
//! wherever they come. A table is [written](write()) from its values:
//!
//! ```
//! use hemakuliwi::{write, Dialect, Value};
//!
//! let rows = [
//!     [Value::text("stop"), Value::text("fare")],
//!     [Value::text("Harbour"), Value::number("2.40")],
//! ];
//! assert_eq!(write(Dialect::Csvj, &rows)?, br#""stop","fare"
//! "Harbour",2.40
//! "#);
//! # Ok::<(), hemakuliwi::Refusal>(())
//! ```
//!
//! # Refusals
//!
//! What breaks the rules of a dialect, or can't be carried into another one, is refused with its first [`Fault`] and the place: record,
//! column and byte offset. Nothing is guessed and nothing is mended. What comes in pieces is written up to the last record before the fault.
//!
//! ```
//! use hemakuliwi::{convert_stream, Dialect, Fault, StreamError};
//!
//! let file = br#""stop","fare"
//! "Mint","1.80"
//! "Harbour",2.40
//! "#;
//! let mut text = Vec::new();
//! match convert_stream(Dialect::Csvj, Dialect::CsvPlus, &file[..], &mut text) {
//!     Err(StreamError::Refused(refusal)) => {
//!         assert_eq!((refusal.fault, refusal.record, refusal.column), (Fault::NotCarried, 3, 2));
//!         eprintln!("refused: {refusal}");
//!     }
//!     other => panic!("{other:?}"),
//! }
//! assert_eq!(text, b"stop,fare\r\nMint,1.80\r\n");
//! ```
//!
//! # Limits
//!
//! A file has at most 16,777,215 bytes, a record 4,096 bytes and 64 columns. `docs/RULES.md` has all rules, and `docs/GUARANTEES.md` what is
//! proved: the calls of [`raw`], which lend lists and rooms to the library as C does. The types of this page are made over these calls, in
//! Rust without `unsafe`, and are tested and not proved.

#![deny(unsafe_code)]

mod cell;
mod convert;
mod dialect;
#[allow(unsafe_code)]
pub mod raw;
mod reader;
mod refusal;
mod stream;
mod table;
mod text;
mod value;
mod write;
mod writer;

pub use cell::Cell;
pub use convert::{convert, Converter};
pub use dialect::{Dialect, Kind, UnknownDialect};
pub use reader::ConvertingReader;
pub use refusal::{Fault, Refusal};
pub use stream::{convert_stream, Converted, StreamError};
pub use table::{read, Cells, Record, Records, Table};
pub use value::{decode, Value};
pub use write::write;
pub use writer::ConvertingWriter;
