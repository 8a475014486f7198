//! The text of a table that is given by its values.

use crate::refusal::accepted;
use crate::{raw, Dialect, Fault, Refusal, Value};

/// The canonical text of a table in a dialect. The first row is the header, and all rows have as many values.
///
/// Values are a [`Value`], or anything that is one: strings, integers, truth values, options of these, the cells of a table that was read.
///
/// ```
/// use hemakuliwi::{write, Dialect, Value};
/// let text = write(Dialect::CsvPlus, [["stop", "fare"], ["Harbour", "2.40"]])?;
/// assert_eq!(text, b"stop,fare\r\nHarbour,2.40\r\n");
///
/// let rows = [
///     [Value::text("stop"), Value::text("fare")],
///     [Value::text("Old \"Mint\""), Value::number("2.40")],
///     [Value::text("Harbour"), Value::Null],
/// ];
/// let text = write(Dialect::Csvj, &rows)?;
/// assert_eq!(text, b"\"stop\",\"fare\"\n\"Old \\\"Mint\\\"\",2.40\n\"Harbour\",null\n");
/// # Ok::<(), hemakuliwi::Refusal>(())
/// ```
///
/// # Errors
///
/// A refusal has the record and the column, and offset 0. It is
///
/// - [`NoTable`](Fault::NoTable) if there is no header, a row has another number of values, a number is not spelt as one, or a text is not
///   UTF-8 with perhaps lone surrogates;
/// - [`Limit`](Fault::Limit) if there are more than 64 columns;
/// - [`HeaderKind`](Fault::HeaderKind) or [`RepeatedName`](Fault::RepeatedName) if the header's values are not text, or not distinct by
///   the dialect's rule;
/// - [`NotCarried`](Fault::NotCarried) if the dialect lacks such a value, or the record or the file gets too long in it.
///
/// ```
/// use hemakuliwi::{write, Dialect, Fault};
/// let refusal = write(Dialect::Tdif, [["stop", "Stop"]]).unwrap_err();
/// assert_eq!((refusal.fault, refusal.record, refusal.column), (Fault::RepeatedName, 1, 2));
/// let refusal = write(Dialect::Tdif, [vec!["stop", "fare"], vec!["Harbour"]]).unwrap_err();
/// assert_eq!(refusal.fault, Fault::NoTable);
/// ```
pub fn write<'a, Rows>(dialect: Dialect, rows: Rows) -> Result<Vec<u8>, Refusal>
where
    Rows: IntoIterator,
    Rows::Item: IntoIterator,
    <Rows::Item as IntoIterator>::Item: Into<Value<'a>>,
{
    let mut gathered = Gathered::default();
    for row in rows {
        gathered.take_row(row.into_iter().map(Into::into))?;
    }
    gathered.text(dialect)
}

/// The values of a table as the library takes them: their contents one after the other, and where each stands.
#[derive(Default)]
struct Gathered {
    content: Vec<u8>,
    starts: Vec<usize>,
    ends: Vec<usize>,
    kinds: Vec<u8>,
    columns: usize,
    records: usize,
}

impl Gathered {
    fn take_row<'a>(&mut self, values: impl Iterator<Item = Value<'a>>) -> Result<(), Refusal> {
        let before = self.kinds.len();
        for value in values {
            self.starts.push(self.content.len());
            self.content.extend_from_slice(value.content());
            self.ends.push(self.content.len());
            self.kinds.push(value.kind().number());
        }
        let cells = self.kinds.len() - before;
        if self.records == 0 {
            self.columns = cells;
        }
        self.records += 1;
        // The library sees all cells in one list, where a row too long could make up for one too short.
        if cells != self.columns {
            return Err(Refusal::of_call(Fault::NoTable));
        }
        Ok(())
    }

    fn text(&self, dialect: Dialect) -> Result<Vec<u8>, Refusal> {
        let table = raw::Table {
            content: &self.content,
            starts: &self.starts,
            ends: &self.ends,
            kinds: &self.kinds,
            columns: self.columns,
            records: self.records,
        };
        let mut text = vec![0; self.room()];
        let answer = raw::write(dialect.number(), table, &mut text);
        accepted(answer.report)?;
        text.truncate(answer.length);
        text.shrink_to_fit();
        Ok(text)
    }

    /// Room that is enough, by the promise of the call in C.
    fn room(&self) -> usize {
        let most = 6 * (self.content.len() + self.kinds.len()) + self.records;
        most.min(raw::FILE_BYTES)
    }
}
