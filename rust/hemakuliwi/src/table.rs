//! The table of a whole file: its records and its cells.

use crate::refusal::accepted;
use crate::{raw, value, Cell, Dialect, Refusal};
use std::fmt;
use std::iter::FusedIterator;
use std::ops::Range;

/// The table that a whole file holds. It borrows the file, and has 17 bytes for each cell.
///
/// ```
/// use hemakuliwi::{read, Dialect};
/// let table = read(Dialect::CsvPlus, b"stop,fare\nHarbour,2.40\nMint,1.80\n")?;
/// let fare = table.column_named("fare").unwrap();
/// for row in table.rows() {
///     println!("record {}: {}", row.number(), row.get(fare).unwrap().to_string_lossy());
/// }
/// # Ok::<(), hemakuliwi::Refusal>(())
/// ```
#[derive(Clone)]
pub struct Table<'f> {
    dialect: Dialect,
    file: &'f [u8],
    columns: usize,
    /// The header too.
    records: usize,
    starts: Vec<usize>,
    ends: Vec<usize>,
    kinds: Vec<u8>,
}

/// The table of a whole file.
///
/// # Errors
///
/// The file's first fault, which is one of 1 to 8.
///
/// ```
/// use hemakuliwi::{read, Dialect, Fault};
/// let table = read(Dialect::Tdif, b"# fares\n\"stop\",\"fare\"\n\"Harbour\",\\N\n")?;
/// assert_eq!((table.columns(), table.rows().len()), (2, 1));
///
/// let refusal = read(Dialect::Tdif, b"\"stop\",\"fare\"\n\"Harbour\"\n").unwrap_err();
/// assert_eq!((refusal.fault, refusal.record, refusal.offset), (Fault::CellCount, 2, 14));
/// # Ok::<(), hemakuliwi::Refusal>(())
/// ```
pub fn read(dialect: Dialect, file: &[u8]) -> Result<Table<'_>, Refusal> {
    let places = most_cells(file);
    let (mut starts, mut ends, mut kinds) = (vec![0; places], vec![0; places], vec![0; places]);
    let answer = raw::read(dialect.number(), file, &mut starts, &mut ends, &mut kinds);
    accepted(answer.report)?;
    Ok(Table {
        dialect,
        file,
        columns: answer.columns,
        records: answer.records + 1,
        starts: shortened(starts, answer.cells),
        ends: shortened(ends, answer.cells),
        kinds: shortened(kinds, answer.cells),
    })
}

/// No file has more cells, since each but the last has a comma or a line break of its own after it. So one call is enough: lists that are
/// too short are refused only after the whole file was read, and doubling them would read it again each time. What comes after the longest
/// file is refused anyway, and asks for no memory.
fn most_cells(file: &[u8]) -> usize {
    let file = &file[..file.len().min(raw::FILE_BYTES)];
    let may_end_cell = |byte: &&u8| matches!(**byte, b',' | b'\n' | b'\r');
    file.iter().filter(may_end_cell).count() + 1
}

/// The list without the places that were not needed, whose memory is given back.
fn shortened<T>(mut list: Vec<T>, length: usize) -> Vec<T> {
    list.truncate(length);
    list.shrink_to_fit();
    list
}

impl<'f> Table<'f> {
    /// The dialect in which the file was read.
    ///
    /// ```
    /// # use hemakuliwi::{read, Dialect};
    /// assert_eq!(read(Dialect::Csvj, b"\n")?.dialect(), Dialect::Csvj);
    /// # Ok::<(), hemakuliwi::Refusal>(())
    /// ```
    pub fn dialect(&self) -> Dialect {
        self.dialect
    }

    /// The file.
    ///
    /// ```
    /// # use hemakuliwi::{read, Dialect};
    /// assert_eq!(read(Dialect::CsvPlus, b"stop")?.file(), b"stop");
    /// # Ok::<(), hemakuliwi::Refusal>(())
    /// ```
    pub fn file(&self) -> &'f [u8] {
        self.file
    }

    /// How many columns there are, which only in CSVJ can be none.
    ///
    /// ```
    /// # use hemakuliwi::{read, Dialect};
    /// assert_eq!(read(Dialect::CsvPlus, b"stop,fare\n")?.columns(), 2);
    /// assert_eq!(read(Dialect::Csvj, b"\n")?.columns(), 0);
    /// # Ok::<(), hemakuliwi::Refusal>(())
    /// ```
    pub fn columns(&self) -> usize {
        self.columns
    }

    /// The place of the column with this name, counted from 0. A name is the content of a header cell, and no two are the same.
    ///
    /// ```
    /// # use hemakuliwi::{read, Dialect};
    /// let table = read(Dialect::Csvj, b"\"stop\",\"f\\u0061re\"\n")?;
    /// assert_eq!(table.column_named("fare"), Some(1));
    /// assert_eq!(table.column_named("price"), None);
    /// # Ok::<(), hemakuliwi::Refusal>(())
    /// ```
    pub fn column_named<T: AsRef<[u8]> + ?Sized>(&self, name: &T) -> Option<usize> {
        let mut cells = self.header().cells();
        cells.position(|cell| *cell.content() == *name.as_ref())
    }

    /// The header, which is record 1. Its cells are text.
    ///
    /// ```
    /// # use hemakuliwi::{read, Dialect};
    /// let table = read(Dialect::CsvPlus, b"stop,fare\nHarbour,2.40\n")?;
    /// let names: Vec<_> = table.header().cells().map(|cell| cell.content()).collect();
    /// assert_eq!(names, [&b"stop"[..], b"fare"]);
    /// # Ok::<(), hemakuliwi::Refusal>(())
    /// ```
    pub fn header(&self) -> Record<'_, 'f> {
        self.record_at(0)
    }

    /// The data records: all but the header.
    ///
    /// ```
    /// # use hemakuliwi::{read, Dialect};
    /// let table = read(Dialect::CsvPlus, b"stop,fare\nHarbour,2.40\n")?;
    /// assert_eq!(table.rows().len(), 1);
    /// # Ok::<(), hemakuliwi::Refusal>(())
    /// ```
    pub fn rows(&self) -> Records<'_, 'f> {
        self.records_from(1)
    }

    /// All records, the header first.
    ///
    /// ```
    /// # use hemakuliwi::{read, write, Dialect};
    /// let table = read(Dialect::CsvPlus, b"stop,fare\nHarbour,2.40\n")?;
    /// assert_eq!(table.records().len(), 2);
    /// assert_eq!(write(Dialect::Tdif, table.records())?, b"\"stop\",\"fare\"\n\"Harbour\",\"2.40\"\n");
    /// # Ok::<(), hemakuliwi::Refusal>(())
    /// ```
    pub fn records(&self) -> Records<'_, 'f> {
        self.records_from(0)
    }

    /// The record of this number, as a [`Refusal`] counts them: from 1, which is the header.
    ///
    /// ```
    /// # use hemakuliwi::{read, Dialect};
    /// let table = read(Dialect::CsvPlus, b"stop,fare\nHarbour,2.40\n")?;
    /// assert_eq!(table.record(2).unwrap().get(0).unwrap().raw(), b"Harbour");
    /// assert!(table.record(0).is_none());
    /// assert!(table.record(3).is_none());
    /// # Ok::<(), hemakuliwi::Refusal>(())
    /// ```
    pub fn record(&self, number: usize) -> Option<Record<'_, 'f>> {
        let index = number.checked_sub(1)?;
        (index < self.records).then(|| self.record_at(index))
    }

    fn record_at(&self, index: usize) -> Record<'_, 'f> {
        Record { table: self, index }
    }

    fn records_from(&self, first: usize) -> Records<'_, 'f> {
        Records {
            table: self,
            range: first..self.records,
        }
    }

    fn cell_at(&self, place: usize) -> Cell<'f> {
        let kind = value::numbered(self.kinds[place].into());
        let range = self.starts[place]..self.ends[place];
        Cell::new(self.dialect, kind, self.file, range)
    }
}

impl fmt::Debug for Table<'_> {
    fn fmt(&self, f: &mut fmt::Formatter<'_>) -> fmt::Result {
        f.debug_struct("Table")
            .field("dialect", &self.dialect)
            .field("columns", &self.columns)
            .field("records", &self.records)
            .finish_non_exhaustive()
    }
}

/// A record of a [`Table`].
///
/// ```
/// use hemakuliwi::{read, Dialect};
/// let table = read(Dialect::CsvPlus, b"stop,fare\nHarbour,2.40\n")?;
/// for record in table.records() {
///     for cell in record {
///         println!("{}", cell.to_string_lossy());
///     }
/// }
/// # Ok::<(), hemakuliwi::Refusal>(())
/// ```
#[derive(Clone, Copy)]
pub struct Record<'t, 'f> {
    table: &'t Table<'f>,
    index: usize,
}

impl<'t, 'f> Record<'t, 'f> {
    /// Its number, as a [`Refusal`] counts them: from 1, which is the header.
    ///
    /// ```
    /// # use hemakuliwi::{read, Dialect};
    /// let table = read(Dialect::CsvPlus, b"stop\nHarbour\nMint\n")?;
    /// let numbers: Vec<usize> = table.rows().map(|row| row.number()).collect();
    /// assert_eq!(numbers, [2, 3]);
    /// # Ok::<(), hemakuliwi::Refusal>(())
    /// ```
    pub fn number(&self) -> usize {
        self.index + 1
    }

    /// How many cells it has, which is how many columns the table has.
    ///
    /// ```
    /// # use hemakuliwi::{read, Dialect};
    /// assert_eq!(read(Dialect::CsvPlus, b"stop,fare\n")?.header().len(), 2);
    /// # Ok::<(), hemakuliwi::Refusal>(())
    /// ```
    pub fn len(&self) -> usize {
        self.table.columns
    }

    /// Whether it has no cells, which is so of all records of a CSVJ table without columns.
    ///
    /// ```
    /// # use hemakuliwi::{read, Dialect};
    /// assert!(read(Dialect::Csvj, b"\n")?.header().is_empty());
    /// # Ok::<(), hemakuliwi::Refusal>(())
    /// ```
    pub fn is_empty(&self) -> bool {
        self.len() == 0
    }

    /// The cell in this column, counted from 0, where a [`Refusal`] counts from 1.
    ///
    /// ```
    /// # use hemakuliwi::{read, Dialect};
    /// let table = read(Dialect::CsvPlus, b"stop,fare\n")?;
    /// assert_eq!(table.header().get(1).unwrap().raw(), b"fare");
    /// assert!(table.header().get(2).is_none());
    /// # Ok::<(), hemakuliwi::Refusal>(())
    /// ```
    pub fn get(&self, column: usize) -> Option<Cell<'f>> {
        let place = self.index * self.len() + column;
        (column < self.len()).then(|| self.table.cell_at(place))
    }

    /// The cells from left to right.
    ///
    /// ```
    /// # use hemakuliwi::{read, Dialect};
    /// let table = read(Dialect::CsvPlus, b"stop,fare,zone\n")?;
    /// let raw: Vec<&[u8]> = table.header().cells().rev().map(|cell| cell.raw()).collect();
    /// assert_eq!(raw, [&b"zone"[..], b"fare", b"stop"]);
    /// # Ok::<(), hemakuliwi::Refusal>(())
    /// ```
    pub fn cells(&self) -> Cells<'t, 'f> {
        let first = self.index * self.len();
        Cells {
            table: self.table,
            range: first..first + self.len(),
        }
    }
}

impl<'t, 'f> IntoIterator for Record<'t, 'f> {
    type Item = Cell<'f>;
    type IntoIter = Cells<'t, 'f>;

    fn into_iter(self) -> Cells<'t, 'f> {
        self.cells()
    }
}

impl fmt::Debug for Record<'_, '_> {
    fn fmt(&self, f: &mut fmt::Formatter<'_>) -> fmt::Result {
        f.debug_list().entries(self.cells()).finish()
    }
}

/// The records of a [`Table`] in file order: [`Table::records`], [`Table::rows`].
///
/// ```
/// use hemakuliwi::{read, Dialect};
/// let table = read(Dialect::CsvPlus, b"stop\nHarbour\nMint\n")?;
/// assert_eq!(table.rows().next_back().unwrap().number(), 3);
/// # Ok::<(), hemakuliwi::Refusal>(())
/// ```
#[derive(Clone, Debug)]
pub struct Records<'t, 'f> {
    table: &'t Table<'f>,
    range: Range<usize>,
}

/// The cells of a [`Record`] from left to right: [`Record::cells`].
///
/// ```
/// use hemakuliwi::{read, Dialect};
/// let table = read(Dialect::CsvPlus, b"stop,fare\n")?;
/// assert_eq!(table.header().cells().len(), 2);
/// # Ok::<(), hemakuliwi::Refusal>(())
/// ```
#[derive(Clone, Debug)]
pub struct Cells<'t, 'f> {
    table: &'t Table<'f>,
    range: Range<usize>,
}

/// An iterator over what `$at` gives for each number of the range.
macro_rules! over_range {
    ($iterator:ident, $item:ty, $at:ident) => {
        impl<'t, 'f> Iterator for $iterator<'t, 'f> {
            type Item = $item;

            fn next(&mut self) -> Option<$item> {
                self.range.next().map(|index| self.table.$at(index))
            }

            fn nth(&mut self, n: usize) -> Option<$item> {
                self.range.nth(n).map(|index| self.table.$at(index))
            }

            fn size_hint(&self) -> (usize, Option<usize>) {
                self.range.size_hint()
            }
        }

        impl<'t, 'f> DoubleEndedIterator for $iterator<'t, 'f> {
            fn next_back(&mut self) -> Option<$item> {
                self.range.next_back().map(|index| self.table.$at(index))
            }
        }

        impl ExactSizeIterator for $iterator<'_, '_> {}
        impl FusedIterator for $iterator<'_, '_> {}
    };
}

over_range!(Records, Record<'t, 'f>, record_at);
over_range!(Cells, Cell<'f>, cell_at);
