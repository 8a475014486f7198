//! The calls of the library as C has them: numbers, and lists and rooms that the caller lends. `include/hemakuliwi.h` says what each call
//! promises; `docs/RULES.md` has the rules.
//!
//! A file is read into lists that the caller lends. How many cells it has is not known before, so the lists double as long as report 10
//! says that they are too short:
//!
//! ```
//! let file = b"\"stop\",\"fare\"\n\"Harbour\",2.40\n";
//! let (mut starts, mut ends, mut kinds) = (vec![0; 2], vec![0; 2], vec![0; 2]);
//! let table = loop {
//!     let answer = hemakuliwi::raw::read(hemakuliwi::raw::CSVJ, file, &mut starts, &mut ends, &mut kinds);
//!     if answer.report.number != hemakuliwi::raw::ROOM {
//!         break answer;
//!     }
//!     let doubled = 2 * starts.len();
//!     starts.resize(doubled, 0);
//!     ends.resize(doubled, 0);
//!     kinds.resize(doubled, 0);
//! };
//! assert_eq!((table.report.number, table.columns, table.records, table.cells), (0, 2, 1, 4));
//!
//! let mut room = [0; hemakuliwi::raw::RECORD_BYTES];
//! let cell = hemakuliwi::raw::decode(hemakuliwi::raw::CSVJ, &file[starts[2]..ends[2]], &mut room);
//! assert_eq!(&room[..cell.length], b"Harbour");
//! ```
//!
//! A file is converted to the canonical text of a dialect. How much room is enough is known before:
//!
//! ```
//! let file = b"\"stop\",\"note\"\n\"Harbour\",\"say \\\"Mint\\\"\"\n";
//! let mut room = vec![0; hemakuliwi::raw::convert_room(file.len())];
//! let text = hemakuliwi::raw::convert(hemakuliwi::raw::CSVJ, hemakuliwi::raw::CSV_PLUS, file, &mut room);
//! assert_eq!(&room[..text.length], b"stop,note\r\nHarbour,\"say \"\"Mint\"\"\"\r\n");
//! ```
//!
//! A file that comes in pieces is converted as it comes: each call writes the records that it completes. How much room is enough is
//! always the same:
//!
//! ```
//! use hemakuliwi::raw::{Converter, CSVJ, CSV_PLUS, PIECE_ROOM};
//! let mut out = vec![0; PIECE_ROOM];
//! let mut converter = Converter::new(CSV_PLUS, CSVJ);
//! let first = converter.piece(b"stop,note\nHarbour,\"say \"", &mut out);
//! assert_eq!(&out[..first.length], b"\"stop\",\"note\"\n");
//! assert_eq!((converter.offset(), converter.records(), converter.columns()), (24, 1, 2));
//! assert_eq!(converter.name(1), Some(&b"note"[..]));
//! let second = converter.piece(b"\"Mint\"\"\"", &mut out);
//! assert_eq!((second.report.number, second.length), (0, 0));
//! let last = converter.end(&mut out);
//! assert_eq!(&out[..last.length], b"\"Harbour\",\"say \\\"Mint\\\"\"\n");
//! ```
//!
//! A table is written from spans of content, record by record:
//!
//! ```
//! use hemakuliwi::raw::{Table, NULL, NUMBER, TEXT};
//! let table = Table {
//!     content: b"stopfareHarbour2.40",
//!     starts: &[0, 4, 8, 15, 8, 0],
//!     ends: &[4, 8, 15, 19, 15, 0],
//!     kinds: &[TEXT, TEXT, TEXT, NUMBER, TEXT, NULL],
//!     columns: 2,
//!     records: 3,
//! };
//! let mut room = [0; 100];
//! let text = hemakuliwi::raw::write(hemakuliwi::raw::CSVJ, table, &mut room);
//! assert_eq!(&room[..text.length], b"\"stop\",\"fare\"\n\"Harbour\",2.40\n\"Harbour\",null\n");
//! ```

/// Dialect 1.
pub const CSVJ: u32 = 1;
/// Dialect 2.
pub const TDIF: u32 = 2;
/// Dialect 3.
pub const CSV_PLUS: u32 = 3;

/// Kind 1.
pub const TEXT: u8 = 1;
/// Kind 2.
pub const NUMBER: u8 = 2;
/// Kind 3.
pub const TRUE: u8 = 3;
/// Kind 4.
pub const FALSE: u8 = 4;
/// Kind 5.
pub const NULL: u8 = 5;

/// The report number of acceptance.
pub const ACCEPTED: usize = 0;
/// The report number that says that something lent was too short. Nothing else was wrong.
pub const ROOM: usize = 10;

/// The most bytes in a file, so that a room of as many holds any text that is converted or written.
pub const FILE_BYTES: usize = 16_777_215;
/// The most bytes in a record, so that a room of as many holds any cell's content.
pub const RECORD_BYTES: usize = 4_096;
/// The most columns in a table.
pub const COLUMNS: usize = 64;

/// The most bytes in a piece of a converter.
pub const PIECE_BYTES: usize = 4_096;
/// The fewest bytes of output that a call of a converter requires, which are enough for all that it can write.
pub const PIECE_ROOM: usize = 49_152;

/// What a call says: acceptance, which is all 0, or which fault and where.
#[repr(C)]
#[derive(Clone, Copy, Debug, PartialEq, Eq)]
pub struct Report {
    /// The number of the fault; 0 is acceptance.
    pub number: usize,
    /// The record, counted from 1 (the header); 0 if none is named.
    pub record_number: usize,
    /// The column, counted from 1; 0 if none is named.
    pub column: usize,
    /// The offset in what was read, counted from 0.
    pub offset: usize,
}

/// What the reader answers. All but the report is 0 on refusal.
#[repr(C)]
#[derive(Clone, Copy, Debug, PartialEq, Eq)]
pub struct ReadAnswer {
    /// Acceptance, or the first fault.
    pub report: Report,
    /// The number of columns.
    pub columns: usize,
    /// The number of data records.
    pub records: usize,
    /// The number of cells, the header's too.
    pub cells: usize,
}

/// What the decoder answers. All but the report is 0 on refusal.
#[repr(C)]
#[derive(Clone, Copy, Debug, PartialEq, Eq)]
pub struct DecodeAnswer {
    /// Acceptance, or the fault; its record and column are 0.
    pub report: Report,
    /// The content's length.
    pub length: usize,
    /// The number of the content's kind: 1 text, 2 number, 3 true, 4 false, 5 null.
    pub kind: usize,
}

/// What the converters and the writer answer.
#[repr(C)]
#[derive(Clone, Copy, Debug, PartialEq, Eq)]
pub struct TextAnswer {
    /// Acceptance, or the first fault.
    pub report: Report,
    /// The text's length; 0 on refusal, except for a piece that meets a fault: then it is that of the records before it.
    pub length: usize,
}

/// Where `Converter::numbers` has what [`Converter::offset`] returns.
pub const AT_OFFSET: usize = 1;
/// Where `Converter::numbers` has what [`Converter::columns`] returns.
pub const AT_COLUMNS: usize = 6;
/// Where `Converter::numbers` has what [`Converter::records`] returns.
pub const AT_RECORDS: usize = 7;

/// A converter of a file that comes in pieces. It is plain data, and with any numbers and bytes each call ends and stays inside what it
/// was lent.
#[repr(C)]
#[derive(Clone, Debug, PartialEq, Eq)]
pub struct Converter {
    /// The number of the file's dialect.
    pub source: u32,
    /// The number of the dialect that is written.
    pub target: u32,
    /// The state of the conversion; [`Converter::offset`], [`Converter::records`] and [`Converter::columns`] read it.
    pub numbers: [usize; 14],
    /// Where the complete cells of the unfinished record end in `bytes`.
    pub ends: [usize; COLUMNS],
    /// Where the names of the header end in `names`.
    pub name_ends: [usize; COLUMNS],
    /// The unfinished record.
    pub bytes: [u8; RECORD_BYTES],
    /// The names of the header, raw as in the file; [`Converter::name`] reads them.
    pub names: [u8; RECORD_BYTES],
}

/// What a call by value answers, and the converter for the next one.
#[repr(C)]
#[derive(Clone, Debug, PartialEq, Eq)]
pub struct PieceAnswer {
    /// The call's answer.
    pub answer: TextAnswer,
    /// The converter after the call.
    pub next: Converter,
}

/// A table for the writer: its cells record by record, as spans of the content.
#[derive(Clone, Copy, Debug)]
pub struct Table<'a> {
    /// The bytes that the spans name.
    pub content: &'a [u8],
    /// Where each cell's content starts.
    pub starts: &'a [usize],
    /// Where each cell's content ends.
    pub ends: &'a [usize],
    /// The number of each cell's kind.
    pub kinds: &'a [u8],
    /// The number of columns.
    pub columns: usize,
    /// The number of records, the header too.
    pub records: usize,
}

// Nothing checks these declarations against the Rattle source: the harness holds each call to the reference's answers.
extern "C" {
    fn hk_read(
        dialect: u32,
        file: *const u8,
        file_length: usize,
        starts: *mut usize,
        starts_length: usize,
        ends: *mut usize,
        ends_length: usize,
        kinds: *mut u8,
        kinds_length: usize,
    ) -> ReadAnswer;

    fn hk_decode(
        dialect: u32,
        raw: *const u8,
        raw_length: usize,
        room: *mut u8,
        room_length: usize,
    ) -> DecodeAnswer;

    fn hk_convert(
        from: u32,
        to: u32,
        file: *const u8,
        file_length: usize,
        room: *mut u8,
        room_length: usize,
    ) -> TextAnswer;

    fn hk_write(
        dialect: u32,
        content: *const u8,
        content_length: usize,
        starts: *const usize,
        starts_length: usize,
        ends: *const usize,
        ends_length: usize,
        kinds: *const u8,
        kinds_length: usize,
        columns: usize,
        records: usize,
        room: *mut u8,
        room_length: usize,
    ) -> TextAnswer;

    fn hk_converter_new(from: u32, to: u32) -> Converter;

    fn hk_piece(
        converter: Converter,
        piece: *const u8,
        piece_length: usize,
        out: *mut u8,
        out_length: usize,
    ) -> PieceAnswer;

    fn hk_end(converter: Converter, out: *mut u8, out_length: usize) -> PieceAnswer;

    fn hk_piece_lent(
        source: u32,
        target: u32,
        numbers: *mut usize,
        ends: *mut usize,
        name_ends: *mut usize,
        bytes: *mut u8,
        names: *mut u8,
        piece: *const u8,
        piece_length: usize,
        out: *mut u8,
        out_length: usize,
    ) -> TextAnswer;

    fn hk_end_lent(
        source: u32,
        target: u32,
        numbers: *mut usize,
        ends: *mut usize,
        name_ends: *mut usize,
        bytes: *mut u8,
        names: *mut u8,
        out: *mut u8,
        out_length: usize,
    ) -> TextAnswer;
}

/// The cells of a whole file: cell `i` is the span from `starts[i]` up to `ends[i]`, and the number of its kind is `kinds[i]`. Past the
/// cells, and on refusal, the lists are left as they were.
pub fn read(
    dialect: u32,
    file: &[u8],
    starts: &mut [usize],
    ends: &mut [usize],
    kinds: &mut [u8],
) -> ReadAnswer {
    // SAFETY: the slices are alive for the call and do not overlap, and the call is proved to stay inside them.
    unsafe {
        hk_read(
            dialect,
            file.as_ptr(),
            file.len(),
            starts.as_mut_ptr(),
            starts.len(),
            ends.as_mut_ptr(),
            ends.len(),
            kinds.as_mut_ptr(),
            kinds.len(),
        )
    }
}

/// The raw bytes of one cell to its content, in `room`. Past the content, and on refusal, the room is left as it was.
pub fn decode(dialect: u32, raw: &[u8], room: &mut [u8]) -> DecodeAnswer {
    // SAFETY: both slices are alive for the call and do not overlap, and the call is proved to stay inside them.
    unsafe {
        hk_decode(
            dialect,
            raw.as_ptr(),
            raw.len(),
            room.as_mut_ptr(),
            room.len(),
        )
    }
}

/// Room that is enough for what a file of this length is converted to.
pub const fn convert_room(file_length: usize) -> usize {
    if file_length < FILE_BYTES / 6 {
        6 * (file_length + 1)
    } else {
        FILE_BYTES
    }
}

/// A whole file in one dialect to its canonical text in another, in `room`. Past the text, and on refusal, the room is left as it was.
pub fn convert(from: u32, to: u32, file: &[u8], room: &mut [u8]) -> TextAnswer {
    // SAFETY: both slices are alive for the call and do not overlap, and the call is proved to stay inside them.
    unsafe {
        hk_convert(
            from,
            to,
            file.as_ptr(),
            file.len(),
            room.as_mut_ptr(),
            room.len(),
        )
    }
}

/// A table to its canonical text, in `room`. Past the text, and on refusal, the room is left as it was.
pub fn write(dialect: u32, table: Table, room: &mut [u8]) -> TextAnswer {
    // SAFETY: the slices are alive for the call and none overlaps the room, and the call is proved to stay inside them.
    unsafe {
        hk_write(
            dialect,
            table.content.as_ptr(),
            table.content.len(),
            table.starts.as_ptr(),
            table.starts.len(),
            table.ends.as_ptr(),
            table.ends.len(),
            table.kinds.as_ptr(),
            table.kinds.len(),
            table.columns,
            table.records,
            room.as_mut_ptr(),
            room.len(),
        )
    }
}

/// A call that is lent the fields of a converter, and then has arguments of its own.
macro_rules! over_fields {
    ($call:ident, $converter:expr, $($argument:expr),*) => {
        $call(
            $converter.source,
            $converter.target,
            $converter.numbers.as_mut_ptr(),
            $converter.ends.as_mut_ptr(),
            $converter.name_ends.as_mut_ptr(),
            $converter.bytes.as_mut_ptr(),
            $converter.names.as_mut_ptr(),
            $($argument),*
        )
    };
}

impl Converter {
    /// A converter before its first call. The numbers may be any: with one of no dialect every call is refused.
    pub fn new(from: u32, to: u32) -> Self {
        // SAFETY: the call is given two numbers.
        unsafe { hk_converter_new(from, to) }
    }

    /// The next bytes of the file. Past the length, and on a refusal that meets no fault, the output is left as it was.
    pub fn piece(&mut self, piece: &[u8], out: &mut [u8]) -> TextAnswer {
        // SAFETY: the slices and the fields are alive for the call and do not overlap, and the call is proved to stay inside them.
        unsafe {
            over_fields!(
                hk_piece_lent,
                self,
                piece.as_ptr(),
                piece.len(),
                out.as_mut_ptr(),
                out.len()
            )
        }
    }

    /// The end of the file. Past the length, and on refusal, the output is left as it was.
    pub fn end(&mut self, out: &mut [u8]) -> TextAnswer {
        // SAFETY: the slice and the fields are alive for the call and do not overlap, and the call is proved to stay inside them.
        unsafe { over_fields!(hk_end_lent, self, out.as_mut_ptr(), out.len()) }
    }

    /// As `piece`, with the converter by value.
    pub fn piece_by_value(self, piece: &[u8], out: &mut [u8]) -> PieceAnswer {
        // SAFETY: the slices are alive for the call and do not overlap, and the call is proved to stay inside them.
        unsafe {
            hk_piece(
                self,
                piece.as_ptr(),
                piece.len(),
                out.as_mut_ptr(),
                out.len(),
            )
        }
    }

    /// As `end`, with the converter by value.
    pub fn end_by_value(self, out: &mut [u8]) -> PieceAnswer {
        // SAFETY: the slice is alive for the call, and the call is proved to stay inside it.
        unsafe { hk_end(self, out.as_mut_ptr(), out.len()) }
    }

    /// How many bytes of the file were taken, as long as no fault was met.
    pub fn offset(&self) -> usize {
        self.numbers[AT_OFFSET]
    }

    /// How many records are complete, the header too. A last record that the end completes is not counted.
    pub fn records(&self) -> usize {
        self.numbers[AT_RECORDS]
    }

    /// The number of columns once `records` is above 0, and 0 before; never more than `COLUMNS`.
    pub fn columns(&self) -> usize {
        match self.records() {
            0 => 0,
            _ => self.numbers[AT_COLUMNS].min(COLUMNS),
        }
    }

    /// A name of the header, raw as in the file, by its place counted from 0. It is there for each place below `columns`, after a fault
    /// and an end too; a converter that no calls have made may have none there.
    pub fn name(&self, index: usize) -> Option<&[u8]> {
        if index >= self.columns() {
            return None;
        }
        let start = match index {
            0 => 0,
            _ => self.name_ends[index - 1],
        };
        self.names.get(start..self.name_ends[index])
    }
}
