//! Files that leave the fast path at every place. Before the scanner a record is read by whole cells (`crates/record_fast`), and one whose
//! cells are clean is written at once (`crates/record_writer/src/clean.rt`); anything else falls back to the slow path from the record's
//! start. So bytes are injected into ordinary records at each place, and at each distance from a word's end and from a limit, and the
//! proved calls are compared with the reference implementation on them, whole and in pieces. Wrong calls have to be noticed on the same files.

use harness::compare::{
    agreed, convert_agrees, convert_in_rooms, proved_lent, read_agrees, read_in_rooms, Calls,
    PieceComparison, PieceConverter, PROVED,
};
use harness::counts::Counts;
use harness::generate::file_of;
use harness::ledger::Call;
use harness::lists::Reader;
use harness::rooms::WholeConverter;
use harness::whole::{convert_room, read_whole};
use harness::DIALECTS;
use reference::limits::{COLUMNS, FILE_BYTES, PIECE_BYTES, PIECE_ROOM, RECORD_BYTES};
use reference::{convert, read, Converted, ReadAnswer, Report};
use std::ops::RangeInclusive;

// ---- injected bytes

/// What is injected into ordinary records. The first is nothing: a byte is missing there, or the file ends.
const INJECTED: [&[u8]; 38] = [
    b"",
    b"\"",
    b"\"\"",
    b"\\",
    b"\\n",
    b"\\\"",
    b"\\\\",
    b"\\N",
    b"\\x",
    b"\\u0041",
    b"\\u00",
    b"\\ud83d",
    b"\\ud83d\\ude00",
    b"\0",
    b"\t",
    b"\n",
    b"\r",
    b"\r\n",
    b"\x1F",
    b" ",
    b",",
    b";",
    b"\x7F",
    b"\x80",
    b"\xC2",
    b"\xC3\xA9",
    b"\xE0\x80",
    b"\xED\xA0\x80",
    b"\xED\x9F\xBF",
    b"\xEF\xBB\xBF",
    b"\xF0\x90\x80\x80",
    b"\xF4\x90",
    b"\xFF",
    b"5",
    b"e",
    b"-",
    b".",
    b"#",
];

/// A few of them, where files are wide.
const FEW_INJECTED: [&[u8]; 9] = [
    b"\"",
    b"\"\"",
    b"\\n",
    b"\r",
    b"\x1F",
    b",",
    b"\x80",
    b"\xC3\xA9",
    b"e",
];

/// A file with injected bytes in place of the byte at this place.
fn replaced(file: &[u8], place: usize, injected: &[u8]) -> Vec<u8> {
    let (before, after) = file.split_at(place);
    [before, injected, after.get(1..).unwrap_or(&[])].concat()
}

/// A file with each of the injected bytes at each place: in place of a byte, between two bytes, and as the file's end.
fn injected_files(file: &[u8]) -> impl Iterator<Item = Vec<u8>> + '_ {
    (0..=file.len()).flat_map(move |place| {
        let (before, after) = file.split_at(place);
        INJECTED.iter().flat_map(move |injected| {
            [
                replaced(file, place, injected),
                [before, injected, after].concat(),
                [before, injected].concat(),
            ]
        })
    })
}

/// Ordinary files: cells of few bytes, of about eight and of about sixteen, and some beyond ASCII.
const ORDINARY: [(u32, &str); 9] = [
    (
        1,
        "\"a\",\"b\",\"c\"\n\"Harbour\",\"Harbours\",\"Harbour 1\"\n\
         \"West Harbour 12\",\"West Harbour 123\",\"West Harbour 1234\"\r\n12,-0.25,true\nfalse,null,\"\"\n",
    ),
    (
        1,
        "\"a\"\n\"Harbours\"\n\"x\"\n\"\u{e9}\"\r\n10\nnull\n",
    ),
    (
        1,
        "\"a\",\"b\"\n\"\u{141}\u{f3}d\u{17a}\",\"\u{6771}\u{4eac} \u{1f68b}\"\n\
         \"a\\\"b\\\\\",\"\\u00e9\\ud83d\\ude00\"\n\"\u{e9}\",\"x\"\n",
    ),
    (
        2,
        "\"a\",\"b\",\"c\"\n\"Harbour\",\"Harbours\",\"Harbour 1\"\n\
         \"West Harbour 12\",\"West Harbour 123\",\"West Harbour 1234\"\r\n\"x\",\"\",\"\\N\"\r\\N,\"1\",\\N\n",
    ),
    (
        2,
        "\"a\"\n\"Harbours\"\n\"x\"\r\"\u{e9}\"\r\n\"\"\n\\N\n",
    ),
    (
        2,
        "\"a\",\"b\"\n\"\u{141}\u{f3}d\u{17a}\",\"\u{6771}\u{4eac} \u{1f68b}\"\n\
         \"a\"\"b\",\"a\nb\"\r#c\n\"\u{e9}\",\"\"\"\"\n",
    ),
    (
        3,
        "a,b,c\nHarbour,\"Harbours\",Harbour 1\n\
         \"West Harbour 12\",West Harbour 123,\"West Harbour 1234\"\r\n,\"\",x\n1,\"2\",3",
    ),
    (3, "a\nHarbours\n\"x\"\n\u{e9}\r\n\n\"\"\n"),
    (
        3,
        "a,b\n\u{141}\u{f3}d\u{17a},\"\u{6771}\u{4eac} \u{1f68b}\"\n\"a\"\"b\",\"a\nb\"\r\n\"\u{e9}\",\\N\n",
    ),
];

/// Shorter ones, to be cut at each place, with their dialect.
const CUT: [(u32, &str); 3] = [
    (
        1,
        "\"a\",\"b\"\n\"Harbour\",\"\u{e9}\"\r\n\"x\\\"y\",\"1\"\n",
    ),
    (
        2,
        "\"a\",\"b\"\n\"Harbour\",\"\u{e9}\"\r\n\"x\"\"y\",\\N\r\"\",\"1\"\n",
    ),
    (3, "a,b\nHarbour,\"West \u{e9}\"\r\n\"x\"\"y\",12\n,3"),
];

/// The dialect that a file is converted to, where it is one.
fn target_of(source: u32) -> u32 {
    match source {
        1 => 3,
        _ => 1,
    }
}

// ---- comparing

/// How much was compared, and how the whole calls answered.
#[derive(Default)]
struct Compared {
    inputs: usize,
    reports: Counts,
}

impl Compared {
    /// Reads a file and converts it to each dialect, with more than enough, just enough and too little of what is lent.
    fn whole_in_rooms(&mut self, calls: &Calls, dialect: u32, file: &[u8]) -> Result<(), String> {
        let answer = read_in_rooms(calls.reader, dialect, file)?;
        self.reports.add(dialect, answer.report.number);
        for (target, _) in DIALECTS {
            let answers = convert_in_rooms(calls.converter, dialect, target, file)?;
            self.reports.add(dialect, answers[0].report.number);
        }
        self.inputs += 1;
        Ok(())
    }

    /// The same with lists of this many places, and room for a text that is not much longer than the file.
    fn whole(
        &mut self,
        calls: &Calls,
        dialect: u32,
        file: &[u8],
        places: usize,
    ) -> Result<(), String> {
        let answer = read_agrees(calls.reader, dialect, file, [places; 3])?;
        self.reports.add(dialect, answer.report.number);
        for (target, _) in DIALECTS {
            let room = file.len() + 8 * COLUMNS;
            let answer = convert_agrees(calls.converter, dialect, target, file, room)?;
            self.reports.add(dialect, answer.report.number);
        }
        self.inputs += 1;
        Ok(())
    }

    /// Prints how much was compared, which has to be at least this much.
    fn report(&self, what: &str, least: usize) {
        eprintln!("fast paths, {what}: {} agree", self.inputs);
        assert!(self.inputs >= least, "too few {what}");
    }

    /// The same of whole files, in each dialect with this many reports of each of these numbers.
    fn report_numbers(&self, what: &str, least: usize, numbers: &[usize], reports: usize) {
        self.report(what, least);
        self.reports.print(&format!("fast paths, {what}"));
        agreed(self.reports.require(numbers.iter().copied(), reports));
    }
}

// ---- each place of a record

fn injected_at_each_place(calls: &Calls) -> Result<Compared, String> {
    let mut compared = Compared::default();
    for (dialect, file) in ORDINARY {
        for injected in injected_files(file.as_bytes()) {
            compared.whole_in_rooms(calls, dialect, &injected)?;
        }
    }
    Ok(compared)
}

#[test]
fn records_fall_back_at_each_place() {
    const FILES: usize = 70_000;
    let compared = agreed(injected_at_each_place(&PROVED));
    compared.report_numbers("files with injected bytes", FILES, &[0, 2, 3, 4, 5], 500);
}

// ---- words of eight bytes

const LONGEST_CELL: usize = 40;
const LETTERS: &str = "abcdefghijklmnopqrstuvwxyz ABCDEFGHIJKLMN";
const DIGITS: &str = "1234567890123456789012345678901234567890";
/// A cell's dialect, what is on either side of its text, and what the text is taken from.
const CELLS_OF: [(u32, &str, &str); 5] = [
    (1, "\"", LETTERS),
    (1, "", DIGITS),
    (2, "\"", LETTERS),
    (3, "", LETTERS),
    (3, "\"", LETTERS),
];

/// Cells of each length, with injected bytes in place of each byte, in the last record of a file and in one before it.
fn injected_in_words(calls: &Calls) -> Result<Compared, String> {
    let mut compared = Compared::default();
    let header = "\"a\",\"b\"\n";
    for (dialect, quote, text) in CELLS_OF {
        for length in 0..=LONGEST_CELL {
            for after in ["", "\"y\",\"z\"\n"] {
                let text = &text[..length];
                let file = format!("{header}{quote}{text}{quote},\"x\"\n{after}");
                let start = header.len() + quote.len();
                for place in start..=start + length {
                    for injected in INJECTED {
                        let injected = replaced(file.as_bytes(), place, injected);
                        compared.whole(calls, dialect, &injected, 16)?;
                    }
                }
            }
        }
    }
    Ok(compared)
}

#[test]
fn cells_fall_back_at_each_distance_from_a_words_end() {
    const CELLS: usize = 300_000;
    let compared = agreed(injected_in_words(&PROVED));
    compared.report_numbers("cells with injected bytes", CELLS, &[0, 2, 3], 5_000);
}

/// About the sizes of a word and of two, and a larger one.
const PIECES: [usize; 8] = [1, 7, 8, 9, 15, 16, 17, 64];

/// The calls that bring a file in pieces of this size.
fn in_pieces(file: &[u8], size: usize) -> Vec<Call<'_>> {
    let parts = file.chunks(size);
    let parts = parts.map(|part| Call::Piece(part, PIECE_ROOM));
    parts.chain([Call::End(PIECE_ROOM)]).collect()
}

/// Long cells with injected bytes in place of each byte, of which some pieces have nothing but text.
fn injected_in_cells_in_pieces(calls: &Calls) -> Result<Compared, String> {
    let mut pieces = PieceComparison::new(calls.pieces);
    let mut compared = Compared::default();
    let header = "\"a\",\"b\"\n";
    for (dialect, quote, text) in CELLS_OF {
        let file = format!("{header}{quote}{text}{quote},\"x\"\n\"y\",\"z\"\n");
        let start = header.len() + quote.len();
        for place in start..=start + text.len() {
            for injected in INJECTED {
                let injected = replaced(file.as_bytes(), place, injected);
                for size in PIECES {
                    pieces.calls_agree(dialect, target_of(dialect), &in_pieces(&injected, size))?;
                    compared.inputs += 1;
                }
            }
        }
    }
    Ok(compared)
}

#[test]
fn cells_fall_back_at_each_distance_from_a_pieces_end() {
    let compared = agreed(injected_in_cells_in_pieces(&PROVED));
    compared.report("cells with injected bytes, in pieces", 60_000);
}

// ---- the limits of a record

/// A long record's dialect, what is before its filler, what is filled in, what is after it, and the ending.
const LONG: [(u32, &str, &str, &str, &str); 8] = [
    (1, "\"", "x", "\",\"Harbours\"", "\n"),
    (1, "\"", "\u{e9}", "\",\"x\"", "\r\n"),
    (1, "\"", "x", "\",-12.250", "\n"),
    (2, "\"", "x", "\",\"Harbours\"", "\r\n"),
    (2, "\"", "x", "\",\\N", "\r"),
    (3, "", "x", ",Harbours", "\n"),
    (3, "", "\u{6771}", ",x", "\r\n"),
    (3, "\"", "x", "\",\"Harbours\"", "\r\n"),
];
/// An unquoted record of a few bytes less than the most is too long for a target that quotes its cells.
const LENGTHS: RangeInclusive<usize> = RECORD_BYTES - 6..=RECORD_BYTES + 4;
/// How far from a record's end bytes are injected.
const NEAR: usize = 4;

/// Records of about as many bytes as a record may have, with injected bytes in place of each byte near their end, and files that end there.
/// A piece begins with the record, or, with a few of the injected bytes, each piece has 64 bytes.
fn injected_long_records(calls: &Calls) -> Result<Compared, String> {
    let mut compared = Compared::default();
    let mut pieces = PieceComparison::new(calls.pieces);
    let mut agrees = |dialect: u32, file: &[u8], start: usize| {
        compared.whole(calls, dialect, file, 16)?;
        let cuts = [start].into_iter();
        pieces.cuts_agree(dialect, target_of(dialect), file, cuts)
    };
    let mut small_pieces = PieceComparison::new(calls.pieces);
    let before = "\"a\",\"b\"\n\"Harbour\",\"1\"\n";
    for (dialect, open, filler, close, ending) in LONG {
        for length in LENGTHS {
            let missing = length - open.len() - close.len();
            let filler =
                "x".repeat(missing % filler.len()) + &filler.repeat(missing / filler.len());
            let file = format!("{before}{open}{filler}{close}{ending}\"Harbour\",\"2\"\n");
            let (file, start) = (file.as_bytes(), before.len());
            for place in start + length - NEAR..=start + length {
                for injected in INJECTED {
                    agrees(dialect, &replaced(file, place, injected), start)?;
                }
                for injected in FEW_INJECTED {
                    let injected = replaced(file, place, injected);
                    small_pieces.calls_agree(
                        dialect,
                        target_of(dialect),
                        &in_pieces(&injected, 64),
                    )?;
                }
                agrees(dialect, &file[..place], start)?;
            }
        }
    }
    Ok(compared)
}

#[test]
fn records_fall_back_at_each_distance_from_their_limit() {
    let compared = agreed(injected_long_records(&PROVED));
    let numbers = [0, 2, 3, 4, 5, 8, 9];
    compared.report_numbers("files about a record's limit", 15_000, &numbers, 100);
}

/// How a cell is encoded in a record of many, given its number.
type Encoding = fn(usize) -> String;

fn quoted(number: usize) -> String {
    format!("\"{number}\"")
}

fn bare(number: usize) -> String {
    number.to_string()
}

const WIDE: [(u32, Encoding); 5] = [(1, quoted), (1, bare), (2, quoted), (3, bare), (3, quoted)];

fn wide_record(cells: usize, encoding: Encoding) -> String {
    let cells: Vec<String> = (1..=cells).map(encoding).collect();
    cells.join(",") + "\n"
}

/// Records of about as many cells as a record may have, under a header of about as many, with injected bytes in place of each byte near
/// their end. A piece begins with the record.
fn injected_wide_records(calls: &Calls, injected: &[&[u8]]) -> Result<Compared, String> {
    let mut compared = Compared::default();
    let mut pieces = PieceComparison::new(calls.pieces);
    for (dialect, encoding) in WIDE {
        for columns in COLUMNS - 1..=COLUMNS + 1 {
            for cells in columns - 1..=columns + 1 {
                let header = wide_record(columns, quoted);
                let before = header.clone() + &wide_record(columns, encoding);
                let record = wide_record(cells, encoding);
                let (start, end) = (before.len(), before.len() + record.len());
                let file = before + &record + &header;
                for place in end - NEAR..end {
                    for injected in injected {
                        let injected = replaced(file.as_bytes(), place, injected);
                        compared.whole(calls, dialect, &injected, 5 * COLUMNS)?;
                        let cuts = [start].into_iter();
                        pieces.cuts_agree(dialect, target_of(dialect), &injected, cuts)?;
                    }
                }
            }
        }
    }
    Ok(compared)
}

#[test]
fn records_fall_back_at_each_distance_from_the_limit_of_columns() {
    let compared = agreed(injected_wide_records(&PROVED, &FEW_INJECTED));
    let numbers = [0, 2, 3, 5, 8];
    compared.report_numbers("files about the limit of columns", 1_500, &numbers, 20);
}

// ---- pieces

/// Files cut in two at each place, each converted to one dialect, or to all.
fn injected_and_cut(
    calls: &Calls,
    files: &[(u32, &str)],
    to_all: bool,
) -> Result<Compared, String> {
    let mut pieces = PieceComparison::new(calls.pieces);
    let mut compared = Compared::default();
    for (source, file) in files {
        for injected in injected_files(file.as_bytes()) {
            let targets = DIALECTS.map(|(target, _)| target).into_iter();
            for target in targets.filter(|target| to_all || *target == target_of(*source)) {
                compared.inputs +=
                    pieces.cuts_agree(*source, target, &injected, 0..=injected.len())?;
            }
        }
    }
    Ok(compared)
}

#[test]
fn injected_files_are_cut_at_each_place() {
    const CUTS: usize = 400_000;
    let compared = agreed(injected_and_cut(&PROVED, &CUT, false));
    compared.report("cuts of files with injected bytes", CUTS);
}

/// Files cut in three at each two places, one in `one_in` of those with injected bytes.
fn injected_and_cut_twice(calls: &Calls, one_in: usize) -> Result<Compared, String> {
    let mut pieces = PieceComparison::new(calls.pieces);
    let mut compared = Compared::default();
    for (source, file) in CUT {
        for injected in injected_files(file.as_bytes()).step_by(one_in) {
            for second in 0..=injected.len() {
                for first in 0..=second {
                    let parts = [
                        &injected[..first],
                        &injected[first..second],
                        &injected[second..],
                    ];
                    let [first, second, third] = parts.map(|part| Call::Piece(part, PIECE_ROOM));
                    let calls = [first, second, third, Call::End(PIECE_ROOM)];
                    pieces.calls_agree(source, target_of(source), &calls)?;
                    compared.inputs += 1;
                }
            }
        }
    }
    Ok(compared)
}

/// It has no divisor in common with the number of files for a place, so that each kind of them is taken.
const ONE_IN: usize = 97;

#[test]
fn injected_files_are_cut_at_each_two_places() {
    let compared = agreed(injected_and_cut_twice(&PROVED, ONE_IN));
    compared.report("files with injected bytes, cut twice", 80_000);
}

// ---- the limit of a file

/// A last record: the dialect, and what is before and after its filler. Of two, the first stays on the fast path and the second falls back.
const LAST: [(u32, [(&str, &str); 2]); 3] = [
    (3, [("\"1\",\"", "\"\r\n"), ("1,", "")]),
    (2, [("\"1\",\"", "\"\n"), ("#c\n\"1\",\"", "\"\"\"\r")]),
    (1, [("\"1\",\"", "\"\r\n"), ("\"1\" ,\"", "\\n\"\n")]),
];

/// Ordinary records of as many bytes as a file may have, and of one and two more. Each length and last record comes in one dialect, or in
/// all.
fn full_files(calls: &Calls, in_all: bool) -> Result<Compared, String> {
    let mut compared = Compared::default();
    let mut pieces = PieceComparison::new(&calls.pieces[..1]);
    let record = format!("\"Harbour\",\"{}\"\r\n", "West Harbour ".repeat(200));
    for more in 0..=2 {
        for (index, (dialect, last)) in LAST.into_iter().enumerate() {
            for (which, last) in last.into_iter().enumerate() {
                if !in_all && (index + more + which) % LAST.len() != 0 {
                    continue;
                }
                let (target, length) = (target_of(dialect), FILE_BYTES + more);
                let (file, records) = file_of("\"a\",\"b\"\n", &record, last, length);
                let answer = read_agrees(calls.reader, dialect, &file, [2 * records; 3])?;
                compared.reports.add(dialect, answer.report.number);
                let room = convert_room(length);
                convert_agrees(calls.converter, dialect, target, &file, room)?;
                pieces.calls_agree(dialect, target, &in_pieces(&file, PIECE_BYTES))?;
                compared.inputs += 1;
            }
        }
    }
    Ok(compared)
}

#[test]
fn files_fall_back_at_their_limit() {
    let compared = agreed(full_files(&PROVED, false));
    compared.report("files about the limit", 6);
    let numbers = |number| DIALECTS.map(|(dialect, _)| compared.reports.of(dialect, number));
    assert_eq!(numbers(0).iter().sum::<usize>(), 2);
    assert_eq!(numbers(8).iter().sum::<usize>(), 4);
}

// ---- more of all

#[test]
#[ignore = "it takes minutes; the others cut shorter files, each to one dialect, and fewer of them twice"]
fn all_injected_files_are_cut_anywhere() {
    let compared = agreed(full_files(&PROVED, true));
    compared.report("files about the limit", 18);
    let compared = agreed(injected_wide_records(&PROVED, &INJECTED));
    compared.report("files about the limit of columns", 6_000);
    let compared = agreed(injected_and_cut_twice(&PROVED, 5));
    compared.report("files with injected bytes, cut twice", 1_500_000);
    let compared = agreed(injected_and_cut(&PROVED, &ORDINARY, true));
    compared.report(
        "cuts of files with injected bytes to all dialects",
        16_000_000,
    );
}

// ---- wrong calls

fn report(number: usize) -> Report {
    Report {
        number,
        ..Report::ACCEPTED
    }
}

fn refused_reading(number: usize) -> ReadAnswer {
    ReadAnswer {
        report: report(number),
        columns: 0,
        records: 0,
        cells: 0,
    }
}

fn is_clean(bytes: &[u8]) -> bool {
    let mut bytes = bytes.iter();
    bytes.all(|byte| (0x20..0x80).contains(byte) && !matches!(byte, b'"' | b'\\'))
}

const PASSES_OVER_80: Reader = |dialect, file, starts, ends, kinds| {
    let mut mended = file.to_vec();
    for place in 7..file.len() {
        if file[place] == 0x80 && is_clean(&file[place - 7..place]) {
            mended[place] = b'x';
        }
    }
    read(dialect, &mended, starts, ends, kinds)
};

const ENDS_BY_CR: Reader = |dialect, file, starts, ends, kinds| {
    let mut mended = file.to_vec();
    for place in 0..file.len() {
        if dialect != 2 && file[place] == b'\r' && file.get(place + 1) != Some(&b'\n') {
            mended[place] = b'\n';
        }
    }
    read(dialect, &mended, starts, ends, kinds)
};

const REFUSES_FULL_RECORDS: Reader = |dialect, file, starts, ends, kinds| {
    let mut lines = file.split(|byte| matches!(byte, b'\r' | b'\n'));
    match lines.any(|line| line.len() == RECORD_BYTES) {
        true => refused_reading(8),
        false => read(dialect, file, starts, ends, kinds),
    }
};

const REFUSES_FULL_FILES: Reader = |dialect, file, starts, ends, kinds| match file.len() {
    FILE_BYTES => refused_reading(8),
    _ => read(dialect, file, starts, ends, kinds),
};

const COPIES_A_QUOTE: WholeConverter = |from, to, file, room| {
    let answer = convert(from, to, file, room);
    let text = &mut room[..answer.written];
    for place in 8..text.len().saturating_sub(1) {
        if text[place..].starts_with(b"\\\"") && is_clean(&text[place - 8..place]) {
            text[place] = b'"';
        }
    }
    answer
};

const REFUSES_64_CELLS: WholeConverter = |from, to, file, room| match read_whole(from, file) {
    Ok(table) if table.columns == COLUMNS => Converted {
        report: report(9),
        written: 0,
    },
    _ => convert(from, to, file, room),
};

const LOSES_A_CUT_CHARACTER: PieceConverter = |state, call, out| match *call {
    Call::Piece([0x80..=0xBF, rest @ ..], room) => {
        proved_lent(state, &Call::Piece(rest, room), out)
    }
    _ => proved_lent(state, call, out),
};

const ENDS_BY_AN_EMPTY_PIECE: PieceConverter = |state, call, out| match *call {
    Call::Piece([], room) => proved_lent(state, &Call::End(room), out),
    _ => proved_lent(state, call, out),
};

const TAKES_A_LAST_QUOTE_FOR_TEXT: PieceConverter = |state, call, out| match *call {
    Call::Piece([text @ .., b'"'], room) if text.len() >= 7 && is_clean(text) => {
        let text = [text, b"x"].concat();
        proved_lent(state, &Call::Piece(&text, room), out)
    }
    _ => proved_lent(state, call, out),
};

/// Calls of which one is wrong, and the comparison that has to notice it.
type Wrong = (Calls, fn(&Calls) -> Result<Compared, String>);

const fn wrong_reader(reader: Reader) -> Calls {
    Calls { reader, ..PROVED }
}

const fn wrong_converter(converter: WholeConverter) -> Calls {
    Calls {
        converter,
        ..PROVED
    }
}

const fn wrong_pieces(pieces: &'static [PieceConverter]) -> Calls {
    Calls { pieces, ..PROVED }
}

const WRONG: [(&str, Wrong); 9] = [
    (
        "a byte that breaks UTF-8 after seven clean ones is passed over",
        (wrong_reader(PASSES_OVER_80), injected_in_words),
    ),
    (
        "a CR ends a record of CSVJ and CSV+",
        (wrong_reader(ENDS_BY_CR), injected_at_each_place),
    ),
    (
        "a record of 4,096 bytes is too long",
        (wrong_reader(REFUSES_FULL_RECORDS), injected_long_records),
    ),
    (
        "a file of 16,777,215 bytes is too long",
        (wrong_reader(REFUSES_FULL_FILES), |calls| {
            full_files(calls, false)
        }),
    ),
    (
        "a quote after eight clean bytes is copied as it is",
        (wrong_converter(COPIES_A_QUOTE), injected_in_words),
    ),
    (
        "a record of 64 cells has too many",
        (wrong_converter(REFUSES_64_CELLS), |calls| {
            injected_wide_records(calls, &FEW_INJECTED)
        }),
    ),
    (
        "a character that is cut is lost",
        (wrong_pieces(&[LOSES_A_CUT_CHARACTER]), |calls| {
            injected_and_cut(calls, &CUT, false)
        }),
    ),
    (
        "a quote after a piece's text is taken for text",
        (
            wrong_pieces(&[TAKES_A_LAST_QUOTE_FOR_TEXT]),
            injected_in_cells_in_pieces,
        ),
    ),
    (
        "an empty piece ends the file",
        (wrong_pieces(&[ENDS_BY_AN_EMPTY_PIECE]), |calls| {
            injected_and_cut_twice(calls, ONE_IN)
        }),
    ),
];

#[test]
fn wrong_calls_are_noticed() {
    for (wrong, (calls, compare)) in WRONG {
        assert!(compare(&calls).is_err(), "{wrong}");
    }
}
