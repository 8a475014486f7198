//! Random files: tables encoded in every way that a dialect allows, tables with a fault planted in
//! them, and both of these with bytes changed. And random tables for the writer, of the same cells.

use crate::json::surrogate_bytes;
use crate::rng::Rng;
use crate::whole::{Cell, TableLists};
use crate::DIALECTS;
use reference::limits::{COLUMNS, FILE_BYTES, RECORD_BYTES};
use reference::Dialect;
use std::iter::repeat_n;

/// A random file.
#[derive(Clone, Debug)]
pub struct Sample {
    /// The file.
    pub file: Vec<u8>,
    /// The records that it was made of, if it is known to be sound.
    pub records: Option<Vec<Vec<Cell>>>,
}

/// A cell before it is encoded; text is a list of code points.
#[derive(Clone, Debug, PartialEq, Eq)]
enum Value {
    Text(Vec<u32>),
    Number(&'static str),
    True,
    False,
    Null,
}

/// Code points that are on an edge of some rule.
const CODE_POINTS: [u32; 37] = [
    0x00, 0x01, 0x08, 0x09, 0x0A, 0x0C, 0x0D, 0x1F, 0x20, 0x20, 0x22, 0x23, 0x2C, 0x2F, 0x30, 0x41,
    0x41, 0x42, 0x4E, 0x5C, 0x61, 0x61, 0x61, 0x62, 0x62, 0x7F, 0x80, 0xE9, 0x7FF, 0x800, 0xD7FF,
    0xE000, 0xFEFF, 0xFFFF, 0x10000, 0x1F600, 0x10FFFF,
];
const SURROGATES: [u32; 5] = [0xD800, 0xD83D, 0xDBFF, 0xDC00, 0xDFFF];
const NUMBERS: [&str; 12] = [
    "0",
    "-0",
    "1",
    "-12",
    "0.5",
    "10.250",
    "1e5",
    "1E+05",
    "-0.0e-0",
    "2E-7",
    "-9.9e99",
    "12345678901234567890",
];
const BYTE_ORDER_MARK: &[u8; 3] = b"\xEF\xBB\xBF";
/// Bytes that are likely to change what a file means.
const BYTES: &[u8] = b"\"\"\",,\r\r\n\n\\N#  \t\0\x1FaA01-+.eEtnfu8d/[{\
    \x7F\x80\x8F\x90\x9F\xA0\xBB\xBF\xC0\xC1\xC2\xDF\xE0\xED\xEF\xF0\xF4\xF5\xFF";

/// A random file of the dialect.
pub fn sample(rng: &mut Rng, dialect: Dialect) -> Sample {
    let mut sample = match rng.below(100) {
        0..=3 => no_records(rng, dialect),
        4..=24 => faulty_table(rng, dialect),
        _ => sound_table(rng, dialect),
    };
    if rng.percent(3) {
        widen(rng, &mut sample.file);
        sample.records = None;
    }
    if rng.percent(40) {
        for _ in 0..rng.between(1, 3) {
            mutate(rng, &mut sample.file);
        }
        sample.records = None;
    }
    sample
}

/// Fills up a line until it has about as many bytes as a record may have.
fn widen(rng: &mut Rng, file: &mut Vec<u8>) {
    let place = rng.below(file.len() + 1);
    let is_inside = |byte: &&u8| !matches!(byte, b'\r' | b'\n');
    let before = file[..place].iter().rev().take_while(is_inside).count();
    let after = file[place..].iter().take_while(is_inside).count();
    let length = rng.between(RECORD_BYTES - 2, RECORD_BYTES + 2);
    let filler = rng.pick(b"xxx 1");
    let missing = length.saturating_sub(before + after);
    drop(file.splice(place..place, repeat_n(filler, missing)));
}

/// Changes, adds or removes a byte, adds a byte order mark in front, repeats a part, or cuts the bytes off.
pub fn mutate(rng: &mut Rng, file: &mut Vec<u8>) {
    let place = rng.below(file.len() + 1);
    match rng.below(20) {
        0 => drop(file.splice(..0, *BYTE_ORDER_MARK)),
        1..=2 => file.truncate(place),
        3 => {
            let end = rng.between(place, file.len().min(place + 20));
            file.extend_from_within(place..end);
            file[place..].rotate_right(end - place);
        }
        4..=8 => file.insert(place, rng.pick(BYTES)),
        _ if place == file.len() => file.push(rng.pick(BYTES)),
        9..=12 => drop(file.remove(place)),
        13..=16 => file[place] = rng.pick(BYTES),
        _ => file[place] ^= 1 << rng.below(8),
    }
}

/// A header, a data record again and again, and filler in a last record, `length` bytes in all,
/// with the number of its records.
pub fn file_of(header: &str, record: &str, last: (&str, &str), length: usize) -> (Vec<u8>, usize) {
    let fixed = header.len() + last.0.len() + last.1.len();
    let times = (length - fixed) / record.len();
    let filler = length - fixed - times * record.len();
    let mut file = header.as_bytes().to_vec();
    file.extend(record.repeat(times).bytes());
    file.extend(last.0.bytes());
    file.extend("x".repeat(filler).bytes());
    file.extend(last.1.bytes());
    assert_eq!(file.len(), length);
    (file, times + 2)
}

/// How many bytes are beside the content in the canonical text of a record of one cell: CR and LF in CSV+, else two quotes and LF.
pub const fn beside_content(target: u32) -> usize {
    if target == 3 {
        2
    } else {
        3
    }
}

/// A CSV+ file whose canonical text in the dialect `to` is as long as a file may be, and `more` bytes longer.
pub fn file_of_long_text(to: u32, more: usize) -> Vec<u8> {
    const CONTENT: &str = "Harbour Street";
    let written = CONTENT.len() + beside_content(to);
    let records = FILE_BYTES / written;
    let missing = FILE_BYTES - records * written;
    let mut file = format!("{CONTENT}\n").repeat(records - 1).into_bytes();
    file.extend(CONTENT.bytes());
    file.extend("x".repeat(missing + more).bytes());
    file
}

fn no_records(rng: &mut Rng, dialect: Dialect) -> Sample {
    let mut file = Vec::new();
    match dialect {
        Dialect::Csvj if rng.percent(50) => file.extend(BYTE_ORDER_MARK),
        Dialect::Tdif => (0..rng.below(3)).for_each(|_| spell_comment(rng, &mut file)),
        Dialect::Csvj | Dialect::CsvPlus => {}
    }
    Sample {
        file,
        records: None,
    }
}

fn sound_table(rng: &mut Rng, dialect: Dialect) -> Sample {
    let records = table(rng, dialect);
    encode(rng, dialect, &records)
}

fn table(rng: &mut Rng, dialect: Dialect) -> Vec<Vec<Value>> {
    let columns = match rng.below(100) {
        0..=1 if dialect == Dialect::Csvj => 0,
        0..=3 => COLUMNS,
        4..=39 => 1,
        _ => rng.between(2, 5),
    };
    table_of(rng, dialect, columns)
}

fn table_of(rng: &mut Rng, dialect: Dialect, columns: usize) -> Vec<Vec<Value>> {
    let mut records = vec![header(rng, dialect, columns)];
    for _ in 0..rng.below(5) {
        records.push((0..columns).map(|_| value(rng, dialect)).collect());
    }
    if columns == 1 && rng.percent(8) {
        let index = rng.below(records.len());
        records[index][0] = Value::Text(long_text(rng));
    }
    records
}

fn faulty_table(rng: &mut Rng, dialect: Dialect) -> Sample {
    let mut records = table(rng, dialect);
    plant_fault(rng, dialect, &mut records);
    Sample {
        records: None,
        ..encode(rng, dialect, &records)
    }
}

/// Repeats a name, changes a kind in the header, or adds a record that is too wide or has another count of cells.
fn plant_fault(rng: &mut Rng, dialect: Dialect, records: &mut Vec<Vec<Value>>) {
    let columns = records[0].len();
    match rng.below(4) {
        0 => repeat_name(rng, &mut records[0]),
        1 if dialect != Dialect::CsvPlus => {
            let place = rng.below(columns + 1);
            let replaced = usize::from(place < columns && rng.percent(50));
            let other = other_value(rng, dialect);
            drop(records[0].splice(place..place + replaced, [other]));
        }
        2 => {
            let wide = vec![Value::Text(Vec::new()); rng.between(COLUMNS, COLUMNS + 2)];
            records.push(wide);
        }
        _ => {
            let mut ragged = records[rng.below(records.len())].clone();
            if rng.percent(50) || ragged.len() < 2 {
                ragged.push(Value::Text(Vec::new()));
            } else {
                ragged.pop();
            }
            records.push(ragged);
        }
    }
}

/// Gives a column the name of another, or that name with its letters in the other case.
fn repeat_name(rng: &mut Rng, header: &mut Vec<Value>) {
    while header.len() < 2 {
        header.push(Value::Text(Vec::new()));
    }
    let from = rng.below(header.len());
    let to = (from + rng.between(1, header.len() - 1)) % header.len();
    let mut name = header[from].clone();
    if let (Value::Text(points), true) = (&mut name, rng.percent(30)) {
        let letters = points.iter_mut();
        letters
            .filter(|point| matches!(point, 0x41..=0x5A | 0x61..=0x7A))
            .for_each(|letter| *letter ^= 0x20);
    }
    header[to] = name;
}

/// Names that are distinct by the dialect's rule, though often close.
fn header(rng: &mut Rng, dialect: Dialect, columns: usize) -> Vec<Value> {
    let fold = |text: &[u32]| -> Vec<u32> {
        let lower = |&point: &u32| match point {
            0x41..=0x5A if dialect == Dialect::Tdif => point + 0x20,
            _ => point,
        };
        text.iter().map(lower).collect()
    };
    let mut seen = Vec::new();
    let mut names = Vec::new();
    for column in 0..columns {
        let mut name = text(rng, dialect);
        if seen.contains(&fold(&name)) {
            name.push(0x4E00 + column as u32);
        }
        seen.push(fold(&name));
        names.push(Value::Text(name));
    }
    names
}

fn value(rng: &mut Rng, dialect: Dialect) -> Value {
    let text_chance = match dialect {
        Dialect::Csvj => 56,
        Dialect::Tdif => 50,
        Dialect::CsvPlus => 100,
    };
    if rng.percent(text_chance) {
        Value::Text(text(rng, dialect))
    } else {
        other_value(rng, dialect)
    }
}

/// A value that is not text, of which CSV+ has none.
fn other_value(rng: &mut Rng, dialect: Dialect) -> Value {
    match rng.below(4) {
        0 if dialect == Dialect::Csvj => Value::Number(rng.pick(&NUMBERS)),
        1 if dialect == Dialect::Csvj => Value::True,
        2 if dialect == Dialect::Csvj => Value::False,
        _ => Value::Null,
    }
}

fn text(rng: &mut Rng, dialect: Dialect) -> Vec<u32> {
    let mut points: Vec<u32> = Vec::new();
    let has_surrogates = dialect == Dialect::Csvj && rng.percent(6);
    for _ in 0..rng.pick(&[0, 1, 1, 1, 2, 2, 3, 4]) {
        let point = if has_surrogates && rng.percent(50) {
            rng.pick(&SURROGATES)
        } else {
            rng.pick(&CODE_POINTS)
        };
        let after_high = points
            .last()
            .is_some_and(|last| (0xD800..0xDC00).contains(last));
        if !(after_high && (0xDC00..0xE000).contains(&point)) {
            points.push(point);
        }
    }
    points
}

/// Text near the record limit, as it is read or as a target writes it.
fn long_text(rng: &mut Rng) -> Vec<u32> {
    let (point, length) = match rng.below(3) {
        0 => (0x01, rng.between(680, 685)),
        1 => (0x22, rng.between(2_044, 2_050)),
        _ => (0x78, rng.between(4_091, 4_099)),
    };
    let mut points = vec![point; length];
    points.extend(rng.percent(30).then(|| rng.pick(&CODE_POINTS)));
    points
}

/// Fills a text up until its record, written, has about as many bytes as a record may have.
fn fill_record(rng: &mut Rng, records: &mut [Vec<Value>]) {
    let record = rng.below(records.len());
    let record = &mut records[record];
    let quotes = rng.pick(&[0, 2]);
    let length = |value: &Value| content(value).content.len() + quotes + 1;
    let written: usize = record.iter().map(length).sum();
    let wanted = rng.between(RECORD_BYTES - 2, RECORD_BYTES + 4);
    let is_text = |value: &&mut Value| matches!(value, Value::Text(_));
    if let Some(Value::Text(points)) = record.iter_mut().find(is_text) {
        points.extend(repeat_n(0x78, wanted.saturating_sub(written)));
    }
}

fn content(value: &Value) -> Cell {
    let (kind, content) = match value {
        Value::Text(points) => (1, points.iter().flat_map(|&point| packed(point)).collect()),
        Value::Number(spelling) => (2, spelling.as_bytes().to_vec()),
        Value::True => (3, Vec::new()),
        Value::False => (4, Vec::new()),
        Value::Null => (5, Vec::new()),
    };
    Cell { kind, content }
}

fn packed(point: u32) -> Vec<u8> {
    match char::from_u32(point) {
        Some(character) => character.to_string().into_bytes(),
        None => surrogate_bytes(point as u16).to_vec(),
    }
}

/// Spellings that are no numbers, though close to one.
const NO_NUMBERS: [&[u8]; 16] = [
    b"", b"-", b"00", b"01", b"-01", b"1.", b".5", b"1e", b"1e+", b"+1", b" 1", b"1 ", b"1,5",
    b"0x1", b"NaN", b"1\x00",
];
/// Contents at the edge of UTF-8 and of what widens it, most of them on the wrong side.
const CONTENTS: [&[u8]; 16] = [
    b"\x80",
    b"\xC0\x80",
    b"\xC1\xBF",
    b"\xC2",
    b"\xC2\x41",
    b"\xE0\x9F\xBF",
    b"\xE2\x82",
    b"\xED\xA0",
    b"\xED\xA0\xBD",
    b"\xED\xB8\x80",
    b"\xED\xA0\xBD\xED\xB8\x80",
    b"\xED\xB8\x80\xED\xA0\xBD",
    b"\xED\xA0\xBDa\xED\xB8\x80",
    b"\xF0\x8F\xBF\xBF",
    b"\xF4\x90\x80\x80",
    b"\xEF\xBB\xBF",
];

/// A random table for the writer, of cells that some dialect has. Its spans may share bytes, leave gaps and come in any order. Some
/// tables have a fault, some are none.
pub fn table_lists(rng: &mut Rng) -> TableLists {
    let (_, dialect) = rng.pick(&DIALECTS);
    let mut records = match rng.percent(2) {
        true => {
            let columns = rng.between(COLUMNS + 1, COLUMNS + 2);
            table_of(rng, dialect, columns)
        }
        false => table(rng, dialect),
    };
    match rng.below(100) {
        0..=14 => plant_fault(rng, dialect, &mut records),
        15..=18 => fill_record(rng, &mut records),
        _ => {}
    }
    let mut lists = lists_of(rng, &cells_in(&records));
    if rng.percent(40) {
        spoil(rng, &mut lists);
    }
    lists
}

/// A random table for the writer, of cells that some dialect has, and its records.
pub fn sound_lists(rng: &mut Rng) -> (TableLists, Vec<Vec<Cell>>) {
    let (_, dialect) = rng.pick(&DIALECTS);
    let records = cells_in(&table(rng, dialect));
    (lists_of(rng, &records), records)
}

fn cells_in(records: &[Vec<Value>]) -> Vec<Vec<Cell>> {
    let cells = |record: &Vec<Value>| record.iter().map(content).collect();
    records.iter().map(cells).collect()
}

/// The writer's arguments for these records, whose contents are in file order or not.
fn lists_of(rng: &mut Rng, records: &[Vec<Cell>]) -> TableLists {
    let (columns, count, cells) = (records[0].len(), records.len(), records.concat());
    match rng.percent(50) {
        true => TableLists::of_cells(columns, count, &cells),
        false => scattered(rng, columns, count, &cells),
    }
}

/// The contents in any order, with bytes between them that no cell has, and shared where one holds another.
fn scattered(rng: &mut Rng, columns: usize, records: usize, cells: &[Cell]) -> TableLists {
    let mut lists = TableLists {
        content: Vec::new(),
        starts: vec![0; cells.len()],
        ends: vec![0; cells.len()],
        kinds: cells.iter().map(|cell| cell.kind).collect(),
        columns,
        records,
    };
    let mut order: Vec<usize> = (0..cells.len()).collect();
    for last in (1..order.len()).rev() {
        order.swap(last, rng.below(last + 1));
    }
    for index in order {
        let wanted = &cells[index].content;
        let found = match wanted.len() {
            0 => Some(rng.below(lists.content.len() + 1)),
            length => lists
                .content
                .windows(length)
                .position(|part| part == wanted),
        };
        let start = found.filter(|_| rng.percent(60)).unwrap_or_else(|| {
            let gap = rng.below(3);
            lists.content.extend((0..gap).map(|_| rng.pick(BYTES)));
            lists.content.extend(wanted);
            lists.content.len() - wanted.len()
        });
        lists.starts[index] = start;
        lists.ends[index] = start + wanted.len();
    }
    lists
}

/// Changes a table so that it is most often none.
fn spoil(rng: &mut Rng, lists: &mut TableLists) {
    let cells = lists.kinds.len();
    match rng.below(10) {
        0 => change_length(rng, lists),
        1 => change_shape(rng, lists),
        _ if cells == 0 => {}
        2 => {
            let cell = rng.below(cells);
            (lists.starts[cell], lists.ends[cell]) = (lists.ends[cell], lists.starts[cell]);
        }
        3 => {
            let outside = rng.pick(&[lists.content.len() + 1, 1 << 32, usize::MAX]);
            let cell = rng.below(cells);
            lists.ends[cell] = outside;
            if rng.percent(50) {
                lists.starts[cell] = outside;
            }
        }
        4 => {
            let list = match rng.percent(50) {
                true => &mut lists.starts,
                false => &mut lists.ends,
            };
            let cell = rng.below(cells);
            list[cell] = match rng.percent(50) {
                true => list[cell] + 1,
                false => list[cell].saturating_sub(1),
            };
        }
        5 => lists.kinds[rng.below(cells)] = rng.pick(&[0, 6, 7, 0x81, 0xFF]),
        6 => lists.kinds[rng.below(cells)] = rng.pick(&[1, 2, 3, 4, 5]),
        7 => put_content(rng, lists, 2, &NO_NUMBERS),
        8 => put_content(rng, lists, 1, &CONTENTS),
        _ => mutate(rng, &mut lists.content),
    }
}

/// Gives a cell this kind and one of these contents.
fn put_content(rng: &mut Rng, lists: &mut TableLists, kind: u8, contents: &[&[u8]]) {
    let cell = rng.below(lists.kinds.len());
    lists.kinds[cell] = kind;
    lists.starts[cell] = lists.content.len();
    lists.content.extend(rng.pick(contents));
    lists.ends[cell] = lists.content.len();
}

/// Makes one of the lists longer or shorter than the others.
fn change_length(rng: &mut Rng, lists: &mut TableLists) {
    let shorter = lists.kinds.len().saturating_sub(1);
    match (rng.below(3), rng.percent(50)) {
        (0, true) => lists.starts.push(0),
        (0, false) => lists.starts.truncate(shorter),
        (1, true) => lists.ends.push(0),
        (1, false) => lists.ends.truncate(shorter),
        (_, true) => lists.kinds.push(1),
        (_, false) => lists.kinds.truncate(shorter),
    }
}

/// Changes the numbers of columns and records, some of them so that their product is the number of cells modulo 2^64.
fn change_shape(rng: &mut Rng, lists: &mut TableLists) {
    match rng.below(8) {
        0 => lists.records = 0,
        1 => lists.columns = 0,
        2 => lists.records += 1,
        3 => lists.columns += 1,
        4 => (lists.columns, lists.records) = (lists.records, lists.columns),
        5 => (lists.columns, lists.records) = (usize::MAX, usize::MAX),
        6 => lists.columns ^= 1 << 63,
        _ => {
            lists.starts.clear();
            lists.ends.clear();
            lists.kinds.clear();
            (lists.columns, lists.records) =
                rng.pick(&[(1 << 32, 1 << 32), (1 << 63, 2), (0, 3), (0, 0), (3, 0)]);
        }
    }
}

/// Encodes a table in one of the ways that the dialect allows.
fn encode(rng: &mut Rng, dialect: Dialect, records: &[Vec<Value>]) -> Sample {
    let mut file = Vec::new();
    let mut sound = records[0].len() <= COLUMNS;
    if dialect == Dialect::Csvj && rng.percent(20) {
        file.extend(BYTE_ORDER_MARK);
    }
    for (index, record) in records.iter().enumerate() {
        if dialect == Dialect::Tdif && rng.percent(20) {
            spell_comment(rng, &mut file);
        }
        let line = spell_record(rng, dialect, record, index == 0);
        sound &= line.len() <= RECORD_BYTES;
        let is_last = index + 1 == records.len();
        let no_ending = dialect == Dialect::CsvPlus && is_last && !line.is_empty();
        file.extend(line);
        if !(no_ending && rng.percent(40)) {
            spell_ending(rng, dialect, &mut file);
        }
    }
    if dialect == Dialect::Tdif && rng.percent(20) {
        spell_comment(rng, &mut file);
    }
    Sample {
        file,
        records: sound.then(|| cells_in(records)),
    }
}

fn spell_ending(rng: &mut Rng, dialect: Dialect, file: &mut Vec<u8>) {
    let endings: &[&[u8]] = match dialect {
        Dialect::Tdif => &[b"\n", b"\r", b"\r\n"],
        Dialect::Csvj | Dialect::CsvPlus => &[b"\n", b"\r\n"],
    };
    file.extend(rng.pick(endings));
}

fn spell_comment(rng: &mut Rng, file: &mut Vec<u8>) {
    file.push(b'#');
    for point in text(rng, Dialect::Tdif) {
        if !matches!(point, 0x0A | 0x0D) {
            file.extend(packed(point));
        }
    }
    // The record limit is not a comment's.
    if rng.percent(1) {
        file.extend(repeat_n(
            b'x',
            rng.between(RECORD_BYTES - 2, RECORD_BYTES + 100),
        ));
    }
    spell_ending(rng, Dialect::Tdif, file);
}

fn spell_record(rng: &mut Rng, dialect: Dialect, record: &[Value], is_header: bool) -> Vec<u8> {
    let mut line = Vec::new();
    spell_blanks(rng, dialect, &mut line);
    for (index, value) in record.iter().enumerate() {
        if index > 0 {
            line.push(b',');
            spell_blanks(rng, dialect, &mut line);
        }
        match (value, dialect) {
            (Value::Text(points), Dialect::Csvj) => spell_string(rng, points, &mut line),
            (Value::Text(_), Dialect::Tdif) => spell_quoted(&content(value).content, &mut line),
            (Value::Text(_), Dialect::CsvPlus) => {
                let bytes = content(value).content;
                let is_byte_order_mark =
                    is_header && index == 0 && bytes.starts_with(BYTE_ORDER_MARK);
                let special = bytes.iter().any(|byte| b"\",\r\n".contains(byte));
                if is_byte_order_mark || special || rng.percent(40) {
                    spell_quoted(&bytes, &mut line);
                } else {
                    line.extend(bytes);
                }
            }
            (Value::Number(spelling), _) => line.extend(spelling.bytes()),
            (Value::True, _) => line.extend(b"true"),
            (Value::False, _) => line.extend(b"false"),
            (Value::Null, Dialect::Tdif) => line.extend(b"\\N"),
            (Value::Null, _) => line.extend(b"null"),
        }
        spell_blanks(rng, dialect, &mut line);
    }
    line
}

fn spell_blanks(rng: &mut Rng, dialect: Dialect, line: &mut Vec<u8>) {
    if dialect == Dialect::Csvj && rng.percent(15) {
        let count = rng.between(1, 2);
        line.extend((0..count).map(|_| rng.pick(b" \t")));
    }
}

fn spell_quoted(bytes: &[u8], line: &mut Vec<u8>) {
    line.push(b'"');
    for &byte in bytes {
        line.push(byte);
        line.extend((byte == b'"').then_some(byte));
    }
    line.push(b'"');
}

fn spell_string(rng: &mut Rng, points: &[u32], line: &mut Vec<u8>) {
    // A long text is encoded as short as can be, to stay near the limit.
    let escapes = if points.len() > 100 { 0 } else { 20 };
    line.push(b'"');
    for &point in points {
        let letter = short_escape(point);
        let must_escape =
            matches!(point, 0x00..=0x1F | 0x22 | 0x5C) || char::from_u32(point).is_none();
        match letter {
            Some(letter) if (must_escape || rng.percent(escapes)) && !rng.percent(escapes) => {
                line.extend([b'\\', letter]);
            }
            _ if must_escape || rng.percent(escapes) => spell_units(rng, point, line),
            _ => line.extend(packed(point)),
        }
    }
    line.push(b'"');
}

fn short_escape(point: u32) -> Option<u8> {
    Some(match point {
        0x08 => b'b',
        0x09 => b't',
        0x0A => b'n',
        0x0C => b'f',
        0x0D => b'r',
        0x22 => b'"',
        0x2F => b'/',
        0x5C => b'\\',
        _ => return None,
    })
}

/// One `\u` escape, or two for a code point beyond FFFF.
fn spell_units(rng: &mut Rng, point: u32, line: &mut Vec<u8>) {
    let mut pair = [0; 2];
    let units: &[u16] = match char::from_u32(point) {
        Some(character) => character.encode_utf16(&mut pair),
        None => &[point as u16],
    };
    for unit in units {
        let digits = format!("{unit:04x}");
        line.extend(b"\\u");
        line.extend(digits.bytes().map(|digit| match rng.percent(50) {
            true => digit.to_ascii_uppercase(),
            false => digit,
        }));
    }
}
