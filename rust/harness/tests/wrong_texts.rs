//! Wrong converters and wrong writers against the comparison that the proved ones have to pass: each has to be noticed.

use harness::compare::{convert_random, write_random};
use harness::ledger::completed_text;
use harness::rooms::{WholeConverter, Writer};
use harness::whole::{convert_whole, read_whole};
use reference::limits::{FILE_BYTES, RECORD_BYTES};
use reference::{convert, write, Converted, Dialect, Report, Table};
use std::iter::zip;

const ACCEPTED: Converted = Converted {
    report: Report::ACCEPTED,
    written: 0,
};

fn refused(report: Report) -> Converted {
    Converted { report, written: 0 }
}

/// A refusal that names no place.
fn refusal(number: usize) -> Converted {
    refused(Report {
        number,
        ..Report::ACCEPTED
    })
}

/// Another text in place of the right one.
fn deliver(text: &[u8], room: &mut [u8]) -> Converted {
    let Some(place) = room.get_mut(..text.len()) else {
        return refusal(10);
    };
    place.copy_from_slice(text);
    Converted {
        written: text.len(),
        ..ACCEPTED
    }
}

/// A room without its last byte.
fn shorter(room: &mut [u8]) -> &mut [u8] {
    let length = room.len().saturating_sub(1);
    &mut room[..length]
}

/// A text with one part in place of another, wherever that is.
fn replaced(text: &[u8], old: &[u8], new: &[u8]) -> Vec<u8> {
    let mut changed = Vec::new();
    let mut rest = text;
    while let Some(&byte) = rest.first() {
        rest = match rest.strip_prefix(old) {
            Some(after) => {
                changed.extend(new);
                after
            }
            None => {
                changed.push(byte);
                &rest[1..]
            }
        };
    }
    changed
}

/// Converts to this target with one part of the text in place of another.
fn respelt(
    target: u32,
    old: &[u8],
    new: &[u8],
    (from, to): (u32, u32),
    file: &[u8],
    room: &mut [u8],
) -> Converted {
    match convert_whole(from, to, file) {
        Ok(text) if to == target => deliver(&replaced(&text, old, new), room),
        _ => convert(from, to, file, room),
    }
}

/// Whether a record of a text has as many bytes as a record may have. Line breaks in a cell are taken for endings, which long records of
/// the random tables have none of.
fn has_full_record(text: &[u8]) -> bool {
    let mut lines = text.split(|byte| *byte == b'\n');
    lines.any(|line| line.strip_suffix(b"\r").unwrap_or(line).len() == RECORD_BYTES)
}

/// The bytes without one of the x that a long text is made of.
fn with_one_x_less(bytes: &[u8]) -> Vec<u8> {
    let mut shorter = bytes.to_vec();
    if let Some(place) = bytes.windows(9).position(|part| part == b"xxxxxxxxx") {
        shorter.remove(place);
    }
    shorter
}

/// Takes a full record of this target for too long.
fn refuses_full_records<const TARGET: u32>(
    from: u32,
    to: u32,
    file: &[u8],
    room: &mut [u8],
) -> Converted {
    match convert_whole(from, to, file) {
        Ok(text) if to == TARGET && has_full_record(&text) => refusal(9),
        _ => convert(from, to, file, room),
    }
}

/// Takes a record of this target that is one byte too long for a full one.
fn takes_one_byte_more<const TARGET: u32>(
    from: u32,
    to: u32,
    file: &[u8],
    room: &mut [u8],
) -> Converted {
    let answer = convert(from, to, file, room);
    match convert_whole(from, to, &with_one_x_less(file)) {
        Ok(text) if to == TARGET && answer.report.number == 9 && has_full_record(&text) => ACCEPTED,
        _ => answer,
    }
}

const WRONG_CONVERTERS: [(&str, WholeConverter); 29] = [
    ("room for the text is too little", |from, to, file, room| {
        convert(from, to, file, shorter(room))
    }),
    (
        "a text is written as far as there is room",
        |from, to, file, room| match convert_whole(from, to, file) {
            Ok(text) => deliver(&text[..text.len().min(room.len())], room),
            Err(report) => refused(report),
        },
    ),
    (
        "a text that is too long is left in the room",
        |from, to, file, room| {
            let answer = convert(from, to, file, room);
            if let (10, Ok(text)) = (answer.report.number, convert_whole(from, to, file)) {
                room.copy_from_slice(&text[..room.len()]);
            }
            answer
        },
    ),
    (
        "the records before a fault are left in the room",
        |from, to, file, room| {
            let answer = convert(from, to, file, room);
            if let 1..=9 = answer.report.number {
                deliver(
                    &completed_text(from, to, &file[..answer.report.offset]),
                    room,
                );
            }
            answer
        },
    ),
    ("a byte 0 ends the text", |from, to, file, room| {
        let answer = convert(from, to, file, room);
        if let (0, Some(byte)) = (answer.report.number, room.get_mut(answer.written)) {
            *byte = 0;
        }
        answer
    }),
    (
        "too little room comes before a fault",
        |from, to, file, room| match convert(from, to, file, room).report.number {
            1..=9 if room.is_empty() => refusal(10),
            _ => convert(from, to, file, room),
        },
    ),
    (
        "the length is returned with too little room",
        |from, to, file, room| {
            let answer = convert(from, to, file, room);
            match convert_whole(from, to, file) {
                Ok(text) => Converted {
                    written: text.len(),
                    ..answer
                },
                Err(_) => answer,
            }
        },
    ),
    (
        "the low byte of the number names the source",
        |from, to, file, room| convert(from & 0xFF, to, file, room),
    ),
    (
        "the low byte of the number names the target",
        |from, to, file, room| convert(from, to & 0xFF, file, room),
    ),
    (
        "an unknown target comes after the file's fault",
        |from, to, file, room| match read_whole(from, file) {
            Err(report) if Dialect::from_number(to).is_none() => refused(report),
            _ => convert(from, to, file, room),
        },
    ),
    (
        "names of TDIF are compared by their bytes",
        |from, to, file, room| {
            let answer = convert(from, to, file, room);
            let is_clash = to == 2 && answer.report.number == 9 && answer.report.record == 1;
            match is_clash && convert(from, 3, file, &mut []).report != answer.report {
                true if answer.report.column > 0 => ACCEPTED,
                _ => answer,
            }
        },
    ),
    (
        "what the target can't represent comes after all else",
        |from, to, file, room| {
            let answer = convert(from, to, file, room);
            match (answer.report.number, read_whole(from, file)) {
                (9, Err(report)) => refused(report),
                _ => answer,
            }
        },
    ),
    (
        "what the target can't represent has no offset",
        |from, to, file, room| {
            let mut answer = convert(from, to, file, room);
            if answer.report.number == 9 {
                answer.report.offset = 0;
            }
            answer
        },
    ),
    (
        "a record too long for the target names a column",
        |from, to, file, room| {
            let mut answer = convert(from, to, file, room);
            if answer.report.number == 9 {
                answer.report.column = answer.report.column.max(1);
            }
            answer
        },
    ),
    (
        "4,096 bytes are too many in CSVJ",
        refuses_full_records::<1>,
    ),
    (
        "4,096 bytes are too many in TDIF",
        refuses_full_records::<2>,
    ),
    (
        "4,096 bytes are too many in CSV+",
        refuses_full_records::<3>,
    ),
    ("4,097 bytes are a record of CSVJ", takes_one_byte_more::<1>),
    ("4,097 bytes are a record of TDIF", takes_one_byte_more::<2>),
    ("a lone surrogate is represented", |from, to, file, room| {
        let answer = convert(from, to, file, room);
        let Ok(table) = read_whole(from, file) else {
            return answer;
        };
        let Report { record, column, .. } = answer.report;
        match answer.report.number == 9 && record > 1 && column > 0 {
            true if table.kinds[(record - 1) * table.columns + column - 1] == 1 => ACCEPTED,
            _ => answer,
        }
    }),
    ("a CR needs no quotes", |from, to, file, room| {
        respelt(3, b"\"\r\"", b"\r", (from, to), file, room)
    }),
    ("a space needs quotes", |from, to, file, room| {
        respelt(3, b"\n \r", b"\n\" \"\r", (from, to), file, room)
    }),
    (
        "a byte order mark begins a CSV+ text",
        |from, to, file, room| match convert_whole(from, to, file) {
            Ok(text) if to == 3 && text.starts_with(b"\"\xEF\xBB\xBF") => deliver(&text[1..], room),
            _ => convert(from, to, file, room),
        },
    ),
    ("an empty record is nothing", |from, to, file, room| {
        respelt(3, b"\n\"\"\r", b"\n\r", (from, to), file, room)
    }),
    ("escapes have capital digits", |from, to, file, room| {
        respelt(1, b"\\u001f", b"\\u001F", (from, to), file, room)
    }),
    ("a slash is escaped", |from, to, file, room| {
        respelt(1, b"/", b"\\/", (from, to), file, room)
    }),
    ("7F is escaped", |from, to, file, room| {
        respelt(1, b"\x7F", b"\\u007f", (from, to), file, room)
    }),
    ("numbers are written anew", |from, to, file, room| {
        respelt(1, b"1E+05", b"1e5", (from, to), file, room)
    }),
    (
        "a file of the target's dialect is copied",
        |from, to, file, room| match convert_whole(from, to, file) {
            Ok(_) if from == to => deliver(file, room),
            _ => convert(from, to, file, room),
        },
    ),
];

#[test]
fn wrong_converters_are_noticed() {
    const FILES: usize = 10_000;
    for (wrong, converter) in WRONG_CONVERTERS {
        assert!(convert_random(converter, 1, FILES).is_err(), "{wrong}");
    }
    assert!(convert_random(convert, 1, FILES).is_ok());
}

/// Writes a table after its lists were changed: of each cell its start, its end and its kind.
fn changed(
    table: Table,
    target: u32,
    room: &mut [u8],
    change: impl Fn(&mut usize, &mut usize, &mut u8),
) -> Converted {
    let (mut starts, mut ends, mut kinds) = (
        table.starts.to_vec(),
        table.ends.to_vec(),
        table.kinds.to_vec(),
    );
    for ((start, end), kind) in zip(zip(&mut starts, &mut ends), &mut kinds) {
        change(start, end, kind);
    }
    let table = Table {
        starts: &starts,
        ends: &ends,
        kinds: &kinds,
        ..table
    };
    write(target, table, room)
}

/// Where the bytes hold a lone surrogate.
fn surrogate(bytes: &[u8]) -> Option<usize> {
    let mut parts = bytes.windows(2);
    parts.position(|part| part[0] == 0xED && part[1] >= 0xA0)
}

/// Takes a full record of this target for too long.
fn writes_no_full_records<const TARGET: u32>(
    target: u32,
    table: Table,
    room: &mut [u8],
) -> Converted {
    match write(target, table, room) {
        answer if target == TARGET && has_full_record(&room[..answer.written]) => refusal(9),
        answer => answer,
    }
}

/// Takes a record of this target that is one byte too long for a full one.
fn writes_one_byte_more<const TARGET: u32>(
    target: u32,
    table: Table,
    room: &mut [u8],
) -> Converted {
    let answer = write(target, table, room);
    if (target, answer.report.number, answer.report.column) != (TARGET, 9, 0) {
        return answer;
    }
    let mut text = vec![0; FILE_BYTES.min(8 * table.content.len() + 1_000)];
    let less = changed(table, target, &mut text, |start, end, _| {
        *start += usize::from(*end > *start + 500);
    });
    match has_full_record(&text[..less.written]) {
        true => ACCEPTED,
        false => answer,
    }
}

const WRONG_WRITERS: [(&str, Writer); 29] = [
    ("room for the text is too little", |target, table, room| {
        write(target, table, shorter(room))
    }),
    ("a byte 0 ends the text", |target, table, room| {
        let answer = write(target, table, room);
        if let (0, Some(byte)) = (answer.report.number, room.get_mut(answer.written)) {
            *byte = 0;
        }
        answer
    }),
    ("a refusal writes to the room", |target, table, room| {
        let answer = write(target, table, room);
        if let (9, Some(byte)) = (answer.report.number, room.first_mut()) {
            *byte = b'"';
        }
        answer
    }),
    (
        "too little room comes before a fault",
        |target, table, room| match write(target, table, room).report.number {
            6..=9 | 12 if room.is_empty() => refusal(10),
            _ => write(target, table, room),
        },
    ),
    (
        "the low byte of the number names the dialect",
        |target, table, room| write(target & 0xFF, table, room),
    ),
    (
        "the shortest list determines the number of cells",
        |target, table, room| {
            let lists = [table.starts.len(), table.ends.len(), table.kinds.len()];
            let cells = lists.into_iter().min().unwrap_or(0);
            let table = Table {
                starts: &table.starts[..cells],
                ends: &table.ends[..cells],
                kinds: &table.kinds[..cells],
                ..table
            };
            write(target, table, room)
        },
    ),
    (
        "columns times records are taken modulo 2^64",
        |target, table, room| {
            let wrapped = table.columns.wrapping_mul(table.records);
            let overflows = table.columns.checked_mul(table.records).is_none();
            match overflows && wrapped == table.starts.len() {
                true => ACCEPTED,
                false => write(target, table, room),
            }
        },
    ),
    ("a reversed span is empty", |target, table, room| {
        changed(table, target, room, |start, end, _| *end = *end.max(start))
    }),
    ("an empty span may lie outside", |target, table, room| {
        let length = table.content.len();
        changed(table, target, room, |start, end, _| {
            if start == end {
                (*start, *end) = (length.min(*start), length.min(*end));
            }
        })
    }),
    ("a span ends with the content", |target, table, room| {
        let length = table.content.len();
        changed(table, target, room, |_, end, _| *end = length.min(*end))
    }),
    ("the low bits name the kind", |target, table, room| {
        changed(table, target, room, |_, _, kind| *kind &= 7)
    }),
    ("kind 6 is null", |target, table, room| {
        changed(table, target, room, |_, _, kind| {
            if *kind == 6 {
                *kind = 5;
            }
        })
    }),
    ("a word may have a content", |target, table, room| {
        changed(table, target, room, |start, end, kind| {
            if *kind >= 3 {
                *end = *start;
            }
        })
    }),
    ("a number may begin with 00", |target, table, room| {
        let content = table.content;
        changed(table, target, room, |start, end, kind| {
            let spelt = content.get(*start..*end).unwrap_or_default();
            *start += usize::from(*kind == 2 && spelt.starts_with(b"00"));
        })
    }),
    ("a number may end after its point", |target, table, room| {
        let content = table.content;
        changed(table, target, room, |start, end, kind| {
            let spelt = content.get(*start..*end).unwrap_or_default();
            *end -= usize::from(*kind == 2 && spelt.ends_with(b"."));
        })
    }),
    ("two halves may be in their order", |target, table, room| {
        let content = table.content;
        changed(table, target, room, |start, end, kind| {
            let text = content.get(*start..*end).unwrap_or_default();
            if *kind == 1 && text == b"\xED\xA0\xBD\xED\xB8\x80" {
                *end = *start;
            }
        })
    }),
    ("no records are a table", |target, table, room| {
        match table.records == 0 && table.starts.is_empty() {
            true => ACCEPTED,
            false => write(target, table, room),
        }
    }),
    (
        "names of TDIF are compared by their bytes",
        |target, table, room| {
            let answer = write(target, table, room);
            let is_clash = target == 2 && answer.report.number == 6;
            match is_clash && write(1, table, &mut []).report.number != 6 {
                true => ACCEPTED,
                false => answer,
            }
        },
    ),
    (
        "a surrogate in the header comes before a clash",
        |target, table, room| {
            let mut answer = write(target, table, room);
            let mut names = zip(table.starts, table.ends).take(table.columns);
            let name = |start, end| table.content.get(start..end).unwrap_or_default();
            let lone = names.position(|(start, end)| surrogate(name(*start, *end)).is_some());
            if let (6, 2..=3, Some(index)) = (answer.report.number, target, lone) {
                (answer.report.number, answer.report.column) = (9, index + 1);
            }
            answer
        },
    ),
    (
        "a clash is what the target can't represent",
        |target, table, room| {
            let mut answer = write(target, table, room);
            if answer.report.number == 6 {
                answer.report.number = 9;
            }
            answer
        },
    ),
    (
        "another kind in the header comes before too many columns",
        |target, table, room| {
            let answer = write(target, table, room);
            let names = table.kinds.iter().take(table.columns);
            match answer.report.number == 8 && names.clone().any(|kind| *kind != 1) {
                true => refusal(7),
                false => answer,
            }
        },
    ),
    (
        "4,096 bytes are too many in CSVJ",
        writes_no_full_records::<1>,
    ),
    (
        "4,096 bytes are too many in TDIF",
        writes_no_full_records::<2>,
    ),
    (
        "4,096 bytes are too many in CSV+",
        writes_no_full_records::<3>,
    ),
    (
        "4,097 bytes are a record of CSVJ",
        writes_one_byte_more::<1>,
    ),
    (
        "4,097 bytes are a record of TDIF",
        writes_one_byte_more::<2>,
    ),
    (
        "4,097 bytes are a record of CSV+",
        writes_one_byte_more::<3>,
    ),
    ("a lone surrogate is represented", |target, table, room| {
        let answer = write(target, table, room);
        let Report { record, column, .. } = answer.report;
        match answer.report.number == 9 && record > 1 && column > 0 {
            true if table.kinds[(record - 1) * table.columns + column - 1] == 1 => ACCEPTED,
            _ => answer,
        }
    }),
    (
        "bytes that no cell holds are checked",
        |target, table, room| {
            let is_utf8 = std::str::from_utf8(table.content).is_ok();
            match is_utf8 || surrogate(table.content).is_some() {
                true => write(target, table, room),
                false => refusal(12),
            }
        },
    ),
];

#[test]
fn wrong_writers_are_noticed() {
    const TABLES: usize = 20_000;
    for (wrong, writer) in WRONG_WRITERS {
        assert!(write_random(writer, 1, TABLES).is_err(), "{wrong}");
    }
    assert!(write_random(write, 1, TABLES).is_ok());
}
