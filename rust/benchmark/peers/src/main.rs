//! The benchmark with csv-core, which reads CSV+, serde_json, which reads and writes CSVJ, and csv, which reads and writes
//! CSV+ and writes TDIF: `peers [FOLDER [ROUNDS]]` or `peers --thresholds [ROUNDS]`.
//!
//! None does all that the proved calls do: csv-core does not check UTF-8, and none checks headers, kinds or limits.

use benchmark::{ConvertingPeer, Peers, ReadingPeer};
use csv::{QuoteStyle, ReaderBuilder, StringRecord, Terminator, Writer, WriterBuilder};
use csv_core::ReadRecordResult;
use reference::limits::{COLUMNS, RECORD_BYTES};
use reference::Dialect;
use serde::de::{DeserializeOwned, IgnoredAny};
use serde::Serialize;
use serde_json::{Deserializer, Value};
use std::process::ExitCode;

const READING_PEERS: [ReadingPeer; 4] = [
    ReadingPeer {
        name: "csv-core",
        dialect: Dialect::CsvPlus,
        prepare: <[u8]>::to_vec,
        read: csv_core_cells,
    },
    ReadingPeer {
        name: "csv, StringRecord",
        dialect: Dialect::CsvPlus,
        prepare: <[u8]>::to_vec,
        read: csv_cells,
    },
    ReadingPeer {
        name: "serde_json, values skipped",
        dialect: Dialect::Csvj,
        prepare: arrays,
        read: json_cells::<IgnoredAny>,
    },
    ReadingPeer {
        name: "serde_json, values made",
        dialect: Dialect::Csvj,
        prepare: arrays,
        read: json_cells::<Value>,
    },
];

const CONVERTING_PEERS: [ConvertingPeer; 6] = [
    ConvertingPeer {
        name: "csv, serde_json",
        from: Dialect::CsvPlus,
        to: Dialect::Csvj,
        prepare: <[u8]>::to_vec,
        convert: csv_to_json,
    },
    ConvertingPeer {
        name: "csv, csv quoting all",
        from: Dialect::CsvPlus,
        to: Dialect::Tdif,
        prepare: <[u8]>::to_vec,
        convert: |file, out| csv_to_csv(file, tdif_writer(out)),
    },
    ConvertingPeer {
        name: "csv, csv",
        from: Dialect::CsvPlus,
        to: Dialect::CsvPlus,
        prepare: <[u8]>::to_vec,
        convert: |file, out| csv_to_csv(file, csv_writer(out)),
    },
    ConvertingPeer {
        name: "serde_json, serde_json",
        from: Dialect::Csvj,
        to: Dialect::Csvj,
        prepare: arrays,
        convert: json_to_json,
    },
    ConvertingPeer {
        name: "serde_json, csv quoting all",
        from: Dialect::Csvj,
        to: Dialect::Tdif,
        prepare: arrays,
        convert: |file, out| json_to_csv(file, tdif_writer(out)),
    },
    ConvertingPeer {
        name: "serde_json, csv",
        from: Dialect::Csvj,
        to: Dialect::CsvPlus,
        prepare: arrays,
        convert: |file, out| json_to_csv(file, csv_writer(out)),
    },
];

fn main() -> ExitCode {
    benchmark::main(&Peers {
        versions: versions(),
        reading: &READING_PEERS,
        converting: &CONVERTING_PEERS,
    })
}

/// The libraries with the versions that cargo locked when it built this program.
fn versions() -> String {
    let lock = include_str!("../Cargo.lock");
    let versions = ["csv-core", "csv", "serde_json"].map(|name| {
        let entry = format!("name = \"{name}\"\nversion = \"");
        let version = lock
            .split(&entry)
            .nth(1)
            .and_then(|rest| rest.split('"').next());
        format!("{name} {}", version.unwrap_or("of no known version"))
    });
    versions.join(", ")
}

/// One pass, record by record, into a buffer that each record has for itself.
fn csv_core_cells(mut file: &[u8]) -> usize {
    let mut reader = csv_core::Reader::new();
    let (mut content, mut ends) = ([0; RECORD_BYTES], [0; COLUMNS]);
    let (mut cells, mut length, mut count) = (0, 0, 0);
    loop {
        let (result, read, written, ended) =
            reader.read_record(file, &mut content[length..], &mut ends[count..]);
        file = &file[read..];
        length += written;
        count += ended;
        match result {
            ReadRecordResult::InputEmpty => {}
            ReadRecordResult::Record => {
                cells += count;
                (length, count) = (0, 0);
            }
            ReadRecordResult::End => return cells,
            ReadRecordResult::OutputFull | ReadRecordResult::OutputEndsFull => {
                panic!("a record is longer or wider than the limits allow")
            }
        }
    }
}

/// Each record of a CSVJ file as a JSON array, a line each.
fn arrays(file: &[u8]) -> Vec<u8> {
    let lines = file.split_inclusive(|byte| *byte == b'\n');
    let mut arrays = Vec::new();
    for line in lines {
        arrays.push(b'[');
        arrays.extend(line.trim_ascii_end());
        arrays.extend(b"]\n");
    }
    arrays
}

fn json_cells<T: DeserializeOwned>(arrays: &[u8]) -> usize {
    Deserializer::from_slice(arrays)
        .into_iter::<Vec<T>>()
        .map(|record| record.expect("each line is an array").len())
        .sum()
}

type CsvWriter<'a> = Writer<&'a mut Vec<u8>>;

fn csv_writer(out: &mut Vec<u8>) -> CsvWriter<'_> {
    let mut builder = WriterBuilder::new();
    builder.terminator(Terminator::CRLF).from_writer(out)
}

fn tdif_writer(out: &mut Vec<u8>) -> CsvWriter<'_> {
    let mut builder = WriterBuilder::new();
    builder
        .quote_style(QuoteStyle::Always)
        .terminator(Terminator::Any(b'\n'))
        .from_writer(out)
}

/// Reads a CSV+ file with csv, which looks at UTF-8 here, into one record again and again.
fn each_record(file: &[u8], mut take: impl FnMut(&StringRecord)) {
    let mut reader = ReaderBuilder::new().has_headers(false).from_reader(file);
    let mut record = StringRecord::new();
    while reader.read_record(&mut record).expect("a sound record") {
        take(&record);
    }
}

fn csv_cells(file: &[u8]) -> usize {
    let mut cells = 0;
    each_record(file, |record| cells += record.len());
    cells
}

fn csv_to_csv(file: &[u8], mut writer: CsvWriter) {
    each_record(file, |record| {
        let written = writer.write_byte_record(record.as_byte_record());
        written.expect("memory takes all");
    });
    writer.flush().expect("memory takes all");
}

fn csv_to_json(file: &[u8], out: &mut Vec<u8>) {
    each_record(file, |record| write_values(record.iter(), out));
}

fn json_to_csv(arrays: &[u8], mut writer: CsvWriter) {
    for record in json_records(arrays) {
        let texts = record
            .iter()
            .map(|value| value.as_str().unwrap_or_default());
        writer.write_record(texts).expect("memory takes all");
    }
    writer.flush().expect("memory takes all");
}

fn json_to_json(arrays: &[u8], out: &mut Vec<u8>) {
    for record in json_records(arrays) {
        write_values(record.iter(), out);
    }
}

fn json_records(arrays: &[u8]) -> impl Iterator<Item = Vec<Value>> + '_ {
    let records = Deserializer::from_slice(arrays).into_iter();
    records.map(|record| record.expect("each line is an array"))
}

/// Values as JSON with commas between them, and a line's end.
fn write_values<T: Serialize>(values: impl Iterator<Item = T>, out: &mut Vec<u8>) {
    for (index, value) in values.enumerate() {
        if index > 0 {
            out.push(b',');
        }
        serde_json::to_writer(&mut *out, &value).expect("memory takes all");
    }
    out.push(b'\n');
}
