//! A third implementation to compare with: Python's own json and csv modules, which read CSVJ and CSV+ texts.

use crate::generate::{sample, sound_lists};
use crate::programs::{run, succeeded};
use crate::rng::Rng;
use crate::rooms::{WholeConverter, Writer};
use crate::whole::{convert_room, Cell};
use crate::{repository, DIALECTS};
use std::process::Command;

/// A text in CSVJ or CSV+, with the records that it was made of.
#[derive(Clone, Debug)]
pub struct Written {
    /// The number of the text's dialect.
    pub dialect: u32,
    /// The text.
    pub text: Vec<u8>,
    /// The records' cells.
    pub records: Vec<Vec<Cell>>,
}

/// Whether a Python is installed that can compare: since 3.11 its csv module takes a byte 0 for a character.
pub fn is_installed() -> bool {
    is_at_least(11)
}

/// Whether a Python 3 is at hand with this minor version or a later one.
pub fn is_at_least(minor: u32) -> bool {
    let asked = format!("import sys; sys.exit(sys.version_info < (3, {minor}))");
    let answer = Command::new("python3").args(["-c", &asked]).status();
    answer.is_ok_and(|status| status.success())
}

/// This many texts in CSVJ and CSV+ of random tables, half of them converted from files of all dialects and half written.
pub fn written(converter: WholeConverter, writer: Writer, seed: u64, count: usize) -> Vec<Written> {
    let mut rng = Rng::new(seed);
    let mut all = Vec::new();
    while all.len() < count {
        let (target, is_converted) = (rng.pick(&[1, 3]), all.len() % 2 == 0);
        let made = match is_converted {
            true => converted(&mut rng, converter, target),
            false => written_table(&mut rng, writer, target),
        };
        all.extend(made);
    }
    all
}

/// The text of a random file that is known to be sound, if the target can represent it.
fn converted(rng: &mut Rng, converter: WholeConverter, target: u32) -> Option<Written> {
    let (source, dialect) = rng.pick(&DIALECTS);
    let sample = sample(rng, dialect);
    let records = sample.records?;
    let mut text = vec![0; convert_room(sample.file.len())];
    let answer = converter(source, target, &sample.file, &mut text);
    text.truncate(answer.written);
    answer.report.is_accepted().then_some(Written {
        dialect: target,
        text,
        records,
    })
}

/// The text of a random table, if the target can represent it.
fn written_table(rng: &mut Rng, writer: Writer, target: u32) -> Option<Written> {
    let (lists, records) = sound_lists(rng);
    let mut text = vec![0; lists.room()];
    let answer = writer(target, lists.table(), &mut text);
    text.truncate(answer.written);
    answer.report.is_accepted().then_some(Written {
        dialect: target,
        text,
        records,
    })
}

/// An error unless Python reads each text to the cells that it was made of.
pub fn judge(texts: &[Written]) -> Result<(), String> {
    let mut input = Vec::new();
    for written in texts {
        input.extend(format!("{} {}\n", written.dialect, written.text.len()).bytes());
        input.extend(&written.text);
    }
    let program = repository().join("rust/harness/tests/python/cells.py");
    let program = program.to_str().ok_or("the path is no text")?;
    let told = succeeded(&run("python3", &[program], &input));
    let lines: Vec<&str> = told.lines().collect();
    if lines.len() != texts.len() {
        return Err(format!("{} answers to {} texts", lines.len(), texts.len()));
    }
    for (written, line) in texts.iter().zip(lines) {
        let expected = spelt(&written.records);
        if line != expected {
            return Err(format!(
                "Python read {} of dialect {}\nas       {line}\nand not  {expected}",
                written.text.escape_ascii(),
                written.dialect
            ));
        }
    }
    Ok(())
}

/// Records as the Python program prints them.
fn spelt(records: &[Vec<Cell>]) -> String {
    let cell = |cell: &Cell| {
        let digits = cell.content.iter().map(|byte| format!("{byte:02x}"));
        format!("{}:{}", cell.kind, digits.collect::<String>())
    };
    let record = |record: &Vec<Cell>| record.iter().map(cell).collect::<Vec<_>>().join(",");
    let records = records.iter().map(|cells| format!("[{}]", record(cells)));
    records.collect()
}
