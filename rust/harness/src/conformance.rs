//! The CSVJ conformance set: folders `accept`, `reject` and `expected`.

use crate::json::{self, Value};
use crate::whole::{cells_of, read_whole, Cell};
use std::collections::BTreeMap;
use std::fs;
use std::path::{Path, PathBuf};

const CSVJ: u32 = 1;

/// How many files agreed with the set.
#[derive(Clone, Copy, Debug)]
pub struct Tally {
    /// Files of the accept set, each with its expected output.
    pub accepted: usize,
    /// Files of the reject set.
    pub rejected: usize,
}

/// Runs the set in a folder; the error lists all differences.
pub fn run(folder: &Path) -> Result<Tally, String> {
    let accept = files(&folder.join("accept"), "csvj")?;
    let reject = files(&folder.join("reject"), "csvj")?;
    let expected = files(&folder.join("expected"), "json")?;
    let mut differences = Vec::new();
    for (name, path) in &accept {
        if let Err(difference) = check_accepted(path, expected.get(name)) {
            differences.push(format!("{}: {difference}", path.display()));
        }
    }
    for path in reject.values() {
        if let Err(difference) = check_rejected(path) {
            differences.push(format!("{}: {difference}", path.display()));
        }
    }
    for (name, path) in &expected {
        if !accept.contains_key(name) {
            differences.push(format!("{}: no such file in accept", path.display()));
        }
    }
    if differences.is_empty() {
        Ok(Tally {
            accepted: accept.len(),
            rejected: reject.len(),
        })
    } else {
        Err(differences.join("\n"))
    }
}

/// The files of a folder by their names without the extension, which all have to have.
pub fn files(folder: &Path, extension: &str) -> Result<BTreeMap<String, PathBuf>, String> {
    let mut files = BTreeMap::new();
    let entries = fs::read_dir(folder).map_err(|error| in_file(folder, error))?;
    for entry in entries {
        let path = entry.map_err(|error| in_file(folder, error))?.path();
        let name = path.file_stem().and_then(|name| name.to_str());
        match (name, path.extension()) {
            (Some(name), Some(found)) if found == extension => files.insert(name.to_string(), path),
            _ => return Err(format!("{}: not a .{extension} file", path.display())),
        };
    }
    if files.is_empty() {
        return Err(format!("{}: no files", folder.display()));
    }
    Ok(files)
}

fn in_file(path: &Path, error: impl ToString) -> String {
    format!("{}: {}", path.display(), error.to_string())
}

fn check_accepted(path: &Path, expected: Option<&PathBuf>) -> Result<(), String> {
    let file = fs::read(path).map_err(|error| error.to_string())?;
    let expected = expected.ok_or("no expected output")?;
    let expected = expected_records(expected)?;
    let (table, cells) = cells_of(CSVJ, &file).map_err(|report| report.sentence())?;
    let mut cells = cells.into_iter();
    let records: Vec<Vec<Cell>> = (0..=table.records)
        .map(|_| cells.by_ref().take(table.columns).collect())
        .collect();
    if records == expected {
        Ok(())
    } else {
        Err(format!("read {records:?}, expected {expected:?}"))
    }
}

fn check_rejected(path: &Path) -> Result<(), String> {
    let file = fs::read(path).map_err(|error| error.to_string())?;
    match read_whole(CSVJ, &file) {
        Ok(_) => Err("accepted".to_string()),
        Err(_) => Ok(()),
    }
}

fn expected_records(path: &Path) -> Result<Vec<Vec<Cell>>, String> {
    let text = fs::read_to_string(path).map_err(|error| in_file(path, error))?;
    let value = json::parse(&text).map_err(|error| in_file(path, error))?;
    items(value)
        .and_then(|records| records.into_iter().map(record).collect())
        .map_err(|error| in_file(path, error))
}

fn record(value: Value) -> Result<Vec<Cell>, String> {
    items(value)?.into_iter().map(cell).collect()
}

fn items(value: Value) -> Result<Vec<Value>, String> {
    match value {
        Value::Array(items) => Ok(items),
        other => Err(format!("{other:?} is not an array")),
    }
}

fn cell(value: Value) -> Result<Cell, String> {
    let (kind, content) = match value {
        Value::Text(bytes) => (1, bytes),
        Value::Number(spelling) => (2, spelling.into_bytes()),
        Value::Bool(true) => (3, Vec::new()),
        Value::Bool(false) => (4, Vec::new()),
        Value::Null => (5, Vec::new()),
        Value::Array(_) => return Err("a cell is an array".to_string()),
    };
    Ok(Cell { kind, content })
}
