//! Canonical text, and what the target cannot represent.

use crate::checks::{repeated_name, Part, Refusal};
use crate::content::Cell;
use crate::dialect::{Dialect, Kind};
use crate::limits::{FILE_BYTES, RECORD_BYTES};
use crate::report::Fault;
use crate::utf8;

/// The output of a conversion: its dialect and how much has been written.
#[derive(Clone, Copy, Debug, PartialEq, Eq)]
pub(crate) struct Output {
    target: Dialect,
    written: usize,
}

impl Output {
    pub(crate) fn new(target: Dialect) -> Self {
        Self { target, written: 0 }
    }

    /// Appends the canonical text of a record with its ending, or gives fault 9.
    pub(crate) fn append(
        &mut self,
        part: Part,
        cells: &[Cell],
        text: &mut Vec<u8>,
    ) -> Result<(), Refusal> {
        self.check(part, cells)?;
        let start = text.len();
        push_record(self.target, part, cells, text);
        let length = text.len() - start;
        text.extend(self.target.ending());
        let written = self.written + text.len() - start;
        if length > RECORD_BYTES || written > FILE_BYTES {
            text.truncate(start);
            return Err(not_carried(0));
        }
        self.written = written;
        Ok(())
    }

    /// Fault 9 by cells and names, in the rules' order.
    fn check(&self, part: Part, cells: &[Cell]) -> Result<(), Refusal> {
        let target = self.target;
        let header = part == Part::Header;
        if header && cells.is_empty() && target != Dialect::Csvj {
            return Err(not_carried(0));
        }
        if let Some(index) = cells.iter().position(|cell| !represents(target, cell)) {
            return Err(not_carried(index + 1));
        }
        let clash = header.then(|| repeated_name(target, cells)).flatten();
        clash.map_or(Ok(()), |column| Err(not_carried(column)))
    }
}

fn not_carried(column: usize) -> Refusal {
    Refusal {
        fault: Fault::NotCarried,
        column,
    }
}

fn represents(target: Dialect, cell: &Cell) -> bool {
    let surrogate = cell.kind == Kind::Text && utf8::has_surrogate(&cell.content);
    target.has(cell.kind) && (target == Dialect::Csvj || !surrogate)
}

/// Appends a record without its ending.
fn push_record(target: Dialect, part: Part, cells: &[Cell], text: &mut Vec<u8>) {
    for (index, cell) in cells.iter().enumerate() {
        if index > 0 {
            text.push(b',');
        }
        match (cell.kind, target) {
            (Kind::Text, Dialect::Csvj) => push_string(&cell.content, text),
            (Kind::Text, Dialect::Tdif) => push_quoted(&cell.content, text),
            (Kind::Text, Dialect::CsvPlus) => {
                let only_cell = cells.len() == 1;
                let first_name = part == Part::Header && index == 0;
                if needs_quotes(&cell.content, only_cell, first_name) {
                    push_quoted(&cell.content, text);
                } else {
                    text.extend(&cell.content);
                }
            }
            (Kind::Number, _) => text.extend(&cell.content),
            (Kind::True, _) => text.extend(b"true"),
            (Kind::False, _) => text.extend(b"false"),
            (Kind::Null, Dialect::Tdif) => text.extend(b"\\N"),
            (Kind::Null, _) => text.extend(b"null"),
        }
    }
}

fn needs_quotes(content: &[u8], only_cell: bool, first_name: bool) -> bool {
    content.iter().any(|byte| b"\",\r\n".contains(byte))
        || (only_cell && content.is_empty())
        || (first_name && content.starts_with(b"\xEF\xBB\xBF"))
}

/// Text in quotes, with quotes inside doubled.
fn push_quoted(content: &[u8], text: &mut Vec<u8>) {
    text.push(b'"');
    for &byte in content {
        if byte == b'"' {
            text.push(b'"');
        }
        text.push(byte);
    }
    text.push(b'"');
}

/// A JSON string, with only those escapes that are needed.
fn push_string(content: &[u8], text: &mut Vec<u8>) {
    text.push(b'"');
    let mut rest = content;
    while let Some((&byte, after)) = rest.split_first() {
        if let Some(unit) = utf8::leading_surrogate(rest) {
            text.extend(format!("\\u{unit:04x}").bytes());
            rest = &rest[3..];
            continue;
        }
        match byte {
            b'"' => text.extend(b"\\\""),
            b'\\' => text.extend(b"\\\\"),
            0x08 => text.extend(b"\\b"),
            b'\t' => text.extend(b"\\t"),
            b'\n' => text.extend(b"\\n"),
            0x0C => text.extend(b"\\f"),
            b'\r' => text.extend(b"\\r"),
            0x00..=0x1F => text.extend(format!("\\u{byte:04x}").bytes()),
            _ => text.push(byte),
        }
        rest = after;
    }
    text.push(b'"');
}
