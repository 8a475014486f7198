//! What is told of a file: that it is accepted, or why it is refused, for people or as JSON for programs.

use crate::diagnosis::{counted, Diagnosis};
use crate::json::Object;
use crate::paint::Paint;
use crate::printable::printable;
use hemakuliwi::Dialect;
use std::fmt::Write;

/// What there is in a file that is accepted.
#[derive(Clone, Copy, Debug, PartialEq, Eq)]
pub struct Counts {
    pub columns: usize,
    /// The header is not counted.
    pub records: usize,
    pub bytes: usize,
    /// How many bytes were written, if it was converted.
    pub written: Option<usize>,
}

impl Counts {
    pub fn text(&self, file: &[u8]) -> String {
        let file = printable(file);
        let (columns, records, bytes) = (
            counted(self.columns, "column"),
            counted(self.records, "data record"),
            counted(self.bytes, "byte"),
        );
        format!("{file}: accepted, {columns}, {records}, {bytes}\n")
    }

    pub fn json(&self, file: &[u8], from: Dialect, to: Option<Dialect>) -> String {
        head("accepted", file, from, to)
            .number("columns", self.columns)
            .number("records", self.records)
            .number("cells", self.columns * (self.records + 1))
            .number("bytes", self.bytes)
            .number_or_null("written", self.written)
            .line()
    }
}

/// The fields that each object begins with.
fn head(outcome: &str, file: &[u8], from: Dialect, to: Option<Dialect>) -> Object {
    Object::new()
        .string("outcome", outcome.as_bytes())
        .string("file", file)
        .string("dialect", from.name().as_bytes())
        .string_or_null("target", to.map(|to| to.name().as_bytes()))
}

/// What is reported when reading or writing a file or stream has failed.
pub fn failure_json(file: &[u8], message: &str) -> String {
    Object::new()
        .string("outcome", b"failed")
        .string("file", file)
        .string("message", message.as_bytes())
        .line()
}

impl Diagnosis {
    pub fn json(&self, file: &[u8]) -> String {
        head("refused", file, self.from, self.to)
            .number("number", self.refusal.fault.number())
            .string("name", self.name.as_bytes())
            .string_or_null("reason", self.reason.map(|reason| reason.name.as_bytes()))
            .number("record", self.refusal.record)
            .number("column", self.refusal.column)
            .number("offset", self.refusal.offset)
            .number_or_null("cell", self.cell)
            .string_or_null("header_name", self.header_name.as_deref())
            .number("place", self.place.offset)
            .number("line", self.place.line)
            .number("text_column", self.place.column)
            .string("message", self.message.as_bytes())
            .string("rule", self.rule.as_bytes())
            .string_or_null("hint", self.hint.as_ref().map(|(name, _)| name.as_bytes()))
            .string_or_null(
                "hint_text",
                self.hint.as_ref().map(|(_, text)| text.as_bytes()),
            )
            .line()
    }

    pub fn text(&self, file: &[u8], paint: Paint) -> String {
        let (line, column) = (self.place.line, self.place.column);
        let mut text = paint.strong(&format!("{}:{line}:{column}:", printable(file)));
        let refused = paint.alarm(&format!(
            "refused ({}, {})",
            self.refusal.fault.number(),
            self.name
        ));
        text += &format!(" {refused}: {}\n", paint.strong(&self.message));
        text += &self.excerpt_text(paint);
        for (head, note) in self.notes() {
            let head = if head == "hint" {
                paint.advice("hint")
            } else {
                head.into()
            };
            let margin = paint.frame(&format!("{} =", " ".repeat(self.margin)));
            writeln!(text, "{margin} {head}: {note}").expect("a string takes all");
        }
        text
    }

    pub fn excerpt_text(&self, paint: Paint) -> String {
        let margin = self.margin;
        let mut text = String::new();
        for (number, line) in &self.excerpt.lines {
            let frame = paint.frame(&format!("{number:margin$} |"));
            let space = if line.is_empty() { "" } else { " " };
            writeln!(text, "{frame}{space}{line}").expect("a string takes all");
        }
        let frame = paint.frame(&format!("{} |", " ".repeat(margin)));
        let spaces = self.excerpt.carets.len() - self.excerpt.carets.trim_start().len();
        let (spaces, carets) = self.excerpt.carets.split_at(spaces);
        writeln!(text, "{frame} {spaces}{}", paint.alarm(carets)).expect("a string takes all");
        text
    }

    fn notes(&self) -> Vec<(&'static str, String)> {
        let mut notes = vec![
            ("place", self.place_in_words()),
            ("rule", self.rule.clone()),
        ];
        notes.extend(self.hint.iter().map(|(_, text)| ("hint", text.clone())));
        notes.push((
            "more",
            format!("hemakuliwi explain {}", self.refusal.fault.number()),
        ));
        notes
    }

    fn place_in_words(&self) -> String {
        let record = match self.refusal.record {
            1 => "record 1 (the header)".into(),
            number => format!("record {number}"),
        };
        let cell = match (self.cell, &self.header_name) {
            (Some(cell), Some(name)) => format!(", cell {cell} (`{}`)", printable(name)),
            (Some(cell), None) => format!(", cell {cell}"),
            (None, _) => String::new(),
        };
        let begins = if self.place.offset == self.refusal.offset {
            ""
        } else {
            "; the record begins at byte "
        };
        let start = if begins.is_empty() {
            String::new()
        } else {
            self.refusal.offset.to_string()
        };
        format!("{record}{cell}, byte {}{begins}{start}", self.place.offset)
    }
}
