//! The whole-file converter.

use crate::checks::{Progress, Rest};
use crate::dialect::Dialect;
use crate::records::Records;
use crate::report::{Fault, Report};
use crate::text::Output;

/// The answer of a converter or of the writer.
#[derive(Clone, Copy, Debug, PartialEq, Eq)]
pub struct Converted {
    /// Acceptance, or the first fault.
    pub report: Report,
    /// How many bytes of output were written.
    pub written: usize,
}

impl Converted {
    pub(crate) fn refusal(report: Report) -> Self {
        Self { report, written: 0 }
    }

    /// The whole text is written to the output, or none of it.
    pub(crate) fn deliver(text: Result<Vec<u8>, Report>, out: &mut [u8]) -> Self {
        match text {
            Err(report) => Self::refusal(report),
            Ok(text) if text.len() > out.len() => Self::refusal(Report::refusal(Fault::Room)),
            Ok(text) => {
                out[..text.len()].copy_from_slice(&text);
                Self {
                    report: Report::ACCEPTED,
                    written: text.len(),
                }
            }
        }
    }
}

/// Converts a file from one dialect to the canonical text of another.
pub fn convert(source: u32, target: u32, file: &[u8], out: &mut [u8]) -> Converted {
    Converted::deliver(whole_text(source, target, file), out)
}

fn whole_text(source: u32, target: u32, file: &[u8]) -> Result<Vec<u8>, Report> {
    let mut conversion = Conversion::new(source, target).ok_or(Report::refusal(Fault::Call))?;
    let mut text = Vec::new();
    let mut records = Records::of_file(conversion.source, file);
    let rest = conversion.run(&mut records, &mut text)?;
    conversion.progress.finish(rest, file.len())?;
    Ok(text)
}

/// A conversion under way.
#[derive(Clone, Copy, Debug, PartialEq, Eq)]
pub(crate) struct Conversion {
    pub(crate) source: Dialect,
    pub(crate) progress: Progress,
    output: Output,
}

impl Conversion {
    /// A conversion between dialects by number, if both are known.
    pub(crate) fn new(source: u32, target: u32) -> Option<Self> {
        Some(Self {
            source: Dialect::from_number(source)?,
            progress: Progress::default(),
            output: Output::new(Dialect::from_number(target)?),
        })
    }

    /// Appends the text of the records, up to the first fault.
    pub(crate) fn run(
        &mut self,
        records: &mut Records,
        text: &mut Vec<u8>,
    ) -> Result<Rest, Report> {
        let output = &mut self.output;
        self.progress.run(self.source, records, |_, cells, part| {
            output.append(part, cells, text)
        })
    }
}
