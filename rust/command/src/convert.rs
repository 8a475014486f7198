//! A conversion: pieces of the input go through the library's converter and out again, in constant memory.

use crate::failure::Failure;
use crate::input::Input;
use crate::output::Output;
use crate::progress::Progress;
use crate::report::Counts;
use crate::scene::{cells_of, Case};
use crate::trail::Trail;
use hemakuliwi::raw::PIECE_BYTES;
use hemakuliwi::{Converter, Dialect, Refusal};

/// How much is read at a time.
const READ: usize = 16 * PIECE_BYTES;

pub struct Conversion {
    from: Dialect,
    to: Dialect,
    converter: Converter,
    /// What was read last, to be shown if it is refused.
    trail: Trail,
    output: Output,
}

impl Conversion {
    pub fn new(from: Dialect, to: Dialect, output: Output) -> Self {
        Self {
            from,
            to,
            converter: Converter::new(from, to),
            trail: Trail::new(from),
            output,
        }
    }

    /// Converts all of the input, or up to a refusal. All records that are complete are written before more is read.
    pub fn run(
        &mut self,
        input: &mut Input,
        progress: &mut Progress,
    ) -> Result<Result<(), Refusal>, Failure> {
        let mut buffer = vec![0; READ];
        let mut text = Vec::new();
        loop {
            let length = input.read(&mut buffer)?;
            let piece = &buffer[..length];
            self.trail.push(piece);
            let verdict = match length {
                0 => self.converter.end(&mut text),
                _ => self.converter.piece(piece, &mut text),
            };
            self.output.write(&text)?;
            text.clear();
            progress.tick(
                self.converter.bytes_taken(),
                Some(self.converter.records_completed()),
            );
            if length == 0 || verdict.is_err() {
                return Ok(verdict);
            }
        }
    }

    /// What is to be told of a refusal. Where reading on waits for nobody, the line is shown up to its end.
    pub fn case(&mut self, refusal: Refusal, input: &mut Input) -> Case<'_> {
        if input.is_regular {
            let mut rest = vec![0; PIECE_BYTES];
            let length = input.read(&mut rest).unwrap_or(0);
            self.trail.extend(&rest[..length]);
        }
        Case {
            from: self.from,
            to: Some(self.to),
            refusal,
            text: self.trail.text(),
            names: names_of(&self.converter),
        }
    }

    /// Puts the output in its place.
    pub fn finish(self) -> Result<Counts, Failure> {
        self.output.finish()?;
        // A header that only the end completes is not known to the converter.
        let unended = || cells_of(self.from, self.trail.text().from(0)).len();
        let columns = self.converter.columns().unwrap_or_else(unended);
        Ok(Counts {
            columns,
            records: self.converter.records_completed() - 1,
            bytes: self.converter.bytes_taken(),
            written: Some(self.converter.bytes_written()),
        })
    }
}

/// The contents of the names that a converter has met.
pub fn names_of(converter: &Converter) -> Vec<Vec<u8>> {
    converter.names().map(|name| name.into_owned()).collect()
}
