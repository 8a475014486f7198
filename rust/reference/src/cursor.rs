//! A position in a run of bytes that watches the limits and the UTF-8 table.

use crate::limits::{FILE_BYTES, RECORD_BYTES};
use crate::report::Fault;
use crate::utf8;

/// Why a scan did not get to its goal.
#[derive(Clone, Copy, Debug, PartialEq, Eq)]
pub(crate) enum Stop {
    /// The byte at this offset is fault 2, 3 or 8.
    Fault(Fault, usize),
    /// The bytes ran out where more are needed.
    End,
}

/// Whether a CR or LF counts in the record: only inside quotes.
#[derive(Clone, Copy, Debug, PartialEq, Eq)]
pub(crate) enum Region {
    Outside,
    Quoted,
}

/// A position in `bytes`, whose first byte is at `base` in the file.
pub(crate) struct Cursor<'a> {
    bytes: &'a [u8],
    base: usize,
    pos: usize,
    /// The first position that is over the file limit.
    file_end: usize,
    /// The first position where a counted byte is over the record limit.
    record_end: usize,
}

impl<'a> Cursor<'a> {
    /// For a cell by itself, which has no limits.
    pub(crate) fn unlimited(bytes: &'a [u8]) -> Self {
        Self {
            bytes,
            base: 0,
            pos: 0,
            file_end: usize::MAX,
            record_end: usize::MAX,
        }
    }

    /// For a byte order mark or comment, which has the file limit only.
    pub(crate) fn between_records(bytes: &'a [u8], base: usize, pos: usize) -> Self {
        Self {
            bytes,
            base,
            pos,
            file_end: FILE_BYTES - base,
            record_end: usize::MAX,
        }
    }

    /// For a record that starts at `pos`.
    pub(crate) fn in_record(bytes: &'a [u8], base: usize, pos: usize) -> Self {
        Self {
            record_end: pos + RECORD_BYTES,
            ..Self::between_records(bytes, base, pos)
        }
    }

    pub(crate) fn pos(&self) -> usize {
        self.pos
    }

    /// The offset in the file.
    pub(crate) fn offset(&self) -> usize {
        self.base + self.pos
    }

    pub(crate) fn bytes_from(&self, start: usize) -> &'a [u8] {
        &self.bytes[start..self.pos]
    }

    pub(crate) fn at_end(&self) -> bool {
        self.pos == self.bytes.len()
    }

    /// The fault that the next byte is.
    pub(crate) fn fault(&self, fault: Fault) -> Stop {
        Stop::Fault(fault, self.offset())
    }

    /// The next byte, none at the end. At one byte, 8 comes before 2 and 3.
    pub(crate) fn peek(&self, region: Region) -> Result<Option<u8>, Stop> {
        let Some(&byte) = self.bytes.get(self.pos) else {
            return Ok(None);
        };
        let counted = region == Region::Quoted || !matches!(byte, b'\r' | b'\n');
        if self.pos >= self.file_end || (counted && self.pos >= self.record_end) {
            return Err(self.fault(Fault::Limit));
        }
        Ok(Some(byte))
    }

    /// The next byte, where the end would cut something off.
    pub(crate) fn need(&self, region: Region) -> Result<u8, Stop> {
        self.peek(region)?.ok_or(Stop::End)
    }

    /// Passes the byte that was just looked at.
    pub(crate) fn pass(&mut self) {
        self.pos += 1;
    }

    /// Passes the CR of a CRLF, which the record limit does not count.
    pub(crate) fn pass_uncounted(&mut self) {
        self.pos += 1;
        self.record_end += 1;
    }

    /// Passes this byte, outside quotes; any other is fault 3.
    pub(crate) fn pass_only(&mut self, byte: u8) -> Result<(), Stop> {
        if self.need(Region::Outside)? != byte {
            return Err(self.fault(Fault::Form));
        }
        self.pass();
        Ok(())
    }

    /// Passes one of these bytes, outside quotes, if it comes next.
    pub(crate) fn pass_any(&mut self, bytes: &[u8]) -> Result<bool, Stop> {
        let next = self.peek(Region::Outside)?;
        let found = next.is_some_and(|byte| bytes.contains(&byte));
        if found {
            self.pass();
        }
        Ok(found)
    }

    /// Passes one UTF-8 character; a byte that breaks the table is fault 2.
    pub(crate) fn pass_character(&mut self, region: Region) -> Result<(), Stop> {
        let first = self.need(region)?;
        let sequence = utf8::sequence(first).ok_or(self.fault(Fault::Utf8))?;
        self.pass();
        for range in sequence.later_bytes() {
            if !range.contains(&self.need(region)?) {
                return Err(self.fault(Fault::Utf8));
            }
            self.pass();
        }
        Ok(())
    }
}
