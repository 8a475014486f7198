//! Readers and writers that stop, stammer and fail.

use std::io::{self, ErrorKind, Read, Write};

/// A reader of bytes, so many at once at most. It may be interrupted before each read, and may fail once.
pub struct Source<'a> {
    bytes: &'a [u8],
    most: usize,
    interrupts: Option<bool>,
    left_to_failure: Option<usize>,
}

impl<'a> Source<'a> {
    pub fn new(bytes: &'a [u8], most: usize) -> Self {
        Self {
            bytes,
            most,
            interrupts: None,
            left_to_failure: None,
        }
    }

    /// With every other read interrupted.
    pub fn interrupted(self) -> Self {
        Self {
            interrupts: Some(true),
            ..self
        }
    }

    /// With one failure after so many bytes.
    pub fn failing_after(self, bytes: usize) -> Self {
        Self {
            left_to_failure: Some(bytes),
            ..self
        }
    }
}

impl Read for Source<'_> {
    fn read(&mut self, buffer: &mut [u8]) -> io::Result<usize> {
        if let Some(interrupts) = &mut self.interrupts {
            *interrupts = !*interrupts;
            if !*interrupts {
                return Err(ErrorKind::Interrupted.into());
            }
        }
        if self.left_to_failure == Some(0) {
            self.left_to_failure = None;
            return Err(ErrorKind::ConnectionReset.into());
        }
        let most = self.left_to_failure.unwrap_or(usize::MAX).min(self.most);
        let length = most.min(buffer.len()).min(self.bytes.len());
        let (given, rest) = self.bytes.split_at(length);
        buffer[..length].copy_from_slice(given);
        self.bytes = rest;
        self.left_to_failure = self.left_to_failure.map(|left| left - length);
        Ok(length)
    }
}

/// What a writer does when it can take no more.
#[derive(Clone, Copy, PartialEq)]
pub enum Full {
    /// It takes nothing, and fails.
    Fails,
    /// It takes nothing, and says so.
    TakesNothing,
    /// It takes nothing once, and from then on everything.
    FailsOnce,
}

/// A writer that takes so many bytes at once at most, and so many in all.
pub struct Sink {
    pub taken: Vec<u8>,
    /// How many bytes had been taken when it was flushed last.
    pub flushed: usize,
    most: usize,
    interrupts: Option<bool>,
    limit: Option<(usize, Full)>,
    flushes_fail: usize,
}

impl Sink {
    pub fn new(most: usize) -> Self {
        Self {
            taken: Vec::new(),
            flushed: 0,
            most,
            interrupts: None,
            limit: None,
            flushes_fail: 0,
        }
    }

    /// With every other write interrupted.
    pub fn interrupted(self) -> Self {
        Self {
            interrupts: Some(true),
            ..self
        }
    }

    /// Full after so many bytes.
    pub fn full_after(self, bytes: usize, full: Full) -> Self {
        Self {
            limit: Some((bytes, full)),
            ..self
        }
    }

    /// With so many flushes that fail.
    pub fn failing_flushes(self, flushes_fail: usize) -> Self {
        Self {
            flushes_fail,
            ..self
        }
    }
}

impl Write for Sink {
    fn write(&mut self, bytes: &[u8]) -> io::Result<usize> {
        assert!(!bytes.is_empty(), "nothing to write is written");
        if let Some(interrupts) = &mut self.interrupts {
            *interrupts = !*interrupts;
            if !*interrupts {
                return Err(ErrorKind::Interrupted.into());
            }
        }
        let mut most = self.most;
        if let Some((limit, full)) = self.limit {
            most = most.min(limit - self.taken.len());
            if most == 0 {
                if full == Full::FailsOnce {
                    self.limit = None;
                }
                return match full {
                    Full::TakesNothing => Ok(0),
                    Full::Fails | Full::FailsOnce => Err(ErrorKind::WouldBlock.into()),
                };
            }
        }
        let length = most.min(bytes.len());
        self.taken.extend_from_slice(&bytes[..length]);
        Ok(length)
    }

    fn flush(&mut self) -> io::Result<()> {
        if self.flushes_fail > 0 {
            self.flushes_fail -= 1;
            return Err(ErrorKind::BrokenPipe.into());
        }
        self.flushed = self.taken.len();
        Ok(())
    }
}
