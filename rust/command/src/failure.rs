//! What ends the command before its work is done.

use crate::printable::printable;
use std::io::{self, ErrorKind};

#[derive(Debug)]
pub enum Failure {
    /// Whoever reads the output has gone, which is told to nobody.
    ClosedPipe,
    /// Reading or writing has failed.
    System {
        /// The file or stream, as it is called in reports.
        file: Vec<u8>,
        /// The file, and the system's reason.
        message: String,
    },
}

impl Failure {
    pub fn of(file: &[u8], error: &io::Error) -> Self {
        match error.kind() {
            ErrorKind::BrokenPipe => Self::ClosedPipe,
            _ => Self::System {
                file: file.to_vec(),
                message: format!("{}: {error}", printable(file)),
            },
        }
    }
}
