//! Standard input and output as files, so that no error of theirs is hidden.

use crate::failure::Failure;
use crate::system;
use std::fs::File;
use std::io;
use std::os::fd::AsFd;

#[derive(Clone, Copy, Debug, PartialEq, Eq)]
pub enum Stream {
    Input,
    Output,
}

impl Stream {
    fn number(self) -> usize {
        match self {
            Self::Input => 0,
            Self::Output => 1,
        }
    }

    pub fn name(self) -> &'static str {
        match self {
            Self::Input => "standard input",
            Self::Output => "standard output",
        }
    }
}

/// A stream that is closed is an error; /dev/null is open, in whichever way it was opened.
pub fn open(stream: Stream) -> Result<File, Failure> {
    let name = stream.name();
    if system::was_closed(stream.number()) {
        return Err(Failure::System {
            file: name.into(),
            message: format!("{name} is closed"),
        });
    }
    let descriptor = match stream {
        Stream::Input => io::stdin().as_fd().try_clone_to_owned(),
        Stream::Output => io::stdout().as_fd().try_clone_to_owned(),
    };
    descriptor
        .map(File::from)
        .map_err(|error| Failure::of(name.as_bytes(), &error))
}
