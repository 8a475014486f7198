//! Where a table comes from: a file, or standard input.

use crate::failure::Failure;
use crate::standard::{self, Stream};
use hemakuliwi::raw::FILE_BYTES;
use std::ffi::{OsStr, OsString};
use std::fs::File;
use std::io::{ErrorKind, IsTerminal, Read};
use std::os::unix::ffi::OsStrExt;

pub struct Input {
    /// What it is called in reports.
    pub name: Vec<u8>,
    file: File,
    /// Whether reading on never waits for somebody.
    pub is_regular: bool,
}

impl Input {
    /// Standard input if no file is named, or `-`.
    pub fn open(path: Option<&OsStr>) -> Result<Self, Failure> {
        let path = path.filter(|&path| path != "-");
        let name = path.map_or_else(
            || b"standard input".to_vec(),
            |path| path.as_bytes().to_vec(),
        );
        let file = match path {
            Some(path) => File::open(path).map_err(|error| Failure::of(&name, &error))?,
            None => standard::open(Stream::Input)?,
        };
        let is_regular = file.metadata().is_ok_and(|metadata| metadata.is_file());
        Ok(Self {
            name,
            file,
            is_regular,
        })
    }

    pub fn is_terminal(&self) -> bool {
        self.file.is_terminal()
    }

    /// The next bytes, none at the end.
    pub fn read(&mut self, buffer: &mut [u8]) -> Result<usize, Failure> {
        loop {
            match self.file.read(buffer) {
                Err(error) if error.kind() == ErrorKind::Interrupted => {}
                result => return result.map_err(|error| Failure::of(&self.name, &error)),
            }
        }
    }

    /// All bytes, but of a file that is too long only as many as show it. `each` is told how many there are, now and then.
    pub fn read_whole(&mut self, mut each: impl FnMut(usize)) -> Result<Vec<u8>, Failure> {
        let mut bytes = Vec::new();
        let mut buffer = vec![0; 1 << 16];
        loop {
            let room = (FILE_BYTES + 1 - bytes.len()).min(buffer.len());
            let length = self.read(&mut buffer[..room])?;
            if length == 0 {
                return Ok(bytes);
            }
            bytes.extend_from_slice(&buffer[..length]);
            each(bytes.len());
        }
    }
}

/// The names of files as they are given, or standard input.
pub fn names(inputs: Vec<OsString>) -> Vec<OsString> {
    if inputs.is_empty() {
        vec!["-".into()]
    } else {
        inputs
    }
}
