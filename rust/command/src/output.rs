//! Where a table goes: standard output, or a file that gets its new content as a whole or stays as it was.
//!
//! What is written for a file first goes to one beside it that has no name any more, so that nothing is left of it whatever ends the
//! command. Once all is there it is copied to a named one beside the target, brought to the disk, and renamed. The standard library has no
//! way to name a file that has none; so a signal during this copy, of at most 16 MB, leaves that file, and never a broken target.

use crate::failure::Failure;
use crate::standard::{self, Stream};
use std::ffi::OsStr;
use std::fs::{self, File, Metadata, OpenOptions, Permissions};
use std::io::{self, ErrorKind, Seek, SeekFrom, Write};
use std::os::unix::ffi::OsStrExt;
use std::os::unix::fs::{fchown, MetadataExt, OpenOptionsExt, PermissionsExt};
use std::path::{Path, PathBuf};
use std::process;

pub struct Output {
    /// What it is called in reports.
    name: Vec<u8>,
    file: File,
    /// What is to get the content of `file` at the end; none if `file` is the target itself.
    target: Option<Target>,
}

/// A regular file, or none yet.
struct Target {
    path: PathBuf,
    old: Option<Metadata>,
}

impl Output {
    pub fn standard() -> Result<Self, Failure> {
        let file = standard::open(Stream::Output)?;
        Ok(Self {
            name: Stream::Output.name().into(),
            file,
            target: None,
        })
    }

    /// Standard output if no file is named, or `-`.
    pub fn open(path: Option<&OsStr>) -> Result<Self, Failure> {
        let Some(path) = path.filter(|&path| path != "-") else {
            return Self::standard();
        };
        let name = path.as_bytes().to_vec();
        let opened = Self::opened(Path::new(path));
        let (file, target) = opened.map_err(|error| Failure::of(&name, &error))?;
        Ok(Self { name, file, target })
    }

    /// A terminal, a pipe or a device is written to as it is. A file that may not be written is not replaced, though its folder may allow
    /// it.
    fn opened(path: &Path) -> io::Result<(File, Option<Target>)> {
        let old = match fs::metadata(path) {
            Ok(metadata) => Some(metadata),
            Err(error) if error.kind() == ErrorKind::NotFound => None,
            Err(error) => return Err(error),
        };
        if old.is_some() {
            let file = OpenOptions::new().write(true).open(path)?;
            if !file.metadata()?.is_file() {
                return Ok((file, None));
            }
        }
        let target = Target {
            path: behind_links(path)?,
            old,
        };
        let (file, beside) = target.beside()?;
        fs::remove_file(beside)?;
        Ok((file, Some(target)))
    }

    pub fn write(&mut self, bytes: &[u8]) -> Result<(), Failure> {
        self.file
            .write_all(bytes)
            .map_err(|error| Failure::of(&self.name, &error))
    }

    /// Lets what was written be the content of the target.
    pub fn finish(mut self) -> Result<(), Failure> {
        match &self.target {
            Some(target) => target
                .take(&mut self.file)
                .map_err(|error| Failure::of(&self.name, &error)),
            None => Ok(()),
        }
    }
}

/// The file that a symbolic link leads to, whether it exists or not.
fn behind_links(path: &Path) -> io::Result<PathBuf> {
    const MOST_LINKS: usize = 40;
    let mut path = path.to_path_buf();
    for _ in 0..MOST_LINKS {
        match fs::read_link(&path) {
            Ok(link) => path = folder(&path).join(link),
            Err(_) => return Ok(path),
        }
    }
    Err(io::Error::other("too many symbolic links"))
}

fn folder(path: &Path) -> &Path {
    path.parent()
        .filter(|folder| !folder.as_os_str().is_empty())
        .unwrap_or(Path::new("."))
}

impl Target {
    /// A new file in the folder of the target, which nobody may read who may not read the target.
    fn beside(&self) -> io::Result<(File, PathBuf)> {
        const MOST_TRIES: usize = 100;
        let mode = self.old.as_ref().map_or(0o666, |old| old.mode() & 0o600);
        for number in 0..MOST_TRIES {
            let path = folder(&self.path).join(format!(".hemakuliwi-{}-{number}", process::id()));
            match OpenOptions::new()
                .read(true)
                .write(true)
                .create_new(true)
                .mode(mode)
                .open(&path)
            {
                Err(error) if error.kind() == ErrorKind::AlreadyExists => {}
                result => return result.map(|file| (file, path)),
            }
        }
        Err(io::Error::from(ErrorKind::AlreadyExists))
    }

    fn take(&self, written: &mut File) -> io::Result<()> {
        let (file, beside) = self.beside()?;
        let taken = self
            .fill(file, written)
            .and_then(|()| fs::rename(&beside, &self.path));
        if taken.is_err() {
            // The first error is the one to tell.
            let _ = fs::remove_file(&beside);
        }
        taken?;
        // The rename is done. Some file systems can't bring a folder to the disk.
        let _ = File::open(folder(&self.path)).and_then(|folder| folder.sync_all());
        Ok(())
    }

    fn fill(&self, mut file: File, written: &mut File) -> io::Result<()> {
        written.seek(SeekFrom::Start(0))?;
        io::copy(written, &mut file)?;
        if let Some(old) = &self.old {
            // Only root may give a file to another; who may not keeps it.
            let _ = fchown(&file, Some(old.uid()), Some(old.gid()));
            file.set_permissions(Permissions::from_mode(old.mode() & 0o7777))?;
        }
        file.sync_all()
    }
}
