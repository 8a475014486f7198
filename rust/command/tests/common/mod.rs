//! The command, run as a person runs it.

// Each test file uses some of this.
#![allow(dead_code)]

use std::ffi::OsStr;
use std::fs;
use std::io::{ErrorKind, Write};
use std::path::{Path, PathBuf};
use std::process::{Command, Output, Stdio};
use std::thread;

pub const COMMAND: &str = env!("CARGO_BIN_EXE_hemakuliwi");

/// What a run has come to.
#[derive(Debug, PartialEq, Eq)]
pub struct Run {
    /// None if a signal has ended it.
    pub status: Option<i32>,
    pub told: String,
    pub said: String,
}

impl From<Output> for Run {
    fn from(output: Output) -> Self {
        let [told, said] = [output.stdout, output.stderr]
            .map(|bytes| String::from_utf8_lossy(&bytes).into_owned());
        Self {
            status: output.status.code(),
            told,
            said,
        }
    }
}

impl Run {
    pub fn new(status: i32, told: &str, said: &str) -> Self {
        Self {
            status: Some(status),
            told: told.into(),
            said: said.into(),
        }
    }
}

/// Runs a program, however much it reads and writes and in which order.
fn run_program(program: &str, words: &[&str], input: &[u8]) -> Run {
    let mut child = Command::new(program)
        .args(words)
        .env_remove("COLUMNS")
        .env_remove("NO_COLOR")
        .stdin(Stdio::piped())
        .stdout(Stdio::piped())
        .stderr(Stdio::piped())
        .spawn()
        .expect("the program starts");
    let mut stdin = child.stdin.take().expect("standard input is piped");
    thread::scope(|scope| {
        scope.spawn(move || {
            if let Err(error) = stdin.write_all(input) {
                assert_eq!(error.kind(), ErrorKind::BrokenPipe);
            }
        });
        child.wait_with_output().expect("the program ends").into()
    })
}

pub fn run<T: AsRef<str>>(words: &[T], input: &[u8]) -> Run {
    let words: Vec<&str> = words.iter().map(AsRef::as_ref).collect();
    run_program(COMMAND, &words, input)
}

/// A line of a shell, in which "$command" is the command.
pub fn shell(line: &str, input: &[u8]) -> Run {
    let script = format!("command=$0; {line}");
    run_program("bash", &["-c", &script, COMMAND], input)
}

/// Whether a program that a test needs is there; that it is not is told.
pub fn has(program: &str) -> bool {
    let is_there = Command::new("bash")
        .args(["-c", "type -P \"$0\" >/dev/null", program])
        .status()
        .is_ok_and(|status| status.success());
    if !is_there {
        eprintln!("SKIPPED: {program} is not installed");
    }
    is_there
}

/// An empty folder for a test.
pub fn folder(name: &str) -> PathBuf {
    let folder = Path::new(env!("CARGO_TARGET_TMPDIR"))
        .join("command")
        .join(name);
    let _ = fs::remove_dir_all(&folder);
    fs::create_dir_all(&folder).expect("a folder");
    folder
}

pub fn text(path: impl AsRef<OsStr>) -> String {
    path.as_ref().to_str().expect("a path of text").to_string()
}
