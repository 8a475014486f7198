//! Other programs, run by the tests.

use crate::repository;
use std::ffi::OsStr;
use std::io::{ErrorKind, Write};
use std::process::{Command, Output, Stdio};
use std::sync::{Mutex, PoisonError};

/// Runs a program that reads all of its input before it says much, or stops reading.
pub fn run(program: impl AsRef<OsStr>, arguments: &[&str], input: &[u8]) -> Output {
    let mut child = Command::new(program)
        .args(arguments)
        .stdin(Stdio::piped())
        .stdout(Stdio::piped())
        .stderr(Stdio::piped())
        .spawn()
        .expect("the program starts");
    let mut stdin = child.stdin.take().expect("standard input is piped");
    if let Err(error) = stdin.write_all(input) {
        assert_eq!(error.kind(), ErrorKind::BrokenPipe);
    }
    drop(stdin);
    child.wait_with_output().expect("the program ends")
}

/// The standard output of a program that has to succeed.
pub fn succeeded(output: &Output) -> String {
    let [told, said] = [&output.stdout, &output.stderr].map(|bytes| String::from_utf8_lossy(bytes));
    assert!(output.status.success(), "{}\n{told}{said}", output.status);
    told.into_owned()
}

/// Runs make at the root of the repository, which has to succeed. One at a time: two runs could write the same file.
pub fn make(arguments: &[String]) {
    static RUNNING: Mutex<()> = Mutex::new(());
    let _running = RUNNING.lock().unwrap_or_else(PoisonError::into_inner);
    let mut make = Command::new("make");
    make.current_dir(repository())
        .arg("--silent")
        .args(arguments);
    succeeded(&make.output().expect("make starts"));
}
