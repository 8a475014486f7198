//! The command-line program.

use std::io::Write;
use std::process::{Child, Command, Output, Stdio};
use std::thread;

fn start(arguments: &[&str]) -> Child {
    Command::new(env!("CARGO_BIN_EXE_reference"))
        .args(arguments)
        .stdin(Stdio::piped())
        .stdout(Stdio::piped())
        .stderr(Stdio::piped())
        .spawn()
        .expect("the program starts")
}

fn run(arguments: &[&str], input: Vec<u8>) -> Output {
    let mut child = start(arguments);
    let mut stdin = child.stdin.take().expect("standard input is piped");
    // The program may stop reading at a fault, so that a failed write is no surprise.
    let feeder = thread::spawn(move || {
        let _ = stdin.write_all(&input);
    });
    let output = child.wait_with_output().expect("the program ends");
    feeder.join().expect("the input is handed over");
    output
}

fn message(output: &Output) -> String {
    String::from_utf8(output.stderr.clone()).expect("the message is UTF-8")
}

#[test]
fn a_sound_file_is_converted_without_a_word() {
    let output = run(&["csvj", "csv+"], b"\"a\" , \"b\"\n\"x,y\",\"\"\n".to_vec());
    assert_eq!(output.status.code(), Some(0));
    assert_eq!(output.stdout, b"a,b\r\n\"x,y\",\r\n");
    assert_eq!(message(&output), "");
}

#[test]
fn dialects_go_by_number_too() {
    let output = run(&["2", "1"], b"\"a\"\r\\N\r".to_vec());
    assert_eq!(output.status.code(), Some(0));
    assert_eq!(output.stdout, b"\"a\"\nnull\n");
}

#[test]
fn records_before_a_fault_are_written() {
    let output = run(&["csvj", "tdif"], b"\"a\"\n\"x\"\n1,2\n\"y\"\n".to_vec());
    assert_eq!(output.status.code(), Some(1));
    assert_eq!(output.stdout, b"\"a\"\n\"x\"\n");
    assert_eq!(
        message(&output),
        "Fault 5 in record 3 at byte offset 8: this record does not have as many cells as the \
         header. The records before it were written.\n"
    );
}

#[test]
fn a_fault_in_the_header_names_its_column() {
    let output = run(&["csv+", "csvj"], b"a,b,a\n".to_vec());
    assert_eq!(output.status.code(), Some(1));
    assert_eq!(output.stdout, b"");
    assert_eq!(
        message(&output),
        "Fault 6 in record 1 (the header), column 3 at byte offset 0: this column name has \
         already been used in the header. Nothing was written.\n"
    );
}

#[test]
fn a_file_of_many_pieces_is_converted() {
    let line = "x".repeat(1000) + "\n";
    let output = run(&["csv+", "tdif"], line.repeat(500).into_bytes());
    let expected = format!("\"{}\"\n", "x".repeat(1000)).repeat(500);
    assert_eq!(output.status.code(), Some(0));
    assert_eq!(output.stdout, expected.into_bytes());
}

#[test]
fn wrong_usage_is_explained() {
    for arguments in [&["csvj"][..], &["csvj", "csv"], &["1", "2", "3"], &[]] {
        let output = run(arguments, Vec::new());
        assert_eq!(output.status.code(), Some(2));
        assert_eq!(output.stdout, b"");
        assert!(message(&output).starts_with("Usage:"));
    }
}

#[test]
fn a_closed_output_is_an_io_error() {
    let mut child = start(&["csv+", "csv+"]);
    drop(child.stdout.take());
    let mut stdin = child.stdin.take().expect("standard input is piped");
    let _ = stdin.write_all("x\n".repeat(100_000).as_bytes());
    drop(stdin);
    let output = child.wait_with_output().expect("the program ends");
    assert_eq!(output.status.code(), Some(3));
    assert!(message(&output).starts_with("The output could not be written in full"));
}
