//! Conversions: all pairs, records as they complete, constant memory, and what is left of a refused file.

mod common;

use common::{run, shell, text, Run, COMMAND};
use harness::repository;
use hemakuliwi::Dialect;
use std::fs;
use std::io::{BufRead, BufReader, Write};
use std::process::{Command, Stdio};

#[test]
fn the_samples_are_converted_as_the_library_does() {
    for (dialect, name) in [
        (Dialect::Csvj, "fares.csvj"),
        (Dialect::Tdif, "fares.tdif"),
        (Dialect::CsvPlus, "fares.csv"),
    ] {
        let path = repository().join("samples").join(name);
        let file = fs::read(&path).expect("a sample");
        for target in Dialect::ALL {
            let words = [
                "convert",
                "--from",
                dialect.name(),
                "--to",
                target.name(),
                &text(&path),
            ];
            let told = run(&words, b"");
            match hemakuliwi::convert(dialect, target, &file) {
                Ok(expected) => {
                    assert_eq!(told, Run::new(0, &String::from_utf8_lossy(&expected), ""))
                }
                Err(refusal) => {
                    assert_eq!(told.status, Some(1));
                    assert!(
                        told.said
                            .contains(&format!("refused ({}, ", refusal.fault.number())),
                        "{}",
                        told.said
                    );
                }
            }
        }
    }
}

#[test]
fn each_record_is_written_as_it_completes() {
    let mut child = Command::new(COMMAND)
        .args(["convert", "--from", "csv+", "--to", "csvj"])
        .stdin(Stdio::piped())
        .stdout(Stdio::piped())
        .spawn()
        .expect("the command starts");
    let mut stdin = child.stdin.take().expect("a pipe");
    let mut lines = BufReader::new(child.stdout.take().expect("a pipe")).lines();
    for (record, written) in [
        ("stop,fare\nHar", "\"stop\",\"fare\""),
        ("bour,1\nMint", "\"Harbour\",\"1\""),
        (",2\n", "\"Mint\",\"2\""),
    ] {
        stdin
            .write_all(record.as_bytes())
            .expect("the command reads");
        assert_eq!(lines.next().expect("a line").expect("text"), written);
    }
    drop(stdin);
    assert!(lines.next().is_none() && child.wait().expect("an end").success());
}

#[test]
fn what_is_sound_before_a_refusal_is_kept() {
    let told = run(
        &["convert", "--from", "csv+", "--to", "tdif"],
        b"a,b\n1,2\n3\n4,5\n",
    );
    assert_eq!(
        (told.status, told.told.as_str()),
        (Some(1), "\"a\",\"b\"\n\"1\",\"2\"\n")
    );
    assert!(
        told.said
            .starts_with("standard input:3:1: refused (5, cell_count): "),
        "{}",
        told.said
    );
}

#[test]
fn a_long_file_needs_no_more_memory_than_a_short_one() {
    let file = [&b"stop,fare\n"[..], &b"Harbour,2.40\n".repeat(900_000)].concat();
    assert!(file.len() > 11_000_000);
    let line =
        "ulimit -v 10000 && exec \"$command\" convert --from csv+ --to csvj --json >/dev/null";
    let told = shell(line, &file);
    assert_eq!(told.status, Some(0), "{}", told.said);
    assert!(
        told.said.contains(
            "\"records\":900000,\"cells\":1800002,\"bytes\":11700010,\"written\":15300014"
        ),
        "{}",
        told.said
    );
}

#[test]
fn several_files_are_checked_and_the_worst_decides() {
    let at = |name: &str| text(repository().join("samples").join(name));
    let told = run(
        &[
            "check",
            "--in",
            "csv+",
            &at("fares.csv"),
            &at("refused.csv"),
            &at("none.csv"),
            &at("fares.csv"),
        ],
        b"",
    );
    assert_eq!(told.status, Some(3));
    assert_eq!(
        told.told
            .matches(": accepted, 3 columns, 5 data records, ")
            .count(),
        2
    );
    assert!(
        told.said.contains("refused.csv:3:10: refused (3, syntax)"),
        "{}",
        told.said
    );
    assert!(
        told.said.contains("none.csv: No such file or directory"),
        "{}",
        told.said
    );
    assert_eq!(
        run(
            &[
                "check",
                "--in",
                "csv+",
                &at("fares.csv"),
                &at("refused.csv")
            ],
            b""
        )
        .status,
        Some(1)
    );
    assert_eq!(
        run(&["check", "--in", "csv+", &at("fares.csv")], b"").status,
        Some(0)
    );
}

#[test]
fn a_table_is_shown_within_the_width() {
    let path = text(repository().join("samples/fares.csvj"));
    let told = shell(
        &format!("COLUMNS=31 \"$command\" show --in csvj '{path}'"),
        b"",
    );
    let expected = [
        "   stop     zone  fare   night",
        "   -------  ----  -----  ------",
        "2  Harbour    #1  #0.00  !true",
        "3  Old \"M…    #1  #2.40  !true",
        "4  Königs…    #2  #3.10  !false",
        "5  駅前       #2  #3.10  !false",
        "6  Airpor…    #3  !null  !true",
        "",
    ]
    .join("\n");
    assert_eq!(told, Run::new(0, &expected, ""));
    let wide = run(&["show", "--in", "csvj", "--width", "0", &path], b"");
    assert!(wide.told.contains("Airport, Terminal 2"));
    let refused = run(&["show", "--in", "tdif", &path], b"");
    assert_eq!((refused.status, refused.told.as_str()), (Some(1), ""));
}
