//! What people are told of a file that is refused, over the stored runs of `refusals/`: NAME.args has the arguments, a word to a line,
//! NAME.in the standard input and NAME.err what is said on standard error. Inputs about the limits, which are long, are made here.
//!
//! `BLESS=1 cargo test --package hemakuliwi-command --test refusals` writes the NAME.err anew, to be read before they are kept.

mod common;

use common::run;
use std::collections::BTreeSet;
use std::env;
use std::fs;
use std::path::{Path, PathBuf};

fn folder() -> PathBuf {
    Path::new(env!("CARGO_MANIFEST_DIR")).join("tests/refusals")
}

fn names() -> BTreeSet<String> {
    let entries = fs::read_dir(folder()).expect("the folder of the runs");
    let names = entries.map(|entry| entry.expect("an entry").path());
    let is_arguments = |path: &PathBuf| path.extension().is_some_and(|ending| ending == "args");
    let stem = |path: PathBuf| {
        path.file_stem()
            .expect("a name")
            .to_string_lossy()
            .into_owned()
    };
    names.filter(is_arguments).map(stem).collect()
}

/// The inputs that are too long to be stored.
fn made(name: &str) -> Vec<u8> {
    const FILE_BYTES: usize = 16_777_215;
    let records = |header: &str, record: &str, length: usize| {
        let mut file = header.as_bytes().to_vec();
        while file.len() < length {
            file.extend_from_slice(record.as_bytes());
        }
        file
    };
    match name {
        "fault_8_file_bytes" => records("stop,fare\n", "Harbour,2.40\n", FILE_BYTES + 1),
        "fault_8_record_bytes" => [
            b"stop,note\nHarbour,".to_vec(),
            b"x".repeat(4_096),
            b"\n".to_vec(),
        ]
        .concat(),
        "fault_8_record_bytes_in_quotes" => [
            b"stop,note\n\"Harbour,2.40\n".to_vec(),
            b"Airport,5.20\n".repeat(400),
        ]
        .concat(),
        "fault_8_record_bytes_in_quotes_of_the_same_line" => [
            b"stop,note\nHarbour,\"".to_vec(),
            b"x".repeat(4_096),
            b"\"\n".to_vec(),
        ]
        .concat(),
        "fault_9_record_text" => {
            [b"note\n".to_vec(), b"\x01".repeat(1_000), b"\n".to_vec()].concat()
        }
        "fault_9_file_text" => records("stop,fare\n", "Harbour,2.40\n", FILE_BYTES - 3_000_000),
        "second_piece" => [
            records("stop,fare\n", "Harbour,2.40\n", 100_000),
            b"Harbour,\"2\".40\nAirport,5.20\n".to_vec(),
        ]
        .concat(),
        _ => panic!("{name}.in is missing"),
    }
}

fn words(name: &str) -> Vec<String> {
    let words = fs::read_to_string(folder().join(format!("{name}.args"))).expect("the arguments");
    words.lines().map(str::to_string).collect()
}

#[test]
fn each_refusal_is_told_as_it_is_stored() {
    for name in names() {
        let input = fs::read(folder().join(format!("{name}.in"))).unwrap_or_else(|_| made(&name));
        let words = words(&name);
        let told = run(&words, &input);
        assert_eq!(told.status, Some(1), "{name}: {}", told.said);
        let stored = folder().join(format!("{name}.err"));
        if env::var_os("BLESS").is_some() {
            fs::write(&stored, &told.said).expect("the report is written");
        }
        assert_eq!(
            told.said,
            fs::read_to_string(&stored).unwrap_or_default(),
            "{name}"
        );
    }
}

#[test]
fn each_fault_reason_and_hint_has_a_stored_run() {
    let explained = |word: &str| run(&["explain", word], b"").told;
    let names = names();
    let has = |beginning: &str| names.iter().any(|name| name.starts_with(beginning));
    for fault in 1..=9 {
        assert!(has(&format!("fault_{fault}_")), "fault {fault}");
        let text = explained(&fault.to_string());
        for reason in text.lines().filter_map(|line| line.strip_prefix("Reason ")) {
            let reason = reason.split(':').next().expect("a name");
            assert!(has(&format!("fault_{fault}_{reason}")), "{fault} {reason}");
        }
    }
    let told: BTreeSet<String> = names.iter().filter_map(|name| hint_of(name)).collect();
    let source = include_str!("../src/hints.rs");
    let hints: BTreeSet<String> = source
        .lines()
        .filter_map(|line| line.trim().strip_prefix("name: \"")?.strip_suffix("\","))
        .map(str::to_string)
        .collect();
    assert!(hints.len() > 20);
    assert_eq!(told, hints);
}

/// The hint of a stored run, from its report as JSON.
fn hint_of(name: &str) -> Option<String> {
    let input = fs::read(folder().join(format!("{name}.in"))).ok()?;
    let mut words = words(name);
    words.push("--json".into());
    let told = run(&words, &input);
    let json = if told.said.is_empty() {
        told.told
    } else {
        told.said
    };
    let line = json.lines().last()?;
    let hint = line.split("\"hint\":\"").nth(1)?;
    Some(hint.split('"').next()?.to_string())
}
