//! The report for programs: one object on one line, which python3 reads, whatever the bytes are.

mod common;

use common::{folder, run, shell, text};
use harness::generate::{mutate, sample};
use harness::rng::Rng;
use hemakuliwi::{read, Dialect};
use std::fs;

/// Reads objects from standard input, a line each, and prints the fields of each, a line each, and an empty line.
const READER: &str = "
import json, sys
for line in sys.stdin.buffer:
    fields = json.loads(line.decode('utf-8', 'strict'))
    print(*(name + '=' + ascii(value) for name, value in fields.items()), '', sep='\\n')
";

/// The fields of each object, as python3 writes them.
fn objects(lines: &str) -> Vec<Vec<String>> {
    let read = shell(&format!("python3 -c \"{READER}\""), lines.as_bytes());
    assert_eq!((read.status, read.said.as_str()), (Some(0), ""), "{lines}");
    let objects = read.told.split_terminator("\n\n");
    objects
        .map(|fields| fields.lines().map(str::to_string).collect())
        .collect()
}

fn names(fields: &[String]) -> String {
    let names: Vec<&str> = fields
        .iter()
        .filter_map(|field| field.split('=').next())
        .collect();
    names.join(" ")
}

fn value<'a>(fields: &'a [String], name: &str) -> Option<&'a str> {
    let mut values = fields
        .iter()
        .filter_map(|field| field.strip_prefix(name)?.strip_prefix('='));
    values.next()
}

#[test]
fn each_outcome_has_its_fields() {
    let accepted = run(&["check", "--in", "csv+", "--json"], b"a,b\n1,2\n");
    assert_eq!((accepted.status, accepted.said.as_str()), (Some(0), ""));
    let refused = run(
        &["convert", "--from", "csvj", "--to", "csv+", "--json"],
        b"\"stop\",\"fare\"\n\"Harbour\",2.40\n",
    );
    assert_eq!(
        (refused.status, refused.told.as_str()),
        (Some(1), "stop,fare\r\n")
    );
    let failed = run(&["check", "--in", "csv+", "--json", "no such file"], b"");
    assert_eq!((failed.status, failed.said.as_str()), (Some(3), ""));
    let alone = run(
        &[
            "convert", "--from", "csv+", "--to", "csvj", "--json", "none",
        ],
        b"",
    );
    assert_eq!((alone.status, alone.told.as_str()), (Some(3), ""));
    let unended = run(
        &["convert", "--from", "csv+", "--to", "csvj", "--json"],
        b"a,b",
    );
    assert_eq!(
        (unended.status, unended.told.as_str()),
        (Some(0), "\"a\",\"b\"\n")
    );
    let objects = objects(
        &[
            accepted.told,
            refused.said,
            failed.told,
            alone.said,
            unended.said,
        ]
        .concat(),
    );
    let [accepted, refused, failed, alone, unended] = &objects[..] else {
        panic!("{objects:?}")
    };
    assert_eq!(
        names(accepted),
        "outcome file dialect target columns records cells bytes written"
    );
    assert_eq!(value(accepted, "cells"), Some("4"));
    assert_eq!(
        names(refused),
        "outcome file dialect target number name reason record column offset cell header_name place line text_column message rule hint \
         hint_text"
    );
    assert_eq!(names(failed), "outcome file message");
    assert_eq!(value(failed, "file"), Some("'no such file'"));
    assert_eq!(names(alone), "outcome file message");
    assert_eq!(value(alone, "file"), Some("'none'"));
    assert_eq!(
        value(alone, "message"),
        Some("'none: No such file or directory (os error 2)'")
    );
    assert_eq!(value(unended, "columns"), Some("2"));
    for (name, expected) in [
        ("outcome", "'refused'"),
        ("file", "'standard input'"),
        ("dialect", "'csvj'"),
        ("target", "'csv+'"),
        ("number", "9"),
        ("name", "'not_carried'"),
        ("reason", "'kind'"),
        ("record", "2"),
        ("column", "2"),
        ("offset", "14"),
        ("cell", "2"),
        ("header_name", "'fare'"),
        ("place", "24"),
        ("line", "2"),
        ("text_column", "11"),
        ("hint", "'value_as_text'"),
    ] {
        assert_eq!(value(refused, name), Some(expected), "{name}");
    }
    assert_eq!(
        value(failed, "message"),
        Some("'no such file: No such file or directory (os error 2)'")
    );
}

#[test]
fn a_failure_names_the_file_or_the_stream() {
    let convert = "\"$command\" convert --from csv+ --to csvj --json";
    for (line, file) in [
        (format!("{convert} none"), "'none'"),
        (format!("{convert} -o none/below"), "'none/below'"),
        (format!("{convert} >/dev/full"), "'standard output'"),
        (format!("{convert} <&-"), "'standard input'"),
        (
            "\"$command\" show --in csv+ --json none".to_string(),
            "'none'",
        ),
        (
            "\"$command\" check --in csv+ --json - <&- >&2".to_string(),
            "'standard input'",
        ),
    ] {
        let failed = shell(&line, b"a\n");
        assert_eq!(
            (failed.status, failed.told.as_str()),
            (Some(3), ""),
            "{line}"
        );
        let objects = objects(&failed.said);
        assert_eq!(value(&objects[0], "file"), Some(file), "{line}");
    }
}

#[test]
fn check_has_a_line_for_each_file_on_standard_output() {
    let folder = folder("json");
    let paths = ["sound.csv", "refused.csv"].map(|name| text(folder.join(name)));
    fs::write(&paths[0], "a\n").expect("a file");
    fs::write(&paths[1], "a\n\"").expect("a file");
    let told = run(
        &["check", "--in", "csv+", "--json", &paths[0], &paths[1]],
        b"",
    );
    assert_eq!((told.status, told.said.as_str()), (Some(1), ""));
    let outcomes: Vec<&str> = told
        .told
        .lines()
        .filter_map(|line| line.split('"').nth(3))
        .collect();
    assert_eq!(outcomes, ["accepted", "refused"]);
}

#[test]
fn names_of_any_bytes_are_told() {
    let path = text(folder("json_names"));
    let line = format!("cd '{path}' && printf '\"' >$'a\\n\\xff\"b' && \"$command\" check --in csv+ --json $'a\\n\\xff\"b'");
    let told = shell(&line, b"");
    assert_eq!(told.status, Some(1));
    assert_eq!(
        value(&objects(&told.told)[0], "file"),
        Some("'a\\n\\ufffd\"b'")
    );
    let plain = shell(&line.replace(" --json", ""), b"");
    assert!(
        plain
            .said
            .starts_with("a\\n\\xFF\"b:1:2: refused (4, cut_short)"),
        "{}",
        plain.said
    );
}

#[test]
fn random_files_have_the_place_that_the_library_gives() {
    let mut rng = Rng::new(3);
    let (mut lines, mut refusals) = (String::new(), Vec::new());
    for _ in 0..200 {
        let dialect = rng.pick(&Dialect::ALL);
        let mut file = sample(&mut rng, harness::DIALECTS[dialect.number() as usize - 1].1).file;
        mutate(&mut rng, &mut file);
        let told = run(&["check", "--in", dialect.name(), "--json"], &file);
        let refusal = read(dialect, &file).err();
        assert_eq!(told.status, Some(i32::from(refusal.is_some())));
        refusals.push(refusal);
        lines += &told.told;
    }
    let objects = objects(&lines);
    assert_eq!(objects.len(), refusals.len());
    for (object, refusal) in objects.iter().zip(&refusals) {
        let told = ["number", "record", "column", "offset"]
            .map(|name| value(object, name).map(str::to_string));
        let Some(refusal) = refusal else {
            assert_eq!(value(object, "outcome"), Some("'accepted'"));
            continue;
        };
        let expected = [
            refusal.fault.number(),
            refusal.record,
            refusal.column,
            refusal.offset,
        ];
        assert_eq!(
            told,
            expected.map(|number| Some(number.to_string())),
            "{object:?}"
        );
    }
    assert!(refusals.iter().flatten().count() > 50);
}
