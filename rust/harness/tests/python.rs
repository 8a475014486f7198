//! What the proved calls convert and write, read by Python's own json and csv modules; and the tests of the Python module.

use harness::compare::{proved_converter, proved_writer};
use harness::programs::{make, succeeded};
use harness::python::{is_at_least, is_installed, judge, written, Written};
use harness::repository;
use harness::whole::Cell;
use std::process::Command;

/// Whether such a Python is installed; if not, that is printed.
fn is_judged() -> bool {
    let is_installed = is_installed();
    if !is_installed {
        eprintln!("no python3 of 3.11 or later is installed, so that its json and csv modules did not read what was written");
    }
    is_installed
}

#[test]
fn python_reads_the_cells_that_were_written() {
    if !is_judged() {
        return;
    }
    let texts = written(proved_converter, proved_writer, 1, 20_000);
    judge(&texts).unwrap_or_else(|difference| panic!("{difference}"));
    for (what, dialect, part) in [
        ("lone surrogates", 1, &b"\\ud83d"[..]),
        ("escapes", 1, b"\\u001f"),
        ("numbers", 1, b",10.250,"),
        ("marks in front", 3, b"\"\xEF\xBB\xBF"),
        ("empty records", 3, b"\n\"\"\r\n"),
        ("quotes", 3, b"\"\"\""),
    ] {
        let has_part = |text: &[u8]| text.windows(part.len()).any(|found| found == part);
        let are_in = |written: &&Written| written.dialect == dialect && has_part(&written.text);
        let count = texts.iter().filter(are_in).count();
        assert!(count >= 50, "{what}: {count}");
    }
    let csvj = texts.iter().filter(|written| written.dialect == 1).count();
    eprintln!(
        "python's json read {csvj} CSVJ texts, and its csv {} CSV+ texts, to the cells that were written",
        texts.len() - csvj
    );
}

/// A text with its cells, which are all of this kind.
fn with_cells(dialect: u32, text: &[u8], kind: u8, records: &[&[&[u8]]]) -> Written {
    let cell = |content: &&[u8]| Cell {
        kind,
        content: content.to_vec(),
    };
    Written {
        dialect,
        text: text.to_vec(),
        records: records
            .iter()
            .map(|record| record.iter().map(cell).collect())
            .collect(),
    }
}

#[test]
fn python_notices_wrong_texts() {
    if !is_judged() {
        return;
    }
    let right = [
        with_cells(1, b"\"a\",\"\\ud83d\"\n", 1, &[&[b"a", b"\xED\xA0\xBD"]]),
        with_cells(1, b"\n\n", 1, &[&[], &[]]),
        with_cells(1, b"1E+05,-0\n", 2, &[&[b"1E+05", b"-0"]]),
        with_cells(3, b"\"\xEF\xBB\xBFa\",\r\n", 1, &[&[b"\xEF\xBB\xBFa", b""]]),
        with_cells(
            3,
            b"\"\"\r\n\"a\r\nb\"\"\"\r\n",
            1,
            &[&[b""], &[b"a\r\nb\""]],
        ),
    ];
    judge(&right).unwrap_or_else(|difference| panic!("{difference}"));
    for wrong in [
        with_cells(1, b"\"a\"\n", 1, &[&[b"b"]]),
        with_cells(1, b"\"a\"", 1, &[&[b"a"]]),
        with_cells(1, b"\"a\nb\"\n", 1, &[&[b"a\nb"]]),
        with_cells(1, b"1e5\n", 2, &[&[b"1E+05"]]),
        with_cells(1, b"1\n", 1, &[&[b"1"]]),
        with_cells(1, b"01\n", 2, &[&[b"01"]]),
        with_cells(1, b"NaN\n", 2, &[&[b"NaN"]]),
        with_cells(1, b"\"\xED\xA0\xBD\"\n", 1, &[&[b"\xED\xA0\xBD"]]),
        with_cells(3, b"\xEF\xBB\xBFa\r\n", 1, &[&[b"\xEF\xBB\xBFa"]]),
        with_cells(3, b"a\r\n\r\n", 1, &[&[b"a"], &[b""]]),
        with_cells(3, b"a\"b\"\"\r\n", 1, &[&[b"a\"b"]]),
        with_cells(3, b"\"a\"b\r\n", 1, &[&[b"ab"]]),
        with_cells(3, b"\"a\r\n", 1, &[&[b"a\r\n"]]),
        with_cells(3, b"a\rb\r\n", 1, &[&[b"a\rb"]]),
    ] {
        assert!(judge(std::slice::from_ref(&wrong)).is_err(), "{wrong:?}");
    }
}

#[test]
fn the_python_module_passes_its_tests() {
    if !is_at_least(9) {
        eprintln!("no python3 of 3.9 or later is installed, so that python/test_hemakuliwi.py was not run");
        return;
    }
    make(&[]);
    let mut tests = Command::new("python3");
    tests
        .args(["-B", "-m", "unittest", "discover"])
        .current_dir(repository().join("python"))
        .env_remove("HEMAKULIWI_LIBRARY");
    let output = tests.output().expect("python3 starts");
    succeeded(&output);
    let said = String::from_utf8_lossy(&output.stderr);
    let count = said
        .lines()
        .find_map(|line| line.strip_prefix("Ran ")?.split(' ').next()?.parse().ok());
    assert!(count.is_some_and(|count: usize| count >= 50), "{said}");
    assert!(said.ends_with("\nOK\n"), "{said}");
    eprintln!("the Python module passed its {} tests", count.unwrap_or(0));
}
