//! The proved program that converts standard input, over the stored runs of `program_runs/runs`: NAME.args has its arguments, a word to a
//! line, NAME.in its input, NAME.out and NAME.err what it has to write. `rt ci` builds it as target/bin/program; another place may be named
//! in HEMAKULIWI_PROGRAM.

use harness::programs::run;
use harness::repository;
use std::collections::{BTreeMap, BTreeSet};
use std::env;
use std::fs;
use std::path::{Path, PathBuf};
use std::process::{Command, Output};

/// The fewest stored runs: nine pairs of dialects, nine faults, wrong arguments and an empty input.
const LEAST_RUNS: usize = 20;

fn program() -> PathBuf {
    let program = env::var_os("HEMAKULIWI_PROGRAM")
        .map_or_else(|| repository().join("target/bin/program"), PathBuf::from);
    assert!(program.exists(), "{} is missing", program.display());
    program
}

fn folder() -> PathBuf {
    Path::new(env!("CARGO_MANIFEST_DIR")).join("tests/program_runs/runs")
}

/// The stored runs: of each name its files by their endings.
fn runs() -> BTreeMap<String, BTreeMap<String, Vec<u8>>> {
    let mut runs: BTreeMap<String, BTreeMap<String, Vec<u8>>> = BTreeMap::new();
    let entries = fs::read_dir(folder()).expect("the folder of the runs");
    for entry in entries {
        let path = entry.expect("an entry").path();
        let part = |part: Option<&std::ffi::OsStr>| {
            let part = part.and_then(std::ffi::OsStr::to_str);
            part.expect("a name with an ending").to_string()
        };
        let (name, ending) = (part(path.file_stem()), part(path.extension()));
        let bytes = fs::read(&path).expect("a file");
        runs.entry(name).or_default().insert(ending, bytes);
    }
    runs
}

#[test]
fn every_stored_run_is_as_it_says() {
    let program = program();
    let runs = runs();
    for (name, files) in &runs {
        let endings: BTreeSet<&str> = files.keys().map(String::as_str).collect();
        assert_eq!(
            endings,
            BTreeSet::from(["args", "in", "out", "err"]),
            "{name}"
        );
        let words = String::from_utf8_lossy(&files["args"]);
        let words: Vec<&str> = words.lines().collect();
        let told = run(&program, &words, &files["in"]);
        assert_eq!(told.stdout, files["out"], "{name}");
        let [said, expected] =
            [&told.stderr, &files["err"]].map(|bytes| String::from_utf8_lossy(bytes));
        assert_eq!(said, expected, "{name}");
    }
    eprintln!("the program: {} stored runs", runs.len());
    assert!(runs.len() >= LEAST_RUNS);
}

/// Runs the program by a shell, which closes or moves what it reads and writes.
fn by_shell(redirection: &str, words: [&str; 2], input: &[u8]) -> Output {
    let script = format!("exec \"$0\" \"$@\" {redirection}");
    let program = program();
    let path = program.to_str().expect("a path of text");
    run("sh", &["-c", &script, path, words[0], words[1]], input)
}

#[test]
fn an_output_that_is_closed_or_full_is_no_success() {
    for redirection in [">&-", ">/dev/full"] {
        let told = by_shell(redirection, ["csv+", "csvj"], b"a,b\n1,2\n");
        assert!(told.stdout.is_empty());
        assert!(
            !told.stderr.is_empty(),
            "nothing was said with {redirection}"
        );
    }
}

#[test]
fn an_input_that_is_closed_is_no_success() {
    let told = by_shell("<&-", ["csv+", "csvj"], b"");
    assert!(told.stdout.is_empty() && !told.stderr.is_empty());
}

#[test]
fn an_empty_input_has_no_header() {
    let program = program();
    let told = run(&program, &["csv+", "csvj"], b"");
    let from_nowhere = Command::new(&program)
        .args(["csv+", "csvj"])
        .stdin(std::process::Stdio::null())
        .output()
        .expect("the program starts");
    for told in [told, from_nowhere] {
        assert!(told.stdout.is_empty() && !told.stderr.is_empty());
    }
}

#[test]
fn a_long_input_comes_out_as_a_whole() {
    let records = "\"Harbour\",\"say \"\"Mint\"\"\"\r\n".repeat(40_000);
    let file = format!("stop,note\n{records}").into_bytes();
    let text = harness::whole::convert_whole(3, 1, &file).expect("a sound table");
    let folder = Path::new(env!("CARGO_TARGET_TMPDIR"));
    let (input, output) = (folder.join("long.in"), folder.join("long.out"));
    fs::write(&input, &file).expect("a file");
    let told = Command::new(program())
        .args(["csv+", "csvj"])
        .stdin(fs::File::open(&input).expect("the file"))
        .stdout(fs::File::create(&output).expect("a file"))
        .output()
        .expect("the program starts");
    assert!(told.stderr.is_empty());
    assert!(fs::read(&output).expect("the output") == text);
}
