//! The runners notice differences: here it is the expected answers that are wrong.

use harness::{conformance, runner, vectors};
use std::fs;
use std::path::{Path, PathBuf};

/// Whether a case with this call and answer agrees with the reference implementation.
fn agrees(call_and_answer: &str) -> bool {
    let text = format!("case only\n{call_and_answer}\n");
    let cases = vectors::parse_file("test", &text).expect("the text is of the format");
    runner::run(&cases).is_ok()
}

#[test]
fn right_cases_agree() {
    for case in [
        "read 3 'a\\n'\n=> accepted columns 1 records 0 cells 0-1:1",
        "read 3 'a\\n'\n=> accepted columns 1 records 0",
        "read 3 'a\\n' room 0\n=> fault 10",
        "decode 2 '\\\\N'\n=> kind 5 content ''",
        "decode 3 'ab' room 1\n=> fault 10",
        "convert 3 1 'a'\n=> text '\"a\"\\n'",
        "write 3 columns 1 records 1 content 'a' starts 0 ends 1 kinds 1 room 3\n=> text 'a\\r\\n'",
        "pieces 3 3\npiece 'a' => accepted\nend => accepted text 'a\\r\\n'\nend => fault 11",
    ] {
        assert!(agrees(case), "{case}");
    }
}

#[test]
fn wrong_cases_are_noticed() {
    for case in [
        "read 3 'a\\n'\n=> accepted columns 1 records 1",
        "read 3 'a\\n'\n=> accepted columns 1 records 0 cells 0-2:1",
        "read 3 'a\\n'\n=> accepted columns 1 records 0 cells",
        "read 3 'a\\n' room 0\n=> accepted columns 1 records 0",
        "read 3 'a\\n' room 1\n=> fault 10",
        "read 3 'a\\n'\n=> fault 10",
        "read 3 'a\"'\n=> fault 3 record 1 offset 0",
        "read 3 'a\"'\n=> fault 3 offset 1",
        "decode 2 '\\\\N'\n=> kind 1 content ''",
        "decode 2 '\"a\"'\n=> kind 1 content 'b'",
        "decode 2 '\"a'\n=> fault 3 offset 2",
        "decode 3 'ab' room 2\n=> fault 10",
        "convert 3 1 'a'\n=> text '\"b\"\\n'",
        "convert 3 1 'a'\n=> text '\"a\"'",
        "convert 3 1 'a'\n=> fault 4 record 1 offset 1",
        "write 3 columns 1 records 1 content 'a' starts 0 ends 1 kinds 1 room 2\n=> text 'a\\r\\n'",
        "write 3 columns 1 records 1 content 'a' starts 0 ends 1 kinds 1\n=> fault 12",
        "pieces 3 3\npiece 'a' => accepted text 'a'\nend => accepted text '\\r\\n'",
        "pieces 3 3\npiece 'a' room 49151 => accepted",
        "pieces 3 3\npiece 'a' => accepted\nend => accepted",
    ] {
        assert!(!agrees(case), "{case}");
    }
}

#[test]
fn too_few_cases_are_noticed() {
    let text = "case only\nread 3 'a'\n=> accepted columns 1 records 0\n";
    let cases = vectors::parse_file("test", text).expect("the text is of the format");
    let tally = runner::run(&cases).expect("the case agrees");
    let error = tally.check_minimums().expect_err("one case is too few");
    assert_eq!(error.lines().count(), 8);
}

/// A small conformance set in a fresh folder.
fn conformance_set(name: &str) -> PathBuf {
    let folder = Path::new(env!("CARGO_TARGET_TMPDIR")).join(name);
    let _ = fs::remove_dir_all(&folder);
    for part in ["accept", "reject", "expected"] {
        fs::create_dir_all(folder.join(part)).expect("the folder can be made");
    }
    put(
        &folder,
        "accept/one.csvj",
        "\"a\" , \"b\"\r\n1.50,\"\\ud83d\"\nnull,true\n",
    );
    put(
        &folder,
        "expected/one.json",
        "[[\"a\",\"b\"], [1.50,\"\\uD83D\"], [null,true]]\n",
    );
    put(&folder, "accept/none.csvj", "\n\n");
    put(&folder, "expected/none.json", "[[], []]");
    put(&folder, "reject/empty.csvj", "");
    folder
}

fn put(folder: &Path, file: &str, text: &str) {
    fs::write(folder.join(file), text).expect("the file can be written");
}

#[test]
fn a_conformance_set_agrees() {
    let tally = conformance::run(&conformance_set("agreeing")).expect("the set agrees");
    assert_eq!((tally.accepted, tally.rejected), (2, 1));
}

#[test]
fn differences_from_a_conformance_set_are_noticed() {
    for (index, (file, text)) in [
        ("accept/one.csvj", "\"a\"\n"),
        ("accept/one.csvj", "\"a\""),
        ("accept/extra.csvj", "\n"),
        ("reject/empty.csvj", "\n"),
        ("reject/empty.txt", ""),
        (
            "expected/one.json",
            "[[\"a\",\"b\"], [1.5,\"\\uD83D\"], [null,true]]",
        ),
        (
            "expected/one.json",
            "[[\"a\",\"b\"], [1.50,\"\\uD83D\"], [null,false]]",
        ),
        (
            "expected/one.json",
            "[[\"a\",\"b\"], [1.50,\"\\uD83D\"], [null,[]]]",
        ),
        ("expected/one.json", "[[\"a\",\"b\"], [1.50,\"\\uD83D\"]]"),
        ("expected/one.json", "{}"),
        ("expected/extra.json", "[[]]"),
    ]
    .into_iter()
    .enumerate()
    {
        let folder = conformance_set(&format!("differing-{index}"));
        put(&folder, file, text);
        assert!(conformance::run(&folder).is_err(), "{file}: {text}");
    }
    let folder = conformance_set("no-reject-set");
    fs::remove_file(folder.join("reject/empty.csvj")).expect("the file is there");
    assert!(conformance::run(&folder).is_err());
}
