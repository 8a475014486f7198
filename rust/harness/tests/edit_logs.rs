//! The command `edit_logs` on lines of each kind: which edits it names, with which reason, and when it fails.

use harness::programs::run;
use std::fs;
use std::path::{Path, PathBuf};

/// An empty folder for a test of this name.
fn empty_folder(name: &str) -> PathBuf {
    let folder = Path::new(env!("CARGO_TARGET_TMPDIR")).join(name);
    if folder.exists() {
        fs::remove_dir_all(&folder).expect("an old folder is removed");
    }
    fs::create_dir_all(&folder).expect("a folder");
    folder
}

fn write(path: &Path, text: &str) {
    fs::create_dir_all(path.parent().expect("a file has a folder")).expect("a folder");
    fs::write(path, text).expect("a file");
}

fn add_edit(root: &Path, edit: &str) {
    let text = "# A wrong program.\nfile: src/lib.rt\nold: 1\nnew: 2\n";
    write(&root.join(format!("crates/c/must-fail/{edit}.edit")), text);
}

/// The line of an edit, as `rt ci` prints it.
fn line(edit: &str, outcome: &str) -> String {
    format!("rt: must-fail c/{edit}.edit: {outcome}\n")
}

/// What `rt ci` prints around the lines of the edits.
fn log(lines: &str) -> String {
    format!(
        "== c\nfn c::f: proved\nlogic=proved functions=1\nrt: c proved\nrt: c: trying its must-fail edits (1)\n{lines}\
         rt: ok; handles allowed: none; must-fail edits: 1 refused\n2 passed, 0 failed\n"
    )
}

/// What the command prints of this folder after these lines were printed, line by line, and whether it succeeds.
fn checked(root: &Path, lines: &str) -> (Vec<String>, bool) {
    let file = root.join("log");
    write(&file, &log(lines));
    let [file, folder] = [file.as_path(), root].map(|path| path.to_str().expect("a path in UTF-8"));
    let output = run(env!("CARGO_BIN_EXE_edit_logs"), &[file, folder], b"");
    let printed = String::from_utf8(output.stdout).expect("UTF-8");
    (printed.lines().map(str::to_string).collect(), output.status.success())
}

/// Lines by which a fact refuses the edit.
const GOOD: [(&str, &str); 6] = [
    (
        "by_a_law",
        "refused, as it must be: ./proofs/Absent.antt:17:52: error: `leading_zero`: `omega`: the goal does not follow from what it read.",
    ),
    (
        "by_a_statement",
        "refused, as it must be: specs/Laws.antt:3:1: error: `law`: expected type `1 ≡ 2`, but this has type `1 ≡ 1`",
    ),
    (
        "by_a_proof",
        "refused, as it must be: proofs/f/Answers.antt:35:22: error: `returns_3`: the two types differ only where one has `2` (expected)",
    ),
    (
        "by_a_contract",
        "refused, as it must be: note: src/lib.rt:22:22: it is not proved that what the function ensures holds when it returns (`returns`)",
    ),
    (
        "by_a_contract_below",
        "refused, as it must be: note: src/lib.rt:8:1: it is not proved that what `f` requires holds at this call (`f-requires`)",
    ),
    (
        "by_a_measure",
        "refused, as it must be: note: src/lib.rt:8:1: it is not proved that the loop's measure decreases (`decreases-loop`)",
    ),
];

/// Lines by which nothing is said of the edit's fact, and what the command says of each.
const BAD: [(&str, &str, &str); 13] = [
    (
        "names_only",
        "refused, as it must be (only because a proof file names what the edit took away, so this says little of the contract: change a \
         value and keep the names): ./proofs/f/Answers.antt:55:22: error: `g`: module `f.Goals` has no `g`",
        "the proof does not fit its code: ./proofs/f/Answers.antt:55:22: error: `g`",
    ),
    (
        "by_a_limit",
        "refused, as it must be (only by a limit of the prover, which gave no verdict, so this says less of the contract: choose a change \
         that it refuses sooner): src/lib.rt:3:1: error: antt ran out of stack",
        "only a limit refuses it: src/lib.rt:3:1: error: antt ran out of stack",
    ),
    (
        "no_goal",
        "refused, as it must be: ./proofs/f/Answers.antt:55:22: error: `g`: `goal.g`: module `f.Goals` has no `g` that can be named from here",
        "the proof does not fit its code: ./proofs/f/Answers.antt:55:22: error: `g`",
    ),
    (
        "no_clause",
        "refused, as it must be: proofs/Absent.antt:17:1: error: `leading_zero`: write the clause `leading_zero (json.zero_led _ _) = ?`",
        "the proof does not fit its code: proofs/Absent.antt:17:1: error: `leading_zero`",
    ),
    (
        "no_step",
        "refused, as it must be: proofs/f/Proof.antt:17:106: error: `f_spec`: record `f.Lts.Else1` has no field `args`",
        "the proof does not fit its code: proofs/f/Proof.antt:17:106",
    ),
    (
        "in_the_code",
        "refused, as it must be: src/lib.rt:3:1: error: the clause has no plain reading",
        "its error has no place in a proof or a law: src/lib.rt:3:1",
    ),
    (
        "elsewhere",
        "refused, as it must be: /elsewhere/made/proofs/f/Answers.antt:3:1: error: `f_spec`: expected type `1 ≡ 2`",
        "its error has no place in a proof or a law: /elsewhere/made/proofs/f/Answers.antt:3:1",
    ),
    (
        "no_line",
        "refused, as it must be: proofs/Absent.antt: error: the file could not be read",
        "its error has no place in a proof or a law: proofs/Absent.antt:",
    ),
    (
        "by_an_overflow",
        "refused, as it must be: note: src/lib.rt:8:1: it is not proved that the sum fits its type (`add-t`)",
        "no contract, no proof and no law refuses it: note: src/lib.rt:8:1: it is not proved that the sum",
    ),
    ("nothing", "refused, as it must be", "no message says what refused it"),
    (
        "not_refused",
        "NOT REFUSED: the crate is still proved with this edit",
        "it is not refused: NOT REFUSED: the crate is still proved",
    ),
    (
        "not_tried",
        "NOT TRIED: its check was killed, most likely for memory",
        "it is not refused: NOT TRIED: its check was killed",
    ),
    (
        "bad",
        "BAD EDIT: an 'old:' text is in src/lib.rt 0 times, and not once",
        "it is not refused: BAD EDIT: an 'old:' text is in",
    ),
];

#[test]
fn edits_that_a_fact_refuses_pass() {
    let root = empty_folder("edit_logs_good");
    let mut lines = String::new();
    for (edit, outcome) in GOOD {
        add_edit(&root, edit);
        lines += &line(edit, outcome);
    }
    let (printed, passed) = checked(&root, &lines);
    assert_eq!(printed, ["6 edits refused by a law or a proof's fact"]);
    assert!(passed);
}

#[test]
fn each_other_edit_is_named_with_its_reason() {
    let root = empty_folder("edit_logs_bad");
    let mut lines = String::new();
    for (edit, outcome) in GOOD {
        add_edit(&root, edit);
        lines += &line(edit, outcome);
    }
    for (edit, outcome, _) in BAD {
        add_edit(&root, edit);
        lines += &line(edit, outcome);
    }
    let (mut printed, passed) = checked(&root, &lines);
    assert!(!passed);
    let closing = printed.pop().expect("a closing line");
    assert_eq!(closing, "6 of 19 edits refused by a law or a proof's fact");
    assert_eq!(printed.len(), BAD.len(), "{printed:?}");
    for (edit, _, reason) in BAD {
        let begin = format!("c/{edit}: {reason}");
        assert!(printed.iter().any(|line| line.starts_with(&begin)), "{begin}\n{printed:#?}");
    }
}

#[test]
fn one_bad_edit_is_enough_to_fail() {
    for (edit, outcome, reason) in BAD {
        let root = empty_folder(&format!("edit_logs_one_{edit}"));
        add_edit(&root, "by_a_law");
        add_edit(&root, edit);
        let lines = line("by_a_law", GOOD[0].1) + &line(edit, outcome);
        let (printed, passed) = checked(&root, &lines);
        assert!(!passed, "{edit}");
        assert_eq!(printed.len(), 2, "{printed:?}");
        let [named, closing] = &printed[..] else { panic!("{printed:?}") };
        assert!(named.starts_with(&format!("c/{edit}: {reason}")), "{named}");
        assert_eq!(closing, "1 of 2 edits refused by a law or a proof's fact");
    }
}

#[test]
fn an_edit_without_a_line_and_a_line_without_an_edit_are_named() {
    let root = empty_folder("edit_logs_missing");
    let lines = line("by_a_law", GOOD[0].1);
    add_edit(&root, "by_a_law");
    assert!(checked(&root, &lines).1);
    add_edit(&root, "untried");
    let (printed, passed) = checked(&root, &lines);
    assert!(!passed);
    assert!(printed[0].starts_with("c/untried: nothing was printed of it"), "{printed:?}");
    fs::remove_file(root.join("crates/c/must-fail/untried.edit")).expect("it is removed");
    assert!(checked(&root, &lines).1);
    fs::remove_file(root.join("crates/c/must-fail/by_a_law.edit")).expect("it is removed");
    let (printed, passed) = checked(&root, &lines);
    assert!(!passed);
    assert_eq!(
        printed,
        ["c/by_a_law: something was printed of it, and there is no edit", "0 of 1 edits refused by a law or a proof's fact"]
    );
}

#[test]
fn no_edit_at_all_fails() {
    let (printed, passed) = checked(&empty_folder("edit_logs_none"), "");
    assert!(!passed);
    assert_eq!(printed, ["0 of 0 edits refused by a law or a proof's fact"]);
}
