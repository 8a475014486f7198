//! How the command is called: help, versions, wrong words, and the ways to give options and files.

mod common;

use common::{folder, run, shell, text, Run};
use std::fs;

const TABLE: &[u8] = b"stop,fare\nHarbour,2.40\n";
const CSVJ: &str = "\"stop\",\"fare\"\n\"Harbour\",\"2.40\"\n";

#[test]
fn help_and_version_go_to_standard_output() {
    for words in [
        &["--help"][..],
        &["-h"],
        &["help"],
        &["--color", "never", "--help"],
    ] {
        let told = run(words, b"");
        assert_eq!(
            (told.status, told.said.as_str()),
            (Some(0), ""),
            "{words:?}"
        );
        assert!(
            told.told.contains("hemakuliwi convert --from DIALECT"),
            "{words:?}"
        );
    }
    for command in ["convert", "check", "show", "explain"] {
        let told = run(&[command, "--help"], b"");
        assert_eq!((told.status, told.said.as_str()), (Some(0), ""));
        assert!(told.told.starts_with(&format!("hemakuliwi {command}: ")));
        assert_eq!(run(&[command, "-h"], b""), told);
        assert_eq!(run(&["help", command], b""), told);
    }
    let version = format!("hemakuliwi {}\n", env!("CARGO_PKG_VERSION"));
    assert_eq!(run(&["--version"], b""), Run::new(0, &version, ""));
    assert_eq!(run(&["-V"], b""), Run::new(0, &version, ""));
}

#[test]
fn wrong_use_is_status_2_and_names_the_word() {
    for (line, named) in [
        ("", "a command is missing"),
        (
            "convrt",
            "there is no command `convrt`; did you mean `convert`?",
        ),
        (
            "convert --form csvj",
            "there is no option `--form`; did you mean `--from`?",
        ),
        ("convert --from csvj", "`--to` is missing"),
        (
            "check samples/fares.csvj",
            "`--in` is missing: csvj, tdif or csv+, which is not guessed",
        ),
        (
            "check --in cvsj",
            "there is no dialect `cvsj`: csvj, tdif, csv+ or 1, 2, 3; did you mean `csvj`?",
        ),
        ("check --in 4", "there is no dialect `4`"),
        ("convert --from 1 --to 2 a b", "one file at a time: `b`"),
        ("explain 13", "there is no fault `13`"),
        ("explain 0", "there is no fault `0`"),
        ("check --in 1 -x", "there is no option `-x`"),
        ("show --in 1 -o x", "there is no option `-o`"),
    ] {
        let words: Vec<&str> = line.split_whitespace().collect();
        let told = run(&words, TABLE);
        assert_eq!((told.status, told.told.as_str()), (Some(2), ""), "{line}");
        assert!(
            told.said.starts_with(&format!("hemakuliwi: {named}")),
            "{line}: {}",
            told.said
        );
        assert!(told.said.contains("--help` tells how it is used"), "{line}");
    }
}

#[test]
fn words_are_shown_without_their_control_characters() {
    let told = shell("\"$command\" $'con\\e[2Jvert\\xff'", b"");
    assert_eq!(told.status, Some(2));
    assert!(
        told.said.contains("`con\\x1B[2Jvert\\xFF`"),
        "{}",
        told.said
    );
}

#[test]
fn options_have_two_forms_and_dialects_three() {
    for line in [
        "convert --from csv+ --to csvj",
        "convert --from=CSV+ --to=CSVJ",
        "convert --to 1 --from 3 -",
        "convert --from 3 --to 1 -o -",
    ] {
        let words: Vec<&str> = line.split_whitespace().collect();
        assert_eq!(run(&words, TABLE), Run::new(0, CSVJ, ""), "{line}");
    }
}

#[test]
fn a_file_may_be_called_as_an_option_is() {
    let folder = folder("dashes");
    fs::write(folder.join("--json"), TABLE).expect("a file");
    let line = format!(
        "cd '{}' && \"$command\" convert --from csv+ --to csvj -- --json",
        text(&folder)
    );
    assert_eq!(shell(&line, b""), Run::new(0, CSVJ, ""));
}

#[test]
fn each_fault_is_explained() {
    let list = run(&["explain"], b"");
    assert_eq!((list.status, list.said.as_str()), (Some(0), ""));
    for number in 1..=12 {
        let told = run(&["explain", &number.to_string()], b"");
        assert_eq!((told.status, told.said.as_str()), (Some(0), ""));
        let first = told.told.lines().next().expect("a line");
        let name = first.split([',', ':']).nth(1).expect("a name").trim();
        assert!(first.starts_with(&format!("fault {number}, ")), "{first}");
        assert!(list.told.contains(name), "{name}");
        assert_eq!(run(&["explain", name], b""), told);
    }
}

#[test]
fn the_texts_for_people_name_every_option() {
    let manual = include_str!("../share/hemakuliwi.1");
    let shells = [
        include_str!("../share/hemakuliwi.bash"),
        include_str!("../share/_hemakuliwi"),
        include_str!("../share/hemakuliwi.fish"),
    ];
    for command in ["convert", "check", "show"] {
        let help = run(&[command, "--help"], b"").told;
        let names: Vec<&str> = help
            .split([' ', ',', '\n'])
            .filter_map(|word| word.strip_prefix("--"))
            .filter(|name| !name.is_empty())
            .collect();
        assert!(names.len() >= 4, "{names:?}");
        for name in names {
            assert!(
                manual.contains(&format!("Fl -{name}")),
                "{name} is not in the manual"
            );
            assert!(
                shells[..2]
                    .iter()
                    .all(|text| text.contains(&format!("--{name}"))),
                "{name}"
            );
            assert!(shells[2].contains(&format!("-l {name}")), "{name}");
        }
    }
}
