//! What a terminal gets: colours and progress. `script` of util-linux makes one.

mod common;

use common::{folder, has, run, shell, text};
use std::fs;

const COLOUR: char = '\x1b';

/// What a terminal shows of a line of a shell, in which "$command" is the command.
fn on_terminal(line: &str) -> String {
    let quoted = line.replace("$command", common::COMMAND);
    let script = format!(
        "script --quiet --return --command {} /dev/null",
        shell_word(&quoted)
    );
    shell(&format!("unset NO_COLOR; export TERM=xterm; {script}"), b"").told
}

fn shell_word(text: &str) -> String {
    format!("'{}'", text.replace('\'', "'\\''"))
}

/// A file that is refused, in a folder for the test alone.
fn refused(test: &str) -> String {
    let path = folder(test).join("refused.csv");
    fs::write(&path, "stop\n\"Old \"Mint\"\n").expect("a file");
    text(path)
}

#[test]
fn colour_is_for_terminals_and_for_who_asks() {
    if !has("script") {
        return;
    }
    let file = refused("colour_on_a_terminal");
    let check = |options: &str, before: &str| {
        on_terminal(&format!(
            "{before} $command check --in csv+ {options} {file}"
        ))
    };
    let coloured = check("", "");
    assert!(
        coloured.contains("\x1b[1;31mrefused (3, syntax)\x1b[0m"),
        "{coloured}"
    );
    for plain in [
        check("--color never", ""),
        check("", "NO_COLOR=1"),
        check("", "TERM=dumb"),
        check("", "TERM="),
        check("", "unset TERM;"),
    ] {
        assert!(
            plain.contains("refused (3, syntax)") && !plain.contains(COLOUR),
            "{plain}"
        );
    }
    assert!(check("", "NO_COLOR=").contains(COLOUR));
    assert!(check("--color=always", "NO_COLOR=1").contains(COLOUR));
    assert!(check("--color=always", "TERM=dumb").contains(COLOUR));
    assert!(on_terminal("$command explain 3").starts_with("fault 3, syntax"));
}

#[test]
fn elsewhere_there_is_colour_only_on_demand() {
    let file = refused("colour_elsewhere");
    assert!(!run(&["check", "--in", "csv+", &file], b"")
        .said
        .contains(COLOUR));
    assert!(
        run(&["check", "--in", "csv+", "--color", "always", &file], b"")
            .said
            .contains(COLOUR)
    );
    let shown = run(&["show", "--in", "csv+", "--color", "always"], b"a\nb\n");
    assert!(shown.told.contains(COLOUR));
}

#[test]
fn progress_is_shown_of_a_long_input_and_taken_away() {
    if !has("script") {
        return;
    }
    let slow = "(printf 'stop\\nHarbour\\n'; sleep 0.7; printf 'Mint\\n'; sleep 0.3; printf 'Airport\\n') |";
    let convert = "$command convert --from csv+ --to csvj";
    let told = on_terminal(&format!("{slow} {convert} >/dev/null"));
    assert!(
        told.contains("18 B, 3 records, ") && told.contains("B/s"),
        "{told:?}"
    );
    assert!(told.ends_with("\r\x1b[K"), "{told:?}");
    let told = on_terminal(&format!("{slow} $command check --in csv+ >/dev/null"));
    assert!(
        told.contains("18 B, ") && told.ends_with("\r\x1b[K"),
        "{told:?}"
    );
    for dumb in ["TERM=dumb", "unset TERM;"] {
        let told = on_terminal(&format!("{slow} {{ {dumb} {convert} >/dev/null; }}"));
        assert_eq!(told, "", "{dumb}");
    }
    let same = on_terminal(&format!("{slow} {convert}"));
    assert_eq!(
        same,
        "\"stop\"\r\n\"Harbour\"\r\n\"Mint\"\r\n\"Airport\"\r\n"
    );
    assert_eq!(
        on_terminal(&format!("printf 'stop\\n' | {convert} >/dev/null")),
        ""
    );
    let elsewhere = shell(
        &format!(
            "{slow} \"{}\" convert --from csv+ --to csvj",
            common::COMMAND
        ),
        b"",
    );
    assert_eq!(elsewhere.said, "");
}

#[test]
fn a_table_and_a_report_are_as_wide_as_the_terminal() {
    if !has("script") {
        return;
    }
    let folder = folder("width");
    let [table, refused] = ["table.csv", "refused.csv"].map(|name| text(folder.join(name)));
    let note = "x".repeat(200);
    fs::write(&table, format!("stop,note\nHarbour,{note}\n")).expect("a file");
    fs::write(&refused, format!("stop\nHarbour{note}\"\n")).expect("a file");
    let widest = |told: &str| told.lines().map(|line| line.chars().count()).max();
    let show = format!("$command show --color never --in csv+ {table}");
    let check = format!("$command check --color never --in csv+ {refused}");
    for (before, expected) in [
        ("stty cols 40;", 40),
        ("stty cols 132;", 132),
        ("stty cols 0;", 80),
        ("stty cols 40; COLUMNS=60", 60),
        ("stty cols 40; COLUMNS=0", 40),
        ("stty cols 40; COLUMNS=wide", 40),
    ] {
        let told = on_terminal(&format!("{before} {show}"));
        assert_eq!(widest(&told), Some(expected), "{before} {told}");
        let told = on_terminal(&format!("{before} {check}"));
        let excerpt = told.lines().find(|line| line.contains("xxx"));
        let width = excerpt.map_or(0, str::len);
        assert!(
            (expected - 8..=expected).contains(&width),
            "{before} {told}"
        );
    }
    let told = on_terminal(&format!("stty cols 40; {show} | cat"));
    assert_eq!(widest(&told), Some(80));
    let told = on_terminal(&format!("stty cols 40; {show} --width 30"));
    assert_eq!(widest(&told), Some(30));
}
