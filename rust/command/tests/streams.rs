//! Inputs and outputs that are closed, full, gone, missing or of another sort.

mod common;

use common::{folder, run, shell, text, Run};
use std::fs;

const CONVERT: &str = "\"$command\" convert --from csv+ --to csvj";
const CLOSED_INPUT: &str = "hemakuliwi: standard input is closed\n";
const CLOSED_OUTPUT: &str = "hemakuliwi: standard output is closed\n";

#[test]
fn a_closed_input_is_no_empty_file() {
    for command in [
        CONVERT,
        "\"$command\" check --in csv+",
        "\"$command\" show --in csv+",
    ] {
        assert_eq!(
            shell(&format!("{command} <&-"), b""),
            Run::new(3, "", CLOSED_INPUT),
            "{command}"
        );
        // A shell opens it for reading, other programs open it both ways.
        for null in ["</dev/null", "<>/dev/null"] {
            let empty = shell(&format!("{command} {null}"), b"");
            assert_eq!(empty.status, Some(1), "{null}");
            assert!(
                empty
                    .said
                    .starts_with("standard input:1:1: refused (1, no_record)"),
                "{}",
                empty.said
            );
        }
    }
}

#[test]
fn an_output_that_is_closed_is_no_success() {
    for command in [
        CONVERT,
        "\"$command\" check --in csv+",
        "\"$command\" show --in csv+",
        "\"$command\" --help",
        "\"$command\" explain",
    ] {
        assert_eq!(
            shell(&format!("{command} >&-"), b"a\nb\n"),
            Run::new(3, "", CLOSED_OUTPUT),
            "{command}"
        );
        for null in [">/dev/null", "1<>/dev/null"] {
            assert_eq!(
                shell(&format!("{command} {null}"), b"a\nb\n"),
                Run::new(0, "", ""),
                "{command} {null}"
            );
        }
    }
}

/// Python's DEVNULL and what is ignored in Node are /dev/null, open for reading and writing.
#[test]
fn a_program_may_ignore_the_output() {
    let script = "import subprocess, sys
run = subprocess.run([sys.argv[1], 'check', '--in', 'csv+'], input=b'a\\nb\\n', stdout=subprocess.DEVNULL)
sys.exit(run.returncode)";
    let ignored = shell(&format!("python3 -c \"{script}\" \"$command\""), b"");
    assert_eq!(ignored, Run::new(0, "", ""));
}

#[test]
fn a_quiet_check_needs_no_output() {
    let check = "\"$command\" check --quiet --in csv+";
    for redirection in ["", ">&-", "--json >/dev/full"] {
        let told = shell(&format!("{check} {redirection}"), b"a\nb\n");
        assert_eq!(told, Run::new(0, "", ""), "{redirection}");
    }
    let refused = shell(&format!("{check} -"), b"a\n\"");
    assert!(refused.said.contains("refused (4, cut_short)") && refused.status == Some(1));
    let json = shell(&format!("{check} --json - none"), b"a\n\"");
    assert_eq!(
        (json.status, json.told.as_str(), json.said.lines().count()),
        (Some(3), "", 2)
    );
}

#[test]
fn an_output_that_is_full_is_no_success() {
    let full = "hemakuliwi: standard output: No space left on device (os error 28)\n";
    for command in [
        CONVERT,
        "\"$command\" check --in csv+",
        "\"$command\" show --in csv+",
        "\"$command\" --version",
    ] {
        assert_eq!(
            shell(&format!("{command} >/dev/full"), b"a\nb\n"),
            Run::new(3, "", full),
            "{command}"
        );
    }
}

#[test]
fn a_reader_that_goes_away_is_not_complained_of() {
    let table = [&b"stop,fare\n"[..], &b"Harbour,2.40\n".repeat(200_000)].concat();
    for command in [CONVERT, "\"$command\" show --in csv+"] {
        let told = shell(
            &format!("{command} | head -n 1 >/dev/null; exit \"${{PIPESTATUS[0]}}\""),
            &table,
        );
        assert_eq!(told, Run::new(3, "", ""), "{command}");
    }
}

#[test]
fn a_standard_error_that_is_closed_or_full_changes_no_status() {
    for error in ["2>&-", "2>/dev/full"] {
        assert_eq!(
            shell(&format!("{CONVERT} {error}"), b"a\n\"b"),
            Run::new(1, "\"a\"\n", ""),
            "{error}"
        );
        let wrong = shell(&format!("\"$command\" convrt {error}"), b"");
        assert_eq!(wrong, Run::new(2, "", ""), "{error}");
    }
}

#[test]
fn what_can_not_be_read_is_named_with_the_reason() {
    let folder = folder("unreadable");
    let path = text(&folder);
    let said = format!("hemakuliwi: {path}: Is a directory (os error 21)\n");
    assert_eq!(
        run(&["check", "--in", "1", &path], b""),
        Run::new(3, "", &said)
    );
    assert_eq!(
        run(&["convert", "--from", "1", "--to", "2", &path], b""),
        Run::new(3, "", &said)
    );
    let missing = text(folder.join("none.csv"));
    let said = format!("hemakuliwi: {missing}: No such file or directory (os error 2)\n");
    assert_eq!(
        run(&["show", "--in", "1", &missing], b""),
        Run::new(3, "", &said)
    );
    fs::write(folder.join("file"), "a\n").expect("a file");
    let below = text(folder.join("file/below"));
    let said = format!("hemakuliwi: {below}: Not a directory (os error 20)\n");
    assert_eq!(
        run(&["check", "--in", "3", &below], b""),
        Run::new(3, "", &said)
    );
}
