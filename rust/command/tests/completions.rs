//! What shells complete, and the man page. bash is asked as it asks itself; zsh, fish and the programs for man pages where they are
//! installed.

mod common;

use common::{has, shell, Run};
use std::path::Path;

fn share(name: &str) -> String {
    common::text(
        Path::new(env!("CARGO_MANIFEST_DIR"))
            .join("share")
            .join(name),
    )
}

/// What bash offers for the last of these words.
fn offered(words: &[&str]) -> String {
    let quoted: Vec<String> = words.iter().map(|word| format!("'{word}'")).collect();
    let line = format!(
        "source '{}'; COMP_WORDS=({}); COMP_CWORD={}; _hemakuliwi 2>/dev/null; echo \"${{COMPREPLY[*]}}\"",
        share("hemakuliwi.bash"),
        quoted.join(" "),
        words.len() - 1
    );
    let told = shell(&line, b"");
    assert_eq!(
        (told.status, told.said.as_str()),
        (Some(0), ""),
        "{words:?}"
    );
    told.told.trim_end().to_string()
}

#[test]
fn bash_completes_commands_options_dialects_and_faults() {
    for (line, expected) in [
        ("hemakuliwi |", "convert check show explain help"),
        ("hemakuliwi c|", "convert check"),
        ("hemakuliwi --v|", "--version"),
        (
            "hemakuliwi convert --|",
            "--from --to --output --json --color --help",
        ),
        ("hemakuliwi --color never convert --f|", "--from"),
        ("hemakuliwi convert --from |", "csvj tdif csv+"),
        ("hemakuliwi convert --from = |", "csvj tdif csv+"),
        ("hemakuliwi convert --from = t|", "tdif"),
        ("hemakuliwi convert --to cs|", "csvj csv+"),
        ("hemakuliwi check --in t|", "tdif"),
        ("hemakuliwi check --q|", "--quiet"),
        ("hemakuliwi check --o|", ""),
        ("hemakuliwi show --w|", "--width"),
        ("hemakuliwi show --color a|", "auto always"),
        ("hemakuliwi explain 1|", "1 10 11 12"),
        ("hemakuliwi help s|", "show"),
    ] {
        let words: Vec<&str> = line.trim_end_matches('|').split(' ').collect();
        assert_eq!(offered(&words), expected, "{line}");
    }
}

#[test]
fn bash_completes_files() {
    let share = share("");
    for words in [
        vec!["hemakuliwi", "check", "--in", "tdif"],
        vec!["hemakuliwi", "convert", "-o"],
    ] {
        let file = format!("{share}hemakuliwi.b");
        let words = [words, vec![file.as_str()]].concat();
        assert_eq!(offered(&words), format!("{share}hemakuliwi.bash"));
    }
}

#[test]
fn bash_has_it_for_the_command() {
    let told = shell(
        &format!(
            "source '{}'; complete -p hemakuliwi",
            share("hemakuliwi.bash")
        ),
        b"",
    );
    assert_eq!(
        told,
        Run::new(0, "complete -F _hemakuliwi hemakuliwi\n", "")
    );
}

#[test]
fn zsh_reads_its_completion() {
    if has("zsh") {
        assert_eq!(
            shell(&format!("zsh -n '{}'", share("_hemakuliwi")), b""),
            Run::new(0, "", "")
        );
    }
}

#[test]
fn fish_completes_dialects() {
    if has("fish") {
        let line = format!(
            "fish --no-config --command 'source {}; complete -C \"hemakuliwi convert --from \"'",
            share("hemakuliwi.fish")
        );
        let told = shell(&line, b"");
        let words: Vec<&str> = told
            .told
            .lines()
            .filter_map(|line| line.split('\t').next())
            .collect();
        assert_eq!(words, ["csv+", "csvj", "tdif"], "{}", told.said);
    }
}

#[test]
fn the_man_page_has_no_warnings() {
    let page = share("hemakuliwi.1");
    if has("groff") {
        let told = shell(
            &format!("groff -mandoc -ww -Tutf8 '{page}' | head -n 1"),
            b"",
        );
        assert!(told.told.starts_with("HEMAKULIWI(1)"), "{}", told.told);
        assert_eq!((told.status, told.said.as_str()), (Some(0), ""));
    }
    if has("mandoc") {
        assert_eq!(
            shell(&format!("mandoc -Tlint -Wall '{page}'"), b""),
            Run::new(0, "", "")
        );
    }
}
