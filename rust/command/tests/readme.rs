//! The commands in the README, and their output.

mod common;

use common::{shell, text};
use harness::repository;
use std::fs;

/// The lines after `$ ` in indented text that call the script, each with what follows it up to the next one or the end of the block.
fn examples(document: &str) -> Vec<(String, String)> {
    let mut examples: Vec<(String, String)> = Vec::new();
    let mut is_open = false;
    for line in document.lines() {
        let shown = line.strip_prefix("    ");
        match shown.and_then(|shown| shown.strip_prefix("$ ")) {
            Some(command) => {
                is_open = command.contains("./hemakuliwi ");
                if is_open {
                    examples.push((command.to_string(), String::new()));
                }
            }
            None => match shown.filter(|_| is_open) {
                Some(shown) => {
                    let (_, output) = examples.last_mut().expect("an example");
                    *output += shown;
                    output.push('\n');
                }
                None => is_open = false,
            },
        }
    }
    examples
}

#[test]
fn the_examples_of_the_readme_are_exact() {
    let document = fs::read_to_string(repository().join("README.md")).expect("the README");
    let examples = examples(&document);
    for (command, expected) in &examples {
        let command = command.replace("./hemakuliwi ", "\"$command\" ");
        let run = shell(
            &format!("cd '{}'; {{ {command}; }} 2>&1", text(repository())),
            b"",
        );
        assert_eq!(run.told, *expected, "{command}");
    }
    assert!(examples.len() >= 3, "{} examples", examples.len());
}
