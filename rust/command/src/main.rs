//! The command `hemakuliwi`: converts, checks and shows tables in CSVJ, TDIF and CSV+. Which files are accepted and what is written is
//! decided by the proved library alone; this program reads and writes, and puts the library's answers into words.
//!
//! - `args`, `help`, `nearest`: the words of a command line.
//! - `input`, `output`, `standard`, `failure`: files, and the standard streams where they are closed.
//! - `system`: two calls of the operating system, for a stream that is closed and for the width of a terminal: the only code that Rust does
//!   not check.
//! - `commands`, `convert`, `show`, `progress`: what each command does.
//! - `lines`, `cells`, `trail`: where a byte lies in a text that comes in pieces.
//! - `scene`, `hints`, `explain`, `diagnosis`: what is around a fault, what people usually get wrong, the faults in words.
//! - `foreign`, `windows_1252`, `look_alikes`: other types of files, encodings, and characters that look like others, for the hints.
//! - `excerpt`, `report`, `json`, `paint`, `printable`, `width`: how it is printed.
//!
//! `share/` has the man page and the completions. `tests/` runs the command as a person does; `tests/refusals` has the report for each
//! fault, reason and hint.

mod args;
mod cells;
mod commands;
mod convert;
mod diagnosis;
mod excerpt;
mod explain;
mod failure;
mod foreign;
mod help;
mod hints;
mod input;
mod json;
mod lines;
mod look_alikes;
mod nearest;
mod output;
mod paint;
mod printable;
mod progress;
mod report;
mod scene;
mod show;
mod standard;
mod system;
mod trail;
mod width;
mod windows_1252;

use std::env;
use std::io::{self, Write};
use std::process::ExitCode;

fn main() -> ExitCode {
    match args::parse(env::args_os().skip(1)) {
        Ok(request) => commands::run(request).into(),
        Err(misuse) => {
            let command = misuse
                .command
                .map_or(String::new(), |command| format!(" {command}"));
            // Nothing can be done about an error there, and the status says enough.
            let _ = writeln!(
                io::stderr(),
                "hemakuliwi: {}\n`hemakuliwi{command} --help` tells how it is used.",
                misuse.message
            );
            ExitCode::from(commands::WRONG_USE)
        }
    }
}
