//! What refused each must-fail edit, read from what `rt ci` or `rt must-fail` printed of it.
//!
//! An edit says something only if a fact refuses it: the same program with the right fact would pass. A proof that does not fit the edited
//! code, or a limit of the prover, would refuse it with any fact.

use std::collections::{BTreeMap, BTreeSet};
use std::fs;
use std::path::Path;

/// The line of an edit begins so; the edit follows, as CRATE/NAME.edit, a colon and what came of it.
const LINE: &str = "rt: must-fail ";

/// What came of it if it was refused. The first message that says why follows.
const REFUSED: &str = "refused, as it must be";

/// In place of a message: each names what the edit took away, or what follows from that.
const NAMES_ONLY: &str = " (only because a proof file names what the edit took away";

/// In place of a message: there was no verdict.
const LIMIT_ONLY: &str = " (only by a limit of the prover";

/// In an error: the proof does not fit the code. It names a goal, a clause or a step that is not there.
const UNFIT: [&str; 5] = [
    "that can be named from here",
    "write the clause",
    "no clause covers",
    "has no field `",
    "is not in scope",
];

/// In a note: the proof that was made of a function does not show its contract, or that of a function that it calls, or that a loop ends.
const FACTS: [&str; 3] = [
    "what the function ensures holds",
    "requires holds at this call",
    "measure",
];

/// An edit, as CRATE/NAME, and what refused it: the place and the fact, or why that is none.
pub type Verdict = (String, Result<String, String>);

/// The verdicts on all edits below this folder by what a run printed, in the order of their names. An edit of which nothing was printed is
/// among them, and so is one of which something was printed and that is not there.
pub fn verdicts(root: &Path, printed: &str) -> Result<Vec<Verdict>, String> {
    let mut edits = BTreeSet::new();
    for name in entries(&root.join("crates"))? {
        let folder = root.join("crates").join(&name).join("must-fail");
        let files = entries(&folder)?.into_iter();
        let labels = files.filter_map(|file| file.strip_suffix(".edit").map(str::to_string));
        edits.extend(labels.map(|label| format!("{name}/{label}")));
    }
    let outcomes: BTreeMap<&str, &str> = printed.lines().filter_map(line_of_edit).collect();
    let printed_of = outcomes.keys().map(|name| (*name).to_string());
    let names: BTreeSet<String> = edits.iter().cloned().chain(printed_of).collect();
    let verdict = |name: String| {
        let refused = match outcomes.get(name.as_str()) {
            _ if !edits.contains(&name) => Err("something was printed of it, and there is no edit".to_string()),
            Some(outcome) => refused_by(outcome),
            None => Err("nothing was printed of it".to_string()),
        };
        (name, refused)
    };
    Ok(names.into_iter().map(verdict).collect())
}

/// The edit of which a line is, as CRATE/NAME, and what came of it.
fn line_of_edit(line: &str) -> Option<(&str, &str)> {
    line.strip_prefix(LINE)?.split_once(".edit: ")
}

/// The names in a folder; none where there is no such folder.
fn entries(folder: &Path) -> Result<Vec<String>, String> {
    if !folder.is_dir() {
        return Ok(Vec::new());
    }
    let unread = |error| format!("{}: {error}", folder.display());
    let mut names = Vec::new();
    for entry in fs::read_dir(folder).map_err(unread)? {
        names.push(entry.map_err(unread)?.file_name().to_string_lossy().into_owned());
    }
    Ok(names)
}

/// What refused an edit, by what came of it: the first message that does not only name what the edit took away.
pub fn refused_by(outcome: &str) -> Result<String, String> {
    let Some(why) = outcome.strip_prefix(REFUSED) else {
        return Err(format!("it is not refused: {outcome}"));
    };
    if why.starts_with(NAMES_ONLY) {
        return Err(format!("the proof does not fit its code: {}", after_bracket(why)));
    }
    if why.starts_with(LIMIT_ONLY) {
        return Err(format!("only a limit refuses it: {}", after_bracket(why)));
    }
    let Some(message) = why.strip_prefix(": ") else {
        return Err("no message says what refused it".to_string());
    };
    if let Some(note) = message.strip_prefix("note: ") {
        return if note.contains(": it is not proved that ") && FACTS.iter().any(|words| note.contains(words)) {
            Ok(message.to_string())
        } else {
            Err(format!("no contract, no proof and no law refuses it: {message}"))
        };
    }
    if UNFIT.iter().any(|words| message.contains(words)) {
        Err(format!("the proof does not fit its code: {message}"))
    } else if is_in_proof(message) {
        Ok(message.to_string())
    } else {
        Err(format!("its error has no place in a proof or a law: {message}"))
    }
}

/// The message after the words in brackets.
fn after_bracket(why: &str) -> &str {
    why.split_once("): ").map_or(why, |(_, message)| message)
}

/// Whether an error is at a line of a file below specs/ or proofs/.
fn is_in_proof(error: &str) -> bool {
    let mut parts = error.split(':');
    let file = parts.next().unwrap_or_default();
    let file = file.strip_prefix("./").unwrap_or(file);
    let is_number = |part: Option<&str>| part.is_some_and(|part| part.parse::<usize>().is_ok());
    let is_law = file.starts_with("specs/") || file.starts_with("proofs/");
    is_law && file.ends_with(".antt") && is_number(parts.next()) && is_number(parts.next()) && parts.next() == Some(" error")
}
