//! The figures that can be counted, as tables: all of `docs/FIGURES.md`, and what other documents name.
//!
//! A document has a table between two lines, `<!-- figures: NAME -->` and `<!-- end of figures -->`, and a single figure in a sentence
//! between `<!-- figure: NAME -->` and `<!-- end -->`. The text between them is what the command `figures` prints; a test compares the two.

mod contracts;
mod costs;
pub mod crates;
mod sizes;

use crates::Crate;
use sizes::{Size, HEADER};
use std::fs;
use std::path::{Path, PathBuf};

/// The first line of a table after the line before it, up to the name: words in the middle of a line begin none.
const BEGIN: &str = "\n<!-- figures: ";
const END: &str = "<!-- end of figures -->\n";

const BEGIN_SINGLE: &str = "<!-- figure: ";
const END_SINGLE: &str = "<!-- end -->";

/// The generated document: tables, each with a heading and the words that explain it.
pub const FILE: &str = "docs/FIGURES.md";

const HEAD: &str = "\
# Figures

Generated from the sources, as a whole. Do not edit it: run

    cargo run --release --offline -p harness --no-default-features --bin figures -- --write

The test `documents` compares it with the sources. Check times can't be counted: they are in `docs/check-times.txt`, taken from what `scripts/check-times.sh` prints, and all but that of case_fold are of the older kit 5b:

    scripts/check-times.sh [NAME..] | tee LOG
    cargo run --release --offline -p harness --no-default-features --bin figures -- --times LOG

A crate that is not named keeps its time.
";

/// The sections of the generated document: heading, explanation, table.
const SECTIONS: [(&str, &str, &str); 6] = [
    (
        "Crates by layer",
        "*Depends on* leaves out what another crate named there depends on; nearly all depend on `model`. `io` is Rattle's own.",
        "layers",
    ),
    (
        "Sizes and check times",
        "Lines are counted without blank ones and without those that are all comment. *Check* is the time of a check of the crate alone, but for case_fold with the older kit 5b, *prove again* the sum for it and all crates above it. Crates that do not depend on each other are proved side by side, so on several processors the wait is shorter than the sum. Each edit costs a check of its crate once more, in `rt must-fail` and `rt ci` only.",
        "costs",
    ),
    ("In all", "", "sizes"),
    (
        "Stack",
        "As `include/hemakuliwi.h` states it; `rust/harness/tests/c/stack.c` measures it and fails above these figures.",
        "stack",
    ),
    ("Comparisons at each run of the tests", "", "comparisons"),
    (
        "Contracts",
        "Public functions, with the definitions that the contract (`ensures`, or the law of a conversion) names in the order in which it names them; the source has the whole statement. *Requires*: whether the caller has to establish something.",
        "contracts",
    ),
];

/// A table of figures.
pub struct Table {
    /// The name by which documents refer to it.
    pub name: &'static str,
    text: String,
}

impl Table {
    fn new(name: &'static str, head: &str) -> Self {
        let columns = head.matches('|').count() - 1;
        let rule = "|---".repeat(columns);
        Self {
            name,
            text: format!("{head}\n{rule}|\n"),
        }
    }

    fn row(&mut self, cells: &[String]) {
        self.text += &format!("| {} |\n", cells.join(" | "));
    }

    /// The table as a document has it after another line, with its two lines.
    pub fn in_document(&self) -> String {
        format!("{BEGIN}{} -->\n{}{END}", self.name, self.text)
    }
}

/// A figure in a sentence.
struct Single {
    name: String,
    text: String,
}

/// What documents refer to by name.
pub struct Figures {
    tables: Vec<Table>,
    singles: Vec<Single>,
}

/// All figures of the repository in this folder.
pub fn count(root: &Path) -> Result<Figures, String> {
    let crates = crates::load(root)?;
    let sizes = sizes::sizes(root, &crates)?;
    let header = read(&root.join(HEADER))?;
    let tables = vec![
        costs::layers(&crates),
        costs::costs(&crates),
        sizes::limits(&header)?,
        sizes::stack(&header),
        sizes::size_table(&sizes),
        sizes::comparisons(root)?,
        contracts::contracts(root, &crates)?,
    ];
    let singles = singles(&crates, &sizes);
    Ok(Figures { tables, singles })
}

impl Figures {
    /// The generated document.
    pub fn file(&self) -> Result<String, String> {
        let mut text = HEAD.to_string();
        for (heading, explanation, name) in SECTIONS {
            text += &format!("\n## {heading}\n");
            if !explanation.is_empty() {
                text += &format!("\n{explanation}\n");
            }
            let table = self.tables.iter().find(|table| table.name == name);
            text += &table
                .ok_or(format!("there is no table `{name}`"))?
                .in_document();
        }
        Ok(text)
    }

    /// All of them as documents have them.
    pub fn print(&self) -> String {
        let tables = self.tables.iter().map(Table::in_document);
        let singles = self
            .singles
            .iter()
            .map(|single| single.in_document() + "\n");
        tables.chain(["\n".to_string()]).chain(singles).collect()
    }

    /// A document with each of its figures as it is now.
    pub fn fill(&self, document: &str) -> Result<String, String> {
        let table = |name: &str| self.tables.iter().find(|table| table.name == name);
        let text = filled(document, [BEGIN, END], |name| {
            Some(table(name)?.in_document())
        })?;
        let single = |name: &str| self.singles.iter().find(|single| single.name == name);
        filled(&text, [BEGIN_SINGLE, END_SINGLE], |name| {
            Some(single(name)?.in_document())
        })
    }
}

impl Single {
    fn in_document(&self) -> String {
        format!("{BEGIN_SINGLE}{} -->{}{END_SINGLE}", self.name, self.text)
    }
}

/// The documents that may have tables: the Markdown files of the root and of `docs/`.
pub fn documents(root: &Path) -> Result<Vec<PathBuf>, String> {
    let mut paths = Vec::new();
    for folder in [root.to_path_buf(), root.join("docs")] {
        let entries =
            fs::read_dir(&folder).map_err(|error| format!("{}: {error}", folder.display()))?;
        let files = entries.flatten().map(|entry| entry.path());
        paths.extend(files.filter(|path| path.extension().is_some_and(|found| found == "md")));
    }
    paths.sort();
    Ok(paths)
}

/// A document in which all that lies between `begin`, with a name, and `end` is what the name refers to.
fn filled(
    document: &str,
    [begin, end]: [&str; 2],
    named: impl Fn(&str) -> Option<String>,
) -> Result<String, String> {
    let mut text = String::new();
    let mut rest = document;
    while let Some((before, found)) = rest.split_once(begin) {
        let (name, _) = found.split_once(" -->").unwrap_or((found, ""));
        let (_, after) = found
            .split_once(end)
            .ok_or(format!("the figures `{name}` have no end"))?;
        text += before;
        text += &named(name).ok_or(format!("there are no figures `{name}`"))?;
        rest = after;
    }
    Ok(text + rest)
}

fn read(path: &Path) -> Result<String, String> {
    fs::read_to_string(path).map_err(|error| format!("{}: {error}", path.display()))
}

/// A number with a comma before each three digits.
fn with_commas(number: usize) -> String {
    let digits = number.to_string();
    let mut text = String::new();
    for (place, digit) in digits.chars().enumerate() {
        if place > 0 && (digits.len() - place).is_multiple_of(3) {
            text.push(',');
        }
        text.push(digit);
    }
    text
}

/// How large the repository is, and what it takes to prove each crate and all above it again.
fn singles(crates: &[Crate], sizes: &[Size]) -> Vec<Single> {
    let counts = sizes.iter().map(|(what, count, _)| Single {
        name: (*what).to_string(),
        text: with_commas(*count),
    });
    let again = crates.iter().map(|one| Single {
        name: format!("again {}", one.name),
        text: costs::again(crates, one),
    });
    counts.chain(again).collect()
}

#[cfg(test)]
mod tests {
    use super::*;

    fn table(name: &'static str, cell: &str) -> Table {
        let mut table = Table::new(name, "| what |");
        table.row(&[cell.to_string()]);
        table
    }

    fn figures() -> Figures {
        let single = Single {
            name: "again a".to_string(),
            text: "4 s".to_string(),
        };
        Figures {
            tables: vec![table("one", "1"), table("two", "2")],
            singles: vec![single],
        }
    }

    #[test]
    fn a_document_has_its_figures_filled() {
        let old = "a\n<!-- figures: two -->\n| what |\n|---|\n| 3 |\n<!-- end of figures -->\nin <!-- figure: again a -->3<!-- end -->.\n";
        let new = figures().fill(old).unwrap();
        assert_eq!(new, old.replace("| 3", "| 2").replace("-->3<", "-->4 s<"));
        assert_eq!(figures().fill(&new).unwrap(), new);
        for (from, to) in [
            ("two", "three"),
            ("end of", "no end of"),
            ("again a", "b"),
            ("<!-- end -->", ""),
        ] {
            assert!(figures().fill(&old.replace(from, to)).is_err(), "{from}");
        }
        let named = "write `<!-- figures: three -->`\n";
        assert_eq!(figures().fill(named).unwrap(), named);
    }

    #[test]
    fn numbers_have_commas() {
        let commas = [0, 999, 1_000, 16_777_215].map(with_commas);
        assert_eq!(commas, ["0", "999", "1,000", "16,777,215"]);
    }
}
