//! What is counted over the whole repository: limits and stack in the header, clauses, theorems, lines, vectors, and what tests compare.

use super::crates::{self, Crate};
use super::{read, with_commas, Table};
use crate::clauses::declared;
use crate::conformance;
use crate::vectors::{self, Call};
use std::path::Path;

/// The header for C.
pub const HEADER: &str = "include/hemakuliwi.h";

/// The limits, as the header has them.
pub fn limits(header: &str) -> Result<Table, String> {
    let mut table = Table::new("limits", "| what | at most | in `hemakuliwi.h` |");
    for (what, name, unit) in [
        ("a file", "HK_FILE_BYTES", " bytes"),
        ("a record", "HK_RECORD_BYTES", " counted bytes"),
        ("a record", "HK_COLUMNS", " columns"),
        ("a piece of a file", "HK_PIECE_BYTES", " bytes"),
        ("what a piece or end call writes", "HK_PIECE_ROOM", " bytes"),
    ] {
        let value = number_after(header, &format!("#define {name} "))?;
        table.row(&[
            what.to_string(),
            with_commas(value) + unit,
            format!("`{name}`"),
        ]);
    }
    Ok(table)
}

/// The stack that each call takes at most, as the header has it: `Stack of NAME: N bytes`.
pub fn stack(header: &str) -> Table {
    let mut table = Table::new("stack", "| call | bytes of stack at most |");
    let words = header.split_whitespace().collect::<Vec<_>>().join(" ");
    for stated in words.split("Stack of ").skip(1) {
        if let Some((name, bytes)) = stated.split_once(": ") {
            let bytes = bytes.split(' ').next().unwrap_or_default();
            table.row(&[format!("`{name}`"), bytes.to_string()]);
        }
    }
    table
}

/// The number directly after words that a text has once.
fn number_after(text: &str, words: &str) -> Result<usize, String> {
    let rests: Vec<&str> = text.split(words).skip(1).collect();
    let [rest] = rests[..] else {
        return Err(format!("`{words}` is found {} times", rests.len()));
    };
    let end = rest.find(|c: char| !c.is_ascii_digit() && c != '_');
    let digits = rest[..end.unwrap_or(rest.len())].replace('_', "");
    digits
        .parse()
        .map_err(|_| format!("no number follows `{words}`"))
}

/// What is counted over the whole repository, how many there are, and where.
pub type Size = (&'static str, usize, &'static str);

/// The table of these.
pub fn size_table(sizes: &[Size]) -> Table {
    let mut table = Table::new("sizes", "| what | how many | where |");
    for (what, count, place) in sizes {
        table.row(&[what.to_string(), with_commas(*count), place.to_string()]);
    }
    table
}

/// All that is counted so.
pub fn sizes(root: &Path, crates: &[Crate]) -> Result<Vec<Size>, String> {
    let sum = |count: fn(&Crate) -> usize| crates.iter().map(count).sum::<usize>();
    let rules = read(&root.join("docs/RULES.md"))?;
    let clauses = rules.lines().filter(|line| declared(line).is_some());
    let theorems = theorems(&read(&root.join(DEMANDS))?);
    let mut sizes = vec![
        ("clauses of the rules", clauses.count(), "`docs/RULES.md`"),
        (
            "theorems of the three demands",
            theorems,
            "`crates/theorems/specs/Demands.antt`",
        ),
        ("crates", crates.len(), "`crates.txt`"),
        (
            "functions, each proved",
            sum(|one| one.functions),
            "their `src/`",
        ),
        ("lines of code", sum(|one| one.code), "their `src/`"),
        (
            "lines of definitions",
            sum(|one| one.definitions),
            "`specs/`",
        ),
        (
            "lines of the grammars",
            lines(root, &GRAMMARS)?,
            "`crates/grammar/specs`",
        ),
        (
            "lines of the rules as definitions",
            lines(root, &["crates/model/specs/rules"])?,
            "`crates/model/specs/rules`",
        ),
        (
            "lines of the demands",
            lines(root, &[DEMANDS])?,
            "`crates/theorems/specs/Demands.antt`",
        ),
        ("lines of proofs", sum(|one| one.proofs), "`proofs/`"),
        (
            "edits that must be refused",
            sum(|one| one.edits),
            "`must-fail/`",
        ),
    ];
    sizes.extend(vector_counts(root)?);
    Ok(sizes)
}

const DEMANDS: &str = "crates/theorems/specs/Demands.antt";

/// The grammars, and what the rules require of a file beside them.
const GRAMMARS: [&str; 3] = [
    "crates/grammar/specs/rfc",
    "crates/grammar/specs/dialects",
    "crates/grammar/specs/Accepted.antt",
];

/// The lines of definitions in these files and folders.
fn lines(root: &Path, paths: &[&str]) -> Result<usize, String> {
    let paths = paths.iter().map(|path| root.join(path));
    paths
        .map(|path| match path.is_dir() {
            true => crates::lines_below(&path, "antt", "--"),
            false => Ok(crates::lines(&read(&path)?, "--")),
        })
        .sum()
}

/// The fields of the records `Demand1`, `Demand2` and so on.
fn theorems(demands: &str) -> usize {
    let number = |line: &str| line.strip_prefix("pub record Demand")?.chars().next();
    let mut is_demand = false;
    let mut count = 0;
    for line in demands.lines() {
        if line.starts_with("pub ") {
            is_demand = number(line).is_some_and(|c| c.is_ascii_digit());
        }
        count += usize::from(is_demand && line.starts_with("  pub "));
    }
    count
}

const RUNS: &str = "rust/harness/tests/program_runs/runs";

/// The cases written by hand, by the call that they make, and the stored runs.
fn vector_counts(root: &Path) -> Result<Vec<Size>, String> {
    let folder = root.join("vectors");
    let cases = vectors::load_folder(&folder)?;
    let count = |of: fn(&Call) -> bool| cases.iter().filter(|case| of(&case.call)).count();
    let reads = count(|call| matches!(call, Call::Read { .. }));
    let decodes = count(|call| matches!(call, Call::Decode { .. }));
    let converts = count(|call| matches!(call, Call::Convert { .. }));
    let writes = count(|call| matches!(call, Call::Write { .. }));
    let lists = count(|call| matches!(call, Call::Pieces { .. }));
    let set = folder.join("csvj-conformance");
    let [accepted, refused] =
        ["accept", "reject"].map(|name| conformance::files(&set.join(name), "csvj"));
    let runs = crates::files_below(&root.join(RUNS), "args")?;
    let (cases, files) = ("`vectors/`", "`vectors/csvj-conformance`");
    Ok(vec![
        ("vectors of the reader", reads, cases),
        ("vectors of the decoder", decodes, cases),
        ("vectors of the whole converter", converts, cases),
        ("vectors of the writer", writes, cases),
        ("vectors of lists of piece and end calls", lists, cases),
        ("conformance files to accept", accepted?.len(), files),
        ("conformance files to refuse", refused?.len(), files),
        (
            "stored runs of the program",
            runs.len(),
            "`rust/harness/tests/program_runs`",
        ),
    ])
}

/// What the tests compare at each run: what, in which test, and the words in its source before the count.
const COMPARISONS: [(&str, &str, &str); 14] = [
    (
        "random cells, decoded",
        "proved_decoder",
        "decode_random(1, ",
    ),
    (
        "random files, read",
        "proved_reader",
        "const FILES: usize = ",
    ),
    (
        "wrong readers to be noticed",
        "proved_reader",
        "(&str, Reader); ",
    ),
    (
        "random files, each converted to three targets",
        "proved_converter",
        "const FILES: usize = ",
    ),
    (
        "wrong converters to be noticed",
        "wrong_texts",
        "(&str, WholeConverter); ",
    ),
    (
        "random tables, each written in three targets",
        "proved_writer",
        "const TABLES: usize = ",
    ),
    (
        "wrong writers to be noticed",
        "wrong_texts",
        "(&str, Writer); ",
    ),
    (
        "random lists of piece and end calls, with each of two seeds",
        "proved_pieces",
        "const LISTS: usize = ",
    ),
    (
        "states of a converter that no calls made",
        "proved_pieces",
        "const STATES: usize = ",
    ),
    (
        "wrong piece converters to be noticed",
        "wrong_pieces",
        "WRONG_CONVERTERS: [(&str, PieceConverter); ",
    ),
    (
        "wrong checks before a piece call to be noticed",
        "wrong_pieces",
        "WRONG_CHECKS: [(&str, PieceConverter); ",
    ),
    (
        "files that leave the fast path at a given place, each read and converted to three targets, at least",
        "fast_paths",
        "const FILES: usize = ",
    ),
    (
        "cuts of such files, at least",
        "fast_paths",
        "const CUTS: usize = ",
    ),
    (
        "wrong calls to be noticed on such files",
        "fast_paths",
        "(&str, Wrong); ",
    ),
];

/// How much the tests compare, as their sources have it.
pub fn comparisons(root: &Path) -> Result<Table, String> {
    let mut table = Table::new(
        "comparisons",
        "| what is compared at each run | how many | by |",
    );
    for (what, test, words) in COMPARISONS {
        let path = format!("rust/harness/tests/{test}.rs");
        let count = number_after(&read(&root.join(&path))?, words)
            .map_err(|error| format!("{path}: {error}"))?;
        table.row(&[what.to_string(), with_commas(count), format!("`{path}`")]);
    }
    Ok(table)
}

#[cfg(test)]
mod tests {
    use super::*;

    #[test]
    fn theorems_are_counted() {
        let demands = "pub record Leaves : T where\n  pub a : T\n\npub record Demand1 : T where\n  -- b\n  pub b : T\n  pub c :\n      T\n\npub record Demands : T where\n  pub d : T\n";
        assert_eq!(theorems(demands), 2);
    }

    #[test]
    fn the_stack_is_taken_from_comments() {
        let header =
            "/* Stack of hk_a: 600 bytes. Stack\n   of hk_b: 1,200 bytes. */\nvoid hk_a(void);\n";
        let rows = "| `hk_a` | 600 |\n| `hk_b` | 1,200 |\n";
        assert!(stack(header).text.ends_with(rows));
    }

    #[test]
    fn a_number_is_found_by_the_words_before_it() {
        assert_eq!(
            number_after("const A: usize = 4_096;", "A: usize = "),
            Ok(4_096)
        );
        assert!(number_after("A = 1 A = 2", "A = ").is_err());
        assert!(number_after("A = b", "A = ").is_err());
    }
}
