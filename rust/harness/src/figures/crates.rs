//! The crates of `crates.txt`: what each is for, what it depends on, how long it is, and what it takes to prove it.

use super::read;
use std::collections::{BTreeMap, BTreeSet};
use std::fs;
use std::path::Path;

/// The file of the seconds that a check took for each crate.
pub const TIMES: &str = "docs/check-times.txt";

const HEAD_OF_TIMES: &str = "\
# The seconds that a check took for each crate, but for case_fold with the older kit 5b. scripts/check-times.sh measures them:
#   scripts/check-times.sh [NAME..] | tee LOG
#   cargo run --release --offline -p harness --no-default-features --bin figures -- --times LOG
";

/// A crate of the repository.
pub struct Crate {
    /// Its name.
    pub name: String,
    /// What it is for: the first sentence of the comment above it.
    pub role: String,
    /// The crates that it names, those of Rattle's own library too.
    pub dependencies: Vec<String>,
    /// Lines of `src/`.
    pub code: usize,
    /// Functions of `src/`.
    pub functions: usize,
    /// Lines of `specs/`.
    pub definitions: usize,
    /// Lines of `proofs/`.
    pub proofs: usize,
    /// Edits that the prover has to refuse.
    pub edits: usize,
    /// The seconds that its proof took.
    pub seconds: usize,
}

/// The crates in the order of `crates.txt`, each of which has to have a time, and no other.
pub fn load(root: &Path) -> Result<Vec<Crate>, String> {
    let mut crates = listed(&read(&root.join("crates.txt"))?);
    let mut times = times(&read(&root.join(TIMES))?)?;
    for one in &mut crates {
        let folder = root.join("crates").join(&one.name);
        one.code = lines_below(&folder.join("src"), "rt", "//")?;
        one.functions = functions(&files_below(&folder.join("src"), "rt")?);
        one.definitions = lines_below(&folder.join("specs"), "antt", "--")?;
        one.proofs = lines_below(&folder.join("proofs"), "antt", "--")?;
        one.edits = files_below(&folder.join("must-fail"), "edit")?.len();
        let name = &one.name;
        one.seconds = times
            .remove(name)
            .ok_or(format!("{TIMES} has no time of {name}: `figures --times LOG` takes it from a log of `scripts/check-times.sh`"))?;
    }
    match times.keys().next() {
        None => Ok(crates),
        Some(name) => Err(format!("{TIMES} has a time of {name}, which is no crate")),
    }
}

/// The crates of a list, with nothing counted. A comment is for all crates up to the next blank line.
fn listed(list: &str) -> Vec<Crate> {
    let mut crates = Vec::new();
    let mut comment = String::new();
    for line in list.lines() {
        if line.is_empty() {
            comment.clear();
        } else if let Some(more) = line.strip_prefix('#') {
            comment += more;
        } else if let Some((head, dependencies)) = line.split_once(':') {
            // A static library has that word after its name.
            let name = head.split_whitespace().next().unwrap_or_default();
            crates.push(Crate {
                name: name.to_string(),
                role: first_sentence(comment.trim()).to_string(),
                dependencies: dependencies
                    .split_whitespace()
                    .map(str::to_string)
                    .collect(),
                code: 0,
                functions: 0,
                definitions: 0,
                proofs: 0,
                edits: 0,
                seconds: 0,
            });
        }
    }
    crates
}

fn first_sentence(text: &str) -> &str {
    text.find(". ").map_or(text, |end| &text[..=end])
}

/// The times of a file: `NAME SECONDS`, a line each.
fn times(text: &str) -> Result<BTreeMap<String, usize>, String> {
    let lines = text.lines().filter(|line| !line.starts_with('#'));
    lines
        .map(|line| {
            let time = line
                .split_once(' ')
                .and_then(|(name, seconds)| Some((name.to_string(), seconds.parse().ok()?)));
            time.ok_or(format!("{TIMES}: `{line}` is not a name and seconds"))
        })
        .collect()
}

/// The file of times, renewed from what `scripts/check-times.sh` printed. A crate that was not proved in this run keeps its time.
pub fn renewed_times(root: &Path, log: &str) -> Result<String, String> {
    let crates = listed(&read(&root.join("crates.txt"))?);
    let names: Vec<&str> = crates.iter().map(|one| one.name.as_str()).collect();
    let old = read(&root.join(TIMES)).unwrap_or_default();
    renewed(&names, times(&old)?, log)
}

fn renewed(
    names: &[&str],
    mut times: BTreeMap<String, usize>,
    log: &str,
) -> Result<String, String> {
    let logged: Vec<(String, usize)> = log.lines().filter_map(proved).collect();
    if logged.is_empty() {
        return Err("the log has the time of no crate".to_string());
    }
    times.extend(logged);
    let lines = names.iter().filter_map(|name| {
        let seconds = times.get(*name)?;
        Some(format!("{name} {seconds}\n"))
    });
    Ok(HEAD_OF_TIMES.to_string() + &lines.collect::<String>())
}

/// The crate that a line of a log reports as proved, and in how many seconds: `NAME proved (N s)`.
fn proved(line: &str) -> Option<(String, usize)> {
    let (name, rest) = line.split_once(" proved (")?;
    let seconds = rest.strip_suffix(" s)")?.parse().ok()?;
    Some((name.to_string(), seconds))
}

/// The lines below a folder that are neither blank nor all comment.
pub fn lines_below(folder: &Path, extension: &str, comment: &str) -> Result<usize, String> {
    let texts = files_below(folder, extension)?;
    Ok(texts.iter().map(|text| lines(text, comment)).sum())
}

/// The lines of a text that are neither blank nor all comment.
pub fn lines(text: &str, comment: &str) -> usize {
    let counts = |line: &&str| !line.trim().is_empty() && !line.trim().starts_with(comment);
    text.lines().filter(counts).count()
}

/// How many functions these sources declare.
fn functions(sources: &[String]) -> usize {
    let declares = |line: &&str| {
        let line = line.trim_start().trim_start_matches("pub ");
        line.trim_start_matches("extern \"C\" ").starts_with("fn ")
    };
    let lines = sources.iter().flat_map(|source| source.lines());
    lines.filter(declares).count()
}

/// The texts of all files below a folder with this extension; none where there is no folder.
pub fn files_below(folder: &Path, extension: &str) -> Result<Vec<String>, String> {
    let mut texts = Vec::new();
    let Ok(entries) = fs::read_dir(folder) else {
        return Ok(texts);
    };
    for path in entries.flatten().map(|entry| entry.path()) {
        if path.is_dir() {
            texts.extend(files_below(&path, extension)?);
        } else if path.extension().is_some_and(|found| found == extension) {
            texts.push(read(&path)?);
        }
    }
    Ok(texts)
}

/// All that a crate depends on, also by way of others.
pub fn below<'a>(crates: &'a [Crate], name: &'a str) -> BTreeSet<&'a str> {
    let named = crates.iter().find(|one| one.name == name);
    let direct = named.map_or(&[][..], |one| &one.dependencies);
    let mut all = BTreeSet::new();
    for dependency in direct {
        all.insert(dependency.as_str());
        all.extend(below(crates, dependency));
    }
    all
}

/// The crates that have to be proved again when one changes: itself and all that depend on it.
pub fn proved_again<'a>(crates: &'a [Crate], name: &str) -> Vec<&'a Crate> {
    let touched = |one: &&Crate| one.name == name || below(crates, &one.name).contains(name);
    crates.iter().filter(touched).collect()
}

/// How many crates lie below one at most, each above the next.
pub fn layer(crates: &[Crate], name: &str) -> usize {
    let layers = below(crates, name)
        .into_iter()
        .filter(|dependency| crates.iter().any(|one| one.name == *dependency))
        .map(|dependency| 1 + layer(crates, dependency));
    layers.max().unwrap_or(0)
}

/// What a crate names, without what another of these depends on.
pub fn nearest(crates: &[Crate], one: &Crate) -> Vec<String> {
    let mut indirect = BTreeSet::new();
    for dependency in &one.dependencies {
        indirect.extend(below(crates, dependency));
    }
    let names = one.dependencies.iter();
    names
        .filter(|name| !indirect.contains(name.as_str()))
        .cloned()
        .collect()
}

#[cfg(test)]
mod tests {
    use super::*;

    const LIST: &str = "# Head. Of all.\n\n# The first of\n# all. More.\na:\n\n# Two.\nb: a\nc: a b io\n\n# Last\nd staticlib: a c\n";

    #[test]
    fn a_list_is_taken_apart() {
        let crates = listed(LIST);
        let listed: Vec<(&str, &str)> = crates
            .iter()
            .map(|one| (one.name.as_str(), one.role.as_str()))
            .collect();
        let roles = [
            ("a", "The first of all."),
            ("b", "Two."),
            ("c", "Two."),
            ("d", "Last"),
        ];
        assert_eq!(listed, roles);
        assert_eq!(nearest(&crates, &crates[2]), ["b", "io"]);
        assert_eq!(nearest(&crates, &crates[3]), ["c"]);
        let layers: Vec<usize> = crates.iter().map(|one| layer(&crates, &one.name)).collect();
        assert_eq!(layers, [0, 1, 2, 3]);
        let again: Vec<&str> = proved_again(&crates, "b")
            .iter()
            .map(|one| one.name.as_str())
            .collect();
        assert_eq!(again, ["b", "c", "d"]);
    }

    #[test]
    fn functions_are_counted() {
        let source = "fn a() {\n    let fn_b = 1;\n}\n\npub fn c() {}\npub extern \"C\" fn d() {}\n// fn e\n";
        assert_eq!(
            functions(&[source.to_string(), "    fn f()\n".to_string()]),
            4
        );
    }

    #[test]
    fn times_are_taken_from_a_log() {
        let log = "fn a::b: proved\nb proved (12 s)\nrt: c proved\n2 crates proved\n";
        let old = times("# Head.\na 3\nb 4\nd 5\n").unwrap();
        let file = renewed(&["b", "a", "c"], old.clone(), log).unwrap();
        assert_eq!(file, format!("{HEAD_OF_TIMES}b 12\na 3\n"));
        let expected = BTreeMap::from([("a".to_string(), 3), ("b".to_string(), 12)]);
        assert_eq!(times(&file), Ok(expected));
        assert!(renewed(&["a"], old, "a is not proved\n").is_err());
        assert!(times("a\n").is_err() && times("a b\n").is_err());
    }
}
