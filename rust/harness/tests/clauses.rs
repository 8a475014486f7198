//! The rules and what cites them, both ways: every definition of the model cites a clause of `docs/RULES.md` that exists, and
//! every clause is cited by a comment in specs/ or src/ or by a vector.

use harness::clauses::{declared, number, Clause};
use std::collections::{BTreeMap, BTreeSet};
use std::fs;
use std::path::{Path, PathBuf};

/// A file of the repository, by its path from the root.
struct File {
    path: String,
    text: String,
}

impl File {
    /// The lines with their numbers, from 1.
    fn lines(&self) -> impl Iterator<Item = (usize, &str)> {
        self.text.lines().enumerate().map(|(i, line)| (i + 1, line))
    }

    /// How many lines the comment has with which a file of code begins: it is above no definition.
    fn head(&self) -> usize {
        let mark = match extension(&self.path) {
            "antt" => "--",
            "rt" => "//",
            _ => return 0,
        };
        let is_comment = |line: &&str| line.starts_with(mark);
        self.text.lines().take_while(is_comment).count()
    }
}

/// What a comment above a definition says of its clauses.
#[derive(Debug, PartialEq, Eq)]
enum Comment {
    None,
    Helper,
    Text(String),
}

/// A definition of a specs/ file.
#[derive(Debug, PartialEq, Eq)]
struct Definition {
    line: usize,
    name: String,
    comment: Comment,
}

/// What was found, beside the problems.
struct Tally {
    clauses: usize,
    definitions: usize,
    helpers: Vec<String>,
}

/// The citations of a text: `§` and a number; an error has what follows a `§` that is none.
fn citations(text: &str) -> Vec<Result<Clause, String>> {
    text.split('§')
        .skip(1)
        .map(|rest| {
            number(rest)
                .map(|(clause, _)| clause)
                .ok_or_else(|| rest.split_whitespace().next().unwrap_or("").to_string())
        })
        .collect()
}

/// The section that a line opens: `## 3. NAME`.
fn section(line: &str) -> Option<u32> {
    let (section, _) = line.strip_prefix("## ")?.split_once(". ")?;
    section.parse().ok()
}

/// The clauses that the rules declare, each in its section, once, and with no number left out.
fn clauses(rules: &File, problems: &mut Vec<String>) -> BTreeMap<Clause, usize> {
    let mut found = BTreeMap::new();
    let mut open = 0;
    for (n, line) in rules.lines() {
        open = section(line).unwrap_or(open);
        let Some(clause) = declared(line) else {
            continue;
        };
        if clause.0 != open {
            problems.push(format!(
                "{}:{n}: clause {clause} stands in section {open}",
                rules.path
            ));
        }
        if let Some(earlier) = found.insert(clause, n) {
            problems.push(format!(
                "{}:{n}: clause {clause} is declared in line {earlier} too",
                rules.path
            ));
        }
    }
    for (clause, n) in &found {
        if clause.1 > 1 && !found.contains_key(&Clause(clause.0, clause.1 - 1)) {
            problems.push(format!(
                "{}:{n}: clause {clause} follows no clause {}",
                rules.path,
                Clause(clause.0, clause.1 - 1)
            ));
        }
    }
    found
}

/// The name that a line defines, if it begins a definition. Record fields, record values, equations and what a file uses are
/// none.
fn defines(line: &str) -> Option<&str> {
    let indented = line.starts_with(' ');
    let mut words = line.split_whitespace().peekable();
    let mut named = false;
    while let Some(word) = words.next_if(|w| {
        matches!(
            *w,
            "pub" | "private" | "abbrev" | "unfoldable" | "data" | "record"
        )
    }) {
        named |= !matches!(word, "pub" | "private");
    }
    let name = words.next()?;
    let none = ["use", "mod", "module", "mutual", "unfolding"];
    if none.contains(&name) || name.starts_with("--") || name.starts_with('{') {
        return None;
    }
    let signature = words.find(|w| !w.starts_with('{') && !w.ends_with('}')) == Some(":");
    (named || signature && !indented).then_some(name)
}

/// The comment directly above line i: lines of `--` at the definition's own depth, which are no heading. An `infix` line may
/// lie between.
fn comment_above(lines: &[&str], i: usize) -> Comment {
    let depth = lines[i].len() - lines[i].trim_start().len();
    let end = (0..i)
        .rev()
        .find(|&k| !lines[k].trim_start().starts_with("infix"))
        .map_or(0, |k| k + 1);
    let marks = " ".repeat(depth) + "--";
    let is_comment = |line: &str| line.starts_with(&marks) && !line[depth..].starts_with("-- ----");
    let begin = (0..end)
        .rev()
        .find(|&k| !is_comment(lines[k]))
        .map_or(0, |k| k + 1);
    let text = lines[begin..end]
        .iter()
        .map(|line| line[marks.len()..].trim())
        .collect::<Vec<_>>()
        .join(" ");
    if text.is_empty() {
        Comment::None
    } else if text.starts_with("helper: ") {
        Comment::Helper
    } else {
        Comment::Text(text)
    }
}

/// The definitions of a specs/ file.
fn definitions(text: &str) -> Vec<Definition> {
    let lines: Vec<&str> = text.lines().collect();
    (0..lines.len())
        .filter_map(|i| {
            Some(Definition {
                line: i + 1,
                name: defines(lines[i])?.to_string(),
                comment: comment_above(&lines, i),
            })
        })
        .collect()
}

fn extension(path: &str) -> &str {
    path.rsplit('.').next().unwrap_or("")
}

/// The part of a line that may cite: a comment, the name of a case, or all of a document.
fn citing_part<'a>(path: &str, line: &'a str) -> &'a str {
    let from = match extension(path) {
        "antt" => line.find("--"),
        "rt" => line.find("//"),
        "txt" => (line.starts_with('#') || line.starts_with("case ")).then_some(0),
        _ => Some(0),
    };
    from.map_or("", |at| &line[at..])
}

/// All that is wrong. `model`: the files whose definitions have to cite; `citing`: the files that make a clause cited;
/// `others`: files whose citations have to exist and count for nothing.
fn check(rules: &File, model: &[File], citing: &[File], others: &[File]) -> (Tally, Vec<String>) {
    let mut problems = Vec::new();
    let clauses = clauses(rules, &mut problems);
    let mut tally = Tally {
        clauses: clauses.len(),
        definitions: 0,
        helpers: Vec::new(),
    };
    for file in model {
        for definition in definitions(&file.text) {
            tally.definitions += 1;
            let place = format!("{}:{}: `{}`", file.path, definition.line, definition.name);
            match definition.comment {
                Comment::None => problems.push(format!("{place} has no comment directly above it")),
                Comment::Helper => tally.helpers.push(definition.name),
                Comment::Text(text) => {
                    let cites = citations(&text);
                    if !cites.iter().flatten().any(|c| clauses.contains_key(c)) {
                        problems.push(format!("{place} cites no clause of {}", rules.path));
                    }
                }
            }
        }
    }
    let mut cited = BTreeSet::new();
    let sources = model.iter().chain(citing).map(|file| (file, true));
    let mentions = others.iter().chain([rules]).map(|file| (file, false));
    for (file, is_source) in sources.chain(mentions) {
        for (n, line) in file.lines() {
            for citation in citations(citing_part(&file.path, line)) {
                match citation {
                    Ok(clause) if clauses.contains_key(&clause) => {
                        if is_source && n > file.head() {
                            cited.insert(clause);
                        }
                    }
                    Ok(clause) => problems.push(format!(
                        "{}:{n}: there is no clause {clause} in {}",
                        file.path, rules.path
                    )),
                    // the rules name the sign itself where they say how they are cited
                    Err(rest) if rest.starts_with('`') => {}
                    Err(rest) => problems.push(format!(
                        "{}:{n}: `§{rest}` is no clause's number",
                        file.path
                    )),
                }
            }
        }
    }
    for (clause, n) in &clauses {
        if !cited.contains(clause) {
            problems.push(format!(
                "{}:{n}: clause {clause} is cited by no definition, no comment in code and no vector",
                rules.path
            ));
        }
    }
    (tally, problems)
}

// ---- the repository

/// The repository's root: the folder above this package that has the list of crates.
fn root() -> PathBuf {
    Path::new(env!("CARGO_MANIFEST_DIR"))
        .ancestors()
        .find(|folder| folder.join("crates.txt").is_file())
        .expect("no folder above this package has a crates.txt")
        .to_path_buf()
}

fn read(root: &Path, path: &Path) -> File {
    let text =
        fs::read_to_string(path).unwrap_or_else(|error| panic!("{}: {error}", path.display()));
    let path = path.strip_prefix(root).unwrap_or(path);
    File {
        path: path.display().to_string(),
        text,
    }
}

/// The files below a folder with this extension, in the order of their paths; none if there is no such folder.
fn files(root: &Path, folder: &Path, extension: &str) -> Vec<File> {
    let Ok(entries) = fs::read_dir(folder) else {
        return Vec::new();
    };
    let mut paths: Vec<PathBuf> = entries.flatten().map(|entry| entry.path()).collect();
    paths.sort();
    let mut found = Vec::new();
    for path in paths {
        if path.is_dir() {
            found.extend(files(root, &path, extension));
        } else if path.extension().is_some_and(|e| e == extension) {
            found.push(read(root, &path));
        }
    }
    found
}

#[test]
fn definitions_and_clauses_cite_each_other() {
    let root = root();
    let rules = read(&root, &root.join("docs/RULES.md"));
    let model = files(&root, &root.join("crates/model/specs"), "antt");
    let mut citing = files(&root, &root.join("vectors"), "txt");
    let mut others: Vec<File> = files(&root, &root.join("docs"), "md")
        .into_iter()
        .filter(|file| file.path != rules.path)
        .collect();
    let crates = fs::read_dir(root.join("crates")).expect("there are no crates");
    for folder in crates.flatten().map(|entry| entry.path()) {
        if folder.file_name().is_some_and(|name| name != "model") {
            citing.extend(files(&root, &folder.join("specs"), "antt"));
        }
        citing.extend(files(&root, &folder.join("src"), "rt"));
        others.extend(files(&root, &folder.join("proofs"), "antt"));
    }
    let (tally, problems) = check(&rules, &model, &citing, &others);
    eprintln!(
        "clauses: {} clauses, {} definitions, of which {} helpers ({})",
        tally.clauses,
        tally.definitions,
        tally.helpers.len(),
        tally.helpers.join(", ")
    );
    assert!(
        tally.clauses > 100 && tally.definitions > 200,
        "the rules or the definitions were not found"
    );
    assert!(
        tally.helpers.len() * 10 <= tally.definitions,
        "more than one definition in ten is a helper"
    );
    assert!(problems.is_empty(), "\n{}", problems.join("\n"));
}

// ---- the check itself

fn file(path: &str, text: &str) -> File {
    File {
        path: path.to_string(),
        text: text.to_string(),
    }
}

/// Two clauses, both cited by the model alone.
const RULES: &str = "# Rules\n\n## 1. First\n\n**1.1** This, see §1.2.\n\n| **1.2** | that |\n";
const MODEL: &str = "use x.{y}\n\n-- this (§1.1)\nabbrev pub a : T\na = 1\n\n-- that, a second\n-- line (§1.2)\npub data B : T where\n  -- §1.1\n  b : B\n";

fn problems(rules: &str, model: &str, vectors: &str) -> Vec<String> {
    check(
        &file("RULES.md", rules),
        &[file("Model.antt", model)],
        &[file("cases.txt", vectors)],
        &[],
    )
    .1
}

#[test]
fn what_agrees_has_no_problem() {
    assert_eq!(problems(RULES, MODEL, ""), Vec::<String>::new());
}

#[test]
fn a_definition_without_a_citation_is_reported() {
    for (comment, problem) in [
        ("", "has no comment directly above it"),
        ("-- a thing\n\n", "has no comment directly above it"),
        (
            "-- ---- things (§1.1)\n",
            "has no comment directly above it",
        ),
        ("-- a thing\n", "cites no clause of RULES.md"),
        ("-- a thing of 1.1\n", "cites no clause of RULES.md"),
    ] {
        let model = format!("{MODEL}\n{comment}unfoldable pub c {{ℓ}} : T\nc = 1\n");
        let line = model.lines().position(|l| l.contains("pub c")).unwrap() + 1;
        assert_eq!(
            problems(RULES, &model, ""),
            [format!("Model.antt:{line}: `c` {problem}")]
        );
    }
}

#[test]
fn a_helper_needs_no_citation() {
    let model = format!("{MODEL}\n-- helper: a choice\ninfixr 5 c\nabbrev pub c : T\n");
    assert_eq!(problems(RULES, &model, ""), Vec::<String>::new());
}

#[test]
fn an_unknown_clause_is_reported() {
    let model = format!("{MODEL}\n-- two of them (§1.1 §7.3)\nabbrev pub c : T\n");
    assert_eq!(
        problems(RULES, &model, ""),
        ["Model.antt:13: there is no clause 7.3 in RULES.md"]
    );
    assert_eq!(
        problems(RULES, MODEL, "case one (§1.9)\n# §4\n"),
        [
            "cases.txt:1: there is no clause 1.9 in RULES.md",
            "cases.txt:2: `§4` is no clause's number"
        ]
    );
}

#[test]
fn an_uncited_clause_is_reported() {
    let rules = format!("{RULES}\n**1.3** And more.\n");
    let uncited =
        "RULES.md:9: clause 1.3 is cited by no definition, no comment in code and no vector";
    assert_eq!(problems(&rules, MODEL, "read 1 '§1.3'\n"), [uncited]);
    let head = format!("-- All of this (§1.3).\nuse a.{{b}}\n\n{MODEL}");
    assert_eq!(problems(&rules, &head, ""), [uncited]);
    assert_eq!(problems(&rules, MODEL, "# §1.3\n"), Vec::<String>::new());
}

#[test]
fn clauses_are_declared_once_in_order_and_in_their_section() {
    let rules = format!("{RULES}\n**1.2** Again.\n\n**1.4** Far.\n\n**2.1** Elsewhere.\n");
    let vectors = "# §1.4 §2.1\n";
    assert_eq!(
        problems(&rules, MODEL, vectors),
        [
            "RULES.md:9: clause 1.2 is declared in line 7 too",
            "RULES.md:13: clause 2.1 stands in section 1",
            "RULES.md:11: clause 1.4 follows no clause 1.3"
        ]
    );
}

#[test]
fn definitions_are_told_from_the_rest() {
    let names =
        |text: &str| -> Vec<String> { definitions(text).into_iter().map(|d| d.name).collect() };
    let text = "use a.{b}\npub use a.{c}\npub mod D\ninfix 5 e\nunfolding f g\nh : T\nh = 1\ni x = y\npub record J {ℓ} (a : T) : T where\n  pub k : T\n  l : T\nmutual\n  pub data M : T where\n    record {\nabbrev n : T\nunfoldable pub if_then_ {ℓ} : T\n-- o : T\n";
    assert_eq!(names(text), ["h", "J", "M", "n", "if_then_"]);
}
