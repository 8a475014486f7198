//! The documents: every figure is what the command `figures` prints, every file that is named is there, every name is one of the sources,
//! and every theorem is declared in the file that is named beside it.

use harness::figures::{count, documents, FILE};
use harness::programs::{run, succeeded};
use harness::repository;
use std::collections::{BTreeMap, BTreeSet};
use std::fs;
use std::path::Path;

fn read(path: &Path) -> String {
    fs::read_to_string(path).unwrap_or_else(|error| panic!("{}: {error}", path.display()))
}

// ---- figures

/// The figures of a text, tables and those in sentences, with their names.
fn figures(text: &str) -> Vec<(&str, &str)> {
    let signs = [
        ("\n<!-- figures: ", " -->\n", "<!-- end of figures -->\n"),
        ("<!-- figure: ", " -->", "<!-- end -->"),
    ];
    let mut found = Vec::new();
    for (begin, after_name, end) in signs {
        for part in text.split(begin).skip(1) {
            let (name, rest) = part.split_once(after_name).expect("figures have a name");
            let (figures, _) = rest.split_once(end).expect("figures have an end");
            found.push((name, figures));
        }
    }
    found
}

#[test]
fn every_figure_is_what_the_command_prints() {
    let printed = succeeded(&run(env!("CARGO_BIN_EXE_figures"), &[], b""));
    let printed: BTreeMap<&str, &str> = figures(&printed).into_iter().collect();
    let mut found = BTreeSet::new();
    for path in documents(&repository()).expect("the documents") {
        for (name, stated) in figures(&read(&path)) {
            let now: Vec<&str> = printed
                .get(name)
                .map_or(vec![], |text| text.lines().collect());
            let lines: Vec<&str> = stated.lines().collect();
            let stale = lines.iter().find(|line| !now.contains(line));
            assert!(
                lines == now,
                "{}: the figures `{name}` are not those that the command prints; `figures --write` writes them: {stale:?}",
                path.display()
            );
            found.insert(name.to_string());
        }
    }
    let tables = printed.iter().filter(|(_, text)| text.contains('\n'));
    let unused: Vec<&&str> = tables
        .map(|(name, _)| name)
        .filter(|name| !found.contains(**name))
        .collect();
    assert!(unused.is_empty(), "printed, and in no document: {unused:?}");
    assert!(
        found.contains("again model"),
        "no figure in a sentence was found"
    );
}

#[test]
fn the_file_of_figures_is_generated() {
    let root = repository();
    let generated = count(&root)
        .and_then(|figures| figures.file())
        .expect("figures");
    assert!(
        read(&root.join(FILE)) == generated,
        "{FILE} is not what `figures --write` writes"
    );
}

// ---- files that are named

/// The endings of names that are taken for files everywhere.
const ENDINGS: [&str; 12] = [
    ".md", ".txt", ".rt", ".antt", ".rs", ".c", ".cpp", ".h", ".sh", ".py", ".toml", ".edit",
];

/// All files and folders of the repository, from its root, but what is built and what git keeps.
fn paths(root: &Path) -> BTreeSet<String> {
    let mut found = BTreeSet::new();
    let mut folders = vec![root.to_path_buf()];
    while let Some(folder) = folders.pop() {
        for entry in fs::read_dir(&folder).expect("a folder").flatten() {
            let path = entry.path();
            let name = path.strip_prefix(root).expect("below the root");
            let name = name.display().to_string();
            let is_made = name == "target" || name.starts_with("crates/") && name.ends_with("/out");
            if is_made || name.starts_with(".git") {
                continue;
            }
            found.insert(name);
            if path.is_dir() {
                folders.push(path);
            }
        }
    }
    found
}

/// The documents that name what there was before: its files may be gone.
const OF_BEFORE: [&str; 2] = ["docs/PORT.md", "docs/DESIGN-PASS.md"];

/// The words in backticks and the targets of links of a document, outside its blocks of code.
fn named(document: &str) -> (Vec<&str>, Vec<&str>) {
    let (mut words, mut links) = (Vec::new(), Vec::new());
    let mut in_block = false;
    for line in document.lines() {
        if line.starts_with("```") {
            in_block = !in_block;
        }
        if in_block || line.starts_with("    ") {
            continue;
        }
        let spans = line.split('`').skip(1).step_by(2);
        words.extend(spans.filter_map(|span| span.split_whitespace().next()));
        let targets = line.split("](").skip(1);
        links.extend(targets.filter_map(|rest| rest.split(')').next()));
    }
    (words, links)
}

/// Whether a word in backticks is the name of a file or folder that is missing.
fn is_missing(word: &str, paths: &BTreeSet<String>) -> bool {
    let word = word.trim_start_matches("./").trim_end_matches('/');
    // Signs and names in capitals are placeholders; what is built, and what the system has, is not of the repository.
    let is_sign = word.contains(['*', '<', '[', '@', '$', ':']) || word.contains("NAME");
    if is_sign || word.starts_with(['/', '~']) || word.starts_with("target/") {
        return false;
    }
    let first = word.split('/').next().unwrap_or_default();
    if word.contains('/') && paths.contains(first) {
        return !paths.contains(word);
    }
    let is_file = ENDINGS
        .iter()
        .any(|ending| word.ends_with(ending) && word != *ending);
    let tail = format!("/{word}");
    is_file && !paths.contains(word) && !paths.iter().any(|path| path.ends_with(&tail))
}

/// The place that a heading makes for links: its letters and digits in lower case, and a hyphen for each space.
fn anchor(heading: &str) -> String {
    let kept = heading
        .chars()
        .filter(|c| c.is_alphanumeric() || matches!(c, ' ' | '-' | '_'));
    kept.collect::<String>().to_lowercase().replace(' ', "-")
}

/// The places of a document that links can lead to.
fn anchors(document: &str) -> BTreeSet<String> {
    let headings = document.lines().filter(|line| line.starts_with('#'));
    headings
        .map(|line| anchor(line.trim_start_matches('#').trim()))
        .collect()
}

/// What a link of a document leads to: a path from the root, and the place in it if one is named. Nothing for other sites.
fn led_to<'a>(link: &'a str, document: &str) -> Option<(String, Option<&'a str>)> {
    if link.contains("://") {
        return None;
    }
    let (file, place) = match link.split_once('#') {
        Some((file, place)) => (file, Some(place)),
        None => (link, None),
    };
    let folder = document.rsplit_once('/').map_or("", |(folder, _)| folder);
    let path = match (file.strip_prefix("../"), folder) {
        _ if file.is_empty() => document.to_string(),
        (Some(above), _) => above.to_string(),
        (None, "") => file.to_string(),
        (None, folder) => format!("{folder}/{file}"),
    };
    Some((path.trim_end_matches('/').to_string(), place))
}

#[test]
fn every_file_that_a_document_names_is_there() {
    let root = repository();
    let paths = paths(&root);
    let (mut problems, mut count) = (Vec::new(), 0);
    for path in documents(&root).expect("the documents") {
        let document = path.strip_prefix(&root).expect("below the root");
        let document = document.display().to_string();
        if OF_BEFORE.contains(&document.as_str()) {
            continue;
        }
        let text = read(&path);
        let (words, links) = named(&text);
        count += words.len() + links.len();
        let missing = words.into_iter().filter(|word| is_missing(word, &paths));
        let broken = links.into_iter().filter(|link| {
            led_to(link, &document).is_some_and(|(path, place)| {
                let is_place = |place| anchors(&read(&root.join(&path))).contains(place);
                !paths.contains(&path) || !place.is_none_or(is_place)
            })
        });
        problems.extend(
            missing
                .chain(broken)
                .map(|name| format!("{document}: {name}")),
        );
    }
    assert!(count > 500, "only {count} names were found");
    assert!(problems.is_empty(), "not there:\n{}", problems.join("\n"));
}

#[test]
fn a_name_of_no_file_is_noticed() {
    let files = [
        "README.md",
        "crates",
        "crates/a",
        "crates/a/src",
        "crates/a/src/lib.rt",
        "docs",
    ];
    let paths: BTreeSet<String> = files.map(str::to_string).into();
    let text = "`crates/a/src/lib.rt`, `src/lib.rt` and `./README.md` [x](../crates/a)\n\n```\n`b.rt`\n```\n\n    `c.rt`\n";
    let (words, links) = named(text);
    assert_eq!(words, ["crates/a/src/lib.rt", "src/lib.rt", "./README.md"]);
    assert_eq!(links, ["../crates/a"]);
    assert!(!words.iter().any(|word| is_missing(word, &paths)));
    for missing in [
        "crates/b",
        "crates/a/src/main.rt",
        "src/main.rt",
        "OTHER.md",
    ] {
        assert!(is_missing(missing, &paths), "{missing}");
    }
    for none in [
        "rt",
        "a/b",
        "target/x.md",
        "crates/NAME/x.rt",
        ".md",
        "a::b",
        "/proc/x.txt",
        "$FOLDER/x.md",
    ] {
        assert!(!is_missing(none, &paths), "{none}");
    }
}

#[test]
fn links_lead_to_files_and_headings() {
    let path = |link, document| led_to(link, document).map(|(path, _)| path);
    assert_eq!(
        path("../crates/a/", "docs/B.md").as_deref(),
        Some("crates/a")
    );
    assert_eq!(path("C.md#top", "docs/B.md").as_deref(), Some("docs/C.md"));
    assert_eq!(path("C.md", "README.md").as_deref(), Some("C.md"));
    assert_eq!(
        led_to("#top", "docs/B.md"),
        Some(("docs/B.md".to_string(), Some("top")))
    );
    assert_eq!(led_to("https://x.example/y", "README.md"), None);
    let found = anchors("# One: a `b`\n\ntext\n\n## Can't, or 2?\n");
    assert_eq!(
        found,
        BTreeSet::from(["one-a-b".to_string(), "cant-or-2".to_string()])
    );
}

// ---- names of definitions, functions, theorems and edits

/// The documents whose names have to be names of the sources.
const NAMING: [&str; 4] = [
    "docs/ARCHITECTURE.md",
    "docs/DECISIONS.md",
    "docs/GUARANTEES.md",
    FILE,
];

fn is_of_name(c: char) -> bool {
    c.is_alphanumeric() || matches!(c, '_' | '-' | '\'')
}

/// All names that the sources have outside comments, and those of files, folders and crates.
fn names(root: &Path, paths: &BTreeSet<String>) -> BTreeSet<String> {
    let sources = [".rt", ".antt", ".rs", ".h", ".py", ".sh", ".c", "Makefile"];
    let mut names = BTreeSet::new();
    for path in paths {
        let parts = path.split(['/', '.']);
        names.extend(parts.map(str::to_string));
        if !sources.iter().any(|ending| path.ends_with(ending)) {
            continue;
        }
        let text = read(&root.join(path));
        let code = text
            .lines()
            .filter(|line| !line.trim_start().starts_with("--"))
            .filter(|line| !line.trim_start().starts_with("//"));
        for line in code {
            names.extend(line.split(|c| !is_of_name(c)).map(str::to_string));
        }
    }
    names
}

/// The parts of a word in backticks that are names: `a::b` and `a.b` have two. None of a file, a sign, a number or a single letter.
fn parts(word: &str) -> Vec<&str> {
    let begins = word.starts_with(|c: char| c.is_alphabetic());
    let is_name = word
        .chars()
        .all(|c| is_of_name(c) || matches!(c, ':' | '.'));
    if !begins || !is_name || word.chars().count() < 2 {
        return Vec::new();
    }
    let parts = word.split(['.', ':']);
    parts.filter(|part| !part.is_empty()).collect()
}

#[test]
fn every_name_is_one_of_the_sources() {
    let root = repository();
    let paths = paths(&root);
    let names = names(&root, &paths);
    let (mut problems, mut count) = (Vec::new(), 0);
    for document in NAMING {
        let text = read(&root.join(document));
        for word in named(&text).0 {
            count += parts(word).len();
            let unknown = |part: &&str| !names.contains(*part);
            let unknown = parts(word).into_iter().filter(unknown);
            problems.extend(unknown.map(|part| format!("{document}: {part}")));
            if leads_nowhere(word, &root) {
                problems.push(format!("{document}: {word}"));
            }
        }
    }
    assert!(count > 500, "only {count} names were found");
    assert!(problems.is_empty(), "no names:\n{}", problems.join("\n"));
}

/// Whether a source declares a name: as a field, a law, a record, a type or a function.
fn declares(source: &str, name: &str) -> bool {
    let words = [
        "pub",
        "abbrev",
        "unfoldable",
        "record",
        "data",
        "extern",
        "\"C\"",
        "fn",
        "struct",
        "enum",
        "const",
    ];
    source.lines().any(|line| {
        let mut rest = line
            .split_whitespace()
            .skip_while(|word| words.contains(word));
        let first = rest.next().unwrap_or_default();
        let declared = first.split(['(', ':', '<']).next().unwrap_or_default();
        let named = line.trim_start().starts_with(|c: char| c.is_alphabetic());
        named
            && declared == name
            && (first != name
                || rest
                    .next()
                    .is_some_and(|next| next.starts_with([':', '(', '{'])))
    })
}

/// Whether a path that begins with a crate, `a::b::c`, leads to no module and to nothing that its module declares.
fn leads_nowhere(word: &str, root: &Path) -> bool {
    let mut rest = word.split("::").peekable();
    let folder = root.join("crates").join(rest.next().unwrap_or_default());
    if rest.peek().is_none() || !folder.is_dir() {
        return false;
    }
    let mut module = folder.join("src");
    let mut file = module.join("lib.rt");
    while let Some(name) = rest.peek() {
        let next = module.join(format!("{name}.rt"));
        if !next.is_file() {
            break;
        }
        module.push(name);
        file = next;
        rest.next();
    }
    let source = fs::read_to_string(&file).unwrap_or_default();
    rest.any(|name| !declares(&source, name))
}

/// The cells of a table's row.
fn cells(row: &str) -> Vec<&str> {
    row.trim_matches('|').split(" | ").map(str::trim).collect()
}

/// The rows of the tables of GUARANTEES that have this column: what it holds, and the files named in the row, or in an earlier row that
/// "the same" refers to, and in the text from the heading on.
fn column<'a>(document: &'a str, title: &str) -> Vec<(&'a str, Vec<&'a str>)> {
    let files = |text: &'a str| {
        named(text)
            .0
            .into_iter()
            .filter(|word| word.contains(".antt") || word.contains(".rt"))
    };
    let (mut found, mut above, mut before) = (Vec::new(), Vec::new(), Vec::new());
    let mut place = None;
    for line in document.lines() {
        if line.starts_with('#') {
            above.clear();
        }
        if !line.starts_with('|') {
            above.extend(files(line));
            place = None;
        } else if let Some(place) = place {
            let mut row: Vec<&str> = files(line).collect();
            if line.contains("the same") {
                row.append(&mut before);
            }
            before.clone_from(&row);
            row.extend(&above);
            if let Some(cell) = cells(line).get::<usize>(place) {
                found.push((*cell, row));
            }
        } else {
            place = cells(line).iter().position(|cell| *cell == title);
        }
    }
    found
}

/// The fields of the record whose first line begins so.
fn fields<'a>(source: &'a str, begin: &str) -> Vec<&'a str> {
    let mut found = Vec::new();
    let mut is_inside = false;
    for line in source.lines() {
        if line.starts_with("pub ") {
            is_inside = line.starts_with(begin);
        }
        let field = line.strip_prefix("  pub ").filter(|_| is_inside);
        found.extend(field.and_then(|rest| rest.split_whitespace().next()));
    }
    found
}

#[test]
fn every_theorem_is_declared_in_the_file_beside_it() {
    let root = repository();
    let paths = paths(&root);
    let document = read(&root.join("docs/GUARANTEES.md"));
    let (mut problems, mut count) = (Vec::new(), 0);
    for (cell, files) in column(&document, "theorem") {
        let texts: Vec<String> = files
            .iter()
            .flat_map(|file| {
                paths
                    .iter()
                    .filter(move |path| *path == file || path.ends_with(&format!("/{file}")))
            })
            .map(|path| read(&root.join(path)))
            .collect();
        for name in named(cell).0 {
            count += 1;
            if !texts.iter().any(|text| declares(text, name)) {
                problems.push(format!("{name} is not declared in {files:?}"));
            }
        }
    }
    assert!(count > 50, "only {count} theorems were found");
    let cited = named(&document).0;
    let demands = read(&root.join("crates/theorems/specs/Demands.antt"));
    for record in [
        "pub record Demand1",
        "pub record Demand2",
        "pub record Demand3",
    ] {
        let stated = fields(&demands, record);
        assert!(!stated.is_empty(), "{record} states nothing");
        let missing = stated.iter().filter(|name| !cited.contains(name));
        problems.extend(missing.map(|name| format!("the theorem {name} is in no document")));
    }
    for (cell, _) in column(&document, "edits, for example") {
        for name in named(cell).0 {
            let tail = format!("/must-fail/{name}.edit");
            if !paths.iter().any(|path| path.ends_with(&tail)) {
                problems.push(format!("there is no edit {name}"));
            }
        }
    }
    assert!(problems.is_empty(), "\n{}", problems.join("\n"));
}

#[test]
fn a_theorem_that_is_not_declared_is_noticed() {
    let source = "pub record Good : T where\n  pub one-more : (n : N) → T\n  two :\n      T\n-- three : T\nthree = two\npub fn four(x: u8)\n";
    for name in ["Good", "one-more", "two", "four"] {
        assert!(declares(source, name), "{name}");
    }
    for name in ["good", "one", "three", "T", "x"] {
        assert!(!declares(source, name), "{name}");
    }
    assert_eq!(fields(source, "pub record Good"), ["one-more"]);
    let document = "# A\n\nIn `A.antt`.\n\n| promise | theorem | file |\n|---|---|---|\n| a | `one`, `two` | `B.antt` |\n| b | `three` | the same |\n\n# B\n\n| x | theorem |\n|---|---|\n| c | `four` |\n";
    let found = column(document, "theorem");
    let expected = [
        ("`one`, `two`", vec!["B.antt", "A.antt"]),
        ("`three`", vec!["B.antt", "A.antt"]),
        ("`four`", vec![]),
    ];
    assert_eq!(found, expected);
    let root = repository();
    assert!(!leads_nowhere("record_check::names::first_repeat", &root));
    assert!(!leads_nowhere("piece_converter::Converter::piece", &root));
    assert!(leads_nowhere("record_check::first_repeat", &root));
    assert!(leads_nowhere(
        "record_check::names::no_such_function",
        &root
    ));
    assert_eq!(parts("a.b-c::d_e"), ["a", "b-c", "d_e"]);
    assert_eq!(parts("x=1"), Vec::<&str>::new());
}
