//! The script `hemakuliwi` at the root of the repository, in a small repository of its own with the same Makefile, whose tools prove nothing
//! and take no time.

mod common;

use common::{folder, has, shell, text, Run, COMMAND};
use harness::repository;
use std::collections::BTreeSet;
use std::fs;
use std::os::unix::fs::symlink;
use std::path::{Path, PathBuf};

/// Sources of the library, of the command, and what is no source of either.
const PROVED: [&str; 3] = [
    "crates/model/src/lib.rt",
    "crates/model/specs/rules.antt",
    "crates/model/proofs/deep/laws.antt",
];
const COMPILED: [&str; 8] = [
    "Cargo.toml",
    "Cargo.lock",
    "rust/command/Cargo.toml",
    "rust/command/src/main.rs",
    "rust/command/src/words/mod.rs",
    "rust/hemakuliwi/Cargo.toml",
    "rust/hemakuliwi/build.rs",
    "rust/hemakuliwi/src/lib.rs",
];
const OTHERS: [&str; 4] = [
    "README.md",
    "crates/model/must-fail/wrong.edit",
    "crates/model/stdin",
    "rust/command/tests/usage.rs",
];

/// It is started in the folder of a crate, and says of that one and of the one below that it is proved.
const RT: &str = "#!/usr/bin/env bash
cat >/dev/null
[[ $* == lib ]] || exit 2
name=${PWD##*/}
echo \"rt $name\" >>../../runs
mkdir -p out/rlib/src
: >\"out/lib$name.a\"
: >out/rlib/src/lib.rt
for crate in model \"$name\"; do
  printf 'crate %s: modules loaded=0 checked=1\\nlogic=proved functions=1\\n' \"$crate\"
done
";
const AR: &str = "#!/bin/sh\n[ \"$1\" = x ] || : >\"$2\"\n";
const CARGO: &str = "#!/bin/sh
echo cargo >>runs
mkdir -p target/release
cp command target/release/hemakuliwi
";
/// A make that says that it was started, and fails.
const NO_MAKE: &str = "#!/bin/sh\necho 'make was started' >&2\nexit 1\n";
/// A find that notes that it was started, and takes names from a list alone, without the files below them.
const FIND_LISTED: &str = "#!/bin/sh
echo find >>\"${0%/*}/../finds\"
[ \"$1 $3 $4\" = '-files0-from -maxdepth 0' ] || exit 1
PATH=${PATH#*:}
exec find \"$@\"
";
/// A find that knows no lists.
const FIND_UNLISTED: &str = "#!/bin/sh
[ \"$1\" != -files0-from ] || { echo \"find: unknown predicate '$1'\" >&2; exit 1; }
PATH=${PATH#*:}
exec find \"$@\"
";

/// The crates that the Makefile has proved, each an archive.
fn archives() -> Vec<String> {
    let makefile = fs::read_to_string(repository().join("Makefile")).expect("the Makefile");
    let names = makefile
        .lines()
        .filter_map(|line| line.strip_prefix("\tcd crates/")?.strip_suffix(" && $(STATIC_LIBRARY)"));
    names.map(str::to_string).collect()
}

/// A repository with the script, and programs of the names that it needs.
fn small_repository(name: &str, rt: &str) -> PathBuf {
    let folder = folder(name);
    let write = |file: &str, content: &str| {
        let path = folder.join(file);
        fs::create_dir_all(path.parent().expect("a folder")).expect("a folder");
        fs::write(path, content).expect("a file");
    };
    let archives: String = archives()
        .iter()
        .map(|archive| format!("{archive} staticlib: model\n"))
        .collect();
    write(
        "crates.txt",
        &format!("# One of them is not needed.\nmodel:\ngrammar: model\n{archives}"),
    );
    for file in PROVED.iter().chain(&COMPILED).chain(&OTHERS) {
        write(file, "");
    }
    for archive in self::archives() {
        write(&format!("crates/{archive}/src/lib.rt"), "");
    }
    for (program, content) in [("rt", rt), ("ar", AR), ("cargo", CARGO)] {
        write(&format!("bin/{program}"), content);
    }
    for (program, content) in [
        ("without_make/make", NO_MAKE),
        ("find_listed/make", NO_MAKE),
        ("find_listed/find", FIND_LISTED),
        ("find_unlisted/find", FIND_UNLISTED),
        ("neither/make", NO_MAKE),
        ("neither/find", FIND_UNLISTED),
    ] {
        write(program, content);
    }
    fs::create_dir(folder.join("include")).expect("a folder");
    for file in ["hemakuliwi", "Makefile", "include/hemakuliwi.h"] {
        fs::copy(repository().join(file), folder.join(file)).expect("a file of the repository");
    }
    fs::copy(COMMAND, folder.join("command")).expect("the command");
    let told = shell(
        &format!("cd '{}' && chmod +x */make */find bin/*", text(&folder)),
        b"",
    );
    assert_eq!(told, Run::new(0, "", ""));
    folder
}

fn convert(folder: &Path) -> Run {
    convert_with(folder, "bin")
}

/// A conversion for which the programs of this folder, below the repository, are found first.
fn convert_with(folder: &Path, programs: &str) -> Run {
    let line = format!(
        "PATH=\"{0}/{programs}:{0}/bin:$PATH\" '{0}/hemakuliwi' convert --from csv+ --to csvj",
        text(folder)
    );
    shell(&line, b"stop\nHarbour\n")
}

/// The result of a conversion that builds nothing.
fn converted() -> Run {
    Run::new(0, "\"stop\"\n\"Harbour\"\n", "")
}

/// Whether a call starts make.
fn starts_make(folder: &Path) -> bool {
    starts_make_with(folder, "without_make")
}

/// The same, where the programs of this folder are found first; its make fails.
fn starts_make_with(folder: &Path, programs: &str) -> bool {
    let told = convert_with(folder, programs);
    if told == converted() {
        return false;
    }
    assert!(told.said.contains("make was started"), "{}", told.said);
    assert_eq!((told.status, told.told.as_str()), (Some(3), ""));
    true
}

/// A repository that was built an hour ago, so that whatever changes is newer.
fn built_repository(name: &str) -> PathBuf {
    let folder = small_repository(name, RT);
    assert_eq!(convert(&folder).status, Some(0));
    make_old(&folder);
    folder
}

fn make_old(folder: &Path) {
    let line = format!(
        "cd '{}' && find . -exec touch -d '1 hour ago' {{}} + && rm -f runs && touch -d '1 hour ago' .",
        text(folder)
    );
    assert_eq!(shell(&line, b""), Run::new(0, "", ""));
}

/// What ran in a build, since the repository was made old.
fn runs(folder: &Path) -> Vec<String> {
    let runs = fs::read_to_string(folder.join("runs")).unwrap_or_default();
    runs.lines().map(str::to_string).collect()
}

/// What runs if a source of the library has changed.
fn whole_build() -> Vec<String> {
    let proofs = archives()
        .into_iter()
        .map(|archive| format!("rt {archive}"));
    proofs.chain(["cargo".to_string()]).collect()
}

/// After a change make is started, this runs, and then make is not started any more.
fn builds(folder: &Path, expected: &[String], change: &str) {
    assert!(starts_make(folder), "{change}");
    let told = convert(folder);
    assert_eq!(told.told, converted().told, "{change}: {}", told.said);
    assert_eq!(runs(folder), expected, "{change}");
    assert!(!starts_make(folder), "{change}, after the build");
    make_old(folder);
}

fn touch(folder: &Path, file: &str) {
    let line = format!("touch '{}'", text(folder.join(file)));
    assert_eq!(shell(&line, b""), Run::new(0, "", ""));
}

#[test]
fn the_first_run_builds_and_says_so_and_the_next_one_starts_at_once() {
    let folder = small_repository("script", RT);
    let first = convert(&folder);
    assert_eq!(
        (first.status, first.told.as_str()),
        (Some(0), "\"stop\"\n\"Harbour\"\n"),
        "{}",
        first.said
    );
    let lines: Vec<&str> = first.said.lines().collect();
    assert!(
        lines[0].contains("proved and the command built first; this takes about 7 minutes"),
        "{}",
        first.said
    );
    // The crate below the archives is proved too.
    let crates = archives().len() + 1;
    for (line, proved) in lines[1..=crates].iter().zip(1..) {
        assert!(
            line.starts_with(&format!(
                "hemakuliwi: {proved} of {crates} crates are proved, the last is "
            )),
            "{line}"
        );
    }
    assert!(
        lines[crates + 1].starts_with("hemakuliwi: built in ") && lines.len() == crates + 2,
        "{}",
        first.said
    );
    assert_eq!(runs(&folder), whole_build());
    assert_eq!(convert(&folder), converted());
}

#[test]
fn make_is_not_started_where_no_source_has_changed() {
    let folder = built_repository("script_unchanged");
    assert!(!starts_make(&folder));
    for file in OTHERS {
        touch(&folder, file);
        assert!(!starts_make(&folder), "{file}");
    }
    // A must-fail edit that is added or deleted is no source either.
    touch(&folder, "crates/model/must-fail/new.edit");
    fs::remove_file(folder.join("crates/model/must-fail/wrong.edit")).expect("a file");
    assert!(!starts_make(&folder));
}

#[test]
fn one_find_over_the_list_shows_that_no_source_has_changed() {
    let folder = small_repository("script_listed", RT);
    assert_eq!(convert(&folder).status, Some(0));
    assert!(!starts_make_with(&folder, "find_listed"));
    let finds = fs::read_to_string(folder.join("finds")).expect("a file");
    assert_eq!(finds, "find\n");
}

#[test]
fn make_decides_where_find_knows_no_lists() {
    let folder = built_repository("script_unlisted");
    assert!(starts_make_with(&folder, "neither"));
    assert_eq!(convert_with(&folder, "find_unlisted"), converted());
    assert!(runs(&folder).is_empty());
    touch(&folder, PROVED[0]);
    let told = convert_with(&folder, "find_unlisted");
    assert_eq!(told.told, converted().told, "{}", told.said);
    assert_eq!(runs(&folder), whole_build());
    assert_eq!(convert_with(&folder, "find_unlisted"), converted());
    assert_eq!(runs(&folder), whole_build(), "nothing is built again");
}

#[test]
fn make_decides_where_the_list_is_missing() {
    let folder = built_repository("script_no_list");
    fs::remove_file(folder.join("target/hemakuliwi.sources")).expect("a file");
    assert!(starts_make(&folder));
    assert_eq!(convert(&folder), converted());
    assert!(runs(&folder).is_empty());
    assert!(!starts_make(&folder));
}

#[test]
fn make_between_two_calls_changes_neither() {
    let folder = built_repository("script_make_between");
    let make = |target: &str| {
        let line = format!(
            "PATH=\"{0}/bin:$PATH\" make --silent --directory '{0}' {target}",
            text(&folder)
        );
        assert_eq!(shell(&line, b"").status, Some(0));
    };
    make("command");
    assert!(runs(&folder).is_empty());
    assert!(!starts_make(&folder));
    // All that was to do is done.
    touch(&folder, PROVED[0]);
    make("command");
    assert_eq!(runs(&folder), whole_build());
    assert_eq!(convert(&folder), converted());
    assert!(!starts_make(&folder));
    // The command is left.
    make_old(&folder);
    touch(&folder, PROVED[0]);
    make("target/staticlib/libhemakuliwi.a");
    builds(&folder, &whole_build(), "the library was built by make");
    // The library is new, and no source is.
    fs::remove_file(folder.join("target/staticlib/libhemakuliwi.a")).expect("a file");
    make("target/staticlib/libhemakuliwi.a");
    builds(&folder, &whole_build(), "the library was built again");
}

#[test]
fn a_file_that_comes_and_is_gone_again_builds_nothing() {
    let folder = built_repository("script_come_and_gone");
    let file = "crates/model/src/.lib.rt.swp";
    touch(&folder, file);
    fs::remove_file(folder.join(file)).expect("a file");
    assert!(starts_make(&folder));
    assert_eq!(convert(&folder), converted());
    assert!(runs(&folder).is_empty());
    assert!(!starts_make(&folder));
}

#[test]
fn a_source_that_has_changed_is_built() {
    let folder = built_repository("script_changed");
    for file in ["crates.txt"].iter().chain(&PROVED) {
        touch(&folder, file);
        builds(&folder, &whole_build(), file);
    }
    for file in COMPILED {
        touch(&folder, file);
        builds(&folder, &["cargo".to_string()], file);
    }
}

#[test]
fn a_source_that_was_deleted_or_added_is_built() {
    let folder = built_repository("script_deleted");
    let proved = whole_build();
    let compiled = vec!["cargo".to_string()];
    for (file, expected) in [
        (PROVED[1], &proved),
        (PROVED[2], &proved),
        ("rust/command/src/words/mod.rs", &compiled),
        ("rust/hemakuliwi/src/lib.rs", &compiled),
    ] {
        fs::remove_file(folder.join(file)).expect("a file");
        builds(&folder, expected, &format!("{file} was deleted"));
        // A file that is moved here may be old itself.
        let line = format!("touch -d '2 hours ago' '{}'", text(folder.join(file)));
        assert_eq!(shell(&line, b""), Run::new(0, "", ""));
        builds(&folder, expected, &format!("{file} was added"));
    }
}

#[test]
fn a_source_that_changes_during_the_build_is_built_by_the_next_call() {
    let editing = format!(
        "{RT}sleep 0.05; [ -e ../../edited ] || touch ../../edited ../model/src/lib.rt; sleep 0.05\n"
    );
    let folder = small_repository("script_meanwhile", &editing);
    assert_eq!(convert(&folder).status, Some(0));
    fs::remove_file(folder.join("runs")).expect("a file");
    builds(&folder, &whole_build(), "an edit during the build");
}

#[test]
fn the_script_compares_every_source_of_make() {
    let folder = built_repository("script_sources");
    let line = format!(
        "cd '{}' && make --print-data-base --question command",
        text(&folder)
    );
    let told = shell(&line, b"").told;
    assert!(told.contains("\n# No implicit rules.\n"), "make is slow");
    let [library, command] = [
        "target/staticlib/libhemakuliwi.a",
        "target/release/hemakuliwi",
    ];
    let sources: BTreeSet<&str> = [library, command]
        .iter()
        .flat_map(|target| {
            let of_target = |line: &&str| line.starts_with(&format!("{target}: "));
            let line = told.lines().find(of_target).expect("a target of make");
            line[target.len() + 1..].split_whitespace()
        })
        .collect();
    for source in PROVED.iter().chain(&COMPILED).chain(&[library]) {
        assert!(sources.contains(source), "{source}");
    }
    for source in sources {
        touch(&folder, source);
        assert!(starts_make(&folder), "{source}");
        make_old(&folder);
    }
}

#[test]
fn a_terminal_has_one_line_that_is_taken_away() {
    if !has("script") {
        return;
    }
    let on_terminal = |name: &str, term: &str| {
        let folder = text(small_repository(name, RT));
        let script =
            format!("script --quiet --return --command '{folder}/hemakuliwi --version' /dev/null");
        shell(&format!("{term}; PATH='{folder}/bin:'$PATH {script}"), b"").told
    };
    let told = on_terminal("script_terminal", "export TERM=xterm");
    let crates = archives().len() + 1;
    assert!(
        told.contains(&format!(
            "\r\x1b[Khemakuliwi: {crates} of {crates} crates are proved, "
        )),
        "{told:?}"
    );
    let end = told.rsplit("\r\x1b[K").next().expect("an end");
    assert!(
        end.starts_with("hemakuliwi: built in ") && end.contains("hemakuliwi 0."),
        "{end:?}"
    );
    for term in ["export TERM=dumb", "unset TERM"] {
        let told = on_terminal("script_dumb_terminal", term);
        assert!(
            told.contains(&format!(
                "\nhemakuliwi: {crates} of {crates} crates are proved, "
            )) && !told.contains('\x1b'),
            "{term} {told:?}"
        );
    }
}

#[test]
fn it_may_be_called_from_anywhere_and_by_a_link() {
    let folder = small_repository("script_link", RT);
    assert_eq!(convert(&folder).status, Some(0));
    symlink(folder.join("hemakuliwi"), folder.join("bin/linked")).expect("a link");
    assert_eq!(
        shell(
            &format!("cd / && '{}/bin/linked' --version", text(&folder)),
            b""
        )
        .status,
        Some(0)
    );
}

#[test]
fn the_status_of_the_command_is_that_of_the_script() {
    let folder = small_repository("script_status", RT);
    convert(&folder);
    let script = text(folder.join("hemakuliwi"));
    assert_eq!(
        shell(&format!("'{script}' check --in csv+"), b"a\n\"").status,
        Some(1)
    );
    assert_eq!(shell(&format!("'{script}' chek"), b"").status, Some(2));
    assert_eq!(
        shell(&format!("'{script}' check --in csv+ <&-"), b"").status,
        Some(3)
    );
    assert_eq!(
        shell(&format!("'{script}' --help >&-"), b"").status,
        Some(3)
    );
}

#[test]
fn a_build_that_fails_is_told_with_its_last_lines() {
    let folder = small_repository(
        "script_failure",
        "#!/bin/sh\necho 'rt: model NOT PROVED (exit 1, 4 s)'\nexit 1\n",
    );
    let told = convert(&folder);
    assert_eq!((told.status, told.told.as_str()), (Some(3), ""));
    assert!(
        told.said.contains("\nrt: model NOT PROVED (exit 1, 4 s)\n"),
        "{}",
        told.said
    );
    let last = told.said.lines().last().expect("a line");
    assert!(
        last.starts_with("hemakuliwi: the build has failed; all that it said is in "),
        "{last}"
    );
    assert_eq!(convert(&folder).status, Some(3), "it is tried again");
}

#[test]
fn two_runs_at_once_build_once() {
    let folder = small_repository("script_twice", &format!("{RT}sleep 0.2\n"));
    let line = format!(
        "PATH=\"{0}/bin:$PATH\"; '{0}/hemakuliwi' --version & '{0}/hemakuliwi' --version; wait",
        text(&folder)
    );
    let told = shell(&line, b"");
    assert_eq!(told.told.lines().count(), 2, "{}", told.said);
    assert_eq!(
        fs::read_to_string(folder.join("runs"))
            .expect("a file")
            .lines()
            .count(),
        whole_build().len(),
        "each program once"
    );
}
