//! The library as C and C++ have it: installed by `make install`, and found by pkg-config, shared and static.

use harness::frames::Frames;
use harness::installed::{
    dynamic_entries, inspected, needed, Compiler, Installed, Linked, C, CPP, LOADER_NAME,
};
use harness::ledger::completed_text;
use harness::programs::{make, run, succeeded};
use harness::repository;
use harness::whole::{convert_room, convert_whole};
use hemakuliwi::{Fault, Refusal};
use reference::limits::{COLUMNS, FILE_BYTES, PIECE_BYTES, PIECE_ROOM, RECORD_BYTES};
use reference::Report;
use std::collections::{BTreeMap, BTreeSet};
use std::fs;
use std::mem::{offset_of, size_of};
use std::path::{Path, PathBuf};
use std::process::{Command, Output};
use std::sync::OnceLock;

/// The library where most tests have it, installed once for them all.
fn installed() -> &'static Installed {
    static INSTALLED: OnceLock<Installed> = OnceLock::new();
    INSTALLED.get_or_init(|| {
        let prefix = Path::new(env!("CARGO_TARGET_TMPDIR")).join("installed");
        let variables = vec![format!("PREFIX={}", prefix.display())];
        Installed::new(PathBuf::new(), prefix.join("lib"), variables)
    })
}

fn compile(compiler: Compiler, linked: Linked, source: &str) -> PathBuf {
    installed().compile(compiler, linked, source)
}

/// Whether there is a C++ compiler; if not, it is said.
fn has_cpp() -> bool {
    let has_cpp = Command::new(CPP[0]).arg("--version").output().is_ok();
    if !has_cpp {
        eprintln!("no C++ compiler is installed, so that the header was not tried with one");
    }
    has_cpp
}

/// Tests an example as C with the shared library, and as C++ with the archive.
fn in_both_languages(source: &str, test: impl Fn(&Path)) {
    test(&compile(C, Linked::Shared, source));
    if has_cpp() {
        test(&compile(CPP, Linked::Static, source));
    }
}

/// What a program ends with that reads a folder, which can't be read, and then one whose output has no room.
fn fails_as_a_machine_does(program: &Path, arguments: &[&str]) {
    let name = program.file_name().expect("a program").to_string_lossy();
    let (name, _) = name.split_once('-').expect("a name");
    let shell = |redirection: &str| -> Output {
        let script = format!("\"$@\" {redirection}");
        Command::new("bash")
            .args(["-c", &script, "bash"])
            .arg(program)
            .args(arguments)
            .output()
            .expect("bash starts")
    };
    for (redirection, said) in [
        ("</", "the input could not be read to its end"),
        (
            ">/dev/full <<<'\"a\"'",
            "the output could not be written in full",
        ),
    ] {
        let told = shell(redirection);
        assert_eq!(
            String::from_utf8_lossy(&told.stderr),
            format!("{name}: {said}\n")
        );
        assert_eq!(told.status.code(), Some(3), "{name} {redirection}");
        assert_eq!(told.stdout, b"", "{name} {redirection}");
    }
}

#[test]
fn the_example_reads_a_table() {
    in_both_languages("examples/read.c", |program| {
        let table = b"\"stop\",\"fare\"\n\"Harbour\",2.40\n\"Old \\\"Mint\\\"\",null\n";
        let told = succeeded(&run(program, &["csvj"], table));
        assert_eq!(
            told,
            "1.1 text stop\n1.2 text fare\n2.1 text Harbour\n2.2 number 2.40\n3.1 text Old \"Mint\"\n3.2 null\n"
        );
        let many = "\\N\n".repeat(100_000);
        let told = succeeded(&run(
            program,
            &["tdif"],
            format!("\"a\"\n{many}").as_bytes(),
        ));
        assert!(told.ends_with("\n100001.1 null\n"));
        assert_eq!(succeeded(&run(program, &["csvj"], b"\n\n")), "");
        let refused = run(program, &["csv+"], b"a,b\n1\n");
        assert_eq!(refused.status.code(), Some(1));
        assert_eq!(refused.stdout, b"");
        assert_eq!(
            String::from_utf8_lossy(&refused.stderr),
            "refused (5): record 2 has another number of cells than the header; it begins at byte 4\n"
        );
        let too_long = run(program, &["csv+"], &vec![b'\n'; FILE_BYTES + 1]);
        assert_eq!(too_long.status.code(), Some(1));
        for wrong in [&[][..], &["csv"], &["csvj", "csvj"]] {
            assert_eq!(run(program, wrong, b"").status.code(), Some(2));
        }
        fails_as_a_machine_does(program, &["csvj"]);
    });
}

const NAMES: [&str; 4] = ["", "csvj", "tdif", "csv+"];

/// What the proved program says of a fault of a file.
fn sentence_of(report: Report) -> String {
    let refusal = Refusal {
        fault: Fault::from_number(report.number).expect("a fault"),
        record: report.record,
        column: report.column,
        offset: report.offset,
    };
    format!("refused ({}): {refusal}\n", report.number)
}

/// Converts as the example does, and as the reference does.
fn convert_agrees(program: &Path, from: u32, to: u32, file: &[u8]) {
    let names = [NAMES[from as usize], NAMES[to as usize]];
    let told = run(program, &names, file);
    let shown = file.escape_ascii();
    match convert_whole(from, to, file) {
        Ok(text) => {
            assert_eq!(told.stdout, text, "{shown}");
            assert_eq!((told.status.code(), &told.stderr[..]), (Some(0), &b""[..]));
        }
        Err(report) => {
            let sentence = String::from_utf8_lossy(&told.stderr);
            assert_eq!(sentence, sentence_of(report), "{shown}");
            assert_eq!((told.status.code(), &told.stdout[..]), (Some(1), &b""[..]));
        }
    }
}

fn converts_a_table(program: &Path) {
    let table = b"\"stop\",\"note\"\n\"Harbour\",\"say \\\"Mint\\\"\"\n";
    let told = succeeded(&run(program, &["csvj", "csv+"], table));
    assert_eq!(told, "stop,note\r\nHarbour,\"say \"\"Mint\"\"\"\r\n");
    let fares = b"\"stop\",\"fare\"\n\"Harbour\",2.40\n";
    for (from, to, file) in [
        (1, 1, &fares[..]),
        (1, 3, fares),
        (2, 1, b"\"a\"\r\n\\N\r"),
        (3, 2, b"a,b\n,\n"),
        (1, 1, b""),
        (3, 1, b"a\xFF\n"),
        (2, 2, b"\"a\" \n"),
        (3, 3, b"\"a"),
        (3, 1, b"a,b\n1\n"),
        (1, 2, b"\"a\",\"a\"\n"),
        (2, 3, b"\"a\",\\N\n"),
        (3, 3, &b","[..].repeat(64)),
        (1, 2, b"\"a\",\"A\"\n"),
        (3, 1, &vec![b'\n'; FILE_BYTES + 1]),
    ] {
        convert_agrees(program, from, to, file);
    }
    let wrong = run(program, &["csvj"], b"");
    assert_eq!(wrong.status.code(), Some(2));
    fails_as_a_machine_does(program, &["csvj", "csvj"]);
}

#[test]
fn the_example_converts_a_table() {
    in_both_languages("examples/convert.c", converts_a_table);
}

/// Converts in pieces as the example does, and as the reference does. A refusal may be followed by a sentence on the column.
fn pieces_agree(program: &Path, from: u32, to: u32, file: &[u8], column: &str) {
    let names = [NAMES[from as usize], NAMES[to as usize]];
    let told = run(program, &names, file);
    let (status, text, said) = match convert_whole(from, to, file) {
        Ok(text) => (0, text, String::new()),
        Err(report) => (
            1,
            completed_text(from, to, &file[..report.offset]),
            format!("{}{column}", sentence_of(report)),
        ),
    };
    let shown = file.escape_ascii();
    assert_eq!(told.stdout, text, "{shown}");
    assert_eq!(String::from_utf8_lossy(&told.stderr), said, "{shown}");
    assert_eq!(told.status.code(), Some(status), "{shown}");
}

fn converts_pieces(program: &Path) {
    // The ring has 64 bytes, so that it wraps in the quoted cell.
    let note = "\"as far as the ring goes, and a line\r\nmore; say \"\"Mint\"\" where it wraps, and again \"\"Mint\"\"\"";
    let file = format!("\"stop\",\"note\"\n\"Harbour\",{note}\n\"Old Mint\",\"\"\n");
    for shift in 0..64 {
        let shifted = file.replacen("stop", &"s".repeat(shift + 1), 1);
        for to in 1..=3 {
            pieces_agree(program, 3, to, shifted.as_bytes(), "");
            pieces_agree(program, 2, to, shifted.as_bytes(), "");
        }
    }
    for (from, to, file, column) in [
        (3, 1, &b"a,b\n1,2"[..], ""),
        (2, 3, b"\"a\"\r\n\"b\"\r", ""),
        (1, 1, b"", ""),
        (3, 1, b"a,b\n1,2\n3\n", ""),
        (3, 1, b"a,a\n", ""),
        (
            1,
            3,
            b"\"stop\",\"\\u0066are\"\n\"Harbour\",\"2.40\"\n\"Old Mint\",2.40\n",
            "Column 2 is fare.\n",
        ),
    ] {
        pieces_agree(program, from, to, file, column);
    }
    let wrong = run(program, &["csvj"], b"");
    assert_eq!(wrong.status.code(), Some(2));
    fails_as_a_machine_does(program, &["csvj", "csvj"]);
}

#[test]
fn the_example_converts_pieces() {
    in_both_languages("examples/pieces.c", converts_pieces);
}

/// A program that ends with 99 where it leaks, or reads or writes what is not its own. None, and it is said, if the compiler has no such.
fn watched(source: &str) -> Option<PathBuf> {
    let (mut compile, program) = installed().compiler(C, Linked::Static, source);
    let watched = program.with_extension("watched");
    let sanitizers = "-fsanitize=address,undefined";
    compile.args([sanitizers, "-fno-sanitize-recover=all", "-o"]);
    let output = compile.arg(&watched).output().expect("cc starts");
    if !output.status.success() {
        eprintln!("cc has no {sanitizers}, so that {source} was not watched for leaks");
    }
    output.status.success().then_some(watched)
}

#[test]
fn the_examples_release_what_they_take() {
    let many = [b"a\n".repeat(5_000), b"b\"\n".to_vec()].concat();
    for (source, arguments) in [
        ("examples/read.c", &["csv+"][..]),
        ("examples/convert.c", &["csv+", "tdif"]),
        ("examples/pieces.c", &["csv+", "tdif"]),
    ] {
        let Some(program) = watched(source) else {
            continue;
        };
        let settings = [
            "ASAN_OPTIONS=exitcode=99:detect_leaks=1",
            "UBSAN_OPTIONS=exitcode=99",
            program.to_str().expect("a path of characters"),
        ];
        let all = [&settings[..], arguments].concat();
        for (file, status) in [(&many[..10_000], 0), (&many[..], 1), (b"", 1)] {
            let told = run("env", &all, file);
            let said = String::from_utf8_lossy(&told.stderr);
            if said.contains("LeakSanitizer has encountered a fatal error") {
                eprintln!(
                    "leaks can't be looked for here, so that {source} was not watched for them"
                );
                return;
            }
            assert_eq!(told.status.code(), Some(status), "{source}: {said}");
        }
    }
}

#[test]
fn the_cpp_example_counts_a_table() {
    if !has_cpp() {
        return;
    }
    let program = compile(CPP, Linked::Shared, "examples/count.cpp");
    let told = succeeded(&run(&program, &[], b"stop,fare\nHarbour,2.40\n"));
    assert_eq!(told, "2 columns, 1 data records, 4 cells\n");
    let many = succeeded(&run(&program, &[], &b"\n".repeat(100_000)));
    assert_eq!(many, "1 columns, 99999 data records, 100000 cells\n");
    let refused = run(&program, &[], b"a\n\"");
    assert_eq!(refused.status.code(), Some(1));
    assert_eq!(
        String::from_utf8_lossy(&refused.stderr),
        "refused (4): the file ends at byte 3 before record 2 is complete\n"
    );
    fails_as_a_machine_does(&program, &[]);
}

#[test]
fn nothing_may_be_lent() {
    for linked in [Linked::Shared, Linked::Static] {
        let program = compile(C, linked, "rust/harness/tests/c/empty.c");
        succeeded(&run(&program, &[], b""));
    }
}

#[test]
fn what_is_read_of_a_converter_stays_inside_it() {
    let source = "rust/harness/tests/c/accessors.c";
    in_both_languages(source, |program| {
        succeeded(&run(program, &[], b""));
    });
    // The last converter there is at the end of what was allocated, so that a read past it is found.
    if let Some(program) = watched(source) {
        let program = program.to_str().expect("a path of characters");
        succeeded(&run("env", &["ASAN_OPTIONS=detect_leaks=0", program], b""));
    }
}

/// The size of a struct and the offsets of its fields, as `layout.c` prints them.
macro_rules! layout {
    ($name:literal, $struct:ty, $($field:ident)+) => {{
        let mut lines = format!("{} {}\n", $name, size_of::<$struct>());
        $(lines += &format!("{}.{} {}\n", $name, stringify!($field), offset_of!($struct, $field));)+
        lines
    }};
}

#[test]
fn structs_are_laid_out_as_the_header_says() {
    let layout = [
        layout!("hk_report", hemakuliwi::raw::Report, number record_number column offset),
        layout!("hk_read_answer", hemakuliwi::raw::ReadAnswer, report columns records cells),
        layout!("hk_decode_answer", hemakuliwi::raw::DecodeAnswer, report length kind),
        layout!("hk_text_answer", hemakuliwi::raw::TextAnswer, report length),
        layout!("hk_converter", hemakuliwi::raw::Converter, source target numbers ends name_ends bytes names),
        layout!("hk_piece_answer", hemakuliwi::raw::PieceAnswer, answer next),
    ];
    for linked in [Linked::Shared, Linked::Static] {
        let program = compile(C, linked, "rust/harness/tests/c/layout.c");
        let told = succeeded(&run(&program, &[], b""));
        assert_eq!(told, layout.concat(), "{linked:?}");
    }
}

fn header() -> String {
    fs::read_to_string(repository().join("include/hemakuliwi.h")).expect("the header")
}

#[test]
fn the_lines_of_the_header_have_at_most_100_columns() {
    for (index, line) in header().lines().enumerate() {
        let columns = line.chars().count();
        assert!(columns <= 100, "line {}: {columns} columns", index + 1);
        assert!(!line.contains('\t'), "line {}: a tab", index + 1);
    }
}

/// The functions that the header declares and does not define.
fn declared() -> BTreeSet<String> {
    let mut functions = Vec::new();
    for line in header().lines() {
        let declares = line.starts_with("struct hk_") && line.contains('(');
        let before = line.split('(').next().unwrap_or_default();
        let name = before.split(' ').next_back().filter(|_| declares);
        functions.extend(name.map(str::to_string));
    }
    assert_eq!(functions.len(), 9, "{functions:?}");
    functions.into_iter().collect()
}

/// The names that nm prints after this letter, without their versions.
fn symbols(told: &str, letter: char) -> Vec<String> {
    let of_letter = told
        .lines()
        .filter_map(|line| line.split_once(&format!(" {letter} ")));
    of_letter
        .map(|(_, name)| name.split('@').next().unwrap_or(name).to_string())
        .collect()
}

fn needs_nothing_but_memory_calls(undefined: Vec<String>) {
    let undefined: BTreeSet<String> = undefined.into_iter().collect();
    let expected = ["memcpy", "memset"].map(str::to_string);
    assert_eq!(undefined, BTreeSet::from(expected));
}

#[test]
fn the_archive_has_every_function_of_the_header() {
    let archive = installed().library_folder.join("libhemakuliwi.a");
    let told = inspected("nm", &["--extern-only"], &archive);
    let mut defined = symbols(&told, 'T');
    defined.sort();
    assert_eq!(defined, declared().into_iter().collect::<Vec<_>>());
    needs_nothing_but_memory_calls(symbols(&told, 'U'));
}

#[test]
fn the_shared_library_exports_the_functions_of_the_header_alone() {
    let library = installed().library_folder.join("libhemakuliwi.so");
    let told = inspected("nm", &["--dynamic"], &library);
    let exported: BTreeSet<String> = symbols(&told, 'T').into_iter().collect();
    assert_eq!(exported, declared());
    needs_nothing_but_memory_calls(symbols(&told, 'U'));
    // An absolute symbol is the name of the version that all of them have: a minor version may change what they mean.
    let (minor, _) = env!("CARGO_PKG_VERSION")
        .rsplit_once('.')
        .expect("a version");
    let version = format!("HEMAKULIWI_{minor}");
    assert_eq!(symbols(&told, 'A').concat(), version);
    let ending = format!("@@{version}");
    let versioned = told.lines().filter(|line| line.ends_with(&ending));
    assert_eq!(versioned.count(), exported.len(), "{told}");
    let memory_calls_and_version = 3;
    assert_eq!(
        told.lines().count(),
        exported.len() + memory_calls_and_version,
        "{told}"
    );
}

#[test]
fn the_shared_library_is_loaded_as_such_libraries_are() {
    let library = installed().library_folder.join("libhemakuliwi.so");
    let soname = dynamic_entries(&library, "(SONAME)");
    assert_eq!(soname, BTreeSet::from([LOADER_NAME.to_string()]));
    let libc = BTreeSet::from(["libc.so.6".to_string()]);
    assert_eq!(needed(&library), libc);
    let dynamic = inspected("readelf", &["--dynamic", "--wide"], &library);
    assert!(!dynamic.contains("TEXTREL"), "{dynamic}");
    let segments = inspected("readelf", &["--segments", "--wide"], &library);
    let flags = |line: &str| -> String {
        let words: Vec<&str> = line.split_whitespace().collect();
        words[6..words.len() - 1].concat()
    };
    let mut segments = segments.lines().map(str::trim_start);
    let stack = segments.clone().find(|line| line.starts_with("GNU_STACK"));
    assert_eq!(stack.map(flags).as_deref(), Some("RW"));
    let code = segments.find(|line| line.starts_with("LOAD") && flags(line) == "RWE");
    assert_eq!(code, None, "a segment can be written and run");
}

#[test]
fn make_has_nothing_to_do_once_it_is_done() {
    make(&[]);
    make(&["--question".to_string()]);
}

/// An installation below a stage, in folders of its own choice.
fn staged() -> Installed {
    let stage = Path::new(env!("CARGO_TARGET_TMPDIR")).join("stage");
    let _ = fs::remove_dir_all(&stage);
    let library_folder = stage.join("opt/tables/lib64");
    let variables = vec![
        format!("DESTDIR={}", stage.display()),
        "PREFIX=/opt/tables".to_string(),
        "libdir=/opt/tables/lib64".to_string(),
        "includedir=/usr/include/tables".to_string(),
    ];
    Installed::new(stage, library_folder, variables)
}

#[test]
fn a_staged_install_serves_both_libraries_and_is_taken_away_again() {
    let staged = staged();
    let shared = format!("libhemakuliwi.so.{}", env!("CARGO_PKG_VERSION"));
    for (link, target) in [("libhemakuliwi.so", LOADER_NAME), (LOADER_NAME, &shared)] {
        let found = fs::read_link(staged.library_folder.join(link)).expect("a link");
        assert_eq!(found, Path::new(target));
    }
    assert!(staged
        .stage
        .join("usr/include/tables/hemakuliwi.h")
        .is_file());
    let file = staged.library_folder.join("pkgconfig/hemakuliwi.pc");
    let file = fs::read_to_string(file).expect("the pkg-config file");
    let known = "prefix=/opt/tables\nlibdir=${prefix}/lib64\nincludedir=/usr/include/tables\n";
    assert!(file.starts_with(known) && !file.contains('@'), "{file}");
    for linked in [Linked::Shared, Linked::Static] {
        let program = staged.compile(C, linked, "examples/convert.c");
        let told = run(&program, &["csv+", "csvj"], b"stop\nHarbour\n");
        assert_eq!(succeeded(&told), "\"stop\"\n\"Harbour\"\n");
    }
    fs::remove_dir_all(staged.library_folder.join("programs")).expect("the programs");
    make(&[vec!["uninstall-library".to_string()], staged.variables].concat());
    assert_eq!(files_below(&staged.stage), Vec::<PathBuf>::new());
}

/// The files and links below a folder, by their paths from there, in order.
fn files_below(folder: &Path) -> Vec<PathBuf> {
    let mut found = Vec::new();
    let mut folders = vec![folder.to_path_buf()];
    while let Some(next) = folders.pop() {
        for entry in fs::read_dir(next).expect("a folder") {
            let path = entry.expect("an entry").path();
            if path.is_dir() {
                folders.push(path);
            } else {
                found.push(
                    path.strip_prefix(folder)
                        .expect("a path below")
                        .to_path_buf(),
                );
            }
        }
    }
    found.sort();
    found
}

#[test]
fn the_pkg_config_file_can_be_read_without_pkg_config() {
    for options in [&["--cflags"][..], &["--libs"], &["--static", "--libs"]] {
        assert_eq!(installed().read(options), installed().told(options));
    }
}

/// The bytes of stack that the header names for each call.
fn named_stacks() -> BTreeMap<String, usize> {
    let header = header();
    let figures = header.split("Stack of ").skip(1).map(|figure| {
        let (name, bytes) = figure.split_once(": ").expect("a name");
        let (bytes, _) = bytes.split_once(" bytes").expect("a figure");
        let bytes = bytes.replace(',', "").parse().expect("a number");
        (name.to_string(), bytes)
    });
    let figures: Vec<(String, usize)> = figures.collect();
    let named: BTreeMap<String, usize> = figures.iter().cloned().collect();
    assert_eq!(named.len(), figures.len(), "a figure stands twice");
    let inline = ["hk_converter_piece", "hk_converter_end"].map(str::to_string);
    let all: BTreeSet<String> = declared().into_iter().chain(inline).collect();
    assert_eq!(named.keys().cloned().collect::<BTreeSet<_>>(), all);
    named
}

#[test]
fn the_stack_is_as_small_as_the_header_says() {
    let program = compile(C, Linked::Static, "rust/harness/tests/c/stack.c");
    let told = succeeded(&run(&program, &[], b""));
    eprintln!("bytes of stack: {}", told.trim().replace('\n', ", "));
    let measured = |line: &str| {
        let (name, bytes) = line.split_once(' ').expect("a name and a figure");
        (name.to_string(), bytes.parse().expect("a number"))
    };
    let measured: BTreeMap<String, usize> = told.lines().map(measured).collect();
    let named = named_stacks();
    assert_eq!(measured.len(), named.len(), "{told}");
    for (name, bytes) in measured {
        assert!(bytes <= named[&name], "{name} takes {bytes} bytes");
        // A figure that is far too large helps nobody.
        assert!(
            named[&name] <= bytes + bytes / 8,
            "{name} takes {bytes} bytes only"
        );
    }
}

#[test]
fn no_chain_of_calls_takes_more_stack_than_the_header_says() {
    let frames = Frames::of(&installed().library_folder.join("libhemakuliwi.so"));
    let named = named_stacks();
    let converter = size_of::<hemakuliwi::raw::Converter>();
    let mut told = Vec::new();
    for function in declared() {
        let by_value = match function.as_str() {
            "hk_converter_new" => converter,
            "hk_piece" | "hk_end" => converter + size_of::<hemakuliwi::raw::PieceAnswer>(),
            // Eight arguments at most have no register.
            _ => 64,
        };
        let bytes = frames.stack_of(&function) + by_value;
        told.push(format!("{function} {bytes}"));
        assert!(
            bytes <= named[&function],
            "{function} may take {bytes} bytes"
        );
    }
    eprintln!("bytes of stack by the machine code: {}", told.join(", "));
}

#[test]
fn the_header_has_the_version_and_the_limits() {
    let header = header();
    let version = env!("CARGO_PKG_VERSION");
    let mut parts = version.split('.');
    let mut part = || parts.next().expect("a version has three parts");
    for line in [
        format!("HK_VERSION \"{version}\""),
        format!("HK_VERSION_MAJOR {}", part()),
        format!("HK_VERSION_MINOR {}", part()),
        format!("HK_VERSION_PATCH {}", part()),
        format!("HK_FILE_BYTES {FILE_BYTES}"),
        format!("HK_RECORD_BYTES {RECORD_BYTES}"),
        format!("HK_COLUMNS {COLUMNS}"),
        format!("HK_PIECE_BYTES {PIECE_BYTES}"),
        format!("HK_PIECE_ROOM {PIECE_ROOM}"),
    ] {
        let line = format!("#define {line}");
        assert!(header.lines().any(|found| found == line), "{line}");
    }
    for length in [0, 1, 1_000, FILE_BYTES / 6 - 1, FILE_BYTES / 6, FILE_BYTES] {
        assert_eq!(hemakuliwi::raw::convert_room(length), convert_room(length));
    }
    let limits = (
        hemakuliwi::raw::FILE_BYTES,
        hemakuliwi::raw::RECORD_BYTES,
        hemakuliwi::raw::COLUMNS,
    );
    assert_eq!(limits, (FILE_BYTES, RECORD_BYTES, COLUMNS));
    let of_pieces = (hemakuliwi::raw::PIECE_BYTES, hemakuliwi::raw::PIECE_ROOM);
    assert_eq!(of_pieces, (PIECE_BYTES, PIECE_ROOM));
}
