//! The library as `make install` installs it, and programs in C and C++ that are linked with it by pkg-config's flags.

use crate::programs::{make, succeeded};
use crate::repository;
use std::collections::BTreeSet;
use std::fs;
use std::path::{Path, PathBuf};
use std::process::Command;

/// A compiler, the language that it takes a source for, and its standard.
pub type Compiler = [&'static str; 3];

/// The compiler for C.
pub const C: Compiler = ["cc", "c", "-std=c11"];
/// The compiler for C++.
pub const CPP: Compiler = ["c++", "c++", "-std=c++17"];
const STRICT: [&str; 4] = ["-Wall", "-Wextra", "-Wpedantic", "-Werror"];

/// Which of the two libraries a program is linked with.
#[derive(Clone, Copy, Debug, PartialEq)]
pub enum Linked {
    /// The shared library.
    Shared,
    /// The archive.
    Static,
}

/// The library as it was installed: all paths that it knows are below `stage`, of which it does not know.
pub struct Installed {
    /// The folder that is used as the root of the system; none if it is that itself.
    pub stage: PathBuf,
    /// Where the libraries are.
    pub library_folder: PathBuf,
    /// The variables that make was given.
    pub variables: Vec<String>,
}

impl Installed {
    /// Installs the library alone with these variables, which are to say the same as the two folders.
    pub fn new(stage: PathBuf, library_folder: PathBuf, variables: Vec<String>) -> Self {
        make(&[vec!["install-library".to_string()], variables.clone()].concat());
        Self {
            stage,
            library_folder,
            variables,
        }
    }

    fn pkg_config_folder(&self) -> PathBuf {
        self.library_folder.join("pkgconfig")
    }

    /// What pkg-config prints or, where that is not installed, what it would read.
    pub fn told(&self, options: &[&str]) -> Vec<String> {
        let told = Command::new("pkg-config")
            .args(options)
            .arg("hemakuliwi")
            .env("PKG_CONFIG_PATH", self.pkg_config_folder())
            .env("PKG_CONFIG_SYSROOT_DIR", &self.stage)
            .output();
        match told {
            Ok(output) => words(&succeeded(&output)),
            Err(_) => self.read(options),
        }
    }

    /// What the pkg-config file has for these options, with its variables replaced.
    pub fn read(&self, options: &[&str]) -> Vec<String> {
        let file = self.pkg_config_folder().join("hemakuliwi.pc");
        let file = fs::read_to_string(file).expect("the pkg-config file");
        let fields = [
            ("--cflags", "Cflags:"),
            ("--libs", "Libs:"),
            ("--static", "Libs.private:"),
        ];
        let mut text = String::new();
        for (_, field) in fields.iter().filter(|(option, _)| options.contains(option)) {
            text.extend(file.lines().filter_map(|line| line.strip_prefix(field)));
        }
        let variables: Vec<(&str, &str)> = file
            .lines()
            .filter_map(|line| line.split_once('='))
            .collect();
        for (name, value) in variables.iter().rev() {
            text = text.replace(&format!("${{{name}}}"), value);
        }
        let stage = self.stage.display();
        let below_stage = |word: String| match word.split_at_checked(2) {
            Some((flag @ ("-I" | "-L"), path)) => format!("{flag}{stage}{path}"),
            _ => word,
        };
        words(&text).into_iter().map(below_stage).collect()
    }

    /// The flags to compile and to link with.
    fn flags(&self, linked: Linked) -> Vec<String> {
        let mut flags = self.told(&["--cflags"]);
        match linked {
            Linked::Shared => {
                flags.extend(self.told(&["--libs"]));
                flags.push(format!("-Wl,-rpath,{}", self.library_folder.display()));
            }
            Linked::Static => {
                flags.push("-Wl,-Bstatic".to_string());
                flags.extend(self.told(&["--static", "--libs"]));
                flags.push("-Wl,-Bdynamic".to_string());
            }
        }
        flags
    }

    /// A command that compiles a program of the repository as strictly as can be, and where the program will be.
    pub fn compiler(&self, compiler: Compiler, linked: Linked, source: &str) -> (Command, PathBuf) {
        let [command, language, standard] = compiler;
        let source = repository().join(source);
        let name = source.file_stem().expect("a file").to_string_lossy();
        let folder = self.library_folder.join("programs");
        fs::create_dir_all(&folder).expect("a folder for programs");
        let program = folder.join(format!("{name}-{linked:?}-by-{command}"));
        let mut compile = Command::new(command);
        compile
            .arg(standard)
            .args(STRICT)
            .args(["-O2", "-pthread", "-x", language])
            .arg(&source)
            .args(["-x", "none", "-o"])
            .arg(&program)
            .args(self.flags(linked));
        (compile, program)
    }

    /// Compiles a program, and gives where it is.
    pub fn compile(&self, compiler: Compiler, linked: Linked, source: &str) -> PathBuf {
        let (mut compile, program) = self.compiler(compiler, linked, source);
        succeeded(&compile.output().expect("the compiler starts"));
        assert_eq!(
            needed(&program).contains(LOADER_NAME),
            linked == Linked::Shared,
            "{}",
            program.display()
        );
        program
    }
}

fn words(text: &str) -> Vec<String> {
    text.split_whitespace().map(str::to_string).collect()
}

/// The name that programs require of the loader.
pub const LOADER_NAME: &str = "libhemakuliwi.so.0";

/// What a tool of the linker prints of a file.
pub fn inspected(tool: &str, options: &[&str], file: &Path) -> String {
    let told = Command::new(tool)
        .args(options)
        .arg(file)
        .env("LC_ALL", "C")
        .output();
    succeeded(&told.unwrap_or_else(|error| panic!("{tool}: {error}")))
}

/// The values of an entry in a file's dynamic section.
pub fn dynamic_entries(file: &Path, entry: &str) -> BTreeSet<String> {
    let told = inspected("readelf", &["--dynamic", "--wide"], file);
    let of_entry = told.lines().filter(|line| line.contains(entry));
    let value = |line: &str| {
        let (_, value) = line.split_once('[')?;
        Some(value.split_once(']')?.0.to_string())
    };
    of_entry.filter_map(value).collect()
}

/// The shared libraries that a file requires of the loader.
pub fn needed(file: &Path) -> BTreeSet<String> {
    dynamic_entries(file, "(NEEDED)")
}
