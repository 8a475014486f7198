//! The public functions, conversions of a trait among them, and the definitions that their contracts name.

use super::crates::Crate;
use super::{read, Table};
use std::fs;
use std::path::Path;

/// How a path into a library of Rattle's own begins.
const OF_KIT: [&str; 3] = ["core.", "io.", "std."];

/// A public function: its path from the crate on, whether it requires something, and the definitions that it ensures.
#[derive(Debug, PartialEq)]
struct Contract {
    function: String,
    requires: bool,
    names: Vec<String>,
}

/// All public functions, in the order of `crates.txt`.
pub fn contracts(root: &Path, crates: &[Crate]) -> Result<Table, String> {
    let mut table = Table::new("contracts", "| function | contract | requires | file |");
    for one in crates {
        let folder = format!("crates/{}/src", one.name);
        for file in files(&root.join(&folder), "")? {
            let path = format!("{folder}/{file}");
            let module = module(&one.name, &file);
            for contract in in_source(&module, &read(&root.join(&path))?) {
                let names = contract.names.iter().map(|name| format!("`{name}`"));
                table.row(&[
                    format!("`{}`", contract.function),
                    names.collect::<Vec<_>>().join(", "),
                    if contract.requires { "yes" } else { "" }.to_string(),
                    format!("`{path}`"),
                ]);
            }
        }
    }
    Ok(table)
}

/// The source files below a folder, in order, the crate's own first.
fn files(folder: &Path, prefix: &str) -> Result<Vec<String>, String> {
    let entries = fs::read_dir(folder).map_err(|error| format!("{}: {error}", folder.display()))?;
    let mut found = Vec::new();
    for entry in entries.flatten() {
        let name = format!("{prefix}{}", entry.file_name().to_string_lossy());
        if entry.path().is_dir() {
            found.extend(files(&entry.path(), &format!("{name}/"))?);
        } else if name.ends_with(".rt") {
            found.push(name);
        }
    }
    found.sort_by_key(|name| (name != "lib.rt", name.clone()));
    Ok(found)
}

/// The path of the module that a file is: `a/b.rt` of crate `c` is `c::a::b`.
fn module(name: &str, file: &str) -> String {
    let modules = file.trim_end_matches(".rt").split('/');
    let modules = modules.filter(|module| !matches!(*module, "lib" | "main"));
    [name]
        .into_iter()
        .chain(modules)
        .collect::<Vec<_>>()
        .join("::")
}

/// The public functions of a source.
fn in_source(module: &str, source: &str) -> Vec<Contract> {
    let imported = imported(source);
    let mut contracts: Vec<Contract> = Vec::new();
    let (mut of_type, mut in_head, mut in_ensures) = (String::new(), false, false);
    for line in source.lines() {
        if let Some(name) = implementing(line) {
            of_type = format!("{name}::");
        } else if line == "}" {
            of_type.clear();
        }
        let line = line.trim();
        if let Some((name, law)) = given(line) {
            // By its type alone, as it is called: it may be a type of another crate.
            contracts.push(Contract {
                function: format!("{of_type}{name}"),
                requires: false,
                names: named(law, &imported),
            });
        } else if let Some(name) = public_function(line) {
            (in_head, in_ensures) = (true, false);
            contracts.push(Contract {
                function: format!("{module}::{of_type}{name}"),
                requires: false,
                names: Vec::new(),
            });
        } else if line == "{" || line.starts_with("fn ") {
            in_head = false;
        }
        let Some(contract) = contracts.last_mut().filter(|_| in_head) else {
            continue;
        };
        contract.requires |= line.starts_with("requires ");
        in_ensures = (in_ensures || line.starts_with("ensures ")) && !line.starts_with("requires ");
        if in_ensures {
            for name in named(line, &imported) {
                if !contract.names.contains(&name) {
                    contract.names.push(name);
                }
            }
        }
    }
    contracts
}

/// The type whose methods follow a line: `Short` of `impl<const N: usize> Short<N> {`, `Kind` of `impl TryFrom<u8> for Kind {`.
fn implementing(line: &str) -> Option<&str> {
    let mut rest = line.strip_prefix("impl")?;
    if let Some(parameters) = rest.strip_prefix('<') {
        rest = parameters.split_once("> ")?.1;
    }
    let rest = rest.trim_start().trim_end_matches(" {");
    let name = rest.split_once(" for ").map_or(rest, |(_, name)| name);
    name.split('<').next()
}

/// The function of a trait whose contract is a ghost member, as a conversion's is, with that member: `try_from` of `ghost try_from_gives`.
fn given(line: &str) -> Option<(&str, &str)> {
    line.strip_prefix("ghost ")?.split_once("_gives = ")
}

/// The definitions that a line names, each once.
fn named(line: &str, imported: &[String]) -> Vec<String> {
    let mut names: Vec<String> = Vec::new();
    for name in line.split(|c: char| !is_of_name(c)) {
        if imported.iter().any(|one| one == name) && !names.iter().any(|one| one == name) {
            names.push(name.to_string());
        }
    }
    names
}

/// The name of the public function that a line begins.
fn public_function(line: &str) -> Option<&str> {
    let rest = line
        .strip_prefix("pub ")?
        .trim_start_matches("extern \"C\" ");
    Some(
        rest.strip_prefix("fn ")?
            .split(['(', '<'])
            .next()
            .unwrap_or_default(),
    )
}

/// The names of definitions that a source imports from crates of this repository; types that the code declares are none.
fn imported(source: &str) -> Vec<String> {
    let uses = source
        .lines()
        .filter_map(|line| line.strip_prefix("ghost use Rattle."));
    let lists = uses
        .filter(|path| !OF_KIT.iter().any(|library| path.starts_with(library)))
        .filter(|path| !path.contains(".declared."))
        .filter_map(|path| path.split_once(".{")?.1.strip_suffix("};"));
    let names = lists.flat_map(|list| list.split(", "));
    names
        .map(|name| name.rsplit(" as ").next().unwrap_or(name).to_string())
        .collect()
}

fn is_of_name(c: char) -> bool {
    c.is_alphanumeric() || matches!(c, '_' | '-' | '\'')
}

#[cfg(test)]
mod tests {
    use super::*;

    #[test]
    fn contracts_are_taken_from_sources() {
        let source = "ghost use Rattle.std.specs.Prelude.{◌≡◌, length};\nghost use Rattle.model.specs.declared.Kind.{Kind};\nghost use Rattle.a.specs.B.{Good, step as next_step};\n\n// A.\npub fn one(x: u8) -> u8\n    requires { Good x }\n    ensures kind { Kind × (length result ≡ next_step x)\n        × Good result × Good x }\n{\n    fn ensures\n}\n\nfn two()\n    ensures { Good 1 }\n{\n}\n\nimpl C {\n    pub extern \"C\" fn three()\n    {\n    }\n}\n\nimpl<const N: usize> D<N> {\n    pub fn four()\n        ensures { Good 4 }\n    {\n    }\n}\n\nimpl TryFrom<u8> for E {\n    type Error = F;\n\n    ghost try_from_gives = { λ n r. next_step r ≡ n };\n\n    fn try_from(n: u8) -> Result<E, F> {\n        g(n)\n    }\n}\n";
        let contract = |function: &str, requires, names: &[&str]| Contract {
            function: function.to_string(),
            requires,
            names: names.iter().map(|name| name.to_string()).collect(),
        };
        let expected = [
            contract("a::b::one", true, &["next_step", "Good"]),
            contract("a::b::C::three", false, &[]),
            contract("a::b::D::four", false, &["Good"]),
            contract("E::try_from", false, &["next_step"]),
        ];
        assert_eq!(in_source("a::b", source), expected);
        assert_eq!(module("a", "lib.rt"), "a");
        assert_eq!(module("a", "b/c.rt"), "a::b::c");
    }
}
