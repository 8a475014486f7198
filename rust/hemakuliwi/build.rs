//! Links the archive that `make` writes at the root of the repository.

use std::path::Path;
use std::process::exit;

fn main() {
    let root = Path::new(env!("CARGO_MANIFEST_DIR")).join("../..");
    let folder = root.join("target/staticlib");
    let archive = folder.join("libhemakuliwi.a");
    println!("cargo:rerun-if-changed={}", archive.display());
    if !archive.exists() {
        eprintln!("target/staticlib/libhemakuliwi.a is missing: run `make` at the root of the repository, which proves and builds it.");
        exit(1);
    }
    println!("cargo:rustc-link-search=native={}", folder.display());
    println!("cargo:rustc-link-lib=static=hemakuliwi");
}
