//! What `make install` puts below a folder: the command, its man page and its completions.

mod common;

use common::{folder, shell, text};
use harness::repository;

#[test]
fn the_command_is_installed_with_its_texts() {
    let prefix = folder("installed");
    let line = format!(
        "make --silent --directory '{}' install-command PREFIX='{}'",
        text(repository()),
        text(&prefix)
    );
    let told = shell(&line, b"");
    assert_eq!(told.status, Some(0), "{}{}", told.told, told.said);
    for file in [
        "bin/hemakuliwi",
        "share/man/man1/hemakuliwi.1",
        "share/bash-completion/completions/hemakuliwi",
        "share/zsh/site-functions/_hemakuliwi",
        "share/fish/vendor_completions.d/hemakuliwi.fish",
    ] {
        assert!(prefix.join(file).is_file(), "{file}");
    }
    let version = shell(
        &format!("'{}' --version", text(prefix.join("bin/hemakuliwi"))),
        b"",
    );
    assert_eq!(
        version.told,
        format!("hemakuliwi {}\n", env!("CARGO_PKG_VERSION"))
    );
}
