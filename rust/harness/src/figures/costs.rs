//! The tables over all crates: layers, and what it takes to prove a crate and all above it.

use super::crates::{layer, nearest, proved_again, Crate};
use super::{with_commas, Table};

/// The crates from the lowest layer up.
pub fn layers(crates: &[Crate]) -> Table {
    let mut table = Table::new("layers", "| layer | crate | what it is for | depends on |");
    let mut sorted: Vec<(usize, &Crate)> = crates
        .iter()
        .map(|one| (layer(crates, &one.name), one))
        .collect();
    sorted.sort_by_key(|(layer, _)| *layer);
    for (layer, one) in sorted {
        table.row(&[
            layer.to_string(),
            format!("`{}`", one.name),
            one.role.clone(),
            nearest(crates, one).join(", "),
        ]);
    }
    table
}

/// What each crate is made of, and what it takes to prove it and all above it.
pub fn costs(crates: &[Crate]) -> Table {
    let head = "| crate | lines of code | of definitions | of proofs | edits | check, s | crates above | prove again, s |";
    let mut table = Table::new("costs", head);
    for one in crates {
        let again = proved_again(crates, &one.name);
        let counts = [
            one.code,
            one.definitions,
            one.proofs,
            one.edits,
            one.seconds,
            again.len() - 1,
            seconds(&again),
        ];
        let mut row = vec![format!("`{}`", one.name)];
        row.extend(counts.map(with_commas));
        table.row(&row);
    }
    table
}

/// How many crates are proved again when one changes, and how long that takes.
pub fn again(crates: &[Crate], one: &Crate) -> String {
    let again = proved_again(crates, &one.name);
    let noun = if again.len() == 1 { "crate" } else { "crates" };
    format!("{} {noun}, {} s", again.len(), with_commas(seconds(&again)))
}

fn seconds(crates: &[&Crate]) -> usize {
    crates.iter().map(|one| one.seconds).sum()
}
