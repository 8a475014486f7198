//! The vectors as equations about the definitions, for the prover to compute.

use std::fmt::Write as _;

use crate::vectors::{Bytes, Call, Case, Fault, PieceCall, TableArguments, TableShape};

/// Cases that name more bytes than this are left to the programs: the prover holds a list cell for each byte.
const MOST_BYTES: usize = 100_000;

/// Cases with more line feeds than this are left to the programs: for each record the definitions compute the length of
/// the whole text before it.
const MOST_RECORDS: usize = 2_000;

/// What is in a lent list or buffer before a call.
const LENT: &str = "7";

/// The vectors as one module of antt.
pub struct Module {
    /// Its text.
    pub text: String,
    /// How many cases it states.
    pub stated: usize,
    /// How many cases are too long for it.
    pub left_out: usize,
}

/// States each case as an equation whose proof is that both sides compute to the same.
pub fn module(cases: &[Case]) -> Module {
    let mut text = String::from(HEAD);
    let (mut stated, mut left_out) = (0, 0);
    for (index, case) in cases.iter().enumerate() {
        let inputs = inputs(&case.call);
        let bytes: usize = inputs.iter().map(|input| input.len()).sum();
        let records: usize = inputs
            .iter()
            .map(|input| input.count(|byte| *byte == b'\n'))
            .sum();
        if bytes > MOST_BYTES || records > MOST_RECORDS {
            left_out += 1;
            continue;
        }
        stated += 1;
        let name = identifier(index, &case.name);
        let equations = equations(&case.call);
        let proofs = vec!["refl"; equations.len()].join(", ");
        let statement = equations.join("\n    × ");
        writeln!(
            text,
            "\n-- {}: {}\n{name} :\n    {statement}\nunfolding computes\n{name} = ({proofs})",
            case.place, case.name
        )
        .expect("a string takes any text");
    }
    Module {
        text,
        stated,
        left_out,
    }
}

const HEAD: &str = "\
-- Every vector as an equation that the prover computes.
use mathlib.Core.Path.{refl}
use Rattle.std.specs.Prelude.{ℕ, ◌≡◌, List, [], ◌∷◌, ◌++◌, replicate}
use Rattle.model.specs.declared.Report.{Report}
use Rattle.model.specs.rules.Base.{Bytes, concat}
use Rattle.model.specs.laws.Computes.{computes}
use Rattle.model.specs.rules.Report.{report}
use Rattle.model.specs.rules.Api.{ReadCall, read_call, reader, Decoded, decoder, decoder_leaves, Written, converter, converter_leaves, Table, writer, writer_leaves}
use Rattle.model.specs.rules.Ledger.{piece, finish, ledger}

abbrev read_as : Report → (columns records cells : ℕ) → (starts ends kinds : List ℕ) → ReadCall
read_as e c r n ss es ks = record { report = e; columns = c; records = r; cells = n; starts = ss; ends = es; kinds = ks }

abbrev decoded : Report → ℕ → Bytes → Decoded
decoded e k bs = record { report = e; kind = k; content = bs }

abbrev written : Report → Bytes → Written
written e bs = record { report = e; text = bs }

abbrev table : Bytes → (starts ends kinds : List ℕ) → (columns records : ℕ) → Table
table bs ss es ks c r = record { content = bs; starts = ss; ends = es; kinds = ks; columns = c; records = r }
";

fn identifier(index: usize, name: &str) -> String {
    let words: String = name
        .chars()
        .map(|c| {
            if c.is_ascii_alphanumeric() {
                c.to_ascii_lowercase()
            } else {
                '_'
            }
        })
        .collect();
    let words: Vec<&str> = words.split('_').filter(|word| !word.is_empty()).collect();
    format!("case_{}_{}", index + 1, words.join("_"))
}

/// The bytes that the case gives to its calls.
fn inputs(call: &Call) -> Vec<&Bytes> {
    match call {
        Call::Read { file, .. } | Call::Convert { file, .. } => vec![file],
        Call::Decode { raw, .. } => vec![raw],
        Call::Write { table, .. } => vec![&table.content],
        Call::Pieces { calls, .. } => calls
            .iter()
            .filter_map(|call| call.piece.as_ref())
            .collect(),
    }
}

fn equations(call: &Call) -> Vec<String> {
    match call {
        Call::Read {
            dialect,
            file,
            room,
            expected,
        } => read(*dialect, file, *room, expected),
        Call::Decode {
            dialect,
            raw,
            room,
            expected,
        } => decode(*dialect, raw, *room, expected),
        Call::Convert {
            source,
            target,
            file,
            room,
            expected,
        } => {
            let file = bytes(file);
            text_call(
                &format!("converter {source} {target} {file}"),
                &format!("converter_leaves {source} {target} {file}"),
                *room,
                expected,
            )
        }
        Call::Write {
            target,
            table,
            room,
            expected,
        } => {
            let table = written_table(table);
            text_call(
                &format!("writer {target} {table}"),
                &format!("writer_leaves {target} {table}"),
                *room,
                expected,
            )
        }
        Call::Pieces {
            source,
            target,
            calls,
        } => vec![format!(
            "(ledger {source} {target} {} ≡ {})",
            list(calls.iter().map(piece_call)),
            list(
                calls
                    .iter()
                    .map(|call| written(call.fault.as_ref(), &call.text))
            )
        )],
    }
}

fn decode(
    dialect: u32,
    raw: &Bytes,
    room: Option<usize>,
    expected: &Result<(u8, Bytes), Fault>,
) -> Vec<String> {
    let raw = bytes(raw);
    let (fault, kind, content) = match expected {
        Ok((kind, content)) => (None, *kind, content.clone()),
        Err(fault) => (Some(fault), 0, Bytes::default()),
    };
    let room = room.unwrap_or(content.len() + 2);
    vec![
        format!(
            "(decoder {dialect} {raw} {room} ≡ decoded {} {kind} {})",
            report(fault),
            bytes(&content)
        ),
        format!(
            "(decoder_leaves {dialect} {raw} {} ≡ {})",
            lent(room),
            left(&bytes(&content), room - content.len())
        ),
    ]
}

/// The writer's arguments.
fn written_table(table: &TableArguments) -> String {
    format!(
        "(table {} {} {} {} {} {})",
        bytes(&table.content),
        numbers(&table.starts),
        numbers(&table.ends),
        numbers(&table.kinds),
        table.columns,
        table.records
    )
}

fn read(
    dialect: u32,
    file: &Bytes,
    room: Option<usize>,
    expected: &Result<TableShape, Fault>,
) -> Vec<String> {
    let file = bytes(file);
    match expected {
        Ok(TableShape {
            columns,
            records,
            cells: Some(cells),
        }) => {
            let room = room.unwrap_or(cells.len() + 2);
            let spare = room - cells.len();
            let starts: Vec<usize> = cells.iter().map(|cell| cell.0).collect();
            let ends: Vec<usize> = cells.iter().map(|cell| cell.1).collect();
            let kinds: Vec<u8> = cells.iter().map(|cell| cell.2).collect();
            vec![format!(
                "(read_call {dialect} {file} {} {} {} ≡ read_as {} {columns} {records} {} {} {} {})",
                lent(room),
                lent(room + 1),
                lent(room + 2),
                report(None),
                cells.len(),
                left(&numbers(&starts), spare),
                left(&numbers(&ends), spare + 1),
                left(&numbers(&kinds), spare + 2)
            )]
        }
        Ok(TableShape {
            columns,
            records,
            cells: None,
        }) => {
            let room = room.unwrap_or(columns * (records + 1));
            vec![
                format!(
                    "((reader {dialect} {file} {room}).report ≡ {})",
                    report(None)
                ),
                format!("((reader {dialect} {file} {room}).columns ≡ {columns})"),
                format!("((reader {dialect} {file} {room}).records ≡ {records})"),
            ]
        }
        Err(fault) => {
            let room = room.unwrap_or(2);
            vec![format!(
                "(read_call {dialect} {file} {} {} {} ≡ read_as {} 0 0 0 {} {} {})",
                lent(room),
                lent(room + 1),
                lent(room + 2),
                report(Some(fault)),
                lent(room),
                lent(room + 1),
                lent(room + 2)
            )]
        }
    }
}

/// A call that writes text: its answer, and what its buffer holds afterwards.
fn text_call(
    call: &str,
    leaves: &str,
    room: Option<usize>,
    expected: &Result<Bytes, Fault>,
) -> Vec<String> {
    let (fault, text) = match expected {
        Ok(text) => (None, text.clone()),
        Err(fault) => (Some(fault), Bytes::default()),
    };
    let room = room.unwrap_or(text.len() + 2);
    vec![
        format!("({call} {room} ≡ {})", written(fault, &text)),
        format!(
            "({leaves} {} ≡ {})",
            lent(room),
            left(&bytes(&text), room - text.len())
        ),
    ]
}

fn piece_call(call: &PieceCall) -> String {
    let room = call.room.unwrap_or(49_152);
    match &call.piece {
        Some(piece) => format!("piece {} {room}", bytes(piece)),
        None => format!("finish {room}"),
    }
}

fn written(fault: Option<&Fault>, text: &Bytes) -> String {
    format!("written {} {}", report(fault), bytes(text))
}

fn report(fault: Option<&Fault>) -> String {
    match fault {
        None => String::from("(report 0 0 0 0)"),
        Some(f) => format!(
            "(report {} {} {} {})",
            f.number, f.record, f.column, f.offset
        ),
    }
}

/// A lent list of this length.
fn lent(length: usize) -> String {
    format!("(replicate {length} {LENT})")
}

/// A lent list after a call wrote to its beginning and left `spare` places.
fn left(new: &str, spare: usize) -> String {
    format!("({new} ++ {})", lent(spare))
}

fn bytes(bytes: &Bytes) -> String {
    let items: Vec<String> = bytes
        .items()
        .iter()
        .map(|(item, times)| repeated(item, *times))
        .collect();
    match items.as_slice() {
        [] => String::from("[]"),
        [one] => one.clone(),
        more => format!("(concat {})", list(more.iter().cloned())),
    }
}

fn repeated(item: &[u8], times: usize) -> String {
    match (item, times) {
        (_, 1) => numbers(item),
        ([byte], _) => format!("(replicate {times} {byte})"),
        _ => format!("(concat (replicate {times} {}))", numbers(item)),
    }
}

fn numbers<T: std::fmt::Display>(numbers: &[T]) -> String {
    list(numbers.iter().map(T::to_string))
}

fn list(items: impl Iterator<Item = String>) -> String {
    let items: Vec<String> = items.collect();
    if items.is_empty() {
        return String::from("[]");
    }
    format!("({} ∷ [])", items.join(" ∷ "))
}
