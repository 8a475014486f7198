//! Files converted, as a whole and in pieces.

use crate::measure::{in_rounds, Contestant, Speeds};
use crate::thresholds::{Measured, Scope, Task};
use crate::workload::{name_of, Table};
use harness::compare::{proved_converter, proved_start};
use harness::rooms::WholeConverter;
use harness::whole::{convert_room, convert_whole};
use reference::limits::PIECE_ROOM;
use reference::{convert, Dialect};
use std::hint::black_box;

/// The proved converter of whole files among the contestants.
pub const PROVED: &str = "proved converter";
/// The proved converter in pieces of 4,096 bytes, over a state that is lent.
pub const PIECES_OF_4_096: &str = "in pieces of 4,096";
/// The same in pieces of 64 bytes.
pub const PIECES_OF_64: &str = "in pieces of 64";

/// How a file is cut into pieces.
struct Pieces {
    name: &'static str,
    size: usize,
    /// With the state by value, or lent.
    by_value: bool,
}

const fn lent(name: &'static str, size: usize) -> Pieces {
    let by_value = false;
    Pieces {
        name,
        size,
        by_value,
    }
}

const fn by_value(name: &'static str, size: usize) -> Pieces {
    let by_value = true;
    Pieces {
        name,
        size,
        by_value,
    }
}

/// For each pair of dialects.
const LENT: [Pieces; 3] = [
    lent(PIECES_OF_4_096, 4_096),
    lent("in pieces of 512", 512),
    lent(PIECES_OF_64, 64),
];

/// From CSV+ to CSVJ.
const BY_VALUE: [Pieces; 3] = [
    by_value("4,096, by value", 4_096),
    by_value("512, by value", 512),
    by_value("64, by value", 64),
];

/// Another converter, made of other libraries.
pub struct ConvertingPeer {
    /// Its name.
    pub name: &'static str,
    /// The dialect that it reads, CSVJ or CSV+. From TDIF it is measured on the same table as CSV+.
    pub from: Dialect,
    /// The dialect that it writes.
    pub to: Dialect,
    /// The file as this converter takes it. It is not measured.
    pub prepare: fn(&[u8]) -> Vec<u8>,
    /// Converts a prepared file, and adds its text to what was written.
    pub convert: fn(&[u8], &mut Vec<u8>),
}

/// What the columns are.
pub fn print_head() {
    println!(
        "\nconverting, as a whole and in pieces: MB of the file a second; 'of peer' is the proved converter's speed as a part \
         of the peer's, which writes the same text as a whole"
    );
    println!(
        "  {:27} {:>9} {:>9}   {:>9} {:>9}   {:>9} {:>9}   {:>9} {:>9}",
        "", "proved", "median", "reference", "median", "peer", "median", "of peer", "median"
    );
}

/// Measures on one table what the scope takes, and prints that if it is everything. Nothing, if the target can't represent the table.
pub fn compare(
    table: &Table,
    (to, target): (u32, Dialect),
    rounds: usize,
    peers: &[ConvertingPeer],
    scope: Scope,
) -> Result<Option<Measured>, String> {
    let (from, file) = (table.number, &table.file[..]);
    let task = Task::Convert(table.dialect, target);
    let is_taken = |name: &str| scope.takes(task, &table.name, name);
    let title = format!("{} to {}", table.title(), name_of(target));
    let text = match convert_whole(from, to, file) {
        Ok(text) => text,
        Err(report) if report.number == 9 => {
            println!("  {title:27} can't be represented");
            return Ok(None);
        }
        Err(report) => return Err(format!("{title}: {}", report.sentence())),
    };
    let (mut ours, mut theirs) = (vec![0; text.len()], vec![0; text.len()]);
    if !proved_converter(from, to, file, &mut ours)
        .report
        .is_accepted()
        || ours != text
    {
        return Err(format!("{title}: the texts differ"));
    }
    let mut pieces = pieces_between(table.dialect, target);
    pieces.retain(|pieces| is_taken(pieces.name));
    for pieces in &pieces {
        if converted_in_pieces(pieces, (from, to), file) != text {
            return Err(format!("{title}, {}: the texts differ", pieces.name));
        }
    }
    let peer = peer_of(peers, table, target, &text);
    let mut outputs = vec![vec![0; PIECE_ROOM]; pieces.len()];
    let mut written = Vec::with_capacity(convert_room(file.len()));
    let mut contestants = vec![
        contestant(PROVED, file, proved_converter, (from, to), &mut ours),
        contestant(
            "reference implementation",
            file,
            convert,
            (from, to),
            &mut theirs,
        ),
    ];
    contestants.retain(|contestant| is_taken(contestant.name()));
    if let Some((peer, input)) = &peer {
        let work = |input: &[u8]| {
            written.clear();
            (peer.convert)(input, &mut written);
            black_box(&mut written).len()
        };
        contestants.push(Contestant::new(peer.name, input, work).measured_for(file.len()));
    }
    let others = contestants.len();
    for (pieces, out) in pieces.iter().zip(&mut outputs) {
        contestants.push(Contestant::new(pieces.name, file, move |file| {
            in_pieces(pieces, (from, to), file, out, |text| {
                black_box(text);
            })
        }));
    }
    let speeds = in_rounds(&mut contestants, rounds, text.len(), "bytes")
        .map_err(|error| format!("{title}: {error}"))?;
    if scope == Scope::Everything {
        let (whole, pieces) = speeds.split_at(others);
        print_speeds(&title, whole);
        for speed in pieces {
            print_pieces(speed, whole.get(2));
        }
    }
    Ok(Some(Measured {
        task,
        table: table.name.clone(),
        speeds,
    }))
}

/// How a file of one dialect is cut into pieces, to be converted to another.
fn pieces_between(source: Dialect, target: Dialect) -> Vec<&'static Pieces> {
    let by_value = (source, target) == (Dialect::CsvPlus, Dialect::Csvj);
    let more = if by_value { &BY_VALUE[..] } else { &[] };
    LENT.iter().chain(more).collect()
}

/// Converts a file in pieces, each time into the same output, and returns how many bytes were written; none on refusal.
fn in_pieces(
    pieces: &Pieces,
    (from, to): (u32, u32),
    file: &[u8],
    out: &mut [u8],
    mut take: impl FnMut(&[u8]),
) -> usize {
    let mut state = proved_start(from, to);
    let mut written = 0;
    let parts = file.chunks(pieces.size).map(Some).chain([None]);
    for part in parts {
        let answer = match (part, pieces.by_value) {
            (Some(piece), false) => state.piece(piece, out),
            (None, false) => state.end(out),
            (_, true) => {
                let done = match part {
                    Some(piece) => state.piece_by_value(piece, out),
                    None => state.end_by_value(out),
                };
                state = done.next;
                done.answer
            }
        };
        if answer.report.number != 0 {
            return 0;
        }
        take(&out[..answer.length]);
        written += answer.length;
    }
    written
}

fn converted_in_pieces(pieces: &Pieces, pair: (u32, u32), file: &[u8]) -> Vec<u8> {
    let mut text = Vec::new();
    in_pieces(pieces, pair, file, &mut vec![0; PIECE_ROOM], |part| {
        text.extend(part);
    });
    text
}

fn contestant<'a>(
    name: &'static str,
    file: &'a [u8],
    converter: WholeConverter,
    (from, to): (u32, u32),
    room: &'a mut [u8],
) -> Contestant<'a> {
    Contestant::new(name, file, move |file| {
        let written = converter(from, to, file, room).written;
        black_box(&mut *room);
        written
    })
}

/// The peer that writes the same text, with what it is given.
fn peer_of<'a>(
    peers: &'a [ConvertingPeer],
    table: &Table,
    target: Dialect,
    text: &[u8],
) -> Option<(&'a ConvertingPeer, Vec<u8>)> {
    let (source, file) = match table.dialect {
        Dialect::Tdif => (Dialect::CsvPlus, convert_whole(2, 3, &table.file).ok()?),
        dialect => (dialect, table.file.clone()),
    };
    let peer = peers
        .iter()
        .find(|peer| (peer.from, peer.to) == (source, target))?;
    let input = (peer.prepare)(&file);
    let mut written = Vec::new();
    (peer.convert)(&input, &mut written);
    if written != text {
        println!(
            "  {} to {}: {} writes another text, and is not measured",
            table.title(),
            name_of(target),
            peer.name
        );
        return None;
    }
    Some((peer, input))
}

fn print_speeds(title: &str, speeds: &[Speeds]) {
    let (proved, reference) = (&speeds[0], &speeds[1]);
    print!(
        "  {title:27} {:>9.1} {:>9.1}   {:>9.1} {:>9.1}",
        proved.best, proved.median, reference.best, reference.median
    );
    match speeds.get(2) {
        None => println!("   no peer"),
        Some(peer) => println!(
            "   {:>9.1} {:>9.1}   {:>9.3} {:>9.3}   {}",
            peer.best,
            peer.median,
            proved.best / peer.best,
            proved.median / peer.median,
            peer.name
        ),
    }
}

/// A line below that of the whole file.
fn print_pieces(speed: &Speeds, peer: Option<&Speeds>) {
    print!(
        "    {:25} {:>9.1} {:>9.1}   {:>9} {:>9}   {:>9} {:>9}",
        speed.name, speed.best, speed.median, "", "", "", ""
    );
    match peer {
        None => println!(),
        Some(peer) => println!(
            "   {:>9.3} {:>9.3}",
            speed.best / peer.best,
            speed.median / peer.median
        ),
    }
}
