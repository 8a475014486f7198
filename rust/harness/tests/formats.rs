//! `docs/FORMATS.md`: every example is answered by the proved calls as it says, every fault has its examples, and each call reports the
//! faults that the table of calls and faults says.

use harness::compare::{
    convert_random, decode_agrees, decode_random, output, proved_converter, proved_reader,
    proved_start, proved_writer, read_random, write_random, Trial, PROVED_PIECES,
};
use harness::counts::Counts;
use harness::examples::{examples, Example};
use harness::generate::sample;
use harness::lists::SHORT_FILE;
use harness::rng::Rng;
use harness::runner::{self, check_convert, check_pieces, check_read, check_write};
use harness::vectors::{Bytes, Call, Case, Fault};
use harness::{repository, DIALECTS};
use reference::limits::{PIECE_BYTES, PIECE_ROOM};
use std::collections::BTreeSet;
use std::fs;

const NAME: &str = "docs/FORMATS.md";

fn document() -> String {
    fs::read_to_string(repository().join(NAME)).unwrap_or_else(|error| panic!("{NAME}: {error}"))
}

// ---- examples

fn formats() -> Vec<Example> {
    examples(NAME, &document()).unwrap_or_else(|error| panic!("{error}"))
}

/// Makes the proved calls of a case, which have to answer and to leave all as it says.
fn check(case: &Case) -> Result<(), String> {
    let (_, faults) = met(&case.call);
    if faults
        .iter()
        .any(|fault| fault.number >= 10 && has_place(fault))
    {
        return Err("the faults 10 to 12 have no place".to_string());
    }
    match &case.call {
        Call::Read {
            dialect,
            file,
            room,
            expected,
        } => check_read(proved_reader, *dialect, &file.to_vec(), *room, expected),
        Call::Convert {
            source,
            target,
            file,
            room,
            expected,
        } => check_convert(
            proved_converter,
            *source,
            *target,
            &file.to_vec(),
            *room,
            expected,
        ),
        Call::Write {
            target,
            table,
            room,
            expected,
        } => check_write(proved_writer, *target, table, *room, expected),
        Call::Decode {
            dialect, raw, room, ..
        } => {
            // The reference implementation is compared with the case, and the proved decoder with the reference implementation.
            runner::run(std::slice::from_ref(case))?;
            let raw = raw.to_vec();
            decode_agrees(*dialect, &raw, room.unwrap_or(raw.len())).map(|_| ())
        }
        Call::Pieces {
            source,
            target,
            calls,
        } => {
            let mut output = output();
            PROVED_PIECES.iter().try_for_each(|converter| {
                let mut trial = Trial::new(*converter, *source, *target);
                check_pieces(calls, |call| trial.make(call, &mut output))
            })
        }
    }
}

#[test]
fn every_example_is_answered_as_it_says() {
    let examples = formats();
    let problems: Vec<String> = examples
        .iter()
        .filter_map(|Example { case, .. }| {
            let difference = check(case).err()?;
            Some(format!("{} ({}): {difference}", case.place, case.name))
        })
        .collect();
    assert!(problems.is_empty(), "\n{}", problems.join("\n"));
    eprintln!("{NAME}: {} answers agree", examples.len());
}

/// A case with another answer, if it is a whole file's. Those of long files take long.
fn falsified(mut case: Case) -> Option<Case> {
    let moved = |fault: &mut Fault| fault.offset += 1;
    match &mut case.call {
        Call::Read { file, .. } | Call::Convert { file, .. } if file.len() > SHORT_FILE => {
            return None;
        }
        Call::Read { expected, .. } => match expected {
            Ok(shape) => shape.records += 1,
            Err(fault) => moved(fault),
        },
        Call::Convert { expected, .. } => match expected {
            Ok(text) => *text = Bytes::from(&[&text.to_vec()[..], b"\n"].concat()[..]),
            Err(fault) => moved(fault),
        },
        _ => return None,
    }
    Some(case)
}

#[test]
fn a_wrong_example_is_noticed() {
    let wrong: Vec<Case> = formats()
        .into_iter()
        .filter_map(|example| falsified(example.case))
        .collect();
    assert!(wrong.len() > 50);
    for case in wrong {
        assert!(check(&case).is_err(), "{} ({})", case.place, case.name);
    }
}

/// The dialect of a case's file or table, and the faults that it meets.
fn met(call: &Call) -> (u32, Vec<Fault>) {
    fn refused<T>(expected: &Result<T, Fault>) -> Vec<Fault> {
        expected.as_ref().err().copied().into_iter().collect()
    }
    match call {
        Call::Read {
            dialect, expected, ..
        } => (*dialect, refused(expected)),
        Call::Decode {
            dialect, expected, ..
        } => (*dialect, refused(expected)),
        Call::Convert {
            source, expected, ..
        } => (*source, refused(expected)),
        Call::Write {
            target, expected, ..
        } => (*target, refused(expected)),
        Call::Pieces { source, calls, .. } => {
            let faults = calls.iter().filter_map(|call| call.fault);
            (*source, faults.collect())
        }
    }
}

fn has_place(fault: &Fault) -> bool {
    (fault.record, fault.column, fault.offset) != (0, 0, 0)
}

/// The number in a heading `Fault N: ..`.
fn fault_of(heading: &str) -> Option<usize> {
    let (number, _) = heading.strip_prefix("Fault ")?.split_once(':')?;
    number.parse().ok()
}

#[test]
fn every_fault_has_its_examples() {
    // A heading for each limit of fault 8 and for each reason of fault 9, and one for each other fault.
    let headings = |number| match number {
        8 => 3,
        9 => 6,
        _ => 1,
    };
    let document = document();
    let lines = document
        .lines()
        .filter_map(|line| line.strip_prefix("### "));
    let named: Vec<(usize, &str)> = lines
        .filter_map(|heading| Some((fault_of(heading)?, heading)))
        .collect();
    let examples = formats();
    for number in 1..=12 {
        let own: Vec<&str> = named
            .iter()
            .filter(|(fault, _)| *fault == number)
            .map(|(_, heading)| *heading)
            .collect();
        assert_eq!(own.len(), headings(number), "fault {number}");
        let mut dialects = BTreeSet::new();
        for heading in own {
            let below = examples.iter().filter(|one| one.heading == heading);
            let found = below.map(|one| met(&one.case.call));
            let own = |faults: &[Fault]| faults.iter().any(|fault| fault.number == number);
            let sources: BTreeSet<u32> = found
                .filter(|(_, faults)| own(faults))
                .map(|(dialect, _)| dialect)
                .collect();
            assert!(!sources.is_empty(), "'{heading}' has no example");
            dialects.extend(sources);
        }
        // CSV+ has text only, so that no header cell can be of another kind.
        let can_arise = (1..=3).filter(|dialect| (*dialect, number) != (3, 7));
        let missing: Vec<u32> = can_arise
            .filter(|dialect| !dialects.contains(dialect))
            .collect();
        assert!(
            missing.is_empty(),
            "fault {number} has no example in {missing:?}"
        );
    }
}

// ---- which call reports which fault

/// A dialect and the number of a fault.
type Told = BTreeSet<(u32, usize)>;

/// What the row of a call says, in the table of calls and faults: `x` for every dialect, `CSV+` for this one.
fn row(call: &str) -> Told {
    let document = document();
    let begin = format!("| {call} |");
    let line = document.lines().find_map(|line| line.strip_prefix(&begin));
    let cells = line.unwrap_or_else(|| panic!("no row '{call}'")).split('|');
    let mut told = Told::new();
    for (number, cell) in (1..=12)
        .zip(cells)
        .filter(|(_, cell)| !cell.trim().is_empty())
    {
        let from = if cell.contains("CSV+") { 3 } else { 1 };
        told.extend((from..=3).map(|dialect| (dialect, number)));
    }
    told
}

/// Such a row of a call that reads a file: CSV+ has text only, so that no header cell can be of another kind.
fn file_row(call: &str) -> Told {
    let mut told = row(call);
    told.remove(&(3, 7));
    told
}

fn faults_in(counts: &[Counts]) -> Told {
    let all = (1..=3).flat_map(|dialect| (1..=12).map(move |number| (dialect, number)));
    all.filter(|&(dialect, number)| counts.iter().any(|counts| counts.of(dialect, number) > 0))
        .collect()
}

#[test]
fn whole_calls_report_the_faults_of_their_rows() {
    const COUNT: usize = 5_000;
    let read = read_random(proved_reader, 1, COUNT).unwrap();
    assert_eq!(faults_in(&[read]), file_row("read a file"));
    let decoded = decode_random(1, COUNT).unwrap();
    assert_eq!(faults_in(&[decoded]), row("decode a cell"));
    let converted = convert_random(proved_converter, 1, COUNT).unwrap();
    assert_eq!(faults_in(&converted), file_row("convert a file"));
    let written = write_random(proved_writer, 1, COUNT).unwrap();
    assert_eq!(faults_in(&[written]), row("write a table"));
}

/// Hands a file over in two pieces or more, some with a number or a room that is refused. The first fault, and whether the end met it.
fn met_in_pieces(rng: &mut Rng, source: u32, file: &[u8]) -> Option<(bool, usize)> {
    let target = if rng.percent(2) {
        4
    } else {
        rng.pick(&[1, 2, 3])
    };
    let mut state = proved_start(source, target);
    let room = |rng: &mut Rng| PIECE_ROOM - usize::from(rng.percent(2));
    let size = rng.between(1, PIECE_BYTES);
    for piece in file.chunks(size) {
        let number = state.piece(piece, &mut vec![0; room(rng)]).report.number;
        if number != 0 {
            return Some((false, number));
        }
    }
    let number = state.end(&mut vec![0; room(rng)]).report.number;
    (number != 0).then_some((true, number))
}

#[test]
fn calls_of_a_converter_report_the_faults_of_their_rows() {
    const FILES: usize = 40_000;
    let mut rng = Rng::new(1);
    let (mut by_piece, mut by_end) = (Told::new(), Told::new());
    for _ in 0..FILES {
        let (source, dialect) = rng.pick(&DIALECTS);
        let file = sample(&mut rng, dialect).file;
        if let Some((is_end, number)) = met_in_pieces(&mut rng, source, &file) {
            let met = if is_end { &mut by_end } else { &mut by_piece };
            met.insert((source, number));
        }
    }
    assert_eq!(by_piece, file_row("take a piece of a file"));
    assert_eq!(by_end, file_row("end a file in pieces"));
}
