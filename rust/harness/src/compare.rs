//! The proved calls against those of the reference implementation, answer by answer and place by place of what was lent.

mod convert;
mod decode;
mod made_up;
mod pieces;
mod read;
mod rounds;
mod write;

pub use convert::{convert_agrees, convert_in_rooms, convert_random, proved_converter};
pub use decode::{decode_agrees, decode_random};
pub use made_up::{made_up_random, MadeUpCounts};
pub use pieces::{
    output, pieces_random, proved_by_value, proved_lent, proved_start, PieceComparison,
    PieceConverter, Trial, PROVED_PIECES,
};
pub use read::{proved_reader, read_agrees, read_in_rooms, read_random};
pub use rounds::{Calls, Totals, PROVED, ROUND};
pub use write::{proved_writer, write_agrees, write_in_rooms, write_random};

use crate::rooms::Room;
use crate::vectors::{load_folder, Case};
use crate::vectors_folder;
use reference::{Converted, Report};
use std::fmt::Debug;

/// A proved call's report in the reference's terms.
fn report(report: hemakuliwi::raw::Report) -> Report {
    Report {
        number: report.number,
        record: report.record_number,
        column: report.column,
        offset: report.offset,
    }
}

/// The proved converter's or writer's answer in the reference's terms.
fn converted(answer: hemakuliwi::raw::TextAnswer) -> Converted {
    Converted {
        report: report(answer.report),
        written: answer.length,
    }
}

/// What a comparison found, where it may not differ: a test that panics otherwise reports the difference.
pub fn agreed<T>(outcome: Result<T, String>) -> T {
    outcome.unwrap_or_else(|difference| panic!("{difference}"))
}

/// Compares a proved call with its vectors, of which there have to be at least this many. `answer` returns how a case is answered, and
/// nothing for another call's case. It panics where a case is not answered as it says.
pub fn vectors_agree(
    call: &str,
    least: usize,
    mut answer: impl FnMut(&Case) -> Option<Result<(), String>>,
) {
    let cases = load_folder(&vectors_folder()).expect("the vectors are of their format");
    let mut ran = 0;
    for case in &cases {
        let Some(outcome) = answer(case) else {
            continue;
        };
        agreed(
            outcome.map_err(|difference| format!("{} ({}): {difference}", case.place, case.name)),
        );
        ran += 1;
    }
    eprintln!("{call}: {ran} vectors agree");
    assert!(ran >= least);
}

/// Makes a call and the reference's, each with a room of this length, and compares the answers, the whole rooms, and what lies on
/// either side of them.
fn agree<A: PartialEq + Debug>(
    what: impl Fn() -> String,
    room: usize,
    call: impl FnOnce(&mut [u8]) -> A,
    reference: impl FnOnce(&mut [u8]) -> A,
) -> Result<A, String> {
    let (ours, answer) = Room::lend(room, call);
    let (theirs, wanted) = Room::lend(room, reference);
    if answer != wanted || ours != theirs {
        return Err(format!(
            "{}\nwith {room} bytes of room\nanswered      {answer:?}\nthe reference {wanted:?}\nleft {:?}",
            what(),
            ours.difference(&theirs)
        ));
    }
    Ok(answer)
}

/// Lengths for the room of a text: more than enough, as long as the text, one byte less, and none.
fn room_lengths(text: usize) -> Vec<usize> {
    let mut lengths = vec![text + 9, text];
    lengths.extend(text.checked_sub(1));
    lengths.push(0);
    lengths.dedup();
    lengths
}

/// Bytes in hexadecimal, of very many only the first.
fn hex(bytes: &[u8]) -> String {
    const MOST: usize = 100_000;
    let shown = &bytes[..bytes.len().min(MOST)];
    let digits: String = shown.iter().map(|byte| format!("{byte:02x}")).collect();
    let more = if bytes.len() > MOST { "..." } else { "" };
    format!("{digits}{more} ({} bytes)", bytes.len())
}
