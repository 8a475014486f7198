//! Calls of the piece converter over states that no calls made. The rules leave open what they answer, but not that they end, stay inside
//! what they were lent and make the four checks (§15.9).

use super::hex;
use super::pieces::{output, room_of, show, PieceConverter, Trial};
use crate::calls::{file_for_calls, large_room, small_room};
use crate::generate::mutate;
use crate::ledger::{Answer, Call};
use crate::rng::Rng;
use crate::rooms::Output;
use crate::DIALECTS;
use hemakuliwi::raw::Converter;
use reference::limits::{COLUMNS, FILE_BYTES, PIECE_BYTES, PIECE_ROOM, RECORD_BYTES};
use reference::{Converted, Dialect, Report};
use std::ops::AddAssign;

/// How calls over states that no calls made have ended.
#[derive(Clone, Copy, Debug, Default, PartialEq, Eq)]
pub struct MadeUpCounts {
    /// Refused by one of the four checks.
    pub checked: usize,
    /// Accepted.
    pub accepted: usize,
    /// Met a fault of the file.
    pub faults: usize,
    /// Refused as no state of a conversion.
    pub nowhere: usize,
}

impl AddAssign for MadeUpCounts {
    fn add_assign(&mut self, other: Self) {
        self.checked += other.checked;
        self.accepted += other.accepted;
        self.faults += other.faults;
        self.nowhere += other.nowhere;
    }
}

/// Makes calls over this many states that no calls made: each call has to end, to stay inside what it was lent and to make the four checks,
/// and all converters have to do the same.
pub fn made_up_random(
    converters: &[PieceConverter],
    seed: u64,
    count: usize,
) -> Result<MadeUpCounts, String> {
    let mut rng = Rng::new(seed);
    let mut counts = MadeUpCounts::default();
    let mut output = output();
    let mut trials: Vec<Trial> = converters
        .iter()
        .map(|converter| Trial::new(*converter, 0, 0))
        .collect();
    for _ in 0..count {
        let (number, dialect) = rng.pick(&DIALECTS);
        let mut file = file_for_calls(&mut rng, number, dialect);
        file.truncate(2 * PIECE_BYTES);
        let taken = rng.between(0, file.len().min(PIECE_BYTES));
        let (before, after) = file.split_at(taken);
        let state = made_up(&mut rng, number, before);
        for trial in &mut trials {
            trial.restart(&state);
        }
        let mut calls = Vec::new();
        for _ in 0..rng.between(1, 3) {
            let call = any_call(&mut rng, after);
            calls.push(call.clone());
            any_call_agrees(&mut trials, &mut output, &call, &mut counts).map_err(
                |difference| {
                    let calls = show(state.source, state.target, &calls);
                    format!("{calls}\nfrom {}\n{difference}", show_state(&state))
                },
            )?;
        }
    }
    output.is_left()?;
    Ok(counts)
}

/// A state as a person reads it, with all that it takes to make it again.
fn show_state(state: &Converter) -> String {
    format!(
        "numbers {:?}\nends {:?}\nname_ends {:?}\nbytes {}\nnames {}",
        state.numbers,
        state.ends,
        state.name_ends,
        hex(&state.bytes),
        hex(&state.names)
    )
}

/// One call over one state that no calls made.
fn any_call_agrees(
    trials: &mut [Trial],
    output: &mut Output,
    call: &Call,
    counts: &mut MadeUpCounts,
) -> Result<(), String> {
    let mut first: Option<(Converted, Vec<u8>, Converter)> = None;
    for trial in trials {
        let before = trial.state().clone();
        let (made, written) = match checked(&before, call) {
            Some(report) => {
                let made = trial.make(call, output)?;
                let silent = Answer {
                    report,
                    text: Vec::new(),
                };
                if made != silent || before != *trial.state() {
                    return Err(format!(
                        "it answered {made:?} and not {report:?}, or has changed the state"
                    ));
                }
                counts.checked += 1;
                (Converted { report, written: 0 }, Vec::new())
            }
            None => {
                let (made, written) = trial.make_any(call, output)?;
                match made.report.number {
                    0 => counts.accepted += 1,
                    1..=9 => counts.faults += 1,
                    11 => counts.nowhere += 1,
                    _ => return Err(format!("it answered {made:?}")),
                }
                (made, written)
            }
        };
        let state = trial.state();
        if made.written > room_of(call) {
            return Err(format!("it answered {made:?}"));
        }
        if (state.source, state.target) != (before.source, before.target) {
            return Err("the state has other dialects".to_string());
        }
        match &first {
            None => first = Some((made, written, state.clone())),
            Some((answer, left, next)) => {
                if (answer, left, next) != (&made, &written, state) {
                    return Err("two forms differ".to_string());
                }
            }
        }
    }
    Ok(())
}

/// The places of a state's numbers that the checks go by.
const ENDED: usize = 9;
const FAULT: usize = 10;

/// What the four checks answer, by the numbers of a state.
fn checked(state: &Converter, call: &Call) -> Option<Report> {
    let refusal = |number| Report {
        number,
        ..Report::ACCEPTED
    };
    let is_known = |number| Dialect::from_number(number).is_some();
    let numbers = &state.numbers;
    let is_long = matches!(*call, Call::Piece(piece, _) if piece.len() > PIECE_BYTES);
    if !is_known(state.source) || !is_known(state.target) {
        Some(refusal(11))
    } else if numbers[FAULT] > 0 {
        Some(Report {
            number: numbers[FAULT],
            record: numbers[FAULT + 1],
            column: numbers[FAULT + 2],
            offset: numbers[FAULT + 3],
        })
    } else if numbers[ENDED] > 0 {
        Some(refusal(11))
    } else if is_long || room_of(call) < PIECE_ROOM {
        Some(refusal(10))
    } else {
        None
    }
}

/// Any call, most often one that no check refuses.
fn any_call<'a>(rng: &mut Rng, rest: &'a [u8]) -> Call<'a> {
    let room = match rng.percent(5) {
        true => small_room(rng),
        false => large_room(rng),
    };
    match rng.percent(30) {
        true => Call::End(room),
        false => {
            let longest = match rng.percent(3) {
                true => rest.len(),
                false => rest.len().min(PIECE_BYTES),
            };
            Call::Piece(&rest[..rng.between(0, longest)], room)
        }
    }
}

/// A state that is any bytes, or any numbers within the limits, or that of a conversion which took these bytes with something changed.
fn made_up(rng: &mut Rng, number: u32, bytes: &[u8]) -> Converter {
    let target = rng.pick(&[1, 2, 3]);
    match rng.below(100) {
        0..=4 => any_state(rng),
        5..=34 => likely_state(rng, number, target, bytes),
        _ => {
            let mut state = Converter::new(number, target);
            state.piece(bytes, &mut vec![0; PIECE_ROOM]);
            for _ in 0..rng.between(1, 4) {
                change(rng, &mut state);
            }
            state
        }
    }
}

fn any_state(rng: &mut Rng) -> Converter {
    let mut state = Converter::new(0, 0);
    if rng.percent(50) {
        (state.source, state.target) = (rng.bits() as u32, rng.bits() as u32);
    } else {
        (state.source, state.target) = (rng.pick(&[1, 2, 3]), rng.pick(&[1, 2, 3]));
    }
    state.numbers.fill_with(|| rng.bits() as usize);
    state.ends.fill_with(|| rng.bits() as usize);
    state.name_ends.fill_with(|| rng.bits() as usize);
    state.bytes.fill_with(|| rng.bits() as u8);
    state.names.fill_with(|| rng.bits() as u8);
    state
}

/// A number up to a limit, most often small or at the limit.
fn up_to(rng: &mut Rng, limit: usize) -> usize {
    match rng.below(8) {
        0 => 0,
        1 => limit,
        2 => limit + 1,
        3 => limit - 1,
        4 => rng.between(0, limit),
        _ => rng.between(0, limit.min(10)),
    }
}

/// A number of a place of `numbers`, in which 0 to 8 say where the conversion is.
fn likely_number(rng: &mut Rng, place: usize) -> usize {
    match place {
        0 => rng.between(0, 120),
        1 | 2 | 8 => up_to(rng, FILE_BYTES),
        3 | 4 => up_to(rng, RECORD_BYTES),
        5 | 6 => up_to(rng, COLUMNS),
        7 => up_to(rng, 5),
        _ => 0,
    }
}

fn likely_state(rng: &mut Rng, source: u32, target: u32, bytes: &[u8]) -> Converter {
    let mut state = Converter::new(source, target);
    for place in 0..ENDED {
        state.numbers[place] = likely_number(rng, place);
    }
    let mut end = 0;
    for place in 0..COLUMNS {
        end = RECORD_BYTES.min(end + rng.below(6));
        (state.ends[place], state.name_ends[place]) = (end, end);
    }
    let length = bytes.len().min(RECORD_BYTES);
    state.bytes[..length].copy_from_slice(&bytes[..length]);
    state.names[..length].copy_from_slice(&bytes[..length]);
    // So that the numbers fit more often.
    if rng.percent(70) {
        state.numbers[3] = state.numbers[3].min(RECORD_BYTES);
        state.numbers[4] = state.numbers[4].min(state.numbers[3]);
        state.numbers[1] = rng.between(10_000, FILE_BYTES);
        state.numbers[8] = state.numbers[8].min(FILE_BYTES);
        let fill = state.numbers[4];
        for end in state.ends.iter_mut().chain(&mut state.name_ends) {
            *end = fill.min(*end);
        }
    }
    state
}

/// Changes one thing in a state.
fn change(rng: &mut Rng, state: &mut Converter) {
    match rng.below(10) {
        0..=3 => {
            let place = rng.below(ENDED);
            state.numbers[place] = match rng.below(4) {
                0 => state.numbers[place].wrapping_add(1),
                1 => state.numbers[place].wrapping_sub(1),
                2 => likely_number(rng, place),
                _ => rng.pick(&[0, 1, usize::MAX, 1 << 32, 1 << 63]),
            };
        }
        4 => {
            let place = rng.between(ENDED, FAULT + 3);
            state.numbers[place] = rng.pick(&[0, 1, 9, 77, usize::MAX]);
        }
        5 => {
            let ends = rng.pick(&[0, 1]);
            let end = rng.pick(&[0, 1, RECORD_BYTES, RECORD_BYTES + 1, usize::MAX]);
            let place = rng.below(5);
            match ends {
                0 => state.ends[place] = end,
                _ => state.name_ends[place] = end,
            }
        }
        6 | 7 => {
            let mut bytes = state.bytes.to_vec();
            (0..3).for_each(|_| mutate(rng, &mut bytes));
            bytes.resize(RECORD_BYTES, 0);
            state.bytes.copy_from_slice(&bytes);
        }
        8 => {
            let mut names = state.names.to_vec();
            (0..3).for_each(|_| mutate(rng, &mut names));
            names.resize(RECORD_BYTES, 0);
            state.names.copy_from_slice(&names);
        }
        _ => match rng.percent(50) {
            true => state.source = rng.pick(&[0, 1, 2, 3, 4, 257]),
            false => state.target = rng.pick(&[0, 1, 2, 3, 4, 257]),
        },
    }
}
