//! Wrong piece converters against the comparison that the proved one has to pass: each has to be noticed.

use harness::compare::{made_up_random, pieces_random, proved_lent, PieceConverter};
use harness::ledger::Call;
use hemakuliwi::raw::{Converter, AT_OFFSET, AT_RECORDS};
use reference::limits::{PIECE_BYTES, PIECE_ROOM};
use reference::{Converted, Dialect, Report};

/// Where the state has that an end was accepted, and the report of a fault.
const ENDED: usize = 9;
const FAULT: usize = 10;

fn refusal(number: usize) -> Converted {
    Converted {
        report: Report {
            number,
            ..Report::ACCEPTED
        },
        written: 0,
    }
}

/// The call with another piece in place of its own.
fn with_piece(state: &mut Converter, piece: &[u8], out: &mut [u8]) -> Converted {
    proved_lent(state, &Call::Piece(piece, out.len()), out)
}

/// The call with as much output as it requires, of which as much is passed on as there is room for.
fn with_room(state: &mut Converter, call: &Call, out: &mut [u8]) -> Converted {
    let mut room = vec![0; PIECE_ROOM.max(out.len())];
    let made = proved_lent(state, call, &mut room);
    let length = made.written.min(out.len());
    out[..length].copy_from_slice(&room[..length]);
    made
}

/// Whether the sizes of a call are refused.
fn is_ill_sized(call: &Call) -> bool {
    match *call {
        Call::Piece(piece, room) => piece.len() > PIECE_BYTES || room < PIECE_ROOM,
        Call::End(room) => room < PIECE_ROOM,
    }
}

/// Whether a call is the first that takes bytes or ends.
fn is_first(state: &Converter) -> bool {
    state.offset() == 0
}

const WRONG_CONVERTERS: [(&str, PieceConverter); 30] = [
    (
        "an LF with which a piece begins is dropped",
        |state, call, out| match *call {
            Call::Piece([b'\n', rest @ ..], _) => with_piece(state, rest, out),
            _ => proved_lent(state, call, out),
        },
    ),
    (
        "an LF with which a TDIF piece begins is an empty line",
        |state, call, out| match *call {
            Call::Piece(piece @ [b'\n', ..], _) if state.source == 2 && !is_first(state) => {
                with_piece(state, &[b"\n", &piece[..piece.len() - 1]].concat(), out)
            }
            _ => proved_lent(state, call, out),
        },
    ),
    (
        "a CR at the end of a piece ends a record of CSVJ and CSV+",
        |state, call, out| match *call {
            Call::Piece(piece @ [.., b'\r'], _) if state.source != 2 => {
                with_piece(state, &[piece, b"\n"].concat(), out)
            }
            _ => proved_lent(state, call, out),
        },
    ),
    ("a text is written twice", |state, call, out| {
        let mut made = proved_lent(state, call, out);
        if (1..20_000).contains(&made.written) {
            out.copy_within(..made.written, made.written);
            made.written *= 2;
        }
        made
    }),
    (
        "of several records in a piece only the first is written",
        |state, call, out| {
            let mut text = vec![0; out.len()];
            let mut made = proved_lent(state, call, &mut text);
            // Records of the random files seldom have an LF inside.
            let line = text[..made.written].iter().position(|byte| *byte == b'\n');
            made.written = line.map_or(0, |end| end + 1);
            out[..made.written].copy_from_slice(&text[..made.written]);
            made
        },
    ),
    ("a fault is forgotten", |state, call, out| {
        let made = proved_lent(state, call, out);
        state.numbers[FAULT..].fill(0);
        made
    }),
    (
        "a fault is reported once, and then that the call is wrong",
        |state, call, out| {
            let was_met = state.numbers[FAULT] > 0;
            match proved_lent(state, call, out) {
                made if was_met && made.report.number < 10 => refusal(11),
                made => made,
            }
        },
    ),
    (
        "a fault is reported again without its place",
        |state, call, out| {
            let was_met = state.numbers[FAULT] > 0;
            let mut made = proved_lent(state, call, out);
            if was_met {
                made.report.offset = 0;
            }
            made
        },
    ),
    (
        "a piece that meets a fault writes nothing",
        |state, call, out| {
            let mut next = state.clone();
            let made = proved_lent(&mut next, call, &mut vec![0; out.len()]);
            match made.report.number {
                1..=9 => {
                    *state = next;
                    Converted { written: 0, ..made }
                }
                _ => proved_lent(state, call, out),
            }
        },
    ),
    (
        "a piece that finds a fault returns no length",
        |state, call, out| {
            let made = proved_lent(state, call, out);
            match made.report.is_accepted() {
                true => made,
                false => Converted { written: 0, ..made },
            }
        },
    ),
    (
        "an end that finds a fault leaves the current record in the output",
        |state, call, out| {
            let made = proved_lent(state, call, out);
            if let (Call::End(_), 4) = (call, made.report.number) {
                out[..9].copy_from_slice(&state.bytes[..9]);
            }
            made
        },
    ),
    ("a length is one too long", |state, call, out| {
        let mut made = proved_lent(state, call, out);
        made.written += usize::from(made.written > 0);
        made
    }),
    ("a byte 0 ends the text", |state, call, out| {
        let made = proved_lent(state, call, out);
        if let (0, Some(byte)) = (made.report.number, out.get_mut(made.written)) {
            *byte = 0;
        }
        made
    }),
    (
        "a call that is refused writes to the output",
        |state, call, out| {
            let made = proved_lent(state, call, out);
            if let (10 | 11, Some(byte)) = (made.report.number, out.last_mut()) {
                *byte = 0;
            }
            made
        },
    ),
    (
        "the bytes of a piece that is refused are counted",
        |state, call, out| {
            let made = proved_lent(state, call, out);
            if let (Call::Piece(piece, _), 10) = (call, made.report.number) {
                state.numbers[AT_OFFSET] += piece.len();
            }
            made
        },
    ),
    (
        "a call that is refused is remembered",
        |state, call, out| {
            let made = proved_lent(state, call, out);
            if made.report.number == 10 {
                state.numbers[FAULT] = 10;
            }
            made
        },
    ),
    (
        "a piece of 4,097 bytes is taken",
        |state, call, out| match *call {
            Call::Piece(piece, _) if piece.len() == PIECE_BYTES + 1 => {
                let first = with_piece(state, &piece[..PIECE_BYTES], out);
                match first.report.is_accepted() {
                    true => with_piece(state, &piece[PIECE_BYTES..], out),
                    false => first,
                }
            }
            _ => proved_lent(state, call, out),
        },
    ),
    (
        "a piece of 4,096 bytes is too long",
        |state, call, out| match *call {
            Call::Piece(piece, _) if piece.len() == PIECE_BYTES && state.numbers[FAULT] == 0 => {
                match proved_lent(&mut state.clone(), call, &mut vec![0; out.len()]) {
                    made if made.report.number < 10 => refusal(10),
                    made => made,
                }
            }
            _ => proved_lent(state, call, out),
        },
    ),
    ("49,151 bytes are room enough", |state, call, out| {
        match out.len() == PIECE_ROOM - 1 {
            true => with_room(state, call, out),
            false => proved_lent(state, call, out),
        }
    }),
    ("an end needs no room", |state, call, out| match call {
        Call::End(_) => with_room(state, call, out),
        Call::Piece(..) => proved_lent(state, call, out),
    }),
    ("an end may come again", |state, call, out| {
        let made = proved_lent(state, call, out);
        state.numbers[ENDED] = 0;
        made
    }),
    (
        "sizes are checked before the dialects",
        |state, call, out| {
            let is_unknown = Dialect::from_number(state.source).is_none();
            match is_unknown && is_ill_sized(call) {
                true => refusal(10),
                false => proved_lent(state, call, out),
            }
        },
    ),
    (
        "sizes are checked before an earlier fault",
        |state, call, out| match state.numbers[FAULT] > 0 && is_ill_sized(call) {
            true => refusal(10),
            false => proved_lent(state, call, out),
        },
    ),
    (
        "sizes are checked before an earlier end",
        |state, call, out| match state.numbers[ENDED] > 0 && is_ill_sized(call) {
            true => refusal(10),
            false => proved_lent(state, call, out),
        },
    ),
    (
        "the low byte of the number names the dialect",
        |state, call, out| {
            let target = state.target;
            state.target &= 0xFF;
            let made = proved_lent(state, call, out);
            state.target = target;
            made
        },
    ),
    (
        "after its first piece it converts no more",
        |state, call, out| match *call {
            Call::Piece(..) if !is_first(state) && !is_ill_sized(call) => {
                let mut next = state.clone();
                let made = proved_lent(&mut next, call, &mut vec![0; out.len()]);
                match made.report.is_accepted() {
                    true => Converted {
                        report: Report::ACCEPTED,
                        written: 0,
                    },
                    false => proved_lent(state, call, out),
                }
            }
            _ => proved_lent(state, call, out),
        },
    ),
    ("offsets count from the piece", |state, call, out| {
        let (before, was_met) = (state.offset(), state.numbers[FAULT] > 0);
        let mut made = proved_lent(state, call, out);
        if let (false, 2 | 3) = (was_met, made.report.number) {
            made.report.offset -= before;
            state.numbers[FAULT + 3] = made.report.offset;
        }
        made
    }),
    ("records count from the piece", |state, call, out| {
        let (before, was_met) = (state.records(), state.numbers[FAULT] > 0);
        let mut made = proved_lent(state, call, out);
        if let (false, 1..=9) = (was_met, made.report.number) {
            made.report.record -= before;
            state.numbers[FAULT + 1] = made.report.record;
        }
        made
    }),
    ("the names of the header are lost", |state, call, out| {
        let made = proved_lent(state, call, out);
        if state.records() > 1 {
            state.names.fill(b'x');
        }
        made
    }),
    (
        "a complete record is counted when the next one begins",
        |state, call, out| {
            let made = proved_lent(state, call, out);
            if let (Call::Piece([.., b'\n'], _), 0) = (call, made.report.number) {
                state.numbers[AT_RECORDS] = state.records().saturating_sub(1);
            }
            made
        },
    ),
];

/// Each wrong one differs in this comparison on this many samples, and the proved one does not.
fn are_noticed<T>(
    wrong_ones: &[(&str, PieceConverter)],
    compare: fn(&[PieceConverter], u64, usize) -> Result<T, String>,
    samples: usize,
) {
    for (wrong, converter) in wrong_ones {
        assert!(compare(&[*converter], 1, samples).is_err(), "{wrong}");
    }
    assert!(compare(&[proved_lent], 1, samples).is_ok());
}

#[test]
fn wrong_converters_are_noticed() {
    are_noticed(&WRONG_CONVERTERS, pieces_random, 3_000);
}

/// Wrong ones that show over states which no calls made.
const WRONG_CHECKS: [(&str, PieceConverter); 5] = [
    ("a fault number above 9 is none", |state, call, out| {
        if state.numbers[FAULT] > 9 {
            state.numbers[FAULT] = 0;
        }
        proved_lent(state, call, out)
    }),
    (
        "only 1 means that an end was accepted",
        |state, call, out| {
            if state.numbers[ENDED] > 1 {
                state.numbers[ENDED] = 0;
            }
            proved_lent(state, call, out)
        },
    ),
    (
        "a refused call puts a state that no calls made in order",
        |state, call, out| {
            let made = proved_lent(state, call, out);
            state
                .ends
                .iter_mut()
                .for_each(|end| *end = PIECE_BYTES.min(*end));
            made
        },
    ),
    (
        "a state that no calls made begins anew with its target's dialect",
        |state, call, out| {
            let made = proved_lent(state, call, out);
            if made.report.number == 11 {
                state.source = state.target;
            }
            made
        },
    ),
    (
        "a length may be any for such a state",
        |state, call, out| {
            let mut made = proved_lent(state, call, out);
            made.written += usize::from(made.report.number == 11) * usize::MAX;
            made
        },
    ),
];

#[test]
fn wrong_checks_are_noticed() {
    are_noticed(&WRONG_CHECKS, made_up_random, 5_000);
}
