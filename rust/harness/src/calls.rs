//! Random lists of piece and end calls, and files that are long enough for them.

use crate::generate::sample;
use crate::ledger::Call;
use crate::rng::Rng;
use crate::whole::read_whole;
use reference::limits::{PIECE_BYTES, PIECE_ROOM};
use reference::Dialect;

/// A piece that is too long, of bytes that would show if they were taken.
const TOO_LONG: &[u8] = &[b'\n'; PIECE_BYTES + 1];

/// How long a file is that has many pieces of the greatest size.
const LONG_FILE: usize = 3 * PIECE_BYTES;

/// A random file of the dialect, now and then one that is long.
pub fn file_for_calls(rng: &mut Rng, number: u32, dialect: Dialect) -> Vec<u8> {
    let mut file = sample(rng, dialect).file;
    if rng.percent(4) {
        if let Some(header) = header_length(number, &file).filter(|length| *length < file.len()) {
            let wanted = rng.between(PIECE_BYTES, LONG_FILE);
            let times = wanted.saturating_sub(file.len()) / (file.len() - header);
            let data = file[header..].repeat(times);
            drop(file.splice(header..header, data));
        }
    }
    file
}

/// How long the header of a file is with its ending: as long as the shortest file that ends with an ending and is accepted.
pub fn header_length(dialect: u32, file: &[u8]) -> Option<usize> {
    let cr_ends = Dialect::from_number(dialect) == Some(Dialect::Tdif);
    let may_end = |byte| byte == b'\n' || (cr_ends && byte == b'\r');
    let places = (1..=file.len()).filter(|length| may_end(file[length - 1]));
    // A record has no more line breaks than bytes.
    let mut tried = places.take(2 * PIECE_BYTES);
    tried.find(|length| read_whole(dialect, &file[..*length]).is_ok())
}

/// The file in pieces and its end, with calls among and after them that have to be refused.
pub fn random_calls<'a>(rng: &mut Rng, file: &'a [u8]) -> Vec<Call<'a>> {
    let most = match file.len() {
        0..=500 => rng.pick(&[1, 3, 10, 500]),
        _ => rng.pick(&[PIECE_BYTES, PIECE_BYTES, 1_000]),
    };
    let mut calls = Vec::new();
    let mut rest = file;
    while !rest.is_empty() {
        match rng.below(100) {
            0..=4 => calls.push(Call::Piece(rest.get(..1).unwrap_or(rest), small_room(rng))),
            5 => calls.push(Call::Piece(TOO_LONG, PIECE_ROOM)),
            6 => calls.push(Call::Piece(too_long(rest), large_room(rng))),
            7..=8 => calls.push(Call::End(small_room(rng))),
            9 if rng.percent(20) => calls.push(Call::End(PIECE_ROOM)),
            _ => {
                let longest = most.min(rest.len());
                let length = match rng.percent(10) {
                    true => longest,
                    false => rng.between(0, longest),
                };
                let (piece, after) = rest.split_at(length);
                calls.push(Call::Piece(piece, large_room(rng)));
                rest = after;
            }
        }
    }
    calls.push(Call::End(PIECE_ROOM));
    for _ in 0..rng.below(3) {
        calls.push(match rng.below(4) {
            0 => Call::End(small_room(rng)),
            1 => Call::Piece(TOO_LONG, PIECE_ROOM),
            2 => Call::Piece(b"\"", PIECE_ROOM),
            _ => Call::End(PIECE_ROOM),
        });
    }
    calls
}

/// All the rest of a file as one piece, if that is too long.
fn too_long(rest: &[u8]) -> &[u8] {
    match rest.len() {
        0..=PIECE_BYTES => TOO_LONG,
        _ => rest,
    }
}

/// Less output than a call requires.
pub fn small_room(rng: &mut Rng) -> usize {
    rng.pick(&[0, 1, PIECE_BYTES, PIECE_ROOM - 1])
}

/// As much output as a call requires, or more.
pub fn large_room(rng: &mut Rng) -> usize {
    PIECE_ROOM + rng.pick(&[0, 0, 0, 1, 2, 1_000])
}
