//! The piece converter.

use crate::convert::{Conversion, Converted};
use crate::limits::{PIECE_BYTES, PIECE_ROOM, RECORD_BYTES};
use crate::records::{Place, Records};
use crate::report::{Fault, Report};

/// A conversion that takes the file piece by piece.
#[derive(Clone, Debug, PartialEq, Eq)]
pub struct Converter {
    state: State,
}

#[derive(Clone, Debug, PartialEq, Eq)]
enum State {
    UnknownDialect,
    Open(Open),
    Faulty(Report),
    Ended,
}

/// A conversion that can continue.
#[derive(Clone, Debug, PartialEq, Eq)]
struct Open {
    conversion: Conversion,
    /// The current record: at most 4,096 bytes, and a CR that waits for its LF. Between records
    /// it is the part read of the byte order mark or of a comment's character.
    in_hand: Vec<u8>,
    /// The file offset of its first byte.
    base: usize,
    place: Place,
}

impl Converter {
    /// A converter that has been given no bytes yet.
    pub fn new(source: u32, target: u32) -> Self {
        let state = match Conversion::new(source, target) {
            None => State::UnknownDialect,
            Some(conversion) => State::Open(Open {
                conversion,
                in_hand: Vec::new(),
                base: 0,
                place: Place::FileStart,
            }),
        };
        Self { state }
    }

    /// Takes the next piece and writes the records that it completes.
    pub fn piece(self, piece: &[u8], out: &mut [u8]) -> (Self, Converted) {
        self.call(piece, false, out)
    }

    /// Takes the end of the file and writes the record that it completes, if any.
    pub fn end(self, out: &mut [u8]) -> (Self, Converted) {
        self.call(&[], true, out)
    }

    fn call(self, piece: &[u8], last: bool, out: &mut [u8]) -> (Self, Converted) {
        let refusal = match self.state {
            State::UnknownDialect | State::Ended => Report::refusal(Fault::Call),
            State::Faulty(report) => report,
            State::Open(_) if piece.len() > PIECE_BYTES || out.len() < PIECE_ROOM => {
                Report::refusal(Fault::Room)
            }
            State::Open(open) => {
                let (state, answer) = open.take(piece, last, out);
                return (Self { state }, answer);
            }
        };
        (self, Converted::refusal(refusal))
    }
}

impl Open {
    fn take(mut self, piece: &[u8], last: bool, out: &mut [u8]) -> (State, Converted) {
        let window = [&self.in_hand, piece].concat();
        let mut text = Vec::new();
        let report = match self.advance(&window, last, &mut text) {
            Ok(()) => Report::ACCEPTED,
            Err(report) => report,
        };
        out[..text.len()].copy_from_slice(&text);
        let state = if !report.is_accepted() {
            State::Faulty(report)
        } else if last {
            State::Ended
        } else {
            State::Open(self)
        };
        let written = text.len();
        (state, Converted { report, written })
    }

    /// Scans the window anew from the current record, and buffers what it leaves unfinished.
    fn advance(&mut self, window: &[u8], last: bool, text: &mut Vec<u8>) -> Result<(), Report> {
        let source = self.conversion.source;
        let mut records = Records::resume(source, window, self.base, self.place, last);
        let rest = self.conversion.run(&mut records, text)?;
        if last {
            return self
                .conversion
                .progress
                .finish(rest, self.base + window.len());
        }
        let (in_hand, base, place) = records.unfinished();
        assert!(in_hand.len() <= RECORD_BYTES + usize::from(in_hand.ends_with(b"\r")));
        self.in_hand = in_hand.to_vec();
        self.base = base;
        self.place = place;
        Ok(())
    }
}
