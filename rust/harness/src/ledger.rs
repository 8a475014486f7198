//! The ledger of the rules (§16.1): the answers to a list of piece and end calls, computed from the dialect
//! numbers, the calls and the whole converter alone.

use crate::whole::convert_whole;
use reference::limits::{PIECE_BYTES, PIECE_ROOM};
use reference::{Converter, Dialect, Report};

/// A piece or end call with the size of its output buffer.
#[derive(Clone, Debug)]
pub enum Call<'a> {
    /// A piece call.
    Piece(&'a [u8], usize),
    /// An end call.
    End(usize),
}

/// What a call reports and writes.
#[derive(Clone, Debug, PartialEq, Eq)]
pub struct Answer {
    /// The report.
    pub report: Report,
    /// The text that the call writes.
    pub text: Vec<u8>,
}

impl Answer {
    fn refusal(number: usize) -> Self {
        Self::silent(Report {
            number,
            ..Report::ACCEPTED
        })
    }

    fn silent(report: Report) -> Self {
        Self {
            report,
            text: Vec::new(),
        }
    }
}

/// The ledger of one converter's calls.
pub struct Ledger {
    source: u32,
    target: u32,
    consumed: Vec<u8>,
    written: usize,
    /// The file fault or the accepted end that an earlier call reported.
    closed: Option<Report>,
}

impl Ledger {
    /// The ledger before the first call.
    pub fn new(source: u32, target: u32) -> Self {
        Self {
            source,
            target,
            consumed: Vec::new(),
            written: 0,
            closed: None,
        }
    }

    /// The answer that a call has to give.
    pub fn answer(&mut self, call: &Call) -> Answer {
        if let Some(refusal) = self.refusal(call) {
            return refusal;
        }
        match *call {
            Call::Piece(piece, _) => self.piece(piece),
            Call::End(_) => self.end(),
        }
    }

    /// The four checks, which consume and write nothing.
    fn refusal(&self, call: &Call) -> Option<Answer> {
        let known = |number| Dialect::from_number(number).is_some();
        if !known(self.source) || !known(self.target) {
            return Some(Answer::refusal(11));
        }
        match self.closed {
            Some(Report::ACCEPTED) => return Some(Answer::refusal(11)),
            Some(fault) => return Some(Answer::silent(fault)),
            None => {}
        }
        let (length, room) = match *call {
            Call::Piece(piece, room) => (piece.len(), room),
            Call::End(room) => (0, room),
        };
        (length > PIECE_BYTES || room < PIECE_ROOM).then(|| Answer::refusal(10))
    }

    fn piece(&mut self, piece: &[u8]) -> Answer {
        self.consumed.extend(piece);
        match self.fault_at_a_byte() {
            Some(fault) => self.close_at(fault),
            None => {
                let text = completed_text(self.source, self.target, &self.consumed);
                self.write(Report::ACCEPTED, text)
            }
        }
    }

    fn end(&mut self) -> Answer {
        match convert_whole(self.source, self.target, &self.consumed) {
            Err(fault) => self.close_at(fault),
            Ok(text) => {
                self.closed = Some(Report::ACCEPTED);
                self.write(Report::ACCEPTED, text)
            }
        }
    }

    /// The records completed before a fault are complete before its offset.
    fn close_at(&mut self, fault: Report) -> Answer {
        self.closed = Some(fault);
        let before = &self.consumed[..fault.offset];
        let text = completed_text(self.source, self.target, before);
        self.write(fault, text)
    }

    /// The text so far, less what was written before.
    fn write(&mut self, report: Report, text: Vec<u8>) -> Answer {
        let new = text[self.written..].to_vec();
        self.written = text.len();
        Answer { report, text: new }
    }

    /// The fault that the bytes consumed have however the file continues. A fault of the end alone
    /// is another one after one more quote: the quote opens a cell, or continues it, or is
    /// itself a fault.
    fn fault_at_a_byte(&self) -> Option<Report> {
        let now = convert_whole(self.source, self.target, &self.consumed).err()?;
        let longer = [&self.consumed[..], b"\""].concat();
        let later = convert_whole(self.source, self.target, &longer).err()?;
        (now == later).then_some(now)
    }
}

/// The canonical text of the records that the bytes complete, if no byte of them is at fault:
/// what the longest accepted prefix that ends with an ending converts to.
pub fn completed_text(source: u32, target: u32, bytes: &[u8]) -> Vec<u8> {
    let cr_ends = Dialect::from_number(source) == Some(Dialect::Tdif);
    let may_end = |byte| byte == b'\n' || (cr_ends && byte == b'\r');
    (1..=bytes.len())
        .rev()
        .filter(|&length| may_end(bytes[length - 1]))
        .find_map(|length| convert_whole(source, target, &bytes[..length]).ok())
        .unwrap_or_default()
}

/// Makes the calls and compares each answer with the ledger's.
pub fn check_calls(source: u32, target: u32, calls: &[Call]) -> Result<Vec<Answer>, String> {
    let mut ledger = Ledger::new(source, target);
    let mut session = Session::new(source, target);
    let mut answers = Vec::new();
    for (index, call) in calls.iter().enumerate() {
        let expected = ledger.answer(call);
        let actual = session.make(call)?;
        if actual != expected {
            return Err(format!(
                "call {} of {source} to {target} answered {actual:?}, but the ledger says \
                 {expected:?}; the calls were {calls:?}",
                index + 1,
            ));
        }
        answers.push(actual);
    }
    Ok(answers)
}

/// A piece converter with an output buffer in which stray writes show.
pub struct Session {
    converter: Option<Converter>,
    buffer: Vec<u8>,
}

const UNTOUCHED: u8 = 0xA5;

/// Compares run by run, since a session makes many calls.
fn is_untouched(bytes: &[u8]) -> bool {
    const RUN: [u8; 4_096] = [UNTOUCHED; 4_096];
    bytes.chunks(RUN.len()).all(|run| *run == RUN[..run.len()])
}

impl Session {
    /// A session before its first call.
    pub fn new(source: u32, target: u32) -> Self {
        Self {
            converter: Some(Converter::new(source, target)),
            buffer: vec![UNTOUCHED; PIECE_ROOM],
        }
    }

    /// Makes a call; it may write nothing but its text.
    pub fn make(&mut self, call: &Call) -> Result<Answer, String> {
        let room = match *call {
            Call::Piece(_, room) | Call::End(room) => room,
        };
        self.buffer.resize(room, UNTOUCHED);
        let out = &mut self.buffer[..];
        let converter = self.converter.take().ok_or("the converter was lost")?;
        let (next, answer) = match *call {
            Call::Piece(piece, _) => converter.piece(piece, out),
            Call::End(_) => converter.end(out),
        };
        self.converter = Some(next);
        let text = out[..answer.written].to_vec();
        if !is_untouched(&out[answer.written..]) {
            return Err(format!("{call:?} wrote past its text"));
        }
        out[..answer.written].fill(UNTOUCHED);
        Ok(Answer {
            report: answer.report,
            text,
        })
    }
}
