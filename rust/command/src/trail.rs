//! The last bytes of a text that comes in pieces, and where they stand: enough to show the record in which a fault is met, whatever the
//! length of the text.

use crate::cells::Walk;
use crate::foreign::HEAD;
use crate::lines::MARK;
use hemakuliwi::raw::RECORD_BYTES;
use hemakuliwi::Dialect;

/// A record with its ending, and as many bytes before it.
const KEPT: usize = 2 * RECORD_BYTES + 16;

pub struct Trail {
    dialect: Dialect,
    head: Vec<u8>,
    /// What stands before `bytes`, once something was let go.
    before: Option<Walk>,
    bytes: Vec<u8>,
}

impl Trail {
    pub fn new(dialect: Dialect) -> Self {
        Self {
            dialect,
            head: Vec::new(),
            before: None,
            bytes: Vec::new(),
        }
    }

    /// Takes the next bytes, and lets go what is not needed any more.
    pub fn push(&mut self, piece: &[u8]) {
        let missing = HEAD.saturating_sub(self.head.len()).min(piece.len());
        self.head.extend_from_slice(&piece[..missing]);
        if self.bytes.len() > 2 * KEPT {
            let cut = self.bytes.len() - KEPT;
            let mut walk = self.start();
            walk.advance(&self.bytes[..cut]);
            self.bytes.drain(..cut);
            self.before = Some(walk);
        }
        self.bytes.extend_from_slice(piece);
    }

    /// Takes bytes that only follow what is to be shown, and lets go nothing.
    pub fn extend(&mut self, rest: &[u8]) {
        self.bytes.extend_from_slice(rest);
    }

    fn start(&self) -> Walk {
        self.before
            .unwrap_or_else(|| Walk::new(self.dialect, self.head.starts_with(&MARK)))
    }

    pub fn text(&self) -> Text<'_> {
        Text {
            start: self.start(),
            head: &self.head,
            bytes: &self.bytes,
        }
    }
}

/// A stretch of a text up to its end, or up to where it was read.
#[derive(Clone, Copy)]
pub struct Text<'a> {
    start: Walk,
    head: &'a [u8],
    bytes: &'a [u8],
}

impl<'a> Text<'a> {
    pub fn whole(dialect: Dialect, bytes: &'a [u8]) -> Self {
        let start = Walk::new(dialect, bytes.starts_with(&MARK));
        Self {
            start,
            head: &bytes[..bytes.len().min(HEAD)],
            bytes,
        }
    }

    pub fn head(&self) -> &'a [u8] {
        self.head
    }

    /// The walk up to the byte at this offset, which must not be before what is kept.
    pub fn walk_to(&self, offset: usize) -> Walk {
        let mut walk = self.start;
        walk.advance(self.between(walk.offset(), offset));
        walk
    }

    pub fn byte(&self, offset: usize) -> Option<u8> {
        self.from(offset).first().copied()
    }

    pub fn from(&self, offset: usize) -> &'a [u8] {
        let skipped = offset.saturating_sub(self.start.offset());
        &self.bytes[skipped.min(self.bytes.len())..]
    }

    /// The bytes of this range that are kept.
    pub fn between(&self, from: usize, to: usize) -> &'a [u8] {
        let rest = self.from(from);
        let from = from.max(self.start.offset());
        &rest[..to.saturating_sub(from).min(rest.len())]
    }

    /// The bytes of the record that starts at this offset, with its ending, or as far as they were read.
    pub fn record(&self, start: usize) -> &'a [u8] {
        let rest = self.from(start);
        let mut walk = self.walk_to(start);
        let ended = walk.records_ended();
        let length = rest.iter().position(|&byte| {
            walk.step(byte);
            walk.records_ended() > ended
        });
        &rest[..length.map_or(rest.len(), |last| last + 1)]
    }
}

#[cfg(test)]
mod tests {
    use super::*;

    #[test]
    fn a_long_text_in_small_pieces_has_the_places_of_the_whole() {
        let mut text = b"a,\"b\"\r\n".to_vec();
        (0..9_000)
            .for_each(|number| text.extend_from_slice(format!("é{number},\"x\ny\"\n").as_bytes()));
        let whole = Text::whole(Dialect::CsvPlus, &text);
        let mut trail = Trail::new(Dialect::CsvPlus);
        for piece in text.chunks(777) {
            trail.push(piece);
        }
        let kept = trail.text();
        assert!(trail.bytes.len() <= 2 * KEPT + 777);
        for offset in (text.len() - KEPT..=text.len()).step_by(97) {
            let [a, b] = [whole.walk_to(offset), kept.walk_to(offset)];
            assert_eq!(a.place(whole.byte(offset)), b.place(kept.byte(offset)));
            assert_eq!(
                (a.record_start(), a.cell_number(), a.cell()),
                (b.record_start(), b.cell_number(), b.cell())
            );
        }
        let last = whole.walk_to(text.len() - 2).record_start();
        assert_eq!(kept.record(last), "é8999,\"x\ny\"\n".as_bytes());
    }
}
