//! The lent room of a call that writes text, filled so that every write shows.

use reference::{Converted, Table};
use std::slice::SliceIndex;

/// A converter of whole files, given the numbers of source and target, the file and the room.
pub type WholeConverter = fn(u32, u32, &[u8], &mut [u8]) -> Converted;

/// A writer of tables, given the target's number, the table and the room.
pub type Writer = fn(u32, Table, &mut [u8]) -> Converted;

/// How many bytes lie on either side of the room, which belong to nobody.
const BESIDE: usize = 16;

/// How far from a text each call is looked at, where there are many.
const NEAR: usize = 1_000;

/// What is in a place before a call: a byte that no text has, and another one than in the places near it.
fn unused(place: usize) -> u8 {
    0xF5 + (place % 11) as u8
}

/// The room after a call, with what lies on either side of it.
#[derive(Clone, Debug, PartialEq, Eq)]
pub struct Room(Vec<u8>);

impl Room {
    /// Makes a call with a fresh room of this length.
    pub fn lend<A>(length: usize, call: impl FnOnce(&mut [u8]) -> A) -> (Self, A) {
        let mut bytes: Vec<u8> = (0..length + 2 * BESIDE).map(unused).collect();
        let answer = call(&mut bytes[BESIDE..BESIDE + length]);
        (Self(bytes), answer)
    }

    /// The first bytes of the room, and no more than it has.
    pub fn text(&self, length: usize) -> &[u8] {
        let room = &self.0[BESIDE..self.0.len() - BESIDE];
        &room[..length.min(room.len())]
    }

    /// Whether all but this many bytes of the room, and all beside it, is as it was before the call.
    pub fn untouched_from(&self, length: usize) -> bool {
        let text = BESIDE..BESIDE + length;
        let mut places = (0..).zip(&self.0);
        places.all(|(place, &byte)| text.contains(&place) || byte == unused(place))
    }

    /// What differs from another room of the same length: the first such place, counted from the room's start.
    pub fn difference(&self, other: &Self) -> Option<String> {
        let places = self.0.iter().zip(&other.0);
        let place = places.clone().position(|(one, other)| one != other)?;
        let (one, other) = (self.0[place], other.0[place]);
        let place = place as isize - BESIDE as isize;
        Some(format!("room[{place}] {one:#04x} and not {other:#04x}"))
    }
}

/// A room that is lent again and again, so that looking whether a call left all else alone takes little time.
pub struct Output {
    bytes: Vec<u8>,
    unused: Vec<u8>,
}

impl Output {
    /// For rooms up to this length.
    pub fn new(most: usize) -> Self {
        let unused: Vec<u8> = (0..most + 2 * BESIDE).map(unused).collect();
        Self {
            bytes: unused.clone(),
            unused,
        }
    }

    /// Makes a call with a room of this length, in which nothing was written.
    pub fn lend<A>(&mut self, length: usize, call: impl FnOnce(&mut [u8]) -> A) -> A {
        call(&mut self.bytes[BESIDE..BESIDE + length])
    }

    /// Takes this many bytes from a room of this length, if what is near them and near the room's ends is as it was before the call.
    pub fn take(&mut self, length: usize, written: usize) -> Result<Vec<u8>, String> {
        let (end, last) = (BESIDE + written, length + 2 * BESIDE);
        let near = last.min(end + NEAR);
        let is_left = written <= length
            && self.is_unused(..BESIDE)
            && self.is_unused(end..near)
            && self.is_unused(near.max(last.saturating_sub(NEAR))..last);
        if !is_left {
            return Err(format!("it wrote beside {written} bytes of {length}"));
        }
        let text = self.bytes[BESIDE..end].to_vec();
        self.bytes[BESIDE..end].copy_from_slice(&self.unused[BESIDE..end]);
        Ok(text)
    }

    /// Takes the whole room of this length, if all beside it is as it was before the call.
    pub fn take_all(&mut self, length: usize) -> Result<Vec<u8>, String> {
        self.take(length, length)
    }

    /// An error unless all that was not taken is as it was before the calls.
    pub fn is_left(&self) -> Result<(), String> {
        match self.is_unused(..) {
            true => Ok(()),
            false => Err("a call wrote beside its text".to_string()),
        }
    }

    fn is_unused<R: SliceIndex<[u8], Output = [u8]> + Clone>(&self, range: R) -> bool {
        self.bytes[range.clone()] == self.unused[range]
    }
}

#[cfg(test)]
mod tests {
    use super::*;

    #[test]
    fn every_write_shows() {
        let (room, ()) = Room::lend(3, |room| room[..2].copy_from_slice(b"ab"));
        assert_eq!(room.text(2), b"ab");
        assert_eq!(room.text(9).len(), 3);
        assert!(room.untouched_from(2) && !room.untouched_from(1));
        let (longer, ()) = Room::lend(3, |room| room.copy_from_slice(b"abc"));
        assert!(!longer.untouched_from(2));
        let differs = longer.difference(&room);
        assert_eq!(differs.as_deref(), Some("room[2] 0x63 and not 0xfc"));
        for place in [0, BESIDE + 3] {
            let mut beside = room.clone();
            beside.0[place] = 0;
            assert!(!beside.untouched_from(2));
        }
    }

    #[test]
    fn every_write_to_an_output_shows() {
        let mut output = Output::new(5);
        output.lend(3, |room| room[..2].copy_from_slice(b"ab"));
        assert_eq!(output.take(3, 2).as_deref(), Ok(&b"ab"[..]));
        output.lend(3, |room| room.copy_from_slice(b"abc"));
        assert!(output.take(3, 2).is_err() && output.take(3, 4).is_err());
        assert_eq!(output.take_all(3).as_deref(), Ok(&b"abc"[..]));
        assert_eq!(output.take(0, 0).as_deref(), Ok(&b""[..]));
        for place in [0, BESIDE + 3] {
            output.bytes[place] ^= 1;
            assert!(output.take_all(3).is_err());
            output.bytes[place] ^= 1;
        }
        let mut output = Output::new(9_000);
        output.lend(9_000, |room| room[4_000] = b'a');
        assert!(output.take(9_000, 0).is_ok() && output.is_left().is_err());
    }
}
