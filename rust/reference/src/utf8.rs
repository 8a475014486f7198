//! UTF-8: the rules' table, and the widened form that content has.

use std::ops::RangeInclusive;

/// A row of the table: which first bytes, how many bytes in all, which second bytes.
pub(crate) struct Sequence {
    first: RangeInclusive<u8>,
    length: usize,
    second: RangeInclusive<u8>,
}

const LATER: RangeInclusive<u8> = 0x80..=0xBF;

static TABLE: [Sequence; 9] = [
    row(0x00..=0x7F, 1, LATER),
    row(0xC2..=0xDF, 2, LATER),
    row(0xE0..=0xE0, 3, 0xA0..=0xBF),
    row(0xE1..=0xEC, 3, LATER),
    row(0xED..=0xED, 3, 0x80..=0x9F),
    row(0xEE..=0xEF, 3, LATER),
    row(0xF0..=0xF0, 4, 0x90..=0xBF),
    row(0xF1..=0xF3, 4, LATER),
    row(0xF4..=0xF4, 4, 0x80..=0x8F),
];

const fn row(first: RangeInclusive<u8>, length: usize, second: RangeInclusive<u8>) -> Sequence {
    Sequence {
        first,
        length,
        second,
    }
}

/// The sequence that a first byte opens, if it can open one.
pub(crate) fn sequence(first: u8) -> Option<&'static Sequence> {
    TABLE.iter().find(|row| row.first.contains(&first))
}

impl Sequence {
    /// What each byte after the first has to be.
    pub(crate) fn later_bytes(&self) -> impl Iterator<Item = RangeInclusive<u8>> + '_ {
        (1..self.length).map(|index| match index {
            1 => self.second.clone(),
            _ => LATER,
        })
    }

    /// Whether the bytes start with the whole of a sequence of this row.
    fn opens(&self, bytes: &[u8]) -> bool {
        let mut later = bytes.iter().skip(1);
        self.later_bytes()
            .all(|range| later.next().is_some_and(|byte| range.contains(byte)))
    }
}

/// Packs a code point into one to four bytes; surrogates become the three-byte pattern.
pub(crate) fn push(code_point: u32, bytes: &mut Vec<u8>) {
    let later = |shift: u32| 0x80 | (code_point >> shift & 0x3F) as u8;
    match code_point {
        0..=0x7F => bytes.push(code_point as u8),
        0x80..=0x7FF => bytes.extend([0xC0 | (code_point >> 6) as u8, later(0)]),
        0x800..=0xFFFF => bytes.extend([0xE0 | (code_point >> 12) as u8, later(6), later(0)]),
        _ => bytes.extend([
            0xF0 | (code_point >> 18) as u8,
            later(12),
            later(6),
            later(0),
        ]),
    }
}

/// The code unit of the lone surrogate that the bytes start with, if they do.
pub(crate) fn leading_surrogate(bytes: &[u8]) -> Option<u16> {
    match *bytes {
        [0xED, second @ 0xA0..=0xBF, third @ 0x80..=0xBF, ..] => {
            Some(0xD000 | u16::from(second & 0x3F) << 6 | u16::from(third & 0x3F))
        }
        _ => None,
    }
}

/// Whether text content, known to be of the right form, holds a lone surrogate.
pub(crate) fn has_surrogate(content: &[u8]) -> bool {
    (0..content.len()).any(|at| leading_surrogate(&content[at..]).is_some())
}

/// Whether the bytes are content: UTF-8 widened by lone surrogates, where no high one is
/// directly before a low one.
pub(crate) fn is_content(bytes: &[u8]) -> bool {
    let mut rest = bytes;
    let mut after_high = false;
    while let Some(&first) = rest.first() {
        if let Some(unit) = leading_surrogate(rest) {
            let high = unit < 0xDC00;
            if after_high && !high {
                return false;
            }
            after_high = high;
            rest = &rest[3..];
        } else {
            match sequence(first) {
                Some(row) if row.opens(rest) => rest = &rest[row.length..],
                _ => return false,
            }
            after_high = false;
        }
    }
    true
}
