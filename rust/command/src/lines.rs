//! Where a byte stands in a text as an editor counts: by lines and characters.

/// The byte order mark, which no editor shows.
pub const MARK: [u8; 3] = [0xEF, 0xBB, 0xBF];

/// The place of a byte. Lines and columns count from 1, columns in characters.
#[derive(Clone, Copy, Debug, PartialEq, Eq)]
pub struct Place {
    pub offset: usize,
    pub line: usize,
    pub column: usize,
}

/// Goes over a text and knows the place of the next byte. LF, CR and CRLF end a line each.
#[derive(Clone, Copy, Debug)]
pub struct Cursor {
    next: Place,
    /// The last byte was a CR: the line ends unless an LF follows, which belongs to it.
    after_cr: bool,
}

impl Cursor {
    pub const fn new() -> Self {
        let next = Place {
            offset: 0,
            line: 1,
            column: 1,
        };
        Self {
            next,
            after_cr: false,
        }
    }

    /// The place of `byte`, which is the next one, or of the end of the text.
    pub fn place(&self, byte: Option<u8>) -> Place {
        let ends_line = self.after_cr && byte.is_some() && byte != Some(b'\n');
        if ends_line {
            Place {
                offset: self.next.offset,
                line: self.next.line + 1,
                column: 1,
            }
        } else {
            self.next
        }
    }

    /// Goes over one byte. A byte within a character moves no column, and a mark at the start of the text none at all.
    pub fn step(&mut self, byte: u8, is_mark: bool) {
        self.next = self.place(Some(byte));
        self.after_cr = byte == b'\r';
        if byte == b'\n' {
            self.next.line += 1;
            self.next.column = 1;
        } else if begins_character(byte) && !is_mark {
            self.next.column += 1;
        }
        self.next.offset += 1;
    }

    /// Goes over bytes of which none is a CR, an LF or part of a mark.
    pub fn pass(&mut self, run: &[u8]) {
        if let Some(&first) = run.first() {
            self.next = self.place(Some(first));
            self.after_cr = false;
            self.next.offset += run.len();
            self.next.column += run.iter().filter(|&&byte| begins_character(byte)).count();
        }
    }
}

fn begins_character(byte: u8) -> bool {
    byte & 0xC0 != 0x80
}

#[cfg(test)]
mod tests {
    use super::*;

    fn place(text: &[u8], offset: usize) -> (usize, usize) {
        let mut cursor = Cursor::new();
        let marked = text.starts_with(&MARK);
        for (at, &byte) in text[..offset].iter().enumerate() {
            cursor.step(byte, marked && at < MARK.len());
        }
        let place = cursor.place(text.get(offset).copied());
        assert_eq!(place.offset, offset);
        (place.line, place.column)
    }

    #[test]
    fn each_of_the_three_endings_is_one_line_break() {
        let text = b"a\nb\r\nc\rd";
        let places: Vec<_> = (0..=text.len()).map(|offset| place(text, offset)).collect();
        assert_eq!(
            places,
            [
                (1, 1),
                (1, 2),
                (2, 1),
                (2, 2),
                (2, 3),
                (3, 1),
                (3, 2),
                (4, 1),
                (4, 2)
            ]
        );
    }

    #[test]
    fn a_cr_at_the_end_ends_no_line_before_more_follows() {
        assert_eq!(place(b"a\r", 2), (1, 3));
    }

    #[test]
    fn columns_count_characters_and_not_the_mark() {
        assert_eq!(place("é駅x".as_bytes(), 5), (1, 3));
        assert_eq!(place(b"\xEF\xBB\xBFab", 4), (1, 2));
        assert_eq!(place(b"\xEF\xBB\xBFab", 2), (1, 1));
        assert_eq!(place("\u{FF21}b".as_bytes(), 3), (1, 2));
    }
}
