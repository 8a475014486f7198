//! Bytes as a terminal can show them: control characters, bytes that are no UTF-8, characters without a shape of their own and backslashes
//! are shown as escapes, so that an escape is never the text itself. Nothing that comes from a file reaches a terminal in another way.

use crate::width;
use std::fmt::Write;

/// What is shown as one: a character, or a byte that belongs to none.
#[derive(Clone, Copy, Debug, PartialEq, Eq)]
pub enum Glyph {
    Character(char),
    Byte(u8),
}

impl Glyph {
    /// How many bytes of the text it is.
    pub fn length(self) -> usize {
        match self {
            Self::Character(character) => character.len_utf8(),
            Self::Byte(_) => 1,
        }
    }

    /// How many columns of a terminal it takes.
    pub fn width(self) -> usize {
        match self {
            Self::Character(character) if !is_escaped(character) => width::of(character),
            _ => {
                let mut escape = String::new();
                self.push_to(&mut escape);
                escape.len()
            }
        }
    }

    /// As `width`, in a line of a file, which is shown with its backslashes as they are.
    pub fn width_in_line(self) -> usize {
        match self {
            Self::Character('\\') => 1,
            _ => self.width(),
        }
    }

    pub fn push_to_line(self, out: &mut String) {
        match self {
            Self::Character('\\') => out.push('\\'),
            _ => self.push_to(out),
        }
    }

    pub fn push_to(self, out: &mut String) {
        let pushed = match self {
            Self::Character('\\') => write!(out, "\\\\"),
            Self::Character('\t') => write!(out, "\\t"),
            Self::Character('\n') => write!(out, "\\n"),
            Self::Character('\r') => write!(out, "\\r"),
            Self::Character(character) if character.is_ascii_control() => {
                write!(out, "\\x{:02X}", u32::from(character))
            }
            Self::Character(character) if is_escaped(character) => {
                write!(out, "\\u{{{:X}}}", u32::from(character))
            }
            Self::Character(character) => write!(out, "{character}"),
            Self::Byte(byte) => write!(out, "\\x{byte:02X}"),
        };
        pushed.expect("a string takes all");
    }
}

/// The backslash, control characters, white space that looks like a space, and what Unicode lets a terminal ignore: marks of direction,
/// joiners, fillers, selectors, tags, the byte order mark.
fn is_escaped(character: char) -> bool {
    let is_ignored = matches!(
        u32::from(character),
        0xAD | 0x34F
            | 0x61C
            | 0x115F..=0x1160
            | 0x17B4..=0x17B5
            | 0x180B..=0x180F
            | 0x200B..=0x200F
            | 0x202A..=0x202E
            | 0x2060..=0x206F
            | 0x3164
            | 0xFE00..=0xFE0F
            | 0xFEFF
            | 0xFFA0
            | 0xFFF0..=0xFFFB
            | 0x1BCA0..=0x1BCA3
            | 0x1D173..=0x1D17A
            | 0xE0000..=0xE0FFF
    );
    character == '\\'
        || character.is_control()
        || character.is_whitespace() && character != ' '
        || is_ignored
}

pub fn glyphs(bytes: &[u8]) -> impl Iterator<Item = Glyph> + '_ {
    bytes.utf8_chunks().flat_map(|chunk| {
        let characters = chunk.valid().chars().map(Glyph::Character);
        characters.chain(chunk.invalid().iter().copied().map(Glyph::Byte))
    })
}

pub fn printable(bytes: &[u8]) -> String {
    let mut shown = String::new();
    glyphs(bytes).for_each(|glyph| glyph.push_to(&mut shown));
    shown
}

#[cfg(test)]
mod tests {
    use super::*;
    use harness::rng::Rng;

    #[test]
    fn what_a_terminal_would_obey_is_escaped() {
        assert_eq!(
            printable(b"a\x1b[2J\tb\r\n\x00\x7f"),
            "a\\x1B[2J\\tb\\r\\n\\x00\\x7F"
        );
        assert_eq!(
            printable("\u{202E}\u{9B}\u{FEFF}".as_bytes()),
            "\\u{202E}\\u{9B}\\u{FEFF}"
        );
    }

    #[test]
    fn no_text_looks_like_the_escape_of_another() {
        assert_eq!(printable(b"a\\tb\\\\"), "a\\\\tb\\\\\\\\");
        assert_eq!(
            printable("1\u{A0}000\u{3000}\u{2028}a\u{FE0F}".as_bytes()),
            "1\\u{A0}000\\u{3000}\\u{2028}a\\u{FE0F}"
        );
        let texts = [
            "\t", "\\t", "\\\\t", "\\x09", "\x07", "\\x07", " ", "\u{A0}",
        ];
        let shown: Vec<String> = texts.map(|text| printable(text.as_bytes())).into();
        for (at, text) in shown.iter().enumerate() {
            assert!(!shown[..at].contains(text), "{text}");
        }
    }

    /// The bytes of which this is the printable form.
    fn bytes_of(shown: &str) -> Vec<u8> {
        let Some((before, escape)) = shown.split_once('\\') else {
            return shown.into();
        };
        let hexadecimal = |digits| u32::from_str_radix(digits, 16).expect("digits");
        let (escaped, rest) = match escape.split_at(1) {
            ("\\", rest) => (b"\\".to_vec(), rest),
            ("t", rest) => (b"\t".to_vec(), rest),
            ("n", rest) => (b"\n".to_vec(), rest),
            ("r", rest) => (b"\r".to_vec(), rest),
            ("x", rest) => (vec![hexadecimal(&rest[..2]) as u8], &rest[2..]),
            (_, rest) => {
                let (code, rest) = rest[1..].split_once('}').expect("an escape of a character");
                let character = char::from_u32(hexadecimal(code)).expect("a character");
                (character.to_string().into_bytes(), rest)
            }
        };
        [before.as_bytes(), &escaped, &bytes_of(rest)].concat()
    }

    #[test]
    fn the_bytes_are_known_from_what_is_shown() {
        let mut rng = Rng::new(4);
        let parts: [&[u8]; 16] = [
            b"a",
            b"t",
            b"x09",
            b"u{A0}",
            b"\\",
            b"\t",
            b"\n",
            b"\r",
            b"\x07",
            b"\x7F",
            b"\xE9",
            b"\xC2\xA0",
            b"\xC2\x85",
            b"\xEF\xBB\xBF",
            b"\xE9\xA7\x85",
            b"\xC2",
        ];
        for _ in 0..5_000 {
            let count = rng.between(0, 8);
            let bytes: Vec<u8> = (0..count).flat_map(|_| rng.pick(&parts).to_vec()).collect();
            let shown = printable(&bytes);
            assert_eq!(bytes_of(&shown), bytes, "{shown}");
        }
    }

    #[test]
    fn a_line_of_a_file_has_its_own_backslashes() {
        let mut line = String::new();
        glyphs(b"\"C:\\x\"\t").for_each(|glyph| glyph.push_to_line(&mut line));
        assert_eq!(line, "\"C:\\x\"\\t");
        let width: usize = glyphs(b"\"C:\\x\"\t").map(Glyph::width_in_line).sum();
        assert_eq!(width, line.len());
    }

    #[test]
    fn bytes_that_are_no_text_are_escaped_one_by_one() {
        assert_eq!(
            printable(b"caf\xE9, \xE2\x82 \xED\xA0\x80"),
            "caf\\xE9, \\xE2\\x82 \\xED\\xA0\\x80"
        );
    }

    #[test]
    fn widths_are_those_of_what_is_shown() {
        let widths = |text: &[u8]| glyphs(text).map(Glyph::width).collect::<Vec<_>>();
        assert_eq!(widths("aé駅e\u{301}\u{7}".as_bytes()), [1, 1, 2, 1, 0, 4]);
        assert_eq!(widths(b"\xFF\\"), [4, 2]);
    }
}
