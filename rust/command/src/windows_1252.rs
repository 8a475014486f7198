//! Bytes as Windows-1252, in which each is one character or none.

/// The characters from 80 to 9F, sixteen to a line; a space is where there is none. From A0 on they are those of Unicode.
const UPPER: [&str; 2] = [
    "€ ‚ƒ„…†‡ˆ‰Š‹Œ Ž ", //
    " ‘’“”•–—˜™š›œ žŸ",
];

/// The text, a character for each byte, if all of them have one.
pub fn decode(bytes: &[u8]) -> Option<String> {
    bytes.iter().copied().map(character).collect()
}

pub fn character(byte: u8) -> Option<char> {
    match byte {
        0x80..=0x9F => {
            let at = usize::from(byte - 0x80);
            let found = UPPER[at / 16].chars().nth(at % 16);
            found.filter(|&character| character != ' ')
        }
        _ => Some(char::from(byte)),
    }
}

#[cfg(test)]
mod tests {
    use super::*;

    #[test]
    fn each_byte_but_five_has_its_character() {
        let without: Vec<u8> = (0..=0xFF)
            .filter(|&byte| character(byte).is_none())
            .collect();
        assert_eq!(without, [0x81, 0x8D, 0x8F, 0x90, 0x9D]);
        for (byte, expected) in [
            (0x41, 'A'),
            (0x80, '€'),
            (0x85, '…'),
            (0x8E, 'Ž'),
            (0x91, '‘'),
            (0x99, '™'),
            (0x9F, 'Ÿ'),
            (0xA0, '\u{A0}'),
            (0xE9, 'é'),
            (0xFF, 'ÿ'),
        ] {
            assert_eq!(character(byte), Some(expected), "{byte:02X}");
        }
        assert_eq!(decode(b"Caf\xE9 \x80").as_deref(), Some("Café €"));
        assert_eq!(decode(b"Caf\xE9 \x81"), None);
    }
}
