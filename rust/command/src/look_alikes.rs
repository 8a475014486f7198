//! Characters that look like one that a table needs, or like nothing, by the names that Unicode has for them.

/// What a character is taken for by those who read it.
#[derive(Clone, Copy, Debug, PartialEq, Eq)]
pub enum Looks {
    Like(char),
    LikeSpace,
    LikeLineBreak,
    LikeNothing,
}
use Looks::{Like, LikeLineBreak, LikeNothing, LikeSpace};

pub struct LookAlike {
    pub character: char,
    pub name: &'static str,
    pub looks: Looks,
}

const fn one(character: char, name: &'static str, looks: Looks) -> LookAlike {
    LookAlike {
        character,
        name,
        looks,
    }
}

#[rustfmt::skip]
pub const LOOK_ALIKES: [LookAlike; 57] = [
    one('\u{A0}', "NO-BREAK SPACE", LikeSpace),
    one('\u{2002}', "EN SPACE", LikeSpace),
    one('\u{2003}', "EM SPACE", LikeSpace),
    one('\u{2007}', "FIGURE SPACE", LikeSpace),
    one('\u{2008}', "PUNCTUATION SPACE", LikeSpace),
    one('\u{2009}', "THIN SPACE", LikeSpace),
    one('\u{200A}', "HAIR SPACE", LikeSpace),
    one('\u{202F}', "NARROW NO-BREAK SPACE", LikeSpace),
    one('\u{3000}', "IDEOGRAPHIC SPACE", LikeSpace),
    one('\u{85}', "NEXT LINE", LikeLineBreak),
    one('\u{2028}', "LINE SEPARATOR", LikeLineBreak),
    one('\u{2029}', "PARAGRAPH SEPARATOR", LikeLineBreak),
    one('\u{AD}', "SOFT HYPHEN", LikeNothing),
    one('\u{200B}', "ZERO WIDTH SPACE", LikeNothing),
    one('\u{200C}', "ZERO WIDTH NON-JOINER", LikeNothing),
    one('\u{200D}', "ZERO WIDTH JOINER", LikeNothing),
    one('\u{200E}', "LEFT-TO-RIGHT MARK", LikeNothing),
    one('\u{200F}', "RIGHT-TO-LEFT MARK", LikeNothing),
    one('\u{202A}', "LEFT-TO-RIGHT EMBEDDING", LikeNothing),
    one('\u{202C}', "POP DIRECTIONAL FORMATTING", LikeNothing),
    one('\u{2060}', "WORD JOINER", LikeNothing),
    one('\u{FEFF}', "ZERO WIDTH NO-BREAK SPACE (a byte order mark)", LikeNothing),
    one('\u{2010}', "HYPHEN", Like('-')),
    one('\u{2011}', "NON-BREAKING HYPHEN", Like('-')),
    one('\u{2012}', "FIGURE DASH", Like('-')),
    one('\u{2013}', "EN DASH", Like('-')),
    one('\u{2014}', "EM DASH", Like('-')),
    one('\u{2212}', "MINUS SIGN", Like('-')),
    one('\u{FF0D}', "FULLWIDTH HYPHEN-MINUS", Like('-')),
    one('\u{FF0B}', "FULLWIDTH PLUS SIGN", Like('+')),
    one('\u{FF0E}', "FULLWIDTH FULL STOP", Like('.')),
    one('\u{60C}', "ARABIC COMMA", Like(',')),
    one('\u{201A}', "SINGLE LOW-9 QUOTATION MARK", Like(',')),
    one('\u{3001}', "IDEOGRAPHIC COMMA", Like(',')),
    one('\u{FE50}', "SMALL COMMA", Like(',')),
    one('\u{FF0C}', "FULLWIDTH COMMA", Like(',')),
    one('\u{FF64}', "HALFWIDTH IDEOGRAPHIC COMMA", Like(',')),
    one('\u{201C}', "LEFT DOUBLE QUOTATION MARK", Like('"')),
    one('\u{201D}', "RIGHT DOUBLE QUOTATION MARK", Like('"')),
    one('\u{201E}', "DOUBLE LOW-9 QUOTATION MARK", Like('"')),
    one('\u{201F}', "DOUBLE HIGH-REVERSED-9 QUOTATION MARK", Like('"')),
    one('\u{2033}', "DOUBLE PRIME", Like('"')),
    one('\u{FF02}', "FULLWIDTH QUOTATION MARK", Like('"')),
    one('\u{2018}', "LEFT SINGLE QUOTATION MARK", Like('\'')),
    one('\u{2019}', "RIGHT SINGLE QUOTATION MARK", Like('\'')),
    one('\u{FF03}', "FULLWIDTH NUMBER SIGN", Like('#')),
    one('\u{FF3C}', "FULLWIDTH REVERSE SOLIDUS", Like('\\')),
    one('\u{FF10}', "FULLWIDTH DIGIT ZERO", Like('0')),
    one('\u{FF11}', "FULLWIDTH DIGIT ONE", Like('1')),
    one('\u{FF12}', "FULLWIDTH DIGIT TWO", Like('2')),
    one('\u{FF13}', "FULLWIDTH DIGIT THREE", Like('3')),
    one('\u{FF14}', "FULLWIDTH DIGIT FOUR", Like('4')),
    one('\u{FF15}', "FULLWIDTH DIGIT FIVE", Like('5')),
    one('\u{FF16}', "FULLWIDTH DIGIT SIX", Like('6')),
    one('\u{FF17}', "FULLWIDTH DIGIT SEVEN", Like('7')),
    one('\u{FF18}', "FULLWIDTH DIGIT EIGHT", Like('8')),
    one('\u{FF19}', "FULLWIDTH DIGIT NINE", Like('9')),
];

/// The look-alike with which a text begins.
pub fn at_start(text: &[u8]) -> Option<&'static LookAlike> {
    let begins = |one: &&LookAlike| {
        let mut bytes = [0; 4];
        text.starts_with(one.character.encode_utf8(&mut bytes).as_bytes())
    };
    LOOK_ALIKES.iter().find(begins)
}

/// All of a text that look like this character.
pub fn all(text: &[u8], character: char) -> Vec<&'static LookAlike> {
    let found = (0..text.len()).filter_map(|at| at_start(&text[at..]));
    found.filter(|one| one.looks == Like(character)).collect()
}

/// The text as it is meant where it is a number: each look-alike as what it looks like, and what only divides digits left out.
pub fn as_number(text: &str) -> String {
    let meant = |character: char| {
        let one = LOOK_ALIKES.iter().find(|one| one.character == character);
        match one.map(|one| one.looks) {
            None => Some(character),
            Some(Like(meant)) if meant != '\'' => Some(meant),
            Some(_) => None,
        }
    };
    let number: String = text.chars().filter_map(meant).collect();
    number.trim().trim_start_matches('+').into()
}

impl LookAlike {
    /// Its name, and what it looks like, as a sentence begins.
    pub fn text(&self) -> String {
        let code = u32::from(self.character);
        let looks = match self.looks {
            Like(character) => format!("looks like `{character}`"),
            LikeSpace => "looks like a space".into(),
            LikeLineBreak => "looks like a line break".into(),
            LikeNothing => "can't be seen".into(),
        };
        format!("U+{code:04X} {} {looks}", self.name)
    }
}

#[cfg(test)]
mod tests {
    use super::*;

    #[test]
    fn look_alikes_are_found_at_the_start_and_within() {
        let name = |text: &str| at_start(text.as_bytes()).map(|one| one.name);
        assert_eq!(name("−5"), Some("MINUS SIGN"));
        assert_eq!(name("\u{A0}000"), Some("NO-BREAK SPACE"));
        assert_eq!(name("５"), Some("FULLWIDTH DIGIT FIVE"));
        assert_eq!((name("-5"), name("é"), name("")), (None, None, None));
        let commas = all("a–b，c，".as_bytes(), ',');
        assert!(commas.len() == 2 && commas[0].name == "FULLWIDTH COMMA");
        assert!(all("a–b".as_bytes(), ',').is_empty());
    }

    #[test]
    fn numbers_are_written_with_what_their_characters_look_like() {
        for (text, expected) in [
            ("−5", "-5"),
            ("1\u{A0}000", "1000"),
            ("1’000.50", "1000.50"),
            ("＋２．４０", "2.40"),
            (" –７\u{202F}", "-7"),
        ] {
            assert_eq!(as_number(text), expected);
        }
    }

    #[test]
    fn each_has_a_sentence_and_none_is_there_twice() {
        for (at, one) in LOOK_ALIKES.iter().enumerate() {
            let earlier = &LOOK_ALIKES[..at];
            assert!(earlier
                .iter()
                .all(|earlier| earlier.character != one.character));
            assert!(!one.character.is_ascii());
        }
        let minus = at_start("−".as_bytes()).map(LookAlike::text);
        assert_eq!(minus.as_deref(), Some("U+2212 MINUS SIGN looks like `-`"));
    }
}
