//! The line of a text in which a place is, cut to the width of a screen, with carets under what is meant.

use crate::lines::Place;
use crate::printable::{glyphs, Glyph};
use crate::trail::Text;
use std::ops::Range;

const CUT: &str = "...";
/// How many bytes are looked at on each side of the place: each can be a character that takes a column, or belong to one of four bytes.
const BYTES_PER_COLUMN: usize = 4;

#[derive(Debug, PartialEq, Eq)]
pub struct Excerpt {
    /// The number of each line that is shown, and the line.
    pub lines: Vec<(usize, String)>,
    /// Spaces and carets, to stand below the last line.
    pub carets: String,
}

/// The line of a place, with what is marked in it, and before it that of an earlier one to which it belongs.
pub fn excerpt(
    text: &Text,
    place: Place,
    earlier: Option<Place>,
    marked: &Range<usize>,
    width: usize,
) -> Excerpt {
    let mut lines = Vec::new();
    if let Some(earlier) = earlier.filter(|earlier| earlier.line < place.line) {
        let line = Line::around(text, earlier.offset, width);
        let start = earlier.offset..earlier.offset;
        lines.push((earlier.line, line.shown(&start, width).0));
    }
    let before = text.between(0, place.offset);
    if place.column == 1 && before.ends_with(b"\r") {
        lines.push((place.line - 1, line_that_ends(before, width)));
    }
    let (shown, carets) = Line::around(text, place.offset, width).shown(marked, width);
    lines.push((place.line, shown));
    Excerpt { lines, carets }
}

/// The last line of these bytes, whose ending is a CR, which is shown.
fn line_that_ends(before: &[u8], width: usize) -> String {
    let ending = before.len() - 1;
    let start = before[..ending]
        .iter()
        .rposition(|&byte| is_break(byte))
        .map_or(0, |at| at + 1);
    let line = Line {
        start,
        bytes: &before[start..],
        is_cut: [false, false],
    };
    line.shown(&(before.len()..before.len()), width).0
}

fn is_break(byte: u8) -> bool {
    matches!(byte, b'\n' | b'\r')
}

/// How many bytes at the start belong to a character that begins before them.
fn rest_of_character(bytes: &[u8]) -> usize {
    let rest = bytes.iter().take_while(|&&byte| byte & 0xC0 == 0x80);
    rest.count().min(3)
}

/// A stretch of one line, and whether the line goes on to the left and to the right of it.
struct Line<'a> {
    start: usize,
    bytes: &'a [u8],
    is_cut: [bool; 2],
}

impl<'a> Line<'a> {
    fn around(text: &Text<'a>, offset: usize, width: usize) -> Self {
        let most = BYTES_PER_COLUMN * width;
        let byte = text.byte(offset);
        let is_after_cr = text.between(0, offset).ends_with(b"\r");
        // After a CR stand an LF that belongs to it, or the end of the text: then the CR is the last that there is to show.
        let end = match byte {
            Some(b'\n') | None if is_after_cr => offset - 1,
            _ => offset,
        };
        let left = text.between(end.saturating_sub(most), end);
        let begins = left.iter().rposition(|&byte| is_break(byte));
        let start = end - left.len() + begins.map_or_else(|| rest_of_character(left), |at| at + 1);
        let rest = text.between(offset, offset + most);
        let right = rest.iter().position(|&byte| is_break(byte));
        let stop = match byte {
            None => offset,
            Some(_) => end + right.unwrap_or(rest.len()),
        };
        Self {
            start,
            bytes: text.between(start, stop),
            is_cut: [
                begins.is_none() && end > left.len(),
                rest.len() == most && right.is_none(),
            ],
        }
    }

    /// The line with escapes, within this width, and the carets under what is marked.
    fn shown(&self, marked: &Range<usize>, width: usize) -> (String, String) {
        let mut at = self.start;
        let glyphs: Vec<(usize, Glyph)> = glyphs(self.bytes)
            .map(|glyph| {
                let offset = at;
                at += glyph.length();
                (offset, glyph)
            })
            .collect();
        let first_marked = glyphs
            .iter()
            .position(|&(offset, glyph)| offset + glyph.length() > marked.start);
        let window = window(
            &glyphs,
            first_marked.unwrap_or(glyphs.len()),
            width,
            self.is_cut,
        );
        let (mut shown, mut carets) = (String::new(), String::new());
        if window.start > 0 || self.is_cut[0] {
            shown += CUT;
            carets += "   ";
        }
        for &(offset, glyph) in &glyphs[window.clone()] {
            let is_marked = offset < marked.end && offset + glyph.length() > marked.start;
            glyph.push_to_line(&mut shown);
            carets += &(if is_marked { "^" } else { " " }).repeat(glyph.width_in_line());
        }
        if window.end < glyphs.len() || self.is_cut[1] {
            shown += CUT;
        }
        if !carets.contains('^') {
            carets.push('^');
        }
        (shown, carets.trim_end().to_string())
    }
}

/// Which of the glyphs are shown: all if they fit, else as many on each side of the place as there is room for.
fn window(
    glyphs: &[(usize, Glyph)],
    place: usize,
    width: usize,
    is_cut: [bool; 2],
) -> Range<usize> {
    let widths = |range: Range<usize>| {
        glyphs[range]
            .iter()
            .map(|&(_, glyph)| glyph.width_in_line())
            .sum::<usize>()
    };
    if is_cut == [false, false] && widths(0..glyphs.len()) <= width {
        return 0..glyphs.len();
    }
    let room = width.saturating_sub(2 * CUT.len());
    let mut window = place..place;
    let mut used = 0;
    // Half of the room for what is before the place, the rest for what is after it, and what is left for what is before.
    for limit in [room / 2, room] {
        while window.start > 0 && used + glyphs[window.start - 1].1.width_in_line() <= limit {
            window.start -= 1;
            used += glyphs[window.start].1.width_in_line();
        }
        while window.end < glyphs.len() && used + glyphs[window.end].1.width_in_line() <= room {
            used += glyphs[window.end].1.width_in_line();
            window.end += 1;
        }
    }
    window
}

#[cfg(test)]
mod tests {
    use super::*;
    use hemakuliwi::Dialect;

    fn at(bytes: &[u8], marked: Range<usize>, width: usize) -> Excerpt {
        let text = Text::whole(Dialect::CsvPlus, bytes);
        let place = text.walk_to(marked.start).place(text.byte(marked.start));
        excerpt(&text, place, None, &marked, width)
    }

    fn one(line: usize, shown: &str, carets: &str) -> Excerpt {
        Excerpt {
            lines: vec![(line, shown.into())],
            carets: carets.into(),
        }
    }

    #[test]
    fn a_short_line_is_shown_as_a_whole() {
        assert_eq!(at(b"ab\ncd,e\r\nf", 5..6, 40), one(2, "cd,e", "  ^"));
        assert_eq!(at(b"ab\ncd,e\r\nf", 3..7, 40), one(2, "cd,e", "^^^^"));
        assert_eq!(at(b"ab,\n", 3..4, 40), one(1, "ab,", "   ^"));
        assert_eq!(at(b"ab\r\n", 3..4, 40), one(1, "ab", "  ^"));
        assert_eq!(at(b"ab", 2..3, 40), one(1, "ab", "  ^"));
        assert_eq!(at(b"", 0..1, 40), one(1, "", "^"));
        assert_eq!(at(b"ab\r", 3..4, 40), one(1, "ab\\r", "    ^"));
    }

    #[test]
    fn carets_stand_below_wide_characters_and_escapes() {
        assert_eq!(
            at("駅\t;x".as_bytes(), 4..5, 40),
            one(1, "駅\\t;x", "    ^")
        );
        assert_eq!(at(b"caf\xE9,", 3..5, 40), one(1, "caf\\xE9,", "   ^^^^^"));
        assert_eq!(at("a駅".as_bytes(), 1..2, 40), one(1, "a駅", " ^^"));
    }

    #[test]
    fn a_backslash_is_shown_as_it_is_in_the_file() {
        assert_eq!(
            at(b"C:\\a,\"x\"y", 8..9, 40),
            one(1, "C:\\a,\"x\"y", "        ^")
        );
    }

    #[test]
    fn a_long_line_is_cut_around_the_place() {
        let line = [b"a".repeat(500), b";".to_vec(), b"b".repeat(500)].concat();
        let cut = at(&line, 500..501, 30);
        assert_eq!(
            cut,
            one(1, "...aaaaaaaaaaaa;bbbbbbbbbbb...", "               ^")
        );
        assert_eq!(at(&line, 0..1, 20), one(1, "aaaaaaaaaaaaaa...", "^"));
        assert_eq!(
            at(&line, 1001..1002, 20),
            one(1, "...bbbbbbbbbbbbbb", "                 ^")
        );
        let wide = ["駅".repeat(300), ";".into()].concat();
        assert_eq!(
            at(wide.as_bytes(), 900..901, 20),
            one(1, "...駅駅駅駅駅駅;", "               ^")
        );
    }

    #[test]
    fn a_bare_cr_is_shown_with_its_line() {
        let expected = Excerpt {
            lines: vec![(2, "b\\r".into()), (3, "c".into())],
            carets: "^".into(),
        };
        assert_eq!(at(b"a\nb\rc\n", 4..5, 40), expected);
    }

    #[test]
    fn an_earlier_line_is_shown_above() {
        let text = Text::whole(Dialect::CsvPlus, b"a,b\n1,\"x\ny\nz");
        let [place, opened] = [12, 6].map(|offset| text.walk_to(offset).place(text.byte(offset)));
        let expected = Excerpt {
            lines: vec![(2, "1,\"x".into()), (4, "z".into())],
            carets: " ^".into(),
        };
        assert_eq!(excerpt(&text, place, Some(opened), &(12..13), 40), expected);
        assert_eq!(
            excerpt(&text, opened, Some(opened), &(6..7), 40)
                .lines
                .len(),
            1
        );
    }
}
