//! A table for looking at: cells below each other, each with a mark of its kind, within the width of a screen.

use crate::diagnosis::counted;
use crate::failure::Failure;
use crate::paint::Paint;
use crate::printable::{glyphs, Glyph};
use hemakuliwi::{Cell, Kind, Record, Table};

const CUT: &str = "…";
const GAP: &str = "  ";
/// The least that a column is cut to: a few letters and the sign of the cut.
const LEAST: usize = 6;

/// The lines of a table, given one after the other so that a long one needs no more memory than it has.
pub fn show(
    table: &Table,
    width: usize,
    paint: Paint,
    mut line: impl FnMut(String) -> Result<(), Failure>,
) -> Result<(), Failure> {
    let last = table
        .records()
        .next_back()
        .map_or(1, |record| record.number());
    let margin = last.to_string().len();
    let room = if width == 0 {
        usize::MAX
    } else {
        width.saturating_sub(margin)
    };
    let widths = fitted(widths_of(table), room);
    for record in table.records() {
        let number = if record.number() == 1 {
            String::new()
        } else {
            record.number().to_string()
        };
        let cells = row(&record, &widths, paint);
        line(format!(
            "{}{cells}\n",
            paint.frame(&format!("{number:>margin$}"))
        ))?;
        if record.number() == 1 {
            let rules: String = widths
                .iter()
                .map(|&width| GAP.to_string() + &"-".repeat(width))
                .collect();
            line(format!(
                "{}\n",
                paint.frame(&format!("{:margin$}{rules}", ""))
            ))?;
        }
    }
    if widths.len() < table.columns() {
        let missing = table.columns() - widths.len();
        let missing = counted(missing, "column");
        line(format!(
            "and {missing} to the right: --width sets how wide this is, and 0 no bound\n"
        ))?;
    }
    Ok(())
}

/// How wide the widest cell of each column is.
fn widths_of(table: &Table) -> Vec<usize> {
    let mut widths = vec![0; table.columns()];
    for record in table.records() {
        for (width, cell) in widths.iter_mut().zip(record.cells()) {
            let here: usize = shown(&cell).into_iter().map(Glyph::width).sum();
            *width = here.max(*width);
        }
    }
    widths
}

/// The widest columns are cut until all fit; if they don't at their least, those to the right are left out.
fn fitted(mut widths: Vec<usize>, room: usize) -> Vec<usize> {
    let needed = |widths: &[usize]| widths.iter().map(|width| width + GAP.len()).sum::<usize>();
    let excess = |widths: &[usize]| needed(widths) > room;
    while excess(&widths) {
        let Some(widest) = widths.iter_mut().max().filter(|widest| **widest > LEAST) else {
            break;
        };
        *widest -= 1;
    }
    while excess(&widths) && widths.len() > 1 {
        widths.pop();
    }
    widths
}

fn row(record: &Record, widths: &[usize], paint: Paint) -> String {
    let mut text = String::new();
    for (cell, &width) in record.cells().zip(widths) {
        let (mut cell_text, used) = cut(&shown(&cell), width);
        if cell.kind() != Kind::Text {
            cell_text = paint.advice(&cell_text);
        } else if record.number() == 1 {
            cell_text = paint.strong(&cell_text);
        }
        let padding = " ".repeat(width - used);
        let is_number = cell.kind() == Kind::Number;
        text += GAP;
        text += &if is_number {
            padding.clone() + &cell_text
        } else {
            cell_text + &padding
        };
    }
    text.trim_end().to_string()
}

/// A cell with its mark. Text is in quotes where it would look like another kind, like nothing, or like a shorter or longer text.
fn shown(cell: &Cell) -> Vec<Glyph> {
    let content = cell.content();
    let mark = match cell.kind() {
        Kind::Text if needs_quotes(&content) => "\"",
        Kind::Text => "",
        Kind::Number => "#",
        _ => "!",
    };
    let word = if matches!(cell.kind(), Kind::True | Kind::False | Kind::Null) {
        cell.kind().name()
    } else {
        ""
    };
    let end = if mark == "\"" { mark } else { "" };
    let pieces = [mark.as_bytes(), word.as_bytes(), &content, end.as_bytes()];
    pieces.iter().flat_map(|piece| glyphs(piece)).collect()
}

fn needs_quotes(text: &[u8]) -> bool {
    let is_space = |byte: Option<&u8>| byte == Some(&b' ');
    text.is_empty()
        || is_space(text.first())
        || is_space(text.last())
        || text.ends_with(CUT.as_bytes())
        || b"#!\"".contains(&text[0])
}

/// As many of the glyphs as fit, with the sign of a cut if not all do, and how wide that is.
fn cut(glyphs: &[Glyph], width: usize) -> (String, usize) {
    let whole: usize = glyphs.iter().map(|glyph| glyph.width()).sum();
    let (room, end) = if whole <= width {
        (width, "")
    } else {
        (width - 1, CUT)
    };
    let (mut text, mut used) = (String::new(), 0);
    for glyph in glyphs {
        if used + glyph.width() > room {
            break;
        }
        used += glyph.width();
        glyph.push_to(&mut text);
    }
    (text + end, used + end.chars().count())
}

#[cfg(test)]
mod tests {
    use super::*;
    use crate::paint::When;
    use hemakuliwi::{read, Dialect};

    fn lines(dialect: Dialect, file: &[u8], width: usize) -> String {
        let table = read(dialect, file).expect("a table");
        let mut text = String::new();
        show(
            &table,
            width,
            Paint::new(When::Never, &std::io::stdout()),
            |line| {
                text += &line;
                Ok(())
            },
        )
        .expect("a string takes all");
        text
    }

    #[test]
    fn kinds_are_marked_and_numbers_stand_to_the_right() {
        let file = b"\"stop\",\"fare\",\"open\"\n\"Harbour\",2.40,true\n\"#1\",\"2.40\",null\n\"\",10,\" x\"\n";
        let expected = "   stop     fare   open
   -------  -----  -----
2  Harbour  #2.40  !true
3  \"#1\"     2.40   !null
4  \"\"         #10  \" x\"
";
        assert_eq!(lines(Dialect::Csvj, file, 80), expected);
    }

    #[test]
    fn cells_are_aligned_by_what_a_terminal_shows() {
        let file = "名,n\n駅前,1\ne\u{301}a,2\n\"a\tb\",3\n".as_bytes();
        let expected = "   名    n\n   ----  -\n2  駅前  1\n3  e\u{301}a    2\n4  a\\tb  3\n";
        assert_eq!(lines(Dialect::CsvPlus, file, 80), expected);
    }

    #[test]
    fn different_texts_look_different() {
        let file =
            "path,n\nC:\\new,1\n\"C:\new\",2\n\"C:\\\new\",3\na b,4\na\u{A0}b,5\n".as_bytes();
        let expected = "   path      n\n   --------  -\n2  C:\\\\new   1\n3  C:\\new    2\n4  C:\\\\\\new  3\n\
            5  a b       4\n6  a\\u{A0}b  5\n";
        assert_eq!(lines(Dialect::CsvPlus, file, 80), expected);
    }

    #[test]
    fn a_text_that_ends_as_a_cut_one_does_is_in_quotes() {
        let file = "a\nwait…\nwaiting for it\n".as_bytes();
        let expected = "   a\n   -------\n2  \"wait…\"\n3  waitin…\n";
        assert_eq!(lines(Dialect::CsvPlus, file, 10), expected);
    }

    #[test]
    fn long_cells_are_cut_to_fit_and_columns_too_many_left_out() {
        let file = b"a,b\nshort,a text that is far too long for it\n";
        let expected = "   a      b\n   -----  ----------\n2  short  a text th…\n";
        assert_eq!(lines(Dialect::CsvPlus, file, 20), expected);
        let narrow = "   a\n   -----\n2  short\nand 1 column to the right: --width sets how wide \
            this is, and 0 no bound\n";
        assert_eq!(lines(Dialect::CsvPlus, file, 12), narrow);
        assert!(lines(Dialect::CsvPlus, file, 0).contains("for it\n"));
    }

    #[test]
    fn a_table_without_columns_has_its_records() {
        assert_eq!(lines(Dialect::Csvj, b"\n\n\n", 80), " \n \n2\n3\n");
    }
}
