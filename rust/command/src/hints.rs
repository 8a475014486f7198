//! What people usually get wrong, told where the bytes show it. The first hint of the table that applies is given.

use crate::explain;
use crate::foreign::{self, wide_encoding};
use crate::look_alikes::{all, as_number, at_start, LookAlike, Looks};
use crate::printable::printable;
use crate::scene::{cells_of, Scene, Standing};
use crate::windows_1252;
use hemakuliwi::{Dialect, Fault, Kind};
use std::str::from_utf8;

pub struct Hint {
    pub name: &'static str,
    applies: fn(&Scene) -> bool,
    text: fn(&Scene) -> String,
}

/// The hint for a fault: its name and its text.
pub fn hint(scene: &Scene) -> Option<(&'static str, String)> {
    let hint = HINTS.iter().find(|hint| (hint.applies)(scene))?;
    Some((hint.name, (hint.text)(scene)))
}

/// In an order in which what is told of the whole file comes before what is told of a place.
pub const HINTS: [Hint; 36] = [
    Hint {
        name: "other_file_type",
        applies: |scene| foreign::advice(scene.case.text.head()).is_some(),
        text: |scene| {
            foreign::advice(scene.case.text.head())
                .unwrap_or_default()
                .into()
        },
    },
    Hint {
        name: "wide_encoding",
        applies: |scene| wide_encoding(scene.case.text.head()).is_some(),
        text: |scene| {
            let encoding = wide_encoding(scene.case.text.head()).unwrap_or_default();
            format!("the file is {encoding}; `iconv -f {encoding} -t UTF-8 FILE` makes it UTF-8")
        },
    },
    Hint {
        name: "byte_order_mark",
        applies: |scene| scene.standing == Standing::Mark,
        text: |scene| {
            let dialect = title(scene.dialect());
            format!(
                "the file begins with a byte order mark (EF BB BF), as spreadsheets write it, \
                and {dialect} has none; `tail -c +4 FILE` leaves it out"
            )
        },
    },
    Hint {
        name: "windows_1252",
        applies: |scene| in_windows_1252(scene).is_some(),
        text: |scene| {
            let cell = in_windows_1252(scene).unwrap_or_default();
            let what = match scene.standing {
                Standing::Comment => "comment",
                _ => "cell",
            };
            format!(
                "in Windows-1252 this {what} would read `{cell}`; if that is right, `iconv -f \
                WINDOWS-1252 -t UTF-8 FILE` makes the file UTF-8; if not, name its own encoding \
                there"
            )
        },
    },
    Hint {
        name: "other_encoding",
        applies: |scene| scene.fault() == Fault::Encoding,
        text: |scene| {
            let reason = match is_after_utf_8(scene) {
                true => "the text before this reads as UTF-8: this character may be damaged",
                false => "this is no text in Windows-1252 either",
            };
            format!(
                "{reason}; if the whole file is in another encoding, `iconv -f ENCODING -t UTF-8 \
                FILE` makes it UTF-8"
            )
        },
    },
    Hint {
        name: "typographic_quotes",
        applies: |scene| {
            needs_quotes(scene)
                && ["“", "”", "„", "‘", "’", "«", "»"]
                    .iter()
                    .any(|quote| follows(scene, quote))
        },
        text: |_| {
            "these are typographic quotes, as word processors put them; the quote of a table is \
                `\"`"
                .into()
        },
    },
    Hint {
        name: "look_alike",
        applies: |scene| look_alike(scene).is_some(),
        text: |scene| look_alike(scene).unwrap_or_default(),
    },
    Hint {
        name: "single_quotes",
        applies: |scene| needs_quotes(scene) && scene.byte == Some(b'\''),
        text: |scene| {
            format!(
                "{} has no single quotes: text stands between double ones, `\"`",
                title(scene.dialect())
            )
        },
    },
    Hint {
        name: "comment",
        applies: |scene| comment(scene).is_some(),
        text: |scene| comment(scene).unwrap_or_default().into(),
    },
    Hint {
        name: "other_delimiter",
        applies: |scene| other_delimiter(scene).is_some(),
        text: |scene| {
            format!(
                "the cells seem to be divided by {}; a table has commas",
                other_delimiter(scene).unwrap_or_default()
            )
        },
    },
    Hint {
        name: "space_beside_quote",
        applies: space_beside_quote,
        text: |scene| match scene.standing {
            Standing::AfterQuote => {
                "a space stands after the closing quote; the comma or the line \
                break comes directly after it"
                    .into()
            }
            _ => "a space stands before the opening quote; the quote comes directly after the \
                comma"
                .into(),
        },
    },
    Hint {
        name: "empty_line",
        applies: is_empty_line,
        text: |scene| match scene.dialect() {
            Dialect::Csvj => "an empty line is a record without cells; leave it out".into(),
            Dialect::Tdif => {
                "TDIF has no empty lines; leave it out, or write `#` for an empty comment".into()
            }
            Dialect::CsvPlus => {
                "an empty line is a record with one empty cell; leave it out".into()
            }
        },
    },
    Hint {
        name: "last_cell_missing",
        applies: |scene| is_last_cell_missing(scene),
        text: |scene| {
            format!(
                "the last cell is missing after the comma: {}",
                empty_cell(scene)
            )
        },
    },
    Hint {
        name: "comma_at_line_end",
        applies: comma_at_line_end,
        text: |_| {
            "a comma stands at the end of the line, where it begins one more cell; leave it out"
                .into()
        },
    },
    Hint {
        name: "comma_too_many",
        applies: |scene| is_at_comma(scene) && scene.cells_by_commas() > Some(columns(scene)),
        text: |_| "with this comma the record has more cells than the header; leave it out".into(),
    },
    Hint {
        name: "empty_cell",
        applies: is_at_comma,
        text: |scene| match scene.case.refusal.record {
            1 => "an empty name is written `\"\"`; if none is meant, leave the comma out".into(),
            _ => empty_cell(scene).into(),
        },
    },
    Hint {
        name: "bare_cr",
        applies: |scene| scene.standing == Standing::AfterCr,
        text: |scene| {
            let dialect = title(scene.dialect());
            format!(
                "the line ends in CR alone, and {dialect} asks for LF or CRLF; if all lines \
                do, `tr '\\r' '\\n'` makes them LF"
            )
        },
    },
    Hint {
        name: "doubled_quote",
        applies: |scene| {
            scene.dialect() == Dialect::Csvj
                && after_closing_quote(scene)
                && scene.byte == Some(b'"')
        },
        text: |_| {
            "CSVJ writes a quote inside of a string as `\\\"`; to write it twice is the way of \
                CSV+ and TDIF"
                .into()
        },
    },
    Hint {
        name: "backslash_before_quote",
        applies: |scene| {
            scene.dialect() != Dialect::Csvj
                && after_closing_quote(scene)
                && scene.before.ends_with(b"\\\"")
        },
        text: |scene| {
            format!(
                "a backslash escapes nothing in {}: a quote inside of quotes is written twice, \
                `\"\"`",
                title(scene.dialect())
            )
        },
    },
    Hint {
        name: "unescaped_quote",
        applies: |scene| after_closing_quote(scene) && has_quote_in_rest(scene),
        text: |scene| match scene.dialect() {
            Dialect::Csvj => "the quote before it closes the string; a quote inside of one is \
                written `\\\"`"
                .into(),
            _ => "the quote before it closes the cell; a quote inside of one is written twice, \
                `\"\"`"
                .into(),
        },
    },
    Hint {
        name: "quote_in_plain_cell",
        applies: |scene| {
            scene.dialect() == Dialect::CsvPlus
                && at_syntax(scene, Standing::Bare)
                && scene.byte == Some(b'"')
        },
        text: |_| {
            "a cell with a quote in it stands in quotes as a whole, with each quote inside of it \
                written twice"
                .into()
        },
    },
    Hint {
        name: "brackets",
        applies: |scene| needs_quotes(scene) && matches!(scene.byte, Some(b'[' | b'{')),
        text: |_| {
            "records have no brackets: each line is the cells with commas between them".into()
        },
    },
    Hint {
        name: "number_form",
        applies: is_number_form,
        text: |_| {
            "a number has no plus and no 0 in front, and a digit on each side of its point; in \
                quotes it may be spelt in any way"
                .into()
        },
    },
    Hint {
        name: "text_without_quotes",
        applies: text_without_quotes,
        text: |scene| match scene.dialect() {
            Dialect::Csvj => "text stands in double quotes; without them stand numbers, and true, \
                false and null in small letters"
                .into(),
            _ => "each cell stands in double quotes, numbers too; only `\\N`, which is null, \
                stands without"
                .into(),
        },
    },
    Hint {
        name: "line_break_in_string",
        applies: |scene| {
            at_syntax(scene, Standing::Quoted) && matches!(scene.byte, Some(b'\n' | b'\r'))
        },
        text: |_| {
            "the string is not closed on its line, or has a line break in it, which is written \
                `\\n`"
                .into()
        },
    },
    Hint {
        name: "control_in_string",
        applies: |scene| at_syntax(scene, Standing::Quoted),
        text: |_| {
            "control characters in a string are written as escapes: a tab as `\\t`, others as \
                `\\u0007`"
                .into()
        },
    },
    Hint {
        name: "backslash_in_string",
        applies: |scene| at_syntax(scene, Standing::Escape),
        text: |_| {
            "a backslash begins an escape; one that stands for itself, as in a path of Windows, is \
                written `\\\\`"
                .into()
        },
    },
    Hint {
        name: "unclosed_quote",
        applies: |scene| {
            let opened = scene.opened();
            opened.is_some_and(|cell| cell.line < scene.place().line)
        },
        text: |scene| {
            let cell = scene.walk.cell();
            format!(
                "the quote of the cell that begins at line {}, column {} is not closed before \
                this place",
                cell.line, cell.column
            )
        },
    },
    Hint {
        name: "missing_line_end",
        applies: |scene| {
            scene.fault() == Fault::CutShort
                && (scene.standing == Standing::Comment || scene.lacks_line_end())
        },
        text: |scene| {
            let dialect = title(scene.dialect());
            format!(
                "the last line has no line break after it, and {dialect} asks for one; `echo \
                >>FILE` adds it"
            )
        },
    },
    Hint {
        name: "letter_case",
        applies: |scene| scene.fault() == Fault::RepeatedName && differs_in_case(scene),
        text: |_| "TDIF takes A to Z as a to z in names".into(),
    },
    Hint {
        name: "header_missing",
        applies: |scene| {
            scene.fault() == Fault::HeaderKind
                && scene.cell().is_some_and(|cell| cell.kind == Kind::Number)
        },
        text: |_| "the first record has to be a header; this one has a number, as data have".into(),
    },
    Hint {
        name: "more_cells",
        applies: |scene| {
            scene.fault() == Fault::CellCount && scene.cells.len() > scene.case.names.len()
        },
        text: |_| "a comma inside of a cell divides it in two unless it stands in quotes".into(),
    },
    Hint {
        name: "fewer_cells",
        applies: |scene| scene.fault() == Fault::CellCount,
        text: |scene| match scene.dialect() {
            Dialect::Csvj => "a cell without a value is written `null`, so that the number of \
                cells stays the same"
                .into(),
            Dialect::Tdif => {
                "a cell without a value is written `\\N`, so that the number of cells \
                stays the same"
                    .into()
            }
            Dialect::CsvPlus => "an empty cell still has its comma; and a line break inside of a \
                cell ends the record unless it stands in quotes"
                .into(),
        },
    },
    Hint {
        name: "value_as_text",
        applies: |scene| scene.reason() == Some(&explain::KIND),
        text: |scene| match scene.cell().map(|cell| cell.kind) {
            Some(Kind::Null) => {
                "write it as empty text, `\"\"`, in the source, or convert to another dialect"
                    .into()
            }
            _ => "write it as text, in quotes, in the source, or convert to CSVJ".into(),
        },
    },
    Hint {
        name: "surrogate_as_character",
        applies: |scene| scene.reason() == Some(&explain::LONE_SURROGATE),
        text: |_| {
            "characters above FFFF are two escapes, as `\\ud83d\\ude00`; here the other one is \
                missing"
                .into()
        },
    },
    Hint {
        name: "name_in_other_letters",
        applies: |scene| scene.reason() == Some(&explain::REPEATED_NAME),
        text: |_| {
            "the names differ in capital and small letters alone; rename one in the source".into()
        },
    },
];

/// A dialect as the rules write it.
pub fn title(dialect: Dialect) -> &'static str {
    match dialect {
        Dialect::Csvj => "CSVJ",
        Dialect::Tdif => "TDIF",
        Dialect::CsvPlus => "CSV+",
    }
}

fn at_syntax(scene: &Scene, standing: Standing) -> bool {
    scene.fault() == Fault::Syntax && scene.standing == standing
}

/// A byte with which no cell begins, in a dialect whose text stands in quotes.
fn needs_quotes(scene: &Scene) -> bool {
    scene.dialect() != Dialect::CsvPlus && at_syntax(scene, Standing::CellStart)
}

fn after_closing_quote(scene: &Scene) -> bool {
    at_syntax(scene, Standing::AfterQuote) && scene.before.ends_with(b"\"")
}

/// Whether another quote stands before the next comma or line break, as if the cell went on.
fn has_quote_in_rest(scene: &Scene) -> bool {
    let rest = scene.case.text.from(scene.case.refusal.offset);
    let end = rest
        .iter()
        .find(|byte| matches!(byte, b',' | b'\n' | b'\r' | b'"'));
    end == Some(&b'"')
}

fn follows(scene: &Scene, text: &str) -> bool {
    scene
        .case
        .text
        .from(scene.case.refusal.offset)
        .starts_with(text.as_bytes())
}

/// Whether characters of UTF-8 beyond ASCII are in the record before the place, or half of one at it.
fn is_after_utf_8(scene: &Scene) -> bool {
    let start = scene.walk.record_start();
    let record = scene.case.text.between(start, scene.marked().start);
    !record.is_ascii() || scene.unfinished().len() > 1
}

/// How the cell or comment reads in Windows-1252, around the first byte that is no UTF-8, if it is nothing but that.
fn in_windows_1252(scene: &Scene) -> Option<String> {
    /// How many characters are shown on each side.
    const SHOWN: usize = 20;
    if scene.fault() != Fault::Encoding || is_after_utf_8(scene) {
        return None;
    }
    let text: Vec<char> = windows_1252::decode(scene.around())?.chars().collect();
    let is_break_or_tab = |character: &char| matches!(character, '\t' | '\r' | '\n');
    let is_text = |character: &char| !character.is_control() || is_break_or_tab(character);
    if !text.iter().all(is_text) {
        return None;
    }
    let start = scene.walk.cell().offset;
    let at = scene.case.text.between(start, scene.marked().start).len();
    let (start, end) = (
        at.saturating_sub(SHOWN),
        text.len().min(at.saturating_add(SHOWN + 1)),
    );
    let shown: String = text[start..end].iter().collect();
    let cut = |is_cut| if is_cut { "…" } else { "" };
    let shown = printable(shown.trim_matches(['"', ' ', '\t', '\r', '\n']).as_bytes());
    Some([cut(start > 0), &shown, cut(end < text.len())].concat())
}

/// What a character is that looks like another one, at the place or where it leaves a record with too many or too few cells.
fn look_alike(scene: &Scene) -> Option<String> {
    if scene.fault() == Fault::CellCount {
        return look_alike_in_record(scene);
    }
    let one = look_alike_at_place(scene)?;
    let is_in_value = matches!(scene.standing, Standing::CellStart | Standing::Bare);
    let remedy = match (number_meant(scene), one.looks) {
        (Some(number), _) => format!("; write `{number}`"),
        (None, Looks::LikeSpace | Looks::LikeNothing) => "; leave it out".into(),
        (None, Looks::LikeLineBreak) => "; write a line break (LF)".into(),
        (None, Looks::Like(',')) => "; write `,` itself".into(),
        // What is no number is text without quotes, whatever its characters look like.
        (None, Looks::Like('0'..='9' | '+' | '-' | '.' | '\'')) if is_in_value => return None,
        (None, Looks::Like(character)) if is_in_value => format!("; write `{character}` itself"),
        (None, Looks::Like(_)) => String::new(),
    };
    Some(one.text() + &remedy)
}

/// The number of CSVJ as which the cell at the place is meant, if it is one but for look-alikes.
fn number_meant(scene: &Scene) -> Option<String> {
    /// The longest that is shown.
    const SHOWN: usize = 40;
    let is_in_value = matches!(scene.standing, Standing::CellStart | Standing::Bare);
    if scene.dialect() != Dialect::Csvj || !is_in_value {
        return None;
    }
    let number = as_number(from_utf8(scene.around()).ok()?);
    let cells = cells_of(Dialect::Csvj, format!("{number}\n").as_bytes());
    let is_number = cells.len() == 1 && cells[0].kind == Kind::Number;
    Some(number).filter(|number| is_number && number.len() <= SHOWN)
}

/// The character that is refused, or the one between a comma and the quote of a CSV+ cell.
fn look_alike_at_place(scene: &Scene) -> Option<&'static LookAlike> {
    if scene.fault() != Fault::Syntax {
        return None;
    }
    let is_before_quote = scene.dialect() == Dialect::CsvPlus
        && scene.standing == Standing::Bare
        && scene.byte == Some(b'"');
    if is_before_quote {
        let before = scene.before.trim_ascii();
        return at_start(before).filter(|one| {
            let is_blank = matches!(one.looks, Looks::LikeSpace | Looks::LikeNothing);
            is_blank && one.character.len_utf8() == before.len()
        });
    }
    at_start(scene.case.text.from(scene.character_start()))
}

/// In CSV+ commas and quotes that only look so are text: counted as such they explain the number of cells.
fn look_alike_in_record(scene: &Scene) -> Option<String> {
    if scene.dialect() != Dialect::CsvPlus {
        return None;
    }
    let (cells, names) = (&scene.cells, &scene.case.names);
    let commas = |texts: &[&[u8]]| -> Vec<&LookAlike> {
        texts.iter().flat_map(|text| all(text, ',')).collect()
    };
    let texts = cells.iter().map(|cell| &scene.record[cell.range.clone()]);
    let plain: Vec<&[u8]> = texts.filter(|text| !text.starts_with(b"\"")).collect();
    let header: Vec<&[u8]> = names.iter().map(Vec::as_slice).collect();
    let [in_record, in_header] = [commas(&plain), commas(&header)];
    let explains = |commas: &[&LookAlike], fewer: usize, more: usize| {
        !commas.is_empty() && fewer + commas.len() == more
    };
    if explains(&in_record, cells.len(), names.len()) {
        return Some(in_record[0].text() + ", and divides no cells; write `,` itself");
    }
    if explains(&in_header, names.len(), cells.len()) {
        let text = in_header[0].text();
        return Some(text + ", and divides no cells of the header; write `,` itself");
    }
    let quote = plain.iter().find_map(|text| at_start(text));
    let quote = quote.filter(|one| one.looks == Looks::Like('"') && cells.len() > names.len())?;
    Some(quote.text() + ", and does not hold a cell with a comma together; write `\"` itself")
}

/// What a line means that begins with `#`, as a comment of TDIF does, in a dialect that has none.
fn comment(scene: &Scene) -> Option<&'static str> {
    match scene.dialect() {
        Dialect::Csvj if needs_quotes(scene) && scene.byte == Some(b'#') => {
            let is_first = scene.walk.cell_number() == 1;
            is_first.then_some("CSVJ has no comments; leave this line out")
        }
        Dialect::CsvPlus if is_comment_line(scene) => Some(
            "CSV+ has no comments: this line, which begins with `#`, is read as a record; leave it \
            out if it is meant as a comment",
        ),
        Dialect::CsvPlus if is_comment_header(scene) => Some(
            "CSV+ has no comments: the first line, which begins with `#`, is read as the header; \
            leave it out if it is meant as a comment",
        ),
        _ => None,
    }
}

/// Whether a record of CSV+ seems to be a comment. `#1` can be data, so that a fault inside of a cell is one of a comment only after `# `.
fn is_comment_line(scene: &Scene) -> bool {
    match scene.fault() {
        Fault::CellCount => scene.record.starts_with(b"#"),
        Fault::Syntax | Fault::RepeatedName => scene.record.starts_with(b"# "),
        _ => false,
    }
}

/// Whether the header seems to be a comment: the first record below it has another number of cells. `#` alone is a usual name.
fn is_comment_header(scene: &Scene) -> bool {
    let name = scene.case.names.first();
    scene.fault() == Fault::CellCount
        && scene.case.refusal.record == 2
        && name.is_some_and(|name| name.starts_with(b"#") && name.len() > 1)
}

fn other_delimiter(scene: &Scene) -> Option<&'static str> {
    let last_before = scene.before.last().copied();
    let byte = match (scene.fault(), scene.standing, scene.byte) {
        (
            Fault::Syntax,
            Standing::AfterQuote | Standing::Bare,
            Some(byte @ (b';' | b'|' | b'\t')),
        ) => byte,
        (Fault::Syntax, Standing::AfterQuote | Standing::Bare, Some(b'"')) => last_before?,
        (Fault::CellCount, ..) if scene.dialect() == Dialect::CsvPlus => *scene
            .case
            .names
            .first()
            .filter(|_| scene.case.names.len() == 1)?
            .iter()
            .find(|byte| b";|\t".contains(byte))?,
        _ => return None,
    };
    match byte {
        b';' => Some("semicolons"),
        b'|' => Some("bars"),
        b'\t' => Some("tabs"),
        _ => None,
    }
}

fn space_beside_quote(scene: &Scene) -> bool {
    let is_space = |byte: &u8| matches!(byte, b' ' | b'\t');
    let at_space = scene.byte.as_ref().is_some_and(is_space) && scene.dialect() != Dialect::Csvj;
    let before_quote = scene.byte == Some(b'"')
        && at_syntax(scene, Standing::Bare)
        && scene.before.iter().all(is_space);
    let before_cell = scene.dialect() == Dialect::Tdif && at_syntax(scene, Standing::CellStart);
    before_quote || at_space && (at_syntax(scene, Standing::AfterQuote) || before_cell)
}

fn is_empty_line(scene: &Scene) -> bool {
    let has_no_bytes = scene
        .record
        .iter()
        .all(|byte| matches!(byte, b'\r' | b'\n'));
    match scene.fault() {
        Fault::CellCount => has_no_bytes || scene.cells.is_empty(),
        Fault::Syntax => {
            scene.dialect() == Dialect::Tdif && at_line_end(scene) && scene.walk.cell_number() == 1
        }
        _ => false,
    }
}

fn at_line_end(scene: &Scene) -> bool {
    scene.standing == Standing::CellStart && matches!(scene.byte, Some(b'\r' | b'\n'))
}

/// Whether a data record of CSVJ or TDIF ends in a comma, and has as many cells as the header with an empty one after it.
fn is_last_cell_missing(scene: &Scene) -> bool {
    let cells = scene.walk.cell_number();
    needs_quotes(scene) && at_line_end(scene) && cells > 1 && cells == scene.case.names.len()
}

/// Whether a comma is where a cell of CSVJ or TDIF has to begin.
fn is_at_comma(scene: &Scene) -> bool {
    needs_quotes(scene) && scene.byte == Some(b',')
}

/// How many cells a record may have: as many as the header, once that is complete.
fn columns(scene: &Scene) -> usize {
    match scene.case.refusal.record {
        1 => usize::MAX,
        _ => scene.case.names.len(),
    }
}

fn empty_cell(scene: &Scene) -> &'static str {
    match scene.dialect() {
        Dialect::Tdif => "an empty cell is written `\"\"`, and one without a value `\\N`",
        _ => "an empty cell is written `\"\"`, and one without a value `null`",
    }
}

fn comma_at_line_end(scene: &Scene) -> bool {
    match scene.fault() {
        Fault::Syntax => at_line_end(scene) && scene.walk.cell_number() > 1,
        Fault::CellCount => {
            let is_one_more = scene.cells.len() == scene.case.names.len() + 1;
            is_one_more && scene.cells.last().is_some_and(|cell| cell.range.is_empty())
        }
        _ => false,
    }
}

fn is_number_form(scene: &Scene) -> bool {
    let starts = at_syntax(scene, Standing::CellStart) && matches!(scene.byte, Some(b'+' | b'.'));
    let is_number = scene.before.iter().any(u8::is_ascii_digit) || scene.before.contains(&b'-');
    let goes_on = at_syntax(scene, Standing::Bare)
        && is_number
        && matches!(
            scene.byte,
            Some(b'0'..=b'9' | b'.' | b',' | b'\n' | b'\r' | b'-' | b'+')
        );
    scene.dialect() == Dialect::Csvj && (starts || goes_on)
}

fn text_without_quotes(scene: &Scene) -> bool {
    let is_letter =
        |byte: u8| byte.is_ascii_alphanumeric() || byte >= 0x80 || byte == b'_' || byte == b'-';
    let at_letter = scene.byte.is_some_and(is_letter);
    let starts = needs_quotes(scene)
        && (at_letter
            || scene.dialect() == Dialect::Tdif && matches!(scene.byte, Some(b'+' | b'.')));
    // A word that begins as true, false, null or a number does and goes on in another way, or ends before they do.
    let goes_on = scene.dialect() != Dialect::CsvPlus && at_syntax(scene, Standing::Bare);
    starts || goes_on
}

fn differs_in_case(scene: &Scene) -> bool {
    let column = scene.repeated_column();
    let earlier = column.and_then(|column| scene.cells.get(column - 1));
    let [name, earlier] = [scene.cell(), earlier].map(|cell| cell.map(|cell| &cell.content));
    name != earlier
}
