//! A refusal in words: what is wrong, where, by which rule, and what usually helps.

use crate::excerpt::{excerpt, Excerpt};
use crate::explain::{self, explanation, Reason};
use crate::hints::{hint, title};
use crate::lines::{Place, MARK};
use crate::printable::printable;
use crate::scene::{Case, Scene, Standing};
use hemakuliwi::{Dialect, Fault, Kind, Refusal};
use std::str::from_utf8;

pub struct Diagnosis {
    pub from: Dialect,
    pub to: Option<Dialect>,
    pub refusal: Refusal,
    pub name: &'static str,
    pub reason: Option<&'static Reason>,
    /// The place that is shown: that of the report, or of the cell that it names.
    pub place: Place,
    pub cell: Option<usize>,
    pub header_name: Option<Vec<u8>>,
    pub message: String,
    pub rule: String,
    pub hint: Option<(&'static str, String)>,
    pub excerpt: Excerpt,
    /// How many columns the line numbers beside the excerpt take.
    pub margin: usize,
}

/// The frame between a line number and its line, and a caret after the line.
const BESIDE: usize = 4;
/// What is shown of a line on the narrowest screen.
const LEAST: usize = 16;

impl Diagnosis {
    /// The excerpt, with the line numbers beside it, is as wide as the screen at most.
    pub fn new(case: &Case, screen: usize) -> Self {
        let scene = Scene::new(case);
        let place = scene.place();
        let reason = scene.reason();
        let margin = 1 + place.line.to_string().len();
        let width = screen.saturating_sub(margin + BESIDE).max(LEAST);
        Self {
            from: case.from,
            to: case.to,
            refusal: case.refusal,
            name: explanation(case.refusal.fault).name,
            reason,
            place,
            cell: scene.cell_number(),
            header_name: scene.header_name().map(<[u8]>::to_vec),
            message: message(&scene),
            rule: rule(&scene, reason).into(),
            hint: hint(&scene),
            excerpt: excerpt(&case.text, place, scene.opened(), &scene.marked(), width),
            margin,
        }
    }
}

/// What is wrong, in one line.
fn message(scene: &Scene) -> String {
    let Refusal {
        fault,
        record,
        column,
        ..
    } = scene.case.refusal;
    match fault {
        Fault::NoRecord => format!(
            "the file ends before any record begins: {}",
            what_there_is(scene)
        ),
        Fault::Encoding => match scene.unfinished() {
            [] => format!(
                "byte {:02X} begins no character of UTF-8",
                scene.byte.unwrap_or_default()
            ),
            [lead, ..] => format!(
                "{} can't go on the character that byte {lead:02X} begins",
                found(scene)
            ),
        },
        Fault::Syntax => format!("{} can't stand here", found(scene)),
        Fault::CutShort => format!("the file ends {}", where_it_ends(scene)),
        Fault::CellCount => {
            let (cells, columns) = (counted(scene.cells.len(), "cell"), scene.case.names.len());
            format!("record {record} has {cells}, and the header has {columns}")
        }
        Fault::RepeatedName => format!(
            "column {column} repeats the name of column {}",
            scene.repeated_column().unwrap_or_default()
        ),
        Fault::HeaderKind => format!("column {column} of the header is {}, not text", kind(scene)),
        Fault::Limit => limit(scene),
        Fault::NotCarried => not_carried(scene),
        Fault::Room | Fault::WrongCall | Fault::NoTable => explanation(fault).title.into(),
    }
}

fn what_there_is(scene: &Scene) -> &'static str {
    match scene.case.text.head() {
        [] => "it is empty",
        head if head == MARK => "it has a byte order mark and nothing else",
        _ => "it has comments and nothing else",
    }
}

/// The character or byte at the place, in words.
fn found(scene: &Scene) -> String {
    let Some(byte) = scene.byte else {
        return "the end of the file".into();
    };
    match byte {
        b'\n' => "a line break (LF)".into(),
        b'\r' => "a carriage return (CR)".into(),
        b'\t' => "a tab".into(),
        b' ' => "a space".into(),
        b',' => "a comma".into(),
        b'"' => "a quote".into(),
        0x21..=0x7E => format!("`{}`", char::from(byte)),
        0..=0x7F => format!("the control byte {byte:02X}"),
        _ if scene.standing == Standing::Mark => "a byte order mark".into(),
        _ => character_at(scene).map_or(format!("byte {byte:02X}"), |character| {
            format!("`{character}`")
        }),
    }
}

/// The character at the place, if there is a whole one.
fn character_at(scene: &Scene) -> Option<String> {
    let rest = scene.case.text.from(scene.character_start());
    let whole = (2..=4)
        .filter_map(|length| rest.get(..length))
        .find(|bytes| from_utf8(bytes).is_ok())?;
    Some(printable(whole))
}

fn where_it_ends(scene: &Scene) -> &'static str {
    let last = scene.case.text.between(0, scene.case.refusal.offset);
    match scene.standing {
        _ if scene.dialect() == Dialect::Csvj && MARK.starts_with(last) => {
            "inside of a byte order mark"
        }
        _ if !scene.unfinished().is_empty() => "inside of a character",
        Standing::Comment => "inside of a comment",
        Standing::Quoted | Standing::Escape => "inside of a quoted cell",
        Standing::AfterCr => "after a carriage return (CR) that needs a line feed (LF)",
        _ => "inside of a record",
    }
}

fn kind(scene: &Scene) -> &'static str {
    match scene.cell().map(|cell| cell.kind) {
        Some(Kind::Number) => "a number",
        Some(kind) => kind.name(),
        None => "none",
    }
}

fn limit(scene: &Scene) -> String {
    let record = scene.case.refusal.record;
    match scene.reason() {
        Some(&explain::FILE_BYTES) => "the file has more than 16,777,215 bytes".into(),
        Some(&explain::COLUMNS) => format!("record {record} has more than 64 columns"),
        _ => format!("record {record} has more than 4,096 bytes"),
    }
}

fn not_carried(scene: &Scene) -> String {
    let Refusal { record, column, .. } = scene.case.refusal;
    let target = title(scene.case.to.unwrap_or(scene.case.from));
    match scene.reason() {
        Some(&explain::NO_CELLS) => format!("{target} can't carry a header without cells"),
        Some(&explain::KIND) => format!("{target} can't carry {} in column {column}", kind(scene)),
        Some(&explain::LONE_SURROGATE) => {
            format!("{target} can't carry half of a surrogate pair in column {column}")
        }
        Some(&explain::REPEATED_NAME) => {
            let earlier = scene.repeated_column().unwrap_or_default();
            format!("{target} takes the name of column {column} for that of column {earlier}")
        }
        Some(&explain::RECORD_TEXT) => {
            format!("record {record} has more than 4,096 bytes as {target} writes it")
        }
        _ => {
            format!("with record {record} all that {target} writes has more than 16,777,215 bytes")
        }
    }
}

pub fn counted(number: usize, what: &str) -> String {
    let ending = if number == 1 { "" } else { "s" };
    format!("{number} {what}{ending}")
}

/// The rule that is broken, for a fault of syntax that of the place.
fn rule(scene: &Scene, reason: Option<&'static Reason>) -> &'static str {
    match (scene.fault(), reason) {
        (_, Some(reason)) => reason.rule,
        (Fault::Syntax, None) => syntax_rule(scene.dialect(), scene.standing),
        (fault, None) => explanation(fault).rule,
    }
}

fn syntax_rule(dialect: Dialect, standing: Standing) -> &'static str {
    match (dialect, standing) {
        (Dialect::CsvPlus, Standing::Mark) => {
            "CSV+ has no byte order mark: EF BB BF may not be \
            the first three bytes of a file"
        }
        (Dialect::Tdif, Standing::Mark) => {
            "TDIF has no byte order mark: a file begins with a cell \
            or a comment"
        }
        (Dialect::Csvj, Standing::CellStart | Standing::Mark) => {
            "a value of CSVJ is text in \
            quotes, a number, true, false or null"
        }
        (Dialect::Csvj, Standing::Bare) => {
            "a number or word of CSVJ is spelt as in JSON, and then \
            come a comma or the end of the line"
        }
        (Dialect::Csvj, Standing::AfterQuote) => {
            "after a value of CSVJ comes a comma or the end \
            of the line"
        }
        (Dialect::Csvj, Standing::Quoted) => {
            "a byte below 20 stands in a string of CSVJ only as \
            an escape"
        }
        (Dialect::Csvj, Standing::Escape) => {
            "after a backslash comes one of \" \\ / b f n r t, or \
            u and four hexadecimal digits"
        }
        (Dialect::Tdif, Standing::CellStart | Standing::Bare) => {
            "a cell of TDIF is text in quotes \
            or \\N, and no line is empty"
        }
        (Dialect::Tdif, _) => "after a cell of TDIF comes a comma or the end of the line",
        (Dialect::CsvPlus, Standing::AfterQuote) => {
            "after a closing quote comes a comma or the \
            end of the line"
        }
        (Dialect::CsvPlus, Standing::Bare) => {
            "a quote stands only around a whole cell, or twice \
            inside of a quoted one"
        }
        (_, Standing::AfterCr) => "a CR outside of quotes has an LF directly after it",
        _ => explanation(Fault::Syntax).rule,
    }
}

#[cfg(test)]
mod tests {
    use super::*;
    use crate::convert::names_of;
    use crate::paint::{Paint, When};
    use crate::printable::{glyphs, Glyph};
    use crate::trail::{Text, Trail};
    use harness::generate::{mutate, sample};
    use harness::rng::Rng;
    use hemakuliwi::{Converter, Fault};
    use std::collections::BTreeMap;

    const SCREEN: usize = 60;

    /// What is told of a file that is converted, by its text as a whole and by what is kept of it when it comes in pieces.
    fn diagnoses(from: Dialect, to: Dialect, file: &[u8], piece: usize) -> Option<[Diagnosis; 2]> {
        let mut converter = Converter::new(from, to);
        let mut trail = Trail::new(from);
        let mut text = Vec::new();
        let mut read = 0;
        let refused = file.chunks(piece).find_map(|piece| {
            trail.push(piece);
            read += piece.len();
            converter.piece(piece, &mut text).err()
        });
        let refusal = refused.or_else(|| converter.end(&mut text).err())?;
        let names = names_of(&converter);
        let texts = [Text::whole(from, &file[..read]), trail.text()];
        Some(texts.map(|text| {
            let case = Case {
                from,
                to: Some(to),
                refusal,
                text,
                names: names.clone(),
            };
            Diagnosis::new(&case, SCREEN)
        }))
    }

    fn check(diagnosis: &Diagnosis, file: &[u8]) {
        let Place {
            offset,
            line,
            column,
        } = diagnosis.place;
        let before = String::from_utf8_lossy(&file[..offset])
            .replace("\r\n", "\n")
            .replace('\r', "\n");
        if file.get(offset) != Some(&b'\n')
            && diagnosis.refusal.fault != Fault::Encoding
            && !file.starts_with(&MARK)
            && offset < file.len()
        {
            assert_eq!(line, 1 + before.matches('\n').count());
            assert_eq!(
                column,
                1 + before
                    .rsplit('\n')
                    .next()
                    .map_or(0, |line| line.chars().count())
            );
        }
        let plain = Paint::new(When::Never, &std::io::stdout());
        for line in diagnosis.excerpt_text(plain).lines() {
            assert!(
                glyphs(line.as_bytes())
                    .map(Glyph::width_in_line)
                    .sum::<usize>()
                    <= SCREEN,
                "{line}"
            );
            assert!(line.chars().all(|character| !character.is_control()));
        }
        assert!(diagnosis.excerpt.carets.contains('^'));
        let is_of_cell = matches!(
            diagnosis.refusal.fault,
            Fault::RepeatedName | Fault::HeaderKind
        );
        assert!(
            !is_of_cell
                || diagnosis.cell == Some(diagnosis.refusal.column)
                    && offset >= diagnosis.refusal.offset
        );
        if diagnosis.refusal.fault == Fault::CellCount {
            assert!(!diagnosis.message.contains(" 65 "), "{}", diagnosis.message);
        }
    }

    #[test]
    fn what_is_told_is_the_same_in_pieces_and_fits_the_text() {
        let mut rng = Rng::new(2);
        let mut met: BTreeMap<(&str, Option<&str>), usize> = BTreeMap::new();
        for round in 0..8_000 {
            let from = rng.pick(&Dialect::ALL);
            let to = rng.pick(&Dialect::ALL);
            let mut file = sample(&mut rng, harness::DIALECTS[from.number() as usize - 1].1).file;
            if rng.percent(50) {
                mutate(&mut rng, &mut file);
            }
            let piece = if rng.percent(50) {
                4_096
            } else {
                rng.between(1, 20)
            };
            let Some([whole, kept]) = diagnoses(from, to, &file, piece) else {
                continue;
            };
            check(&whole, &file);
            let told = |diagnosis: &Diagnosis| diagnosis.json(b"file");
            assert_eq!(
                told(&whole),
                told(&kept),
                "round {round}: {}",
                printable(&file)
            );
            assert_eq!(
                whole.excerpt,
                kept.excerpt,
                "round {round}: {}",
                printable(&file)
            );
            *met.entry((whole.name, whole.reason.map(|reason| reason.name)))
                .or_default() += 1;
        }
        let expected = [
            "no_record",
            "encoding",
            "syntax",
            "cut_short",
            "cell_count",
            "repeated_name",
            "header_kind",
            "limit",
            "not_carried",
        ];
        for name in expected {
            assert!(
                met.keys().any(|(met, _)| *met == name),
                "{name} was not met: {met:?}"
            );
        }
    }
}
