//! The vector format that the vectors' README describes.

use crate::conformance;
use crate::lists::SHORT_FILE;
use crate::whole::TableLists;
use std::collections::HashMap;
use std::fs;
use std::path::{Path, PathBuf};

/// One case of the vectors.
#[derive(Clone, Debug)]
pub struct Case {
    /// The words after `case`.
    pub name: String,
    /// The file and line of the case, for messages.
    pub place: String,
    /// The call or calls and what they have to answer.
    pub call: Call,
}

/// A refusal as the vectors state it.
#[derive(Clone, Copy, Debug, PartialEq, Eq)]
pub struct Fault {
    /// The fault's number.
    pub number: usize,
    /// The record, or 0.
    pub record: usize,
    /// The column, or 0.
    pub column: usize,
    /// The offset, or 0.
    pub offset: usize,
}

/// Bytes as a case states them, so that long files take up no room until they are wanted.
#[derive(Clone, Debug, Default, PartialEq, Eq)]
pub struct Bytes {
    /// Each item and how many times it is repeated.
    items: Vec<(Vec<u8>, usize)>,
}

impl From<&[u8]> for Bytes {
    fn from(bytes: &[u8]) -> Self {
        Self {
            items: vec![(bytes.to_vec(), 1)],
        }
    }
}

impl Bytes {
    /// The items, repeated and joined.
    pub fn to_vec(&self) -> Vec<u8> {
        let repeated = self.items.iter().map(|(item, times)| item.repeat(*times));
        repeated.collect::<Vec<_>>().concat()
    }

    /// Each item and how many times it is repeated.
    pub fn items(&self) -> &[(Vec<u8>, usize)] {
        &self.items
    }

    /// How many bytes pass a test, repeats written out.
    pub fn count(&self, test: impl Fn(&u8) -> bool) -> usize {
        let in_item = |item: &[u8]| item.iter().filter(|byte| test(byte)).count();
        let counts = self.items.iter();
        counts.map(|(item, times)| in_item(item) * times).sum()
    }

    /// How many bytes there are, repeats written out.
    pub fn len(&self) -> usize {
        self.count(|_| true)
    }

    /// Whether there are none.
    pub fn is_empty(&self) -> bool {
        self.len() == 0
    }
}

/// A call and its expected answer.
#[derive(Clone, Debug)]
pub enum Call {
    /// A call of the reader.
    Read {
        /// The dialect number.
        dialect: u32,
        /// The file.
        file: Bytes,
        /// The length of the shortest list, if the case names it.
        room: Option<usize>,
        /// The table, or the refusal.
        expected: Result<TableShape, Fault>,
    },
    /// A call of the cell decoder.
    Decode {
        /// The dialect number.
        dialect: u32,
        /// The raw cell.
        raw: Bytes,
        /// The room for the content, if the case names it.
        room: Option<usize>,
        /// The kind number and the content, or the refusal.
        expected: Result<(u8, Bytes), Fault>,
    },
    /// A call of the whole-file converter.
    Convert {
        /// The source's dialect number.
        source: u32,
        /// The target's dialect number.
        target: u32,
        /// The file.
        file: Bytes,
        /// The room for the text, if the case names it.
        room: Option<usize>,
        /// The text, or the refusal.
        expected: Result<Bytes, Fault>,
    },
    /// A call of the writer.
    Write {
        /// The target's dialect number.
        target: u32,
        /// The table.
        table: TableArguments,
        /// The room for the text, if the case names it.
        room: Option<usize>,
        /// The text, or the refusal.
        expected: Result<Bytes, Fault>,
    },
    /// A list of calls of the piece converter.
    Pieces {
        /// The source's dialect number.
        source: u32,
        /// The target's dialect number.
        target: u32,
        /// The calls in order.
        calls: Vec<PieceCall>,
    },
}

impl Call {
    /// The file that is read or converted, whole or in pieces.
    fn file(&self) -> Option<Vec<u8>> {
        match self {
            Self::Read { file, .. } | Self::Convert { file, .. } => Some(file.to_vec()),
            Self::Pieces { calls, .. } => {
                let pieces = calls.iter().filter_map(|call| call.piece.as_ref());
                Some(pieces.flat_map(Bytes::to_vec).collect())
            }
            Self::Decode { .. } | Self::Write { .. } => None,
        }
    }
}

/// What the reader answers for an accepted file.
#[derive(Clone, Debug, PartialEq, Eq)]
pub struct TableShape {
    /// The number of columns.
    pub columns: usize,
    /// The number of data records.
    pub records: usize,
    /// The start, end and kind number of each cell, unless the case leaves them out.
    pub cells: Option<Vec<(usize, usize, u8)>>,
}

/// The writer's arguments.
#[derive(Clone, Debug)]
pub struct TableArguments {
    /// The number of columns.
    pub columns: usize,
    /// The number of records, the header too.
    pub records: usize,
    /// The bytes that the spans refer to.
    pub content: Bytes,
    /// The starts of the spans.
    pub starts: Vec<usize>,
    /// The ends of the spans.
    pub ends: Vec<usize>,
    /// The kind numbers.
    pub kinds: Vec<u8>,
}

impl TableArguments {
    /// The arguments with their content written out.
    pub fn to_lists(&self) -> TableLists {
        TableLists {
            content: self.content.to_vec(),
            starts: self.starts.clone(),
            ends: self.ends.clone(),
            kinds: self.kinds.clone(),
            columns: self.columns,
            records: self.records,
        }
    }
}

/// A piece or end call and its expected answer.
#[derive(Clone, Debug)]
pub struct PieceCall {
    /// The piece; none for an end call.
    pub piece: Option<Bytes>,
    /// The room for the text, if the case names it.
    pub room: Option<usize>,
    /// The refusal, if any.
    pub fault: Option<Fault>,
    /// The text that the call writes.
    pub text: Bytes,
}

/// All cases of a folder's `.txt` files. Anything that is not of the format is an error.
pub fn load_folder(folder: &Path) -> Result<Vec<Case>, String> {
    let mut paths = text_files(folder)?;
    paths.sort();
    if paths.is_empty() {
        return Err(format!("{}: no vector files", folder.display()));
    }
    let mut cases = Vec::new();
    for path in paths {
        let text = fs::read_to_string(&path).map_err(|error| in_file(&path, error))?;
        let name = path.file_name().unwrap_or_default().to_string_lossy();
        cases.extend(parse_file(&name, &text)?);
    }
    refuse_duplicates(&cases)?;
    Ok(cases)
}

/// The files of a folder's cases and of the conformance set in it, but those that are long: these have cases of their own.
pub fn short_files(folder: &Path) -> Result<Vec<Vec<u8>>, String> {
    let cases = load_folder(folder)?;
    let mut files: Vec<Vec<u8>> = cases.iter().filter_map(|case| case.call.file()).collect();
    for set in ["accept", "reject"] {
        let set = folder.join("csvj-conformance").join(set);
        for path in conformance::files(&set, "csvj")?.values() {
            files.push(fs::read(path).map_err(|error| in_file(path, error))?);
        }
    }
    files.retain(|file| file.len() <= SHORT_FILE);
    Ok(files)
}

fn text_files(folder: &Path) -> Result<Vec<PathBuf>, String> {
    let mut paths = Vec::new();
    for entry in fs::read_dir(folder).map_err(|error| in_file(folder, error))? {
        let path = entry.map_err(|error| in_file(folder, error))?.path();
        if path.extension().is_some_and(|extension| extension == "txt") {
            paths.push(path);
        }
    }
    Ok(paths)
}

fn in_file(path: &Path, error: std::io::Error) -> String {
    format!("{}: {error}", path.display())
}

fn refuse_duplicates(cases: &[Case]) -> Result<(), String> {
    let mut places: HashMap<&str, &str> = HashMap::new();
    for case in cases {
        if let Some(earlier) = places.insert(&case.name, &case.place) {
            return Err(format!(
                "{}: the name '{}' is that of the case at {earlier}",
                case.place, case.name
            ));
        }
    }
    Ok(())
}

/// The cases of one file, whose name is for messages.
pub fn parse_file(file_name: &str, text: &str) -> Result<Vec<Case>, String> {
    let lines = logical_lines(file_name, text)?;
    match lines.first() {
        None => return Err(format!("{file_name}: no cases")),
        Some(line) if line.opens_case() => {}
        Some(line) => return Err(line.error("a line before the first case")),
    }
    let starts: Vec<usize> = (0..lines.len())
        .filter(|&index| lines[index].opens_case())
        .collect();
    let ends = starts.iter().skip(1).copied().chain([lines.len()]);
    starts
        .iter()
        .zip(ends)
        .map(|(&start, end)| parse_case(&lines[start..end]))
        .collect()
}

/// A line together with those that continue it.
struct Line {
    place: String,
    tokens: Vec<Token>,
}

#[derive(Clone, Debug, PartialEq, Eq)]
enum Token {
    Word(String),
    Item(Vec<u8>, usize),
}

impl Line {
    fn opens_case(&self) -> bool {
        self.tokens.first() == Some(&Token::Word("case".to_string()))
    }

    fn error(&self, what: &str) -> String {
        format!("{}: {what}", self.place)
    }
}

fn logical_lines(file_name: &str, text: &str) -> Result<Vec<Line>, String> {
    let mut lines: Vec<Line> = Vec::new();
    for (index, text) in text.lines().enumerate() {
        if text.trim().is_empty() || text.starts_with('#') {
            continue;
        }
        let place = format!("{file_name}:{}", index + 1);
        let is_name = text.starts_with("case ");
        let tokens = if is_name { words(text) } else { tokens(text) }
            .map_err(|error| format!("{place}: {error}"))?;
        if !text.starts_with(' ') {
            lines.push(Line { place, tokens });
            continue;
        }
        match lines.last_mut() {
            Some(line) if !line.opens_case() => line.tokens.extend(tokens),
            _ => return Err(format!("{place}: there is nothing to go on from")),
        }
    }
    Ok(lines)
}

/// The words of a `case` line, in which a quote is nothing special.
fn words(text: &str) -> Result<Vec<Token>, String> {
    let words = text.split_whitespace();
    Ok(words.map(|word| Token::Word(word.to_string())).collect())
}

fn tokens(text: &str) -> Result<Vec<Token>, String> {
    let mut tokens = Vec::new();
    let mut rest = text.trim_start_matches(' ');
    while !rest.is_empty() {
        let (token, after) = match rest.strip_prefix('\'') {
            Some(inside) => bytes_item(inside)?,
            None => word(rest),
        };
        if !after.is_empty() && !after.starts_with(' ') {
            return Err(format!("a space is missing before '{after}'"));
        }
        tokens.push(token);
        rest = after.trim_start_matches(' ');
    }
    Ok(tokens)
}

fn word(text: &str) -> (Token, &str) {
    let (word, after) = text.split_at(text.find(' ').unwrap_or(text.len()));
    (Token::Word(word.to_string()), after)
}

/// An item after its opening quote.
fn bytes_item(inside: &str) -> Result<(Token, &str), String> {
    const MOST_BYTES: usize = 1 << 26;
    let (bytes, mut rest) = quoted_bytes(inside)?;
    let mut times = 1;
    if let Some(after) = rest.strip_prefix('*') {
        let (digits, after) = after.split_at(after.find(' ').unwrap_or(after.len()));
        times = number::<usize>(digits)?;
        rest = after;
    }
    match bytes.len().checked_mul(times) {
        Some(length) if length <= MOST_BYTES => Ok((Token::Item(bytes, times), rest)),
        _ => Err("an item stands too many times".to_string()),
    }
}

/// The bytes up to the closing quote, and what follows it.
fn quoted_bytes(inside: &str) -> Result<(Vec<u8>, &str), String> {
    let mut bytes = Vec::new();
    let mut rest = inside.chars();
    loop {
        match rest.next().ok_or("a quote is not closed")? {
            '\'' => return Ok((bytes, rest.as_str())),
            '\\' => {
                let (byte, after) = escaped_byte(rest.as_str())?;
                bytes.push(byte);
                rest = after.chars();
            }
            other => bytes.extend(other.encode_utf8(&mut [0; 4]).bytes()),
        }
    }
}

fn escaped_byte(text: &str) -> Result<(u8, &str), String> {
    let mut rest = text.chars();
    let byte = match rest.next().ok_or("an escape is cut off")? {
        'n' => b'\n',
        'r' => b'\r',
        't' => b'\t',
        '\\' => b'\\',
        '\'' => b'\'',
        'x' => {
            let digits = text.get(1..3).unwrap_or("");
            let is_hex = digits.bytes().all(|digit| digit.is_ascii_hexdigit());
            let byte = u8::from_str_radix(digits, 16).ok().filter(|_| is_hex);
            return Ok((byte.ok_or("\\x needs two digits")?, &text[3..]));
        }
        other => return Err(format!("unknown escape \\{other}")),
    };
    Ok((byte, rest.as_str()))
}

fn number<N: std::str::FromStr>(word: &str) -> Result<N, String> {
    let is_number = !word.is_empty() && word.bytes().all(|byte| byte.is_ascii_digit());
    let value = word.parse().ok().filter(|_| is_number);
    value.ok_or(format!("'{word}' is not a number that can stand here"))
}

fn parse_case(lines: &[Line]) -> Result<Case, String> {
    let name = lines[0].tokens[1..].iter().map(|token| match token {
        Token::Word(word) => word.as_str(),
        Token::Item(..) => "",
    });
    let name = name.collect::<Vec<_>>().join(" ");
    if name.is_empty() {
        return Err(lines[0].error("the case has no name"));
    }
    let call_line = lines.get(1).ok_or(lines[0].error("the case has no call"))?;
    let mut call = Parser::new(call_line);
    let call = match call.word()?.as_str() {
        "read" => parse_read(call, answer_line(lines)?)?,
        "decode" => parse_decode(call, answer_line(lines)?)?,
        "convert" => parse_convert(call, answer_line(lines)?)?,
        "write" => parse_write(call, answer_line(lines)?)?,
        "pieces" => parse_pieces(call, &lines[2..])?,
        other => return Err(call_line.error(&format!("unknown call '{other}'"))),
    };
    Ok(Case {
        name,
        place: lines[0].place.clone(),
        call,
    })
}

/// The `=>` line, which has to be the last one.
fn answer_line(lines: &[Line]) -> Result<Parser<'_>, String> {
    match lines {
        [_, _, answer] => {
            let mut parser = Parser::new(answer);
            parser.expect("=>")?;
            Ok(parser)
        }
        [_, call] => Err(call.error("the call has no answer")),
        [_, _, _, extra, ..] => Err(extra.error("a line too many")),
        _ => Err("a case has no lines".to_string()),
    }
}

fn parse_read(mut call: Parser, mut answer: Parser) -> Result<Call, String> {
    let dialect = call.number()?;
    let file = call.bytes()?;
    let room = call.room()?;
    call.end()?;
    let expected = match answer.fault()? {
        Some(fault) => Err(fault),
        None => Ok(answer.table_shape()?),
    };
    answer.end()?;
    Ok(Call::Read {
        dialect,
        file,
        room,
        expected,
    })
}

fn parse_decode(mut call: Parser, mut answer: Parser) -> Result<Call, String> {
    let dialect = call.number()?;
    let raw = call.bytes()?;
    let room = call.room()?;
    call.end()?;
    let expected = match answer.fault()? {
        Some(fault) => Err(fault),
        None => {
            let kind = answer.named_number("kind")?;
            answer.expect("content")?;
            Ok((kind, answer.bytes()?))
        }
    };
    answer.end()?;
    Ok(Call::Decode {
        dialect,
        raw,
        room,
        expected,
    })
}

fn parse_convert(mut call: Parser, answer: Parser) -> Result<Call, String> {
    let source = call.number()?;
    let target = call.number()?;
    let file = call.bytes()?;
    let room = call.room()?;
    call.end()?;
    Ok(Call::Convert {
        source,
        target,
        file,
        room,
        expected: parse_text_answer(answer)?,
    })
}

fn parse_write(mut call: Parser, answer: Parser) -> Result<Call, String> {
    let target = call.number()?;
    let columns = call.named_number("columns")?;
    let records = call.named_number("records")?;
    call.expect("content")?;
    let table = TableArguments {
        columns,
        records,
        content: call.bytes()?,
        starts: call.named_list("starts")?,
        ends: call.named_list("ends")?,
        kinds: call.named_list("kinds")?,
    };
    let room = call.room()?;
    call.end()?;
    Ok(Call::Write {
        target,
        table,
        room,
        expected: parse_text_answer(answer)?,
    })
}

fn parse_text_answer(mut answer: Parser) -> Result<Result<Bytes, Fault>, String> {
    let expected = match answer.fault()? {
        Some(fault) => Err(fault),
        None => {
            answer.expect("text")?;
            Ok(answer.bytes()?)
        }
    };
    answer.end()?;
    Ok(expected)
}

fn parse_pieces(mut call: Parser, lines: &[Line]) -> Result<Call, String> {
    let source = call.number()?;
    let target = call.number()?;
    call.end()?;
    if lines.is_empty() {
        return Err(call.line.error("there are no piece or end calls"));
    }
    let calls = lines
        .iter()
        .map(parse_piece_call)
        .collect::<Result<_, _>>()?;
    Ok(Call::Pieces {
        source,
        target,
        calls,
    })
}

fn parse_piece_call(line: &Line) -> Result<PieceCall, String> {
    let mut parser = Parser::new(line);
    let piece = match parser.word()?.as_str() {
        "piece" => Some(parser.bytes()?),
        "end" => None,
        other => return Err(line.error(&format!("unknown call '{other}'"))),
    };
    let room = parser.room()?;
    parser.expect("=>")?;
    let fault = parser.fault()?;
    if fault.is_none() {
        parser.expect("accepted")?;
    }
    let text = if parser.take("text") {
        parser.bytes()?
    } else {
        Bytes::default()
    };
    parser.end()?;
    Ok(PieceCall {
        piece,
        room,
        fault,
        text,
    })
}

/// Takes the tokens of a line one by one.
struct Parser<'a> {
    line: &'a Line,
    rest: &'a [Token],
}

impl<'a> Parser<'a> {
    fn new(line: &'a Line) -> Self {
        Self {
            line,
            rest: &line.tokens,
        }
    }

    fn error(&self, what: &str) -> String {
        match self.rest.first() {
            None => self.line.error(&format!("{what}, but the line ends")),
            Some(token) => self.line.error(&format!("{what}, not {token:?}")),
        }
    }

    fn next_word(&self) -> Option<&'a String> {
        match self.rest.first() {
            Some(Token::Word(word)) => Some(word),
            _ => None,
        }
    }

    fn word(&mut self) -> Result<String, String> {
        let word = self.next_word().ok_or(self.error("a word is wanted"))?;
        self.rest = &self.rest[1..];
        Ok(word.clone())
    }

    /// Takes this word if it comes next.
    fn take(&mut self, word: &str) -> bool {
        let found = self.next_word().is_some_and(|next| next == word);
        if found {
            self.rest = &self.rest[1..];
        }
        found
    }

    fn expect(&mut self, word: &str) -> Result<(), String> {
        if self.take(word) {
            Ok(())
        } else {
            Err(self.error(&format!("'{word}' is wanted")))
        }
    }

    fn end(&self) -> Result<(), String> {
        if self.rest.is_empty() {
            Ok(())
        } else {
            Err(self.error("the end of the line is wanted"))
        }
    }

    fn number<N: std::str::FromStr>(&mut self) -> Result<N, String> {
        let word = self.word()?;
        number(&word).map_err(|error| self.line.error(&error))
    }

    fn named_number<N: std::str::FromStr>(&mut self, name: &str) -> Result<N, String> {
        self.expect(name)?;
        self.number()
    }

    fn named_list<N: std::str::FromStr>(&mut self, name: &str) -> Result<Vec<N>, String> {
        self.expect(name)?;
        let mut numbers = Vec::new();
        while self
            .next_word()
            .is_some_and(|word| word.starts_with(|first: char| first.is_ascii_digit()))
        {
            numbers.push(self.number()?);
        }
        Ok(numbers)
    }

    /// One item or more.
    fn bytes(&mut self) -> Result<Bytes, String> {
        let mut items = Vec::new();
        while let Some((Token::Item(item, times), after)) = self.rest.split_first() {
            items.push((item.clone(), *times));
            self.rest = after;
        }
        if items.is_empty() {
            return Err(self.error("bytes are wanted"));
        }
        Ok(Bytes { items })
    }

    fn room(&mut self) -> Result<Option<usize>, String> {
        if self.take("room") {
            self.number().map(Some)
        } else {
            Ok(None)
        }
    }

    /// A refusal, if the answer is one.
    fn fault(&mut self) -> Result<Option<Fault>, String> {
        if !self.take("fault") {
            return Ok(None);
        }
        let number = self.number()?;
        if !(1..=12).contains(&number) {
            return Err(self.line.error(&format!("there is no fault {number}")));
        }
        Ok(Some(Fault {
            number,
            record: self.optional_number("record")?,
            column: self.optional_number("column")?,
            offset: self.optional_number("offset")?,
        }))
    }

    /// What is left out is 0.
    fn optional_number(&mut self, name: &str) -> Result<usize, String> {
        if self.take(name) {
            self.number()
        } else {
            Ok(0)
        }
    }

    fn table_shape(&mut self) -> Result<TableShape, String> {
        self.expect("accepted")?;
        let columns = self.named_number("columns")?;
        let records = self.named_number("records")?;
        let cells = if self.take("cells") {
            let mut cells = Vec::new();
            while !self.rest.is_empty() {
                let word = self.word()?;
                cells.push(stretch(&word).map_err(|error| self.line.error(&error))?);
            }
            Some(cells)
        } else {
            None
        };
        Ok(TableShape {
            columns,
            records,
            cells,
        })
    }
}

/// A cell as `START-END:KIND`.
fn stretch(word: &str) -> Result<(usize, usize, u8), String> {
    let parts = word.split_once('-').and_then(|(start, rest)| {
        let (end, kind) = rest.split_once(':')?;
        Some((start, end, kind))
    });
    let (start, end, kind) = parts.ok_or(format!("'{word}' is not START-END:KIND"))?;
    Ok((number(start)?, number(end)?, number(kind)?))
}

#[cfg(test)]
mod tests {
    use super::*;

    fn one(text: &str) -> Call {
        let cases = parse_file("test", text).expect("the text is of the format");
        assert_eq!(cases.len(), 1);
        cases[0].call.clone()
    }

    #[test]
    fn bytes_are_joined_repeated_and_unescaped() {
        let call = one(
            "# a comment\ncase it's a name\nread 1 '\"a\"' ',1'*3 '\\r\\n'\n \
                        'é\\xfF\\'\\\\' '' room 7\n\n=> fault 3 offset 5\n",
        );
        let Call::Read {
            dialect,
            file,
            room,
            expected,
        } = call
        else {
            panic!("not a read case");
        };
        assert_eq!(dialect, 1);
        assert_eq!(file.to_vec(), b"\"a\",1,1,1\r\n\xC3\xA9\xFF'\\");
        assert_eq!(room, Some(7));
        let fault = Fault {
            number: 3,
            record: 0,
            column: 0,
            offset: 5,
        };
        assert_eq!(expected, Err(fault));
    }

    #[test]
    fn every_call_is_read() {
        let read = "case n\nread 1 ''\n=> accepted columns 1 records 0 cells 0-3:1 4-5:2";
        let Call::Read { expected, .. } = one(read) else {
            panic!("not a read case");
        };
        let cells = expected.expect("accepted").cells;
        assert_eq!(cells, Some(vec![(0, 3, 1), (4, 5, 2)]));
        let decode = "case n\ndecode 3 'a'\n=> kind 1 content 'a'";
        assert!(matches!(
            one(decode),
            Call::Decode {
                expected: Ok((1, _)),
                ..
            }
        ));
        let convert = "case n\nconvert 1 2 'a' room 0\n=> fault 10";
        assert!(matches!(one(convert), Call::Convert { room: Some(0), .. }));
        let write = "case n\nwrite 2 columns 1 records 2 content '' starts 0 0 ends kinds 1\n\
                     => text '\\n'";
        let Call::Write { table, .. } = one(write) else {
            panic!("not a write case");
        };
        assert_eq!(
            (table.starts.len(), table.ends.len(), table.kinds.len()),
            (2, 0, 1)
        );
        let pieces = "case n\npieces 1 2\npiece 'a' => accepted\n\
                      end room 3 => fault 4 record 1 offset 1\n text 'b'";
        let Call::Pieces { calls, .. } = one(pieces) else {
            panic!("not a pieces case");
        };
        assert_eq!(calls[1].text.to_vec(), b"b");
        assert_eq!(calls[1].room, Some(3));
    }

    #[test]
    fn what_is_not_of_the_format_is_refused_by_line() {
        for (text, line) in [
            ("", "test: no cases"),
            ("read 1 ''\n=> fault 1", "test:1: "),
            ("case\nread 1 ''\n=> fault 1", "test:1: "),
            ("case n", "test:1: "),
            ("case n\nread 1 ''", "test:2: "),
            ("case n\n go on\n", "test:2: "),
            ("case n\nreed 1 ''\n=> fault 1", "test:2: "),
            ("case n\nread 1\n=> fault 1", "test:2: "),
            ("case n\nread one ''\n=> fault 1", "test:2: "),
            ("case n\nread 1 'a\n=> fault 1", "test:2: "),
            ("case n\nread 1 '\\q'\n=> fault 1", "test:2: "),
            ("case n\nread 1 '\\x4'\n=> fault 1", "test:2: "),
            ("case n\nread 1 'a'*x\n=> fault 1", "test:2: "),
            ("case n\nread 1 'a''b'\n=> fault 1", "test:2: "),
            ("case n\nread 1 'a' roof 4\n=> fault 1", "test:2: "),
            ("case n\nread 1 'a'\n=> fault 13", "test:3: "),
            ("case n\nread 1 'a'\n=> fault 1 row 1", "test:3: "),
            ("case n\nread 1 'a'\n=> fault 1\n=> fault 1", "test:4: "),
            (
                "case n\nread 1 'a'\n=> accepted columns 1 records 0 cells 1:2-3",
                "test:3: ",
            ),
            ("case n\ndecode 1 'a'\n=> text 'a'", "test:3: "),
            ("case n\npieces 1 1", "test:2: "),
            ("case n\npieces 1 1\npiece 'a'", "test:3: "),
        ] {
            let error = parse_file("test", text).expect_err(text);
            assert!(error.starts_with(line), "{text}: {error}");
        }
    }

    #[test]
    fn names_are_not_used_twice() {
        let case = |name: &str| format!("case {name}\nread 1 ''\n=> fault 1\n");
        let cases = parse_file("test", &(case("one") + &case("one"))).expect("two cases");
        let error = refuse_duplicates(&cases).expect_err("the name is used twice");
        assert!(error.starts_with("test:4: ") && error.ends_with("test:1"));
    }
}
