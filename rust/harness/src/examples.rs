//! The examples of a document: fenced blocks that are cases, as `docs/FORMATS.md` says.
//!
//! A block ```` ```example ```` has a file and what calls answer for it. A block ```` ```vector ```` has cases in the notation of the
//! vectors.

use crate::vectors::{parse_file, Bytes, Call, Case, Fault, TableShape};

/// A case of a document.
#[derive(Clone, Debug)]
pub struct Example {
    /// The heading that it is under.
    pub heading: String,
    /// The case.
    pub case: Case,
}

/// All examples of a document, whose name is for messages. Anything in an example that is not of the notation is an error.
pub fn examples(name: &str, document: &str) -> Result<Vec<Example>, String> {
    let mut found = Vec::new();
    let mut heading = String::new();
    let mut lines = (1..).zip(document.lines());
    while let Some((number, line)) = lines.next() {
        let Some(kind) = line.strip_prefix("```") else {
            if line.starts_with('#') {
                heading = line.trim_start_matches('#').trim().to_string();
            }
            continue;
        };
        let block: Vec<&str> = lines
            .by_ref()
            .map(|(_, line)| line)
            .take_while(|line| *line != "```")
            .collect();
        let place = format!("{name}:{number}");
        let cases = match kind {
            "example" => example(&place, &block).map_err(|error| format!("{place}: {error}"))?,
            "vector" => parse_file(&place, &(block.join("\n") + "\n"))?,
            _ => Vec::new(),
        };
        found.extend(cases.into_iter().map(|case| Example {
            heading: heading.clone(),
            case,
        }));
    }
    Ok(found)
}

/// The calls of a block: a dialect, the bytes of a file, and `CALL: ANSWER` for each.
fn example(place: &str, block: &[&str]) -> Result<Vec<Case>, String> {
    let (dialect, rest) = block.split_first().ok_or("the block is empty")?;
    let source = dialect_number(dialect)?;
    let (file, mut rest) = indented(rest)?;
    let mut cases = Vec::new();
    while let Some((line, after)) = rest.split_first() {
        let (text, after) = indented(after)?;
        let call = call(source, &file, line, text)?;
        cases.push(Case {
            name: (*line).to_string(),
            place: place.to_string(),
            call,
        });
        rest = after;
    }
    match cases.is_empty() {
        true => Err("nothing is said of the file".to_string()),
        false => Ok(cases),
    }
}

fn dialect_number(words: &str) -> Result<u32, String> {
    let number = match words {
        "csvj" => Some(1),
        "tdif" => Some(2),
        "csv+" => Some(3),
        _ => words
            .strip_prefix("dialect ")
            .and_then(|number| number.parse().ok()),
    };
    number.ok_or(format!("'{words}' is no dialect"))
}

/// The bytes that the indented lines mean, and the lines after these.
fn indented<'a>(lines: &'a [&'a str]) -> Result<(Vec<u8>, &'a [&'a str]), String> {
    let mut bytes = Vec::new();
    let mut rest = lines;
    while let Some((line, after)) = rest.split_first() {
        let Some(text) = line.strip_prefix("    ") else {
            break;
        };
        bytes.extend(bytes_of(text)?);
        rest = after;
    }
    Ok((bytes, rest))
}

/// The bytes of a text in which what is between `<` and `>` is a sign for others.
fn bytes_of(text: &str) -> Result<Vec<u8>, String> {
    let mut bytes = Vec::new();
    let mut rest = text;
    while let Some((before, opened)) = rest.split_once('<') {
        let end = closing(opened)?;
        bytes.extend(before.bytes());
        bytes.extend(sign(&opened[..end])?);
        rest = &opened[end + 1..];
    }
    bytes.extend(rest.bytes());
    Ok(bytes)
}

/// Where the `>` is that closes the `<` before a text. Signs may be nested.
fn closing(text: &str) -> Result<usize, String> {
    let mut open = 1;
    for (place, character) in text.char_indices() {
        match character {
            '<' => open += 1,
            '>' => open -= 1,
            _ => {}
        }
        if open == 0 {
            return Ok(place);
        }
    }
    Err(format!("`<{text}` is not closed"))
}

/// The bytes of a sign: a line break, a tab, bytes in hexadecimal, or a text repeated.
fn sign(text: &str) -> Result<Vec<u8>, String> {
    match text {
        "LF" => return Ok(vec![b'\n']),
        "CR" => return Ok(vec![b'\r']),
        "TAB" => return Ok(vec![b'\t']),
        _ => {}
    }
    if let Some((item, times)) = text.rsplit_once(" * ") {
        return Ok(bytes_of(item)?.repeat(number(times)?));
    }
    let bytes = text.split(' ').map(|digits| match digits.len() {
        2 => u8::from_str_radix(digits, 16).ok(),
        _ => None,
    });
    bytes
        .collect::<Option<_>>()
        .ok_or(format!("`<{text}>` is no sign"))
}

/// A number, which may have commas.
fn number(word: &str) -> Result<usize, String> {
    let digits = word.replace(',', "");
    digits
        .parse()
        .map_err(|_| format!("'{word}' is not a number"))
}

/// A call over the file and what it answers; the text is that of the indented lines after it.
fn call(source: u32, file: &[u8], line: &str, text: Vec<u8>) -> Result<Call, String> {
    let (asked, answer) = line
        .split_once(':')
        .ok_or(format!("'{line}' is not a call and its answer"))?;
    let (asked, room) = match asked.split_once(" with room for ") {
        None => (asked, None),
        Some((asked, room)) => (asked, Some(number(room.split(' ').next().unwrap_or(room))?)),
    };
    let file = Bytes::from(file);
    let numbers = numbers(answer.trim_start())?;
    let fault = fault(&numbers);
    if !text.is_empty() && !numbers.is_empty() {
        return Err(format!("after '{line}' no text can follow"));
    }
    match (asked.strip_prefix("to "), &numbers[..]) {
        (Some(target), numbers) if numbers.is_empty() || fault.is_some() => Ok(Call::Convert {
            source,
            target: dialect_number(target)?,
            file,
            room,
            expected: fault.map_or(Ok(Bytes::from(&text[..])), Err),
        }),
        (None, numbers) if asked == "read" => Ok(Call::Read {
            dialect: source,
            file,
            room,
            expected: match (fault, numbers) {
                (Some(fault), _) => Err(fault),
                (None, [("columns", columns), ("data records", records)]) => Ok(TableShape {
                    columns: *columns,
                    records: *records,
                    cells: None,
                }),
                _ => return Err(format!("'{answer}' is no answer of the reader")),
            },
        }),
        _ => Err(format!("'{line}' is not a call and its answer")),
    }
}

/// The numbers of an answer with their names: `fault 3, record 2`.
fn numbers(answer: &str) -> Result<Vec<(&str, usize)>, String> {
    let parts = answer.split(", ").filter(|part| !part.is_empty());
    parts
        .map(|part| {
            let (name, value) = part
                .rsplit_once(' ')
                .ok_or(format!("'{part}' has no number"))?;
            Ok((name, number(value)?))
        })
        .collect()
}

/// The fault that an answer names, if it names one. What it leaves out is 0.
fn fault(numbers: &[(&str, usize)]) -> Option<Fault> {
    let places = ["record", "column", "offset"];
    let (("fault", number), rest) = numbers.split_first()? else {
        return None;
    };
    let mut left = rest.iter().copied().peekable();
    let [record, column, offset] = places.map(|name| {
        left.next_if(|(found, _)| *found == name)
            .map_or(0, |(_, value)| value)
    });
    left.next().is_none().then_some(Fault {
        number: *number,
        record,
        column,
        offset,
    })
}

#[cfg(test)]
mod tests {
    use super::*;

    const DOCUMENT: &str = "# Top\n\n### Fault 9: kinds\n\nText.\n\n```example\ncsvj\n    \"a\"<LF>\n    <1<CR><LF> * 2>\n\
                            read: columns 1, data records 2\nto tdif: fault 9, record 2, column 1, offset 4\nto csvj:\n    \"a\"<LF>\n    \
                            <1<LF> * 2>\n```\n\n```\nnot this\n```\n\n## Calls\n\n```vector\ncase one\nread 1 '' => fault 1\n```\n";

    #[test]
    fn examples_are_found_with_their_headings() {
        let document = DOCUMENT.replace("'' =>", "''\n=>");
        let found = examples("d", &document).unwrap();
        let headings: Vec<&str> = found.iter().map(|one| one.heading.as_str()).collect();
        let kinds = "Fault 9: kinds";
        assert_eq!(headings, [kinds, kinds, kinds, "Calls"]);
        let Call::Convert {
            source,
            target,
            file,
            room: None,
            expected: Err(fault),
        } = &found[1].case.call
        else {
            panic!("{:?}", found[1]);
        };
        assert_eq!(
            (*source, *target, file.to_vec()),
            (1, 2, b"\"a\"\n1\r\n1\r\n".to_vec())
        );
        let wanted = Fault {
            number: 9,
            record: 2,
            column: 1,
            offset: 4,
        };
        assert_eq!(*fault, wanted);
        let Call::Convert {
            expected: Ok(text), ..
        } = &found[2].case.call
        else {
            panic!("{:?}", found[2]);
        };
        assert_eq!(text.to_vec(), b"\"a\"\n1\n1\n");
    }

    #[test]
    fn what_is_not_of_the_notation_is_an_error() {
        let block = |lines: &str| examples("d", &format!("```example\n{lines}\n```\n"));
        assert!(block("csvj\n    <EF BB BF>\nread: fault 1, record 1, offset 3").is_ok());
        for wrong in [
            "",
            "csvj",
            "json\nread: fault 1",
            "csvj\n    <LF\nread: fault 1",
            "csvj\n    <XY>\nread: fault 1",
            "csvj\nread: columns 1",
            "csvj\nread: fault 1, offset 3, record 1",
            "csvj\nread: fault 1, line 1",
            "csvj\nread fault 1",
            "csvj\nto tdif: columns 1, data records 0",
            "csvj\ndecode: fault 1",
            "csvj\nto tdif: fault 1\n    <LF>",
        ] {
            assert!(block(wrong).is_err(), "{wrong}");
        }
    }
}
