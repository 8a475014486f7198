//! Files that are no tables, and texts that are not UTF-8, recognised by their first bytes.

use crate::lines::MARK;

/// How many bytes at the start of a file are looked at.
pub const HEAD: usize = 128;

/// Where a zip archive has the name of its first file.
const ZIP_NAME: usize = 30;

/// What begins with these bytes, and what to do with it.
const TYPES: [(&[u8], &str); 10] = [
    (
        b"\x1F\x8B",
        "this is a gzip archive: unpack it first, with `gunzip -c FILE`",
    ),
    (
        b"\xFD7zXZ\0",
        "this is an xz archive: unpack it first, with `xz -dc FILE`",
    ),
    (
        b"\x28\xB5\x2F\xFD",
        "this is a zstd archive: unpack it first, with `zstd -dc FILE`",
    ),
    (
        b"7z\xBC\xAF\x27\x1C",
        "this is a 7z archive: unpack it first, with `7z x FILE`",
    ),
    (b"PK\x05\x06", EMPTY_ZIP),
    (b"PK\x07\x08", ZIP),
    (b"PK\x03\x04", ZIP),
    (
        b"%PDF-",
        "this is a PDF, which is made for printing: have its table exported as CSV in UTF-8, which is read as csv+",
    ),
    (
        b"SQLite format 3\0",
        "this is a database (SQLite): export one of its tables, with `sqlite3 -csv -header FILE 'SELECT * FROM TABLE'`, and read that as csv+",
    ),
    (
        b"\xD0\xCF\x11\xE0",
        "this is an old spreadsheet (xls) or another old Office document: export it as CSV in UTF-8, which is read as csv+",
    ),
];

const ZIP: &str = "this is a zip archive: unpack it first, with `unzip FILE`";
const EMPTY_ZIP: &str = "this is a zip archive with nothing in it";
const XLSX: &str =
    "this is a spreadsheet (xlsx) or another Office document: export it as CSV in UTF-8, which is read as csv+";
const ODS: &str = "this is a spreadsheet (ods): export it as CSV in UTF-8, which is read as csv+";
const WEB_PAGE: &str = "this is a web page (HTML), as a server sends it when the file is not there or needs a password: open it in a browser, \
    and fetch the file itself";
const XML: &str = "this is XML: have its table exported as CSV in UTF-8, which is read as csv+";

/// What the file is, if it is no table, and what to do with it.
pub fn advice(head: &[u8]) -> Option<&'static str> {
    let known = TYPES.iter().find(|(first, _)| head.starts_with(first));
    match known {
        Some((_, ZIP)) => Some(of_zip(head)),
        Some((_, advice)) => Some(advice),
        None => of_bzip2(head).or_else(|| of_markup(head)),
    }
}

/// Spreadsheets are zip archives whose first file has one of a few names.
fn of_zip(head: &[u8]) -> &'static str {
    let first = head.get(ZIP_NAME..).unwrap_or_default();
    let begins = |names: &[&str]| names.iter().any(|name| first.starts_with(name.as_bytes()));
    if begins(&["mimetypeapplication/vnd.oasis.opendocument.spreadsheet"]) {
        ODS
    } else if begins(&["[Content_Types].xml", "_rels/", "docProps/", "xl/"]) {
        XLSX
    } else {
        ZIP
    }
}

/// After three letters and a digit comes the mark of the first block, without which it could be text.
fn of_bzip2(head: &[u8]) -> Option<&'static str> {
    let is_bzip2 =
        matches!(head, [b'B', b'Z', b'h', b'1'..=b'9', rest @ ..] if rest.starts_with(b"1AY&SY"));
    is_bzip2.then_some("this is a bzip2 archive: unpack it first, with `bzip2 -dc FILE`")
}

fn of_markup(head: &[u8]) -> Option<&'static str> {
    let text = head.strip_prefix(&MARK).unwrap_or(head).trim_ascii_start();
    let begins = |word: &str| {
        let start = text.get(..word.len());
        start.is_some_and(|start| start.eq_ignore_ascii_case(word.as_bytes()))
    };
    if begins("<!DOCTYPE html") || begins("<html") {
        Some(WEB_PAGE)
    } else if begins("<?xml") || begins("<!DOCTYPE") {
        Some(XML)
    } else {
        None
    }
}

/// The encoding by the name that iconv has for it, if it is UTF-16 or UTF-32: by the byte order mark, or by the zeros of its ASCII.
pub fn wide_encoding(head: &[u8]) -> Option<&'static str> {
    match head {
        [0xFF, 0xFE, 0, 0, ..] | [0, 0, 0xFE, 0xFF, ..] => Some("UTF-32"),
        [0xFF, 0xFE, ..] | [0xFE, 0xFF, ..] => Some("UTF-16"),
        _ if is_utf_32(head, u32::from_le_bytes) => Some("UTF-32LE"),
        _ if is_utf_32(head, u32::from_be_bytes) => Some("UTF-32BE"),
        _ if is_utf_16(head, u16::from_le_bytes) => Some("UTF-16LE"),
        _ if is_utf_16(head, u16::from_be_bytes) => Some("UTF-16BE"),
        _ => None,
    }
}

/// How many characters of ASCII make it sure: UTF-8 has a zero for a NUL alone.
const ENOUGH: usize = 2;

fn is_utf_32(head: &[u8], number: fn([u8; 4]) -> u32) -> bool {
    let units = head.as_chunks().0.iter().map(|&unit| number(unit));
    let characters: Option<Vec<char>> = units.map(char::from_u32).collect();
    characters.is_some_and(|characters| is_text(&characters))
}

fn is_utf_16(head: &[u8], number: fn([u8; 2]) -> u16) -> bool {
    let units: Vec<u16> = head
        .as_chunks()
        .0
        .iter()
        .map(|&unit| number(unit))
        .collect();
    // The last unit can be the first half of a character.
    let whole = match units.split_last() {
        Some((0xD800..=0xDBFF, before)) => before,
        _ => &units,
    };
    String::from_utf16(whole).is_ok_and(|text| is_text(&text.chars().collect::<Vec<char>>()))
}

fn is_text(characters: &[char]) -> bool {
    let is_control =
        |character: &char| character.is_control() && !matches!(character, '\t' | '\r' | '\n');
    let ascii = characters.iter().filter(|character| character.is_ascii());
    ascii.count() >= ENOUGH && !characters.iter().any(is_control)
}

#[cfg(test)]
mod tests {
    use super::*;

    #[test]
    fn types_are_recognised_by_their_first_bytes() {
        let zip = |name: &str| [b"PK\x03\x04", &[0; 26][..], name.as_bytes()].concat();
        for (head, expected) in [
            (b"\x1F\x8B\x08\0".to_vec(), "a gzip archive"),
            (b"\xFD7zXZ\0\0\x04".to_vec(), "an xz archive"),
            (b"\x28\xB5\x2F\xFD\x24".to_vec(), "a zstd archive"),
            (b"7z\xBC\xAF\x27\x1C\0".to_vec(), "a 7z archive"),
            (b"BZh91AY&SY\x8B".to_vec(), "a bzip2 archive"),
            (zip("fares.csv"), "a zip archive: "),
            (b"PK\x03\x04".to_vec(), "a zip archive: "),
            (b"PK\x05\x06\0".to_vec(), "a zip archive with nothing"),
            (zip("[Content_Types].xml"), "(xlsx)"),
            (zip("xl/workbook.xml"), "(xlsx)"),
            (
                zip("mimetypeapplication/vnd.oasis.opendocument.spreadsheetPK"),
                "(ods)",
            ),
            (b"\xD0\xCF\x11\xE0\xA1\xB1\x1A\xE1".to_vec(), "(xls)"),
            (b"%PDF-1.7\n".to_vec(), "a PDF"),
            (b"SQLite format 3\0\x10\0".to_vec(), "(SQLite)"),
            (b"<!doctype html>".to_vec(), "a web page"),
            (b"\xEF\xBB\xBF\r\n <HTML>".to_vec(), "a web page"),
            (b"<?xml version=\"1.0\"?>".to_vec(), "XML"),
        ] {
            let told = advice(&head).unwrap_or_default();
            assert!(told.contains(expected), "{expected}: {told}");
        }
        for head in [
            "",
            "stop,fare\n",
            "PK,name\n",
            "BZh9,1\n",
            "<b>,1\n",
            "7z,x\n",
            "SQLite",
            "%,1\n",
        ] {
            assert_eq!(advice(head.as_bytes()), None, "{head}");
        }
    }

    #[test]
    fn wide_encodings_are_recognised_with_and_without_a_mark() {
        fn wide<const N: usize>(text: &str, bytes: fn(char) -> [u8; N]) -> Vec<u8> {
            text.chars().flat_map(bytes).collect()
        }
        for text in [
            "stop,fare\r\n",
            "\"駅前\",\"я\"\n",
            "остановка,цена\r\nПорт,2\r\n",
        ] {
            let encodings = [
                (wide(text, |unit| (unit as u16).to_le_bytes()), "UTF-16LE"),
                (wide(text, |unit| (unit as u16).to_be_bytes()), "UTF-16BE"),
                (wide(text, |unit| (unit as u32).to_le_bytes()), "UTF-32LE"),
                (wide(text, |unit| (unit as u32).to_be_bytes()), "UTF-32BE"),
            ];
            for (bytes, name) in encodings {
                assert_eq!(wide_encoding(&bytes), Some(name), "{text}");
                let mark = wide_mark(name);
                let marked = [mark, &bytes].concat();
                assert_eq!(wide_encoding(&marked), Some(&name[..6]), "{text}");
            }
            assert_eq!(wide_encoding(text.as_bytes()), None, "{text}");
        }
        assert_eq!(wide_encoding(b""), None);
        assert_eq!(wide_encoding(b"a\0b,c\n"), None);
        assert_eq!(wide_encoding(b"\x01\0\x02\0"), None);
    }

    fn wide_mark(name: &str) -> &'static [u8] {
        match name {
            "UTF-16LE" => b"\xFF\xFE",
            "UTF-16BE" => b"\xFE\xFF",
            "UTF-32LE" => b"\xFF\xFE\0\0",
            _ => b"\0\0\xFE\xFF",
        }
    }
}
