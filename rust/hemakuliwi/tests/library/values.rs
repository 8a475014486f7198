//! Words, numbers, values and strings.

use hemakuliwi::{
    convert, decode, read, write, Cell, Converted, Converter, ConvertingReader, ConvertingWriter,
    Dialect, Kind, Record, Refusal, StreamError, Table, Value,
};
use std::borrow::Cow;

#[test]
fn dialects_are_named_by_word_in_any_case_or_by_number() {
    for dialect in Dialect::ALL {
        assert_eq!(Dialect::from_number(dialect.number()), Some(dialect));
        let name = dialect.name();
        assert_eq!(dialect.to_string(), name);
        for word in [
            name.to_string(),
            name.to_uppercase(),
            dialect.number().to_string(),
        ] {
            assert_eq!(word.parse(), Ok(dialect));
        }
    }
    for word in [
        "",
        "0",
        "4",
        "01",
        "+1",
        "csv",
        " csvj",
        "csvj ",
        "tdif\0",
        "ＣＳＶＪ",
        "ſ",
    ] {
        let error = word.parse::<Dialect>().unwrap_err();
        assert_eq!(error.word(), word);
        assert!(error
            .to_string()
            .starts_with(&format!("{word:?} names no dialect")));
    }
    assert_eq!(Dialect::from_number(0), None);
    assert_eq!(
        format!("{:>6}|{:<6}|", Dialect::Csvj, Kind::Null),
        "  csvj|null  |"
    );
}

#[test]
fn kinds_and_numbers_are_the_same_five() {
    for number in 0..=u8::MAX {
        let kind = Kind::from_number(number);
        assert_eq!(kind.is_some(), (1..=5).contains(&number));
        assert_eq!(kind.map_or(number, Kind::number), number);
    }
}

#[test]
fn what_stands_in_the_file_as_it_is_is_borrowed_and_the_rest_decoded() {
    let cases: [(Dialect, &[u8], &[u8], bool); 14] = [
        (Dialect::Csvj, b"\"a b\"", b"a b", true),
        (Dialect::Csvj, b"\"\"", b"", true),
        (Dialect::Csvj, b"\"a\\/b\"", b"a/b", false),
        (Dialect::Csvj, b"\"\\\"\"", b"\"", false),
        (Dialect::Csvj, b"-1.5E+2", b"-1.5E+2", true),
        (Dialect::Csvj, b"null", b"", true),
        (Dialect::Tdif, b"\"a\\nb\"", b"a\\nb", true),
        (Dialect::Tdif, b"\"\"\"\"", b"\"", false),
        (Dialect::Tdif, b"\\N", b"", true),
        (Dialect::CsvPlus, b"", b"", true),
        (Dialect::CsvPlus, b"\"\"", b"", true),
        (Dialect::CsvPlus, b"a\\b", b"a\\b", true),
        (Dialect::CsvPlus, b"\"a,\r\nb\"", b"a,\r\nb", true),
        (Dialect::CsvPlus, b"\"a\"\"b\"", b"a\"b", false),
    ];
    for (dialect, raw, content, borrowed) in cases {
        let value = decode(dialect, raw).unwrap();
        assert_eq!(value.content(), content, "{}", raw.escape_ascii());
        let is_borrowed = match &value {
            Value::Text(text) => matches!(text, Cow::Borrowed(_)),
            Value::Number(spelling) => matches!(spelling, Cow::Borrowed(_)),
            _ => true,
        };
        assert_eq!(is_borrowed, borrowed, "{}", raw.escape_ascii());
    }
}

#[test]
fn every_code_unit_is_a_character_or_a_lone_surrogate() {
    let mut file = b"\"unit\"\n".to_vec();
    for unit in 0..=u16::MAX {
        file.extend_from_slice(format!("\"a\\u{unit:04x}b\"\n").as_bytes());
    }
    let table = read(Dialect::Csvj, &file).unwrap();
    assert_eq!(table.rows().len(), 65_536);
    for (row, unit) in table.rows().zip(0..) {
        let cell = row.get(0).unwrap();
        let expected = char::from_u32(unit).map(|character| format!("a{character}b"));
        match &expected {
            Some(text) => assert_eq!(cell.to_str().unwrap(), *text),
            None => assert_eq!(cell.to_str().unwrap_err().valid_up_to(), 1),
        }
        let lossy = expected.unwrap_or("a\u{FFFD}b".to_string());
        assert_eq!(cell.to_string_lossy(), lossy);
        assert_eq!(cell.value().to_string_lossy(), lossy);
    }
}

#[test]
fn lone_surrogates_side_by_side_are_replaced_one_by_one() {
    let cases: [(&[u8], &str); 6] = [
        (br#""\ud83d\ud83d\ude00""#, "\u{FFFD}\u{1F600}"),
        (br#""\ude00\ud83d""#, "\u{FFFD}\u{FFFD}"),
        (br#""\ud7ff\ud800\ue000""#, "\u{D7FF}\u{FFFD}\u{E000}"),
        (br#""\udbff""#, "\u{FFFD}"),
        ("\"\\udfff\u{D7FF}\"".as_bytes(), "\u{FFFD}\u{D7FF}"),
        (br#""\ufffd""#, "\u{FFFD}"),
    ];
    for (raw, text) in cases {
        assert_eq!(decode(Dialect::Csvj, raw).unwrap().to_string_lossy(), text);
    }
    // Bytes that no cell has as its content are no reason to fail.
    assert_eq!(
        Value::text(b"\xED\xA0a\xED\xFFb\xED\xA0").to_string_lossy(),
        "\u{FFFD}\u{FFFD}a\u{FFFD}\u{FFFD}b\u{FFFD}\u{FFFD}"
    );
}

#[test]
fn a_lone_surrogate_is_not_lost_between_reading_and_writing() {
    let file = b"\"a\"\n\"\\ud83d\"\n\"\\ud83d\\ud83d\\ude00\"\n";
    let table = read(Dialect::Csvj, file).unwrap();
    let text = write(Dialect::Csvj, table.records()).unwrap();
    assert_eq!(
        text,
        "\"a\"\n\"\\ud83d\"\n\"\\ud83d\u{1F600}\"\n".as_bytes()
    );
    assert_eq!(text, convert(Dialect::Csvj, Dialect::Csvj, file).unwrap());
}

#[test]
fn whatever_is_a_value_can_be_written() {
    let owned = String::from("owned");
    let number = Value::number("1e9");
    let row: [Value; 12] = [
        "text".into(),
        (&owned).into(),
        owned.clone().into(),
        b"bytes".as_slice().into(),
        b"vector".to_vec().into(),
        true.into(),
        false.into(),
        i32::MIN.into(),
        u64::MAX.into(),
        Some(7).into(),
        None::<&str>.into(),
        (&number).into(),
    ];
    let header = (1..=row.len()).map(|column| Value::from(column.to_string()));
    let rows = [header.collect::<Vec<_>>(), row.to_vec()];
    let text = write(Dialect::Csvj, &rows).unwrap();
    let written = String::from_utf8(text.clone()).unwrap();
    assert_eq!(
        written.lines().nth(1).unwrap(),
        "\"text\",\"owned\",\"owned\",\"bytes\",\"vector\",true,false,-2147483648,18446744073709551615,7,null,1e9"
    );

    let table = read(Dialect::Csvj, &text).unwrap();
    let back: Vec<Value> = table
        .record(2)
        .unwrap()
        .into_iter()
        .map(Value::from)
        .collect();
    assert_eq!(back, row);
}

#[test]
fn records_and_cells_go_both_ways() {
    let file = b"a,b,c\n1,2,3\n4,5,6\n";
    let table = read(Dialect::CsvPlus, file).unwrap();
    let raw = |record: Record| {
        record
            .cells()
            .map(|cell| cell.raw().to_vec())
            .collect::<Vec<_>>()
    };
    let forward: Vec<_> = table.records().map(raw).collect();
    let mut backward: Vec<_> = table.records().rev().map(raw).collect();
    backward.reverse();
    assert_eq!(forward, backward);

    let numbers: Vec<usize> = (0..9)
        .flat_map(|number| table.record(number))
        .map(|record| record.number())
        .collect();
    assert_eq!(numbers, [1, 2, 3]);

    let mut records = table.records();
    assert_eq!(records.len(), 3);
    assert_eq!(records.nth(1).unwrap().number(), 2);
    assert_eq!(records.next_back().unwrap().number(), 3);
    assert_eq!(records.len(), 0);
    assert!(records.next().is_none() && records.next_back().is_none());

    let mut cells = table.record(3).unwrap().cells();
    assert_eq!(cells.size_hint(), (3, Some(3)));
    assert_eq!(cells.next_back().unwrap().raw(), b"6");
    assert_eq!(cells.nth(1).unwrap().raw(), b"5");
    assert!(cells.next().is_none());
    assert_eq!(
        table.record(3).unwrap().get(3).map(|cell| cell.start()),
        None
    );
}

#[test]
fn a_table_without_columns_has_records_without_cells() {
    let table = read(Dialect::Csvj, b"\n \n\t\r\n").unwrap();
    assert_eq!((table.columns(), table.records().len()), (0, 3));
    assert!(table
        .records()
        .all(|record| record.is_empty() && record.cells().len() == 0));
    assert_eq!(write(Dialect::Csvj, table.records()).unwrap(), b"\n\n\n");
    assert_eq!(table.column_named(""), None);
}

#[test]
fn texts_keep_no_more_memory_than_they_need() {
    let file = b"stop,fare\nHarbour,2.40\n".repeat(1_000);
    let table = read(Dialect::CsvPlus, &file).unwrap();
    for to in Dialect::ALL {
        let converted = convert(Dialect::CsvPlus, to, &file).unwrap();
        assert!(converted.capacity() < 2 * converted.len());
        let written = write(to, table.records()).unwrap();
        assert!(written.capacity() < 2 * written.len());
    }
}

#[test]
fn a_cell_outlives_its_table() {
    let file = b"stop,fare\nHarbour,2.40\n".to_vec();
    let stop: Cell = {
        let table = read(Dialect::CsvPlus, &file).unwrap();
        let row = table.rows().next().unwrap();
        row.get(0).unwrap()
    };
    assert_eq!(stop.to_str().unwrap(), "Harbour");
}

#[test]
fn tests_show_values_in_a_form_that_people_read() {
    let file = b"\"a\"\n\"S\xC3\xBCd\\n\"\n2.40\n";
    let table = read(Dialect::Csvj, file).unwrap();
    let text = table.record(2).unwrap();
    assert_eq!(format!("{text:?}"), r#"[text b"\"S\xc3\xbcd\\n\"" at 4]"#);
    assert_eq!(
        format!("{:?}", text.get(0).unwrap().value()),
        r#"Text(b"S\xc3\xbcd\n")"#
    );
    assert_eq!(format!("{:?}", Value::number("2.40")), r#"Number("2.40")"#);
    assert_eq!(
        format!("{table:?}"),
        "Table { dialect: Csvj, columns: 1, records: 3, .. }"
    );
}

#[test]
fn all_of_it_may_go_to_another_thread() {
    fn passes<T: Send + Sync + 'static>() {}
    passes::<Dialect>();
    passes::<Refusal>();
    passes::<Table<'static>>();
    passes::<Value<'static>>();
    passes::<Converter>();
    passes::<Converted>();
    passes::<ConvertingReader<&[u8]>>();
    passes::<ConvertingWriter<Vec<u8>>>();
    passes::<StreamError>();
}
