//! The form of one cell in each dialect.

use crate::cursor::{Cursor, Region, Stop};
use crate::dialect::{Dialect, Kind};
use crate::report::Fault;

/// Passes one cell and returns its kind. What may follow the cell is left to the caller.
pub(crate) fn scan(dialect: Dialect, cursor: &mut Cursor) -> Result<Kind, Stop> {
    match dialect {
        Dialect::Csvj => csvj_value(cursor),
        Dialect::Tdif => tdif_cell(cursor),
        Dialect::CsvPlus => csv_plus_cell(cursor),
    }
}

/// Whether the bytes are a number as JSON writes it.
pub(crate) fn is_number(bytes: &[u8]) -> bool {
    let mut cursor = Cursor::unlimited(bytes);
    number(&mut cursor).is_ok() && cursor.at_end()
}

fn csvj_value(cursor: &mut Cursor) -> Result<Kind, Stop> {
    match cursor.need(Region::Outside)? {
        b'"' => string(cursor),
        b'-' | b'0'..=b'9' => number(cursor),
        b't' => word(cursor, b"true", Kind::True),
        b'f' => word(cursor, b"false", Kind::False),
        b'n' => word(cursor, b"null", Kind::Null),
        _ => Err(cursor.fault(Fault::Form)),
    }
}

fn word(cursor: &mut Cursor, letters: &[u8], kind: Kind) -> Result<Kind, Stop> {
    for &letter in letters {
        cursor.pass_only(letter)?;
    }
    Ok(kind)
}

fn number(cursor: &mut Cursor) -> Result<Kind, Stop> {
    cursor.pass_any(b"-")?;
    if !cursor.pass_any(b"0")? {
        digits(cursor)?;
    }
    if cursor.pass_any(b".")? {
        digits(cursor)?;
    }
    if cursor.pass_any(b"eE")? {
        cursor.pass_any(b"+-")?;
        digits(cursor)?;
    }
    Ok(Kind::Number)
}

/// One digit or more.
fn digits(cursor: &mut Cursor) -> Result<(), Stop> {
    if !cursor.need(Region::Outside)?.is_ascii_digit() {
        return Err(cursor.fault(Fault::Form));
    }
    while cursor.pass_any(b"0123456789")? {}
    Ok(())
}

fn string(cursor: &mut Cursor) -> Result<Kind, Stop> {
    cursor.pass();
    loop {
        match cursor.need(Region::Quoted)? {
            b'"' => {
                cursor.pass();
                return Ok(Kind::Text);
            }
            b'\\' => escape(cursor)?,
            0x00..=0x1F => return Err(cursor.fault(Fault::Form)),
            _ => cursor.pass_character(Region::Quoted)?,
        }
    }
}

/// In an escape, every wrong byte is fault 3.
fn escape(cursor: &mut Cursor) -> Result<(), Stop> {
    cursor.pass();
    let letter = cursor.need(Region::Quoted)?;
    if !b"\"\\/bfnrtu".contains(&letter) {
        return Err(cursor.fault(Fault::Form));
    }
    cursor.pass();
    let digit_count = if letter == b'u' { 4 } else { 0 };
    for _ in 0..digit_count {
        if !cursor.need(Region::Quoted)?.is_ascii_hexdigit() {
            return Err(cursor.fault(Fault::Form));
        }
        cursor.pass();
    }
    Ok(())
}

fn tdif_cell(cursor: &mut Cursor) -> Result<Kind, Stop> {
    match cursor.need(Region::Outside)? {
        b'"' => quoted(cursor),
        b'\\' => word(cursor, b"\\N", Kind::Null),
        _ => Err(cursor.fault(Fault::Form)),
    }
}

fn csv_plus_cell(cursor: &mut Cursor) -> Result<Kind, Stop> {
    match cursor.peek(Region::Outside)? {
        Some(b'"') => quoted(cursor),
        _ => plain(cursor),
    }
}

/// A quoted cell of TDIF or CSV+, where a quote inside is doubled.
fn quoted(cursor: &mut Cursor) -> Result<Kind, Stop> {
    cursor.pass();
    loop {
        if cursor.need(Region::Quoted)? != b'"' {
            cursor.pass_character(Region::Quoted)?;
            continue;
        }
        cursor.pass();
        if !cursor.pass_any(b"\"")? {
            return Ok(Kind::Text);
        }
    }
}

fn plain(cursor: &mut Cursor) -> Result<Kind, Stop> {
    loop {
        match cursor.peek(Region::Outside)? {
            None | Some(b',' | b'\r' | b'\n') => return Ok(Kind::Text),
            Some(b'"') => return Err(cursor.fault(Fault::Form)),
            Some(_) => cursor.pass_character(Region::Outside)?,
        }
    }
}
