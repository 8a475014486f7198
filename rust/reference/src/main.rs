//! Converts standard input to standard output: `reference FROM TO`.

use reference::limits::{PIECE_BYTES, PIECE_ROOM};
use reference::{Converter, Report};
use std::env;
use std::ffi::OsString;
use std::io::{self, ErrorKind, Read, Write};
use std::process::ExitCode;

const USAGE: &str = "\
Usage: reference FROM TO
Reads a table from standard input in the format FROM and writes it to standard output in the
format TO. Each is csvj (or 1), tdif (or 2) or csv+ (or 3).";

const FAULT: u8 = 1;
const WRONG_USAGE: u8 = 2;
const IO_ERROR: u8 = 3;

/// What prevented a report on a conversion.
enum IoFailure {
    Reading(io::Error),
    Writing(io::Error),
}

fn main() -> ExitCode {
    let arguments: Vec<OsString> = env::args_os().skip(1).collect();
    let Some((source, target)) = dialects(&arguments) else {
        return fail(WRONG_USAGE, USAGE);
    };
    let outcome = convert(source, target, &mut io::stdin(), &mut io::stdout());
    match outcome {
        Ok(report) if report.is_accepted() => ExitCode::SUCCESS,
        Ok(report) => fail(FAULT, &explain(report)),
        Err(IoFailure::Reading(error)) => fail(
            IO_ERROR,
            &format!("The input could not be read to its end: {error}."),
        ),
        Err(IoFailure::Writing(error)) => fail(
            IO_ERROR,
            &format!("The output could not be written in full: {error}."),
        ),
    }
}

fn dialects(arguments: &[OsString]) -> Option<(u32, u32)> {
    let [source, target] = arguments else {
        return None;
    };
    Some((dialect(source)?, dialect(target)?))
}

fn dialect(argument: &OsString) -> Option<u32> {
    match argument.to_str()? {
        "csvj" | "1" => Some(1),
        "tdif" | "2" => Some(2),
        "csv+" | "3" => Some(3),
        _ => None,
    }
}

/// Uses the piece converter, so that all records before a fault are written.
fn convert(
    source: u32,
    target: u32,
    input: &mut impl Read,
    output: &mut impl Write,
) -> Result<Report, IoFailure> {
    let mut converter = Converter::new(source, target);
    let mut piece = [0; PIECE_BYTES];
    let mut out = vec![0; PIECE_ROOM];
    loop {
        let length = read_piece(input, &mut piece).map_err(IoFailure::Reading)?;
        let (next, answer) = match length {
            0 => converter.end(&mut out),
            _ => converter.piece(&piece[..length], &mut out),
        };
        converter = next;
        output
            .write_all(&out[..answer.written])
            .map_err(IoFailure::Writing)?;
        if length == 0 || !answer.report.is_accepted() {
            output.flush().map_err(IoFailure::Writing)?;
            return Ok(answer.report);
        }
    }
}

/// The length of the next piece; 0 at the end of the input.
fn read_piece(input: &mut impl Read, piece: &mut [u8]) -> io::Result<usize> {
    loop {
        match input.read(piece) {
            Err(error) if error.kind() == ErrorKind::Interrupted => {}
            result => return result,
        }
    }
}

fn explain(report: Report) -> String {
    let sentence = report.sentence();
    match report.record {
        1 => format!("{sentence} Nothing was written."),
        _ => format!("{sentence} The records before it were written."),
    }
}

/// Says why on standard error, which may itself be closed.
fn fail(status: u8, message: &str) -> ExitCode {
    let _ = writeln!(io::stderr(), "{message}");
    ExitCode::from(status)
}
