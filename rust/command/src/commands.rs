//! What each command does, and with which status it ends.

use crate::args::{Action, Request};
use crate::convert::{names_of, Conversion};
use crate::diagnosis::Diagnosis;
use crate::failure::Failure;
use crate::input::{self, Input};
use crate::output::Output;
use crate::paint::{Paint, When};
use crate::progress::Progress;
use crate::report::{failure_json, Counts};
use crate::scene::Case;
use crate::show::show;
use crate::system;
use crate::trail::Text;
use hemakuliwi::raw::PIECE_BYTES;
use hemakuliwi::{read, Converter, Dialect, Refusal};
use std::env;
use std::ffi::{OsStr, OsString};
use std::io::{self, IsTerminal, Write};
use std::os::fd::AsFd;
use std::process::ExitCode;

/// The statuses but for acceptance, which is 0.
const REFUSED: u8 = 1;
pub const WRONG_USE: u8 = 2;
const FAILED: u8 = 3;

/// How wide a screen is taken to be where it is not known.
const SCREEN: usize = 80;

#[derive(Clone, Copy, Debug, PartialEq, Eq, PartialOrd, Ord)]
pub enum Status {
    Accepted,
    Refused,
    Failed,
}

impl From<Status> for ExitCode {
    fn from(status: Status) -> Self {
        match status {
            Status::Accepted => Self::SUCCESS,
            Status::Refused => Self::from(REFUSED),
            Status::Failed => Self::from(FAILED),
        }
    }
}

/// How outcomes are told.
struct Voice {
    color: When,
    json: bool,
}

pub fn run(request: Request) -> Status {
    let voice = Voice {
        color: request.color,
        json: request.json,
    };
    let result = match request.action {
        Action::Print(text) => Output::standard()
            .and_then(|mut output| output.write(text.as_bytes()))
            .map(|()| Status::Accepted),
        Action::Convert {
            from,
            to,
            input,
            output,
        } => convert(from, to, input.as_deref(), output.as_deref(), &voice),
        Action::Check {
            dialect,
            inputs,
            is_quiet,
        } => check(dialect, inputs, is_quiet, &voice),
        Action::Show {
            dialect,
            input,
            width,
        } => show_table(dialect, input.as_deref(), width, &voice),
    };
    result.unwrap_or_else(|failure| voice.failed(&failure))
}

impl Voice {
    /// Tells on standard error, where nothing can be done about an error.
    fn say(&self, text: &str) {
        let _ = io::stderr().write_all(text.as_bytes());
    }

    fn failed(&self, failure: &Failure) -> Status {
        if let Some(text) = self.failure(failure) {
            self.say(&text);
        }
        Status::Failed
    }

    /// As `failed`, of one of several files.
    fn failed_on(&self, failure: &Failure, output: Option<&mut Output>) -> Result<Status, Failure> {
        if let Some(text) = self.failure(failure) {
            self.tell(&text, output)?;
        }
        Ok(Status::Failed)
    }

    fn failure(&self, failure: &Failure) -> Option<String> {
        match failure {
            Failure::System { file, message } if self.json => Some(failure_json(file, message)),
            Failure::System { message, .. } => Some(format!("hemakuliwi: {message}\n")),
            Failure::ClosedPipe => None,
        }
    }

    /// Tells of one of several files: a line of JSON stands among those of the others.
    fn tell(&self, text: &str, output: Option<&mut Output>) -> Result<(), Failure> {
        match output {
            Some(output) if self.json => output.write(text.as_bytes())?,
            _ => self.say(text),
        }
        Ok(())
    }

    fn refusal(&self, name: &[u8], case: &Case) -> String {
        let diagnosis = Diagnosis::new(case, screen(&io::stderr()));
        if self.json {
            diagnosis.json(name)
        } else {
            diagnosis.text(name, Paint::new(self.color, &io::stderr()))
        }
    }
}

/// The width of the terminal that is written to, unless COLUMNS is exported.
fn screen(output: &impl AsFd) -> usize {
    let columns = env::var("COLUMNS")
        .ok()
        .and_then(|columns| columns.parse().ok());
    columns
        .filter(|&columns| columns > 0)
        .or_else(|| system::columns(output))
        .unwrap_or(SCREEN)
}

fn convert(
    from: Dialect,
    to: Dialect,
    input: Option<&OsStr>,
    output: Option<&OsStr>,
    voice: &Voice,
) -> Result<Status, Failure> {
    let mut input = Input::open(input)?;
    let is_to_terminal = output.is_none_or(|path| path == "-") && io::stdout().is_terminal();
    let mut progress = Progress::new(!is_to_terminal && !input.is_terminal());
    let mut conversion = Conversion::new(from, to, Output::open(output)?);
    let verdict = conversion.run(&mut input, &mut progress)?;
    drop(progress);
    if let Err(refusal) = verdict {
        let case = conversion.case(refusal, &mut input);
        voice.say(&voice.refusal(&input.name, &case));
        return Ok(Status::Refused);
    }
    let counts = conversion.finish()?;
    if voice.json {
        voice.say(&counts.json(&input.name, from, Some(to)));
    }
    Ok(Status::Accepted)
}

/// The whole of a file, and what it is called.
fn whole(path: Option<&OsStr>) -> Result<(Vec<u8>, Vec<u8>), Failure> {
    let mut input = Input::open(path)?;
    let mut progress = Progress::new(!input.is_terminal());
    let bytes = input.read_whole(|length| progress.tick(length, None))?;
    Ok((input.name, bytes))
}

/// What is to be told of a whole file that is refused.
fn refused<'a>(dialect: Dialect, bytes: &'a [u8], refusal: Refusal) -> Case<'a> {
    let mut converter = Converter::new(dialect, dialect);
    let read = &bytes[..bytes.len().min(refusal.offset)];
    for piece in read.chunks(PIECE_BYTES) {
        // Only the names are wanted, and the refusal is known.
        let is_enough =
            converter.piece(piece, &mut Vec::new()).is_err() || converter.records_completed() > 0;
        if is_enough {
            break;
        }
    }
    let text = Text::whole(dialect, bytes);
    Case {
        from: dialect,
        to: None,
        refusal,
        text,
        names: names_of(&converter),
    }
}

/// Each file is told of, whatever becomes of another; the worst decides the status.
fn check(
    dialect: Dialect,
    inputs: Vec<OsString>,
    is_quiet: bool,
    voice: &Voice,
) -> Result<Status, Failure> {
    let mut output = match is_quiet {
        true => None,
        false => Some(Output::standard()?),
    };
    let mut worst = Status::Accepted;
    for input in input::names(inputs) {
        let status = match whole(Some(&input)) {
            Ok((name, bytes)) => check_one(dialect, &name, &bytes, voice, output.as_mut())?,
            Err(failure) => voice.failed_on(&failure, output.as_mut())?,
        };
        worst = worst.max(status);
    }
    Ok(worst)
}

fn check_one(
    dialect: Dialect,
    name: &[u8],
    bytes: &[u8],
    voice: &Voice,
    output: Option<&mut Output>,
) -> Result<Status, Failure> {
    let table = match read(dialect, bytes) {
        Ok(table) => table,
        Err(refusal) => {
            let text = voice.refusal(name, &refused(dialect, bytes, refusal));
            voice.tell(&text, output)?;
            return Ok(Status::Refused);
        }
    };
    if let Some(output) = output {
        let counts = Counts {
            columns: table.columns(),
            records: table.rows().len(),
            bytes: bytes.len(),
            written: None,
        };
        let text = match voice.json {
            true => counts.json(name, dialect, None),
            false => counts.text(name),
        };
        output.write(text.as_bytes())?;
    }
    Ok(Status::Accepted)
}

fn show_table(
    dialect: Dialect,
    input: Option<&OsStr>,
    width: Option<usize>,
    voice: &Voice,
) -> Result<Status, Failure> {
    let (name, bytes) = whole(input)?;
    let table = match read(dialect, &bytes) {
        Ok(table) => table,
        Err(refusal) => {
            voice.say(&voice.refusal(&name, &refused(dialect, &bytes, refusal)));
            return Ok(Status::Refused);
        }
    };
    let mut output = Output::standard()?;
    let mut text = String::new();
    show(
        &table,
        width.unwrap_or_else(|| screen(&io::stdout())),
        Paint::new(voice.color, &io::stdout()),
        |line| {
            text += &line;
            if text.len() > 1 << 16 {
                output.write(text.as_bytes())?;
                text.clear();
            }
            Ok(())
        },
    )?;
    output.write(text.as_bytes())?;
    Ok(Status::Accepted)
}
