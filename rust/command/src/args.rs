//! The words of a command line. Options come before, after and between other words, `--name value` and `--name=value`; after `--` there are
//! none.

use crate::explain::{self, Explanation, FAULTS};
use crate::help;
use crate::nearest::nearest;
use crate::paint::When;
use crate::printable::printable;
use hemakuliwi::Dialect;
use std::ffi::{OsStr, OsString};
use std::os::unix::ffi::{OsStrExt, OsStringExt};

/// What is asked for.
pub struct Request {
    pub action: Action,
    pub color: When,
    pub json: bool,
}

pub enum Action {
    Print(String),
    Convert {
        from: Dialect,
        to: Dialect,
        input: Option<OsString>,
        output: Option<OsString>,
    },
    Check {
        dialect: Dialect,
        inputs: Vec<OsString>,
        /// Whether nothing is to be said on standard output.
        is_quiet: bool,
    },
    Show {
        dialect: Dialect,
        input: Option<OsString>,
        width: Option<usize>,
    },
}

/// What is wrong with a command line, and whose help tells more.
#[derive(Debug, PartialEq, Eq)]
pub struct Misuse {
    pub message: String,
    pub command: Option<&'static str>,
}

/// A command and the options that it takes beside those of all.
struct Command {
    name: &'static str,
    options: &'static [Flag],
}

struct Flag {
    long: &'static str,
    short: Option<u8>,
    /// What its value is called, if it takes one.
    value: Option<&'static str>,
}

const fn with_value(long: &'static str, short: Option<u8>, value: &'static str) -> Flag {
    Flag {
        long,
        short,
        value: Some(value),
    }
}

const HELP: Flag = Flag {
    long: "help",
    short: Some(b'h'),
    value: None,
};
const VERSION: Flag = Flag {
    long: "version",
    short: Some(b'V'),
    value: None,
};
const COLOR: Flag = with_value("color", None, "WHEN");
const JSON: Flag = Flag {
    long: "json",
    short: None,
    value: None,
};
const QUIET: Flag = Flag {
    long: "quiet",
    short: Some(b'q'),
    value: None,
};
const IN: Flag = with_value("in", None, "DIALECT");

const COMMANDS: [Command; 5] = [
    Command {
        name: "convert",
        options: &[
            with_value("from", None, "DIALECT"),
            with_value("to", None, "DIALECT"),
            with_value("output", Some(b'o'), "FILE"),
            JSON,
            COLOR,
            HELP,
        ],
    },
    Command {
        name: "check",
        options: &[IN, QUIET, JSON, COLOR, HELP],
    },
    Command {
        name: "show",
        options: &[IN, with_value("width", None, "COLUMNS"), JSON, COLOR, HELP],
    },
    Command {
        name: "explain",
        options: &[COLOR, HELP],
    },
    Command {
        name: "help",
        options: &[COLOR, HELP],
    },
];
/// Before a command is named.
const GENERAL: [Flag; 3] = [HELP, VERSION, COLOR];

/// The request of the words after the name of the program.
pub fn parse(words: impl IntoIterator<Item = OsString>) -> Result<Request, Misuse> {
    let mut words = words.into_iter();
    let mut given = Given::default();
    let command = loop {
        let Some(word) = words.next() else { break None };
        if !is_option(&word) {
            break Some(named(&word)?);
        }
        if let Some(message) = too_early(&word).filter(|_| found(&word, &GENERAL).is_err()) {
            return Err(Misuse {
                message,
                command: None,
            });
        }
        given.option(&word, &GENERAL, None, &mut words)?;
    };
    let Some(command) = command else {
        return without_command(&given);
    };
    while let Some(word) = words.next() {
        if word == "--" {
            given.operands.extend(words.by_ref());
        } else if is_option(&word) {
            given.option(&word, command.options, Some(command.name), &mut words)?;
        } else {
            given.operands.push(word);
        }
    }
    request(command.name, given).map_err(|message| Misuse {
        message,
        command: Some(command.name),
    })
}

fn is_option(word: &OsStr) -> bool {
    word.len() > 1 && word.as_bytes().starts_with(b"-")
}

fn named(word: &OsStr) -> Result<&'static Command, Misuse> {
    COMMANDS
        .iter()
        .find(|command| command.name == word)
        .ok_or_else(|| {
            let names = COMMANDS.map(|command| command.name);
            let message = format!(
                "there is no command {}{}",
                quoted(word),
                offer(word, &names)
            );
            Misuse {
                message,
                command: None,
            }
        })
}

fn without_command(given: &Given) -> Result<Request, Misuse> {
    let text = if given.has("help") {
        help::GENERAL.into()
    } else if given.has("version") {
        concat!("hemakuliwi ", env!("CARGO_PKG_VERSION"), "\n").into()
    } else {
        return Err(Misuse {
            message: "a command is missing: convert, check, show or explain".into(),
            command: None,
        });
    };
    Ok(Request {
        action: Action::Print(text),
        color: When::Auto,
        json: false,
    })
}

/// The options and the other words that were given.
#[derive(Default)]
struct Given {
    options: Vec<(&'static str, Option<OsString>)>,
    operands: Vec<OsString>,
}

impl Given {
    /// Takes an option, and its value from the same word or from the next one.
    fn option(
        &mut self,
        word: &OsStr,
        known: &'static [Flag],
        command: Option<&'static str>,
        words: &mut impl Iterator<Item = OsString>,
    ) -> Result<(), Misuse> {
        let misuse = |message| Misuse { message, command };
        let (flag, value) = found(word, known).map_err(misuse)?;
        let shown = format!("`--{}`", flag.long);
        if self.has(flag.long) {
            return Err(misuse(format!("{shown} is given twice")));
        }
        let value = match (flag.value, value) {
            (None, Some(_)) => return Err(misuse(format!("{shown} takes no value"))),
            (Some(what), None) => Some(
                words
                    .next()
                    .ok_or_else(|| misuse(format!("{shown} needs a value: {what}")))?,
            ),
            (_, value) => value,
        };
        self.options.push((flag.long, value));
        Ok(())
    }

    fn has(&self, name: &str) -> bool {
        self.options.iter().any(|(option, _)| *option == name)
    }

    fn value(&self, name: &str) -> Option<&OsString> {
        self.options
            .iter()
            .find(|(option, _)| *option == name)?
            .1
            .as_ref()
    }

    fn dialect(&self, name: &str) -> Result<Dialect, String> {
        let word = self.value(name).ok_or_else(|| {
            format!("`--{name}` is missing: csvj, tdif or csv+, which is not guessed")
        })?;
        let dialect = word.to_str().and_then(|word| word.parse().ok());
        dialect.ok_or_else(|| {
            // Who writes "csv" means the one that is nearest to RFC 4180.
            let names = [Dialect::CsvPlus, Dialect::Csvj, Dialect::Tdif].map(Dialect::name);
            format!(
                "there is no dialect {}: csvj, tdif, csv+ or 1, 2, 3{}",
                quoted(word),
                offer(word, &names)
            )
        })
    }

    fn color(&self) -> Result<When, String> {
        match self.value("color").map(|word| (word, word.as_bytes())) {
            None | Some((_, b"auto")) => Ok(When::Auto),
            Some((_, b"always")) => Ok(When::Always),
            Some((_, b"never")) => Ok(When::Never),
            Some((word, _)) => Err(format!(
                "`--color` is auto, always or never, not {}{}",
                quoted(word),
                offer(word, &["auto", "always", "never"])
            )),
        }
    }

    fn width(&self) -> Result<Option<usize>, String> {
        let Some(word) = self.value("width") else {
            return Ok(None);
        };
        let width = word.to_str().and_then(|word| word.parse().ok());
        width
            .map(Some)
            .ok_or_else(|| format!("`--width` is a number of columns, not {}", quoted(word)))
    }

    /// The only operand, if there is one.
    fn at_most_one(&mut self) -> Result<Option<OsString>, String> {
        if let Some(second) = self.operands.get(1) {
            return Err(format!(
                "one file at a time: {} is one too many",
                quoted(second)
            ));
        }
        Ok(self.operands.pop())
    }
}

/// The option of a word, and the value in it.
fn found(
    word: &OsStr,
    known: &'static [Flag],
) -> Result<(&'static Flag, Option<OsString>), String> {
    let bytes = word.as_bytes();
    let Some(long) = bytes.strip_prefix(b"--") else {
        let flag = known
            .iter()
            .find(|flag| flag.short == Some(bytes[1]))
            .ok_or_else(|| unknown(word, known))?;
        let value = Some(&bytes[2..]).filter(|value| !value.is_empty());
        return Ok((flag, value.map(|value| OsString::from_vec(value.to_vec()))));
    };
    let mut parts = long.splitn(2, |&byte| byte == b'=');
    let name = parts.next().unwrap_or_default();
    let flag = known
        .iter()
        .find(|flag| flag.long.as_bytes() == name)
        .ok_or_else(|| unknown(OsStr::from_bytes(&bytes[..2 + name.len()]), known))?;
    Ok((
        flag,
        parts.next().map(|value| OsString::from_vec(value.to_vec())),
    ))
}

fn unknown(word: &OsStr, known: &'static [Flag]) -> String {
    let names: Vec<String> = known
        .iter()
        .map(|flag| format!("--{}", flag.long))
        .collect();
    let names: Vec<&str> = names.iter().map(String::as_str).collect();
    let offered = other_name(word)
        .filter(|name| names.contains(name))
        .map_or_else(|| offer(word, &names), offered);
    format!("there is no option {}{offered}", quoted(word))
}

/// The options of commands come after the name of one.
fn too_early(word: &OsStr) -> Option<String> {
    let mut flags = COMMANDS.iter().flat_map(|command| command.options);
    let is_known = flags.any(|flag| found(word, std::slice::from_ref(flag)).is_ok());
    is_known.then(|| {
        format!(
            "{} comes after a command: convert, check or show",
            quoted(word)
        )
    })
}

/// What another command calls the same option: the dialect of a file is `--in` where nothing is written, and `--from` where `--to` is.
fn other_name(word: &OsStr) -> Option<&'static str> {
    match word.as_bytes() {
        b"--from" => Some("--in"),
        b"--in" => Some("--from"),
        _ => None,
    }
}

fn quoted(word: &OsStr) -> String {
    format!("`{}`", printable(word.as_bytes()))
}

fn offer(word: &OsStr, known: &[&str]) -> String {
    let near = word.to_str().and_then(|word| nearest(word, known));
    near.map_or(String::new(), offered)
}

fn offered(name: &str) -> String {
    format!("; did you mean `{name}`?")
}

fn request(command: &'static str, mut given: Given) -> Result<Request, String> {
    let color = given.color()?;
    let json = given.has("json");
    let action = match command {
        _ if given.has("help") => Action::Print(help::of(command).into()),
        "convert" => Action::Convert {
            from: given.dialect("from")?,
            to: given.dialect("to")?,
            output: given.value("output").cloned(),
            input: given.at_most_one()?,
        },
        "check" => Action::Check {
            dialect: given.dialect("in")?,
            is_quiet: given.has("quiet"),
            inputs: given.operands,
        },
        "show" => Action::Show {
            dialect: given.dialect("in")?,
            width: given.width()?,
            input: given.at_most_one()?,
        },
        "explain" => Action::Print(match given.operands.pop() {
            Some(word) if given.operands.is_empty() => fault(&word)?.text(),
            Some(word) => {
                return Err(format!(
                    "one fault at a time: {} is one too many",
                    quoted(&word)
                ))
            }
            None => explain::list(),
        }),
        _ => Action::Print(help_on(given.operands.first())?),
    };
    Ok(Request {
        action,
        color,
        json,
    })
}

fn fault(word: &OsStr) -> Result<&'static Explanation, String> {
    word.to_str().and_then(explain::find).ok_or_else(|| {
        let names: Vec<&str> = FAULTS.iter().map(|fault| fault.name).collect();
        format!(
            "there is no fault {}: 1 to 12, which `hemakuliwi explain` lists{}",
            quoted(word),
            offer(word, &names)
        )
    })
}

fn help_on(command: Option<&OsString>) -> Result<String, String> {
    match command {
        None => Ok(help::GENERAL.into()),
        Some(word) => named(word)
            .map(|command| help::of(command.name).into())
            .map_err(|misuse| misuse.message),
    }
}

#[cfg(test)]
mod tests {
    use super::*;

    fn parsed(line: &str) -> Result<Request, Misuse> {
        parse(line.split_whitespace().map(OsString::from))
    }

    fn message(line: &str) -> String {
        parsed(line).err().expect("a misuse").message
    }

    #[test]
    fn both_forms_of_an_option_and_any_order_are_the_same() {
        for line in [
            "convert --from csvj --to tdif -o x y",
            "convert y --from=csvj -ox --to=2",
            "convert --output=x --to TDIF --from 1 -- y",
            "convert --from csvj --output x y --to tdif",
        ] {
            let Ok(Request {
                action:
                    Action::Convert {
                        from: Dialect::Csvj,
                        to: Dialect::Tdif,
                        input: Some(input),
                        output: Some(output),
                    },
                ..
            }) = parsed(line)
            else {
                panic!("{line}");
            };
            assert_eq!((input, output), ("y".into(), "x".into()), "{line}");
        }
    }

    #[test]
    fn after_two_dashes_there_are_no_options() {
        let Ok(Request {
            action: Action::Check { inputs, .. },
            ..
        }) = parsed("check --in csv+ -- --json -")
        else {
            panic!()
        };
        assert_eq!(inputs, ["--json", "-"]);
    }

    #[test]
    fn what_is_unknown_is_named_and_the_nearest_offered() {
        assert_eq!(
            message("convrt"),
            "there is no command `convrt`; did you mean `convert`?"
        );
        assert_eq!(
            message("convert --form=csvj"),
            "there is no option `--form`; did you mean `--from`?"
        );
        assert_eq!(
            message("check --in csv"),
            "there is no dialect `csv`: csvj, tdif, csv+ or 1, 2, 3; did you mean `csv+`?"
        );
        for (line, expected) in [
            ("check --from csvj", "`--from`; did you mean `--in`?"),
            ("show --from=csvj", "`--from`; did you mean `--in`?"),
            ("convert --in csvj", "`--in`; did you mean `--from`?"),
            ("check --xyzzy", "`--xyzzy`"),
        ] {
            assert_eq!(message(line), format!("there is no option {expected}"));
        }
        assert_eq!(
            message("--json check"),
            "`--json` comes after a command: convert, check or show"
        );
        assert_eq!(
            message("--in=csvj check"),
            "`--in=csvj` comes after a command: convert, check or show"
        );
        assert_eq!(
            message("explain syntx"),
            "there is no fault `syntx`: 1 to 12, which \
            `hemakuliwi explain` lists; did you mean `syntax`?"
        );
    }

    #[test]
    fn what_is_missing_or_too_much_is_named() {
        assert_eq!(
            message(""),
            "a command is missing: convert, check, show or explain"
        );
        assert_eq!(
            message("convert --from csvj"),
            "`--to` is missing: csvj, tdif or csv+, which is not guessed"
        );
        assert_eq!(message("convert --from"), "`--from` needs a value: DIALECT");
        assert_eq!(message("check --in 1 --in 2"), "`--in` is given twice");
        assert_eq!(message("check --json=yes"), "`--json` takes no value");
        assert_eq!(
            message("show --in 3 a b"),
            "one file at a time: `b` is one too many"
        );
        assert_eq!(
            message("show --in 3 --width=x"),
            "`--width` is a number of columns, not `x`"
        );
        assert_eq!(
            message("check --color=blue"),
            "`--color` is auto, always or never, not `blue`"
        );
    }
}
