//! The texts of `--help`.

pub const GENERAL: &str = "\
hemakuliwi: tables in the dialects CSVJ, TDIF and CSV+, by proved code

Usage:
  hemakuliwi convert --from DIALECT --to DIALECT [-o FILE] [FILE]
  hemakuliwi check --in DIALECT [FILE...]
  hemakuliwi show --in DIALECT [FILE]
  hemakuliwi explain [FAULT]

DIALECT is csvj, tdif or csv+, or its number 1, 2 or 3; it is never guessed.
Without FILE, or with -, standard input is read.

Options:
  --color WHEN     auto, always or never; auto is for terminals, and not with
                   NO_COLOR or TERM=dumb
  -h, --help       this text, or with a command what it does
  -V, --version    the version

Status: 0 accepted, 1 refused by the rules, 2 wrong use, 3 input or output has
failed.

  hemakuliwi convert --from tdif --to csvj samples/fares.tdif
";

pub fn of(command: &str) -> &'static str {
    match command {
        "convert" => CONVERT,
        "check" => CHECK,
        "show" => SHOW,
        "explain" => EXPLAIN,
        _ => GENERAL,
    }
}

const CONVERT: &str = "\
hemakuliwi convert: a table from one dialect to another

Usage: hemakuliwi convert --from DIALECT --to DIALECT [-o FILE] [FILE]

Each record is written as it completes, in constant memory. A record that can't
be read or carried ends the conversion with a report on standard error; what was
written before it is sound.

Options:
  --from DIALECT      the dialect of the file: csvj, tdif or csv+
  --to DIALECT        the dialect that is written
  -o, --output FILE   writes to FILE, which gets its new content only if all is
                      converted, and is else as it was
  --json              tells the outcome on standard error as one line of JSON
  --color WHEN        auto, always or never
  -h, --help          this text
";

const CHECK: &str = "\
hemakuliwi check: whether files are tables of a dialect

Usage: hemakuliwi check --in DIALECT [FILE...]

Says of each file that it is accepted, on standard output, or reports its first
fault, on standard error.

Options:
  --in DIALECT        csvj, tdif or csv+
  -q, --quiet         says nothing of a file that is accepted, and all else on
                      standard error
  --json              tells the outcome of each file on standard output as one
                      line of JSON
  --color WHEN        auto, always or never
  -h, --help          this text
";

const SHOW: &str = "\
hemakuliwi show: a table for looking at

Usage: hemakuliwi show --in DIALECT [--width COLUMNS] [FILE]

Cells stand below each other, and long ones are cut with `…`. Control characters,
spaces other than the usual one and backslashes are shown as escapes: \\t, \\u{A0},
\\\\. # marks a number, ! true, false and null; the rest is text, in quotes where it
would look like these, like nothing, or like one that is cut.

Options:
  --in DIALECT        csvj, tdif or csv+
  --width COLUMNS     how wide the table may be; 0 sets no bound. Without it that
                      is $COLUMNS, or the width of the terminal, or 80
  --json              reports a refusal on standard error as one line of JSON
  --color WHEN        auto, always or never
  -h, --help          this text
";

const EXPLAIN: &str = "\
hemakuliwi explain: what a fault means

Usage: hemakuliwi explain [FAULT]

FAULT is a number from 1 to 12, or a name such as syntax. Without it all are
listed.

Options:
  --color WHEN        auto, always or never
  -h, --help          this text
";
