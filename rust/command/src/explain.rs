//! The faults, in words: one table for reports, for `hemakuliwi explain` and for the names in JSON. The rules themselves are in
//! docs/RULES.md, sections 6 to 8.

use hemakuliwi::Fault;
use std::fmt::Write;

/// A fault in words.
pub struct Explanation {
    pub fault: Fault,
    pub name: &'static str,
    /// What is so when the fault is given, as a sentence goes on after "refused: ".
    pub title: &'static str,
    pub rule: &'static str,
    /// Where the report points.
    pub place: &'static str,
    /// What usually helps.
    pub remedy: &'static str,
    pub reasons: &'static [Reason],
}

/// One of several reasons of a fault.
#[derive(Debug, PartialEq, Eq)]
pub struct Reason {
    pub name: &'static str,
    pub rule: &'static str,
}

pub const FILE_BYTES: Reason = Reason {
    name: "file_bytes",
    rule: "a file has at most 16,777,215 bytes",
};
pub const RECORD_BYTES: Reason = Reason {
    name: "record_bytes",
    rule: "a record has at most 4,096 bytes, its ending not counted",
};
pub const COLUMNS: Reason = Reason {
    name: "columns",
    rule: "a record has at most 64 columns",
};
pub const NO_CELLS: Reason = Reason {
    name: "no_cells",
    rule: "a header without cells is carried by CSVJ alone",
};
pub const KIND: Reason = Reason {
    name: "kind",
    rule:
        "CSVJ has text, numbers, true, false and null, TDIF has text and null, CSV+ has text alone",
};
pub const LONE_SURROGATE: Reason = Reason {
    name: "lone_surrogate",
    rule:
        "half of a surrogate pair, such as \\ud83d, is no character, and is carried by CSVJ alone",
};
pub const REPEATED_NAME: Reason = Reason {
    name: "repeated_name",
    rule: "no two names of a TDIF header are the same when A to Z are taken as a to z",
};
pub const RECORD_TEXT: Reason = Reason {
    name: "record_text",
    rule: "a record as the target writes it has at most 4,096 bytes, its ending not counted",
};
pub const FILE_TEXT: Reason = Reason {
    name: "file_text",
    rule: "all that the target writes has at most 16,777,215 bytes",
};

pub static FAULTS: [Explanation; 12] = [
    Explanation {
        fault: Fault::NoRecord,
        name: "no_record",
        title: "the file ends before any record begins",
        rule: "a file has at least a header",
        place: "the end of the file",
        remedy: "Look whether the program that wrote the file, or the one before a pipe, has \
            failed.",
        reasons: &[],
    },
    Explanation {
        fault: Fault::Encoding,
        name: "encoding",
        title: "a byte breaks UTF-8",
        rule: "text is UTF-8 (RFC 3629)",
        place: "the first byte with which no character can begin or go on",
        remedy: "Convert the file first: `iconv -f ENCODING -t UTF-8 FILE`, with the name of the \
            encoding in which it was saved. Unpack an archive, and export a spreadsheet as CSV.",
        reasons: &[],
    },
    Explanation {
        fault: Fault::Syntax,
        name: "syntax",
        title: "a byte can't stand where it stands",
        rule: "each byte goes on with a record, a comment or a mark by the grammar of the dialect",
        place: "that byte",
        remedy: "Most often it is a quote inside of quotes, a space beside a quote, another \
            delimiter than the comma, or a comma at the \
                 end of a line.",
        reasons: &[],
    },
    Explanation {
        fault: Fault::CutShort,
        name: "cut_short",
        title: "the file ends too early",
        rule:
            "a quoted cell is closed, a character is whole, and each record of CSVJ and TDIF has \
            a line break after it, the last one too",
        place: "the end of the file",
        remedy: "Look for a quote that is not closed, or add the line break.",
        reasons: &[],
    },
    Explanation {
        fault: Fault::CellCount,
        name: "cell_count",
        title: "a record has more or fewer cells than the header",
        rule: "each record has as many cells as the header",
        place: "the first byte of the record",
        remedy: "Put cells with commas in quotes, and look for empty lines and for commas at the \
            end of a line.",
        reasons: &[],
    },
    Explanation {
        fault: Fault::RepeatedName,
        name: "repeated_name",
        title: "a header name repeats an earlier one",
        rule: "the names of a header differ, in TDIF also when A to Z are taken as a to z",
        place: "the first byte of the header; the column is the first that repeats a name",
        remedy: "Give the column a name of its own.",
        reasons: &[],
    },
    Explanation {
        fault: Fault::HeaderKind,
        name: "header_kind",
        title: "a header cell is not text",
        rule: "the cells of a header are text",
        place: "the first byte of the header; the column is the first such cell",
        remedy: "Look whether the file has a header at all. If it has, put the name in quotes.",
        reasons: &[],
    },
    Explanation {
        fault: Fault::Limit,
        name: "limit",
        title: "the file or a record is larger than its limit",
        rule: "a file has at most 16,777,215 bytes, a record at most 4,096 bytes and 64 columns",
        place: "the first byte too many; for columns the first byte of the record",
        remedy: "Look for a quote that is not closed, which takes all that follows into one cell. \
            Divide a file that is too long.",
        reasons: &[FILE_BYTES, RECORD_BYTES, COLUMNS],
    },
    Explanation {
        fault: Fault::NotCarried,
        name: "not_carried",
        title: "the target dialect can't carry the record",
        rule: "what is written, read again, is the same table",
        place: "the first byte of the record; the column is that of the cell, if it is a cell",
        remedy: "CSVJ carries all that the others do, but has the same limits.",
        reasons: &[
            NO_CELLS,
            KIND,
            LONE_SURROGATE,
            REPEATED_NAME,
            RECORD_TEXT,
            FILE_TEXT,
        ],
    },
    Explanation {
        fault: Fault::Room,
        name: "room",
        title: "a program has lent the library too little room",
        rule: "what is lent to a call is long enough for its answer",
        place: "none",
        remedy: "Only programs that call the library meet this, never this command.",
        reasons: &[],
    },
    Explanation {
        fault: Fault::WrongCall,
        name: "wrong_call",
        title: "a program has named an unknown dialect, or gone on after the end of a file",
        rule: "a dialect is 1, 2 or 3, and nothing follows an accepted end",
        place: "none",
        remedy: "Only programs that call the library meet this, never this command.",
        reasons: &[],
    },
    Explanation {
        fault: Fault::NoTable,
        name: "no_table",
        title: "what a program has given to be written is no table",
        rule: "the writer is given records of as many cells, each of its kind",
        place: "none",
        remedy: "Only programs that call the library meet this, never this command.",
        reasons: &[],
    },
];

pub fn explanation(fault: Fault) -> &'static Explanation {
    &FAULTS[fault.number() - 1]
}

/// The fault of a number or a name.
pub fn find(word: &str) -> Option<&'static Explanation> {
    FAULTS
        .iter()
        .find(|fault| fault.name == word || fault.fault.number().to_string() == word)
}

pub fn list() -> String {
    let mut text = String::from("The faults, the first of which in a file is reported:\n\n");
    for fault in &FAULTS {
        let (number, name, title) = (fault.fault.number(), fault.name, fault.title);
        writeln!(text, "{number:4}  {name:15}{title}").expect("a string takes all");
    }
    text + "\n`hemakuliwi explain N` tells more of one.\n"
}

impl Explanation {
    pub fn text(&self) -> String {
        let (number, name) = (self.fault.number(), self.name);
        let mut text = format!("fault {number}, {name}: {}\n\n", self.title);
        text += &paragraph("Rule", self.rule);
        text += &paragraph("Place", self.place);
        for reason in self.reasons {
            text += &paragraph(&format!("Reason {}", reason.name), reason.rule);
        }
        text + &paragraph("What helps", self.remedy)
    }
}

/// A line with the sentence after its head, and a full stop.
fn paragraph(head: &str, sentence: &str) -> String {
    format!("{head}: {}.\n", sentence.trim_end_matches('.'))
}

#[cfg(test)]
mod tests {
    use super::*;

    #[test]
    fn the_table_has_each_fault_in_its_place() {
        for (index, fault) in FAULTS.iter().enumerate() {
            assert_eq!(fault.fault.number(), index + 1);
            assert!(std::ptr::eq(explanation(fault.fault), fault));
        }
    }

    #[test]
    fn the_limits_in_words_are_those_of_the_library() {
        let grouped = |number: usize| {
            let digits = number.to_string();
            let groups: Vec<&str> = digits
                .as_bytes()
                .rchunks(3)
                .rev()
                .map(|group| std::str::from_utf8(group).expect("digits"))
                .collect();
            groups.join(",")
        };
        use hemakuliwi::raw;
        for (reason, limit) in [
            (FILE_BYTES, raw::FILE_BYTES),
            (RECORD_BYTES, raw::RECORD_BYTES),
            (COLUMNS, raw::COLUMNS),
            (RECORD_TEXT, raw::RECORD_BYTES),
            (FILE_TEXT, raw::FILE_BYTES),
        ] {
            assert!(reason.rule.contains(&grouped(limit)), "{}", reason.name);
        }
    }

    #[test]
    fn a_fault_is_found_by_number_and_by_name() {
        assert_eq!(find("3").map(|fault| fault.name), Some("syntax"));
        assert_eq!(find("syntax").map(|fault| fault.fault), Some(Fault::Syntax));
        assert!(find("13").is_none() && find("03").is_none() && find("").is_none());
    }
}
