//! Refusals that concern the call and not the file.

use harness::ledger::{Call, Session};
use harness::UNKNOWN;
use reference::{convert, decode, read, write, Decoded, Report, Table};

const KNOWN: [u32; 3] = [1, 2, 3];

fn refusal(number: usize) -> Report {
    Report {
        number,
        ..Report::ACCEPTED
    }
}

/// A table that is not one, in more ways than one.
const NOT_A_TABLE: Table = Table {
    content: &[0xFF],
    starts: &[0, 0],
    ends: &[5],
    kinds: &[9],
    columns: 1,
    records: 0,
};

#[test]
fn unknown_dialects_come_first_everywhere() {
    for dialect in UNKNOWN {
        let answer = read(dialect, b"\xFF", &mut [], &mut [], &mut []);
        assert_eq!(answer.report, refusal(11));
        let answer = decode(dialect, b"\xFF", &mut []);
        assert_eq!(answer, Decoded::Refused(refusal(11)));
        assert_eq!(write(dialect, NOT_A_TABLE, &mut []).report, refusal(11));
        for (source, target) in KNOWN.map(|known| (dialect, known)) {
            check_unknown_pair(source, target);
            check_unknown_pair(target, source);
        }
        check_unknown_pair(dialect, dialect);
    }
}

fn check_unknown_pair(source: u32, target: u32) {
    let answer = convert(source, target, b"\xFF", &mut []);
    assert_eq!(answer.report, refusal(11));
    let mut session = Session::new(source, target);
    for call in [
        Call::Piece(&[0xFF; 5_000], 0),
        Call::End(0),
        Call::Piece(b"a\n", 49_152),
        Call::End(49_152),
    ] {
        let answer = session.make(&call).expect("the buffer is left alone");
        assert_eq!(answer.report, refusal(11));
    }
}

#[test]
fn what_is_no_table_is_refused() {
    let sound = Table {
        content: b"a1",
        starts: &[0, 1],
        ends: &[1, 2],
        kinds: &[1, 2],
        columns: 1,
        records: 2,
    };
    assert_eq!(write(1, sound, &mut [0; 6]).written, 6);
    let huge = usize::MAX;
    for table in [
        NOT_A_TABLE,
        Table {
            starts: &[0],
            ..sound
        },
        Table {
            ends: &[1, 2, 2],
            ..sound
        },
        Table {
            kinds: &[1],
            ..sound
        },
        Table {
            starts: &[1, 1],
            ends: &[0, 2],
            ..sound
        },
        Table {
            ends: &[1, 3],
            ..sound
        },
        Table {
            starts: &[0, huge],
            ends: &[1, huge],
            ..sound
        },
        Table {
            kinds: &[1, 0],
            ..sound
        },
        Table {
            kinds: &[1, 6],
            ..sound
        },
        Table {
            kinds: &[1, 5],
            ..sound
        },
        Table {
            kinds: &[2, 2],
            ..sound
        },
        Table {
            content: b"a\x80",
            kinds: &[1, 1],
            ..sound
        },
        Table {
            columns: 2,
            ..sound
        },
        Table {
            records: 3,
            ..sound
        },
        Table {
            records: huge,
            columns: huge,
            ..sound
        },
        Table {
            starts: &[],
            ends: &[],
            kinds: &[],
            columns: 0,
            records: 0,
            ..sound
        },
        Table {
            starts: &[],
            ends: &[],
            kinds: &[],
            columns: 1,
            records: 0,
            ..sound
        },
    ] {
        for target in KNOWN {
            let mut out = [7; 32];
            let answer = write(target, table, &mut out);
            assert_eq!(
                (answer.report, answer.written),
                (refusal(12), 0),
                "{table:?}"
            );
            assert_eq!(out, [7; 32]);
        }
    }
}

#[test]
fn lone_surrogates_may_be_content_but_halves_in_order_may_not() {
    let lone = |content: &[u8]| {
        let table = Table {
            content,
            starts: &[0],
            ends: &[content.len()],
            kinds: &[1],
            columns: 1,
            records: 1,
        };
        let mut out = [0; 32];
        let answer = write(1, table, &mut out);
        (answer.report.number, out[..answer.written].to_vec())
    };
    assert_eq!(lone(b"\xED\xA0\xBD"), (0, b"\"\\ud83d\"\n".to_vec()));
    assert_eq!(
        lone(b"\xED\xB8\x80\xED\xA0\xBD"),
        (0, b"\"\\ude00\\ud83d\"\n".to_vec())
    );
    assert_eq!(lone(b"\xED\xA0\xBD\xED\xB8\x80"), (12, Vec::new()));
    assert_eq!(lone(b"\xED\xA0"), (12, Vec::new()));
}
