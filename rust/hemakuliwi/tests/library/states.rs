//! What is read of a converter's state: before, between and after calls, and of states that no calls have made.

use hemakuliwi::raw::{
    Converter, AT_COLUMNS, AT_RECORDS, COLUMNS, CSVJ, CSV_PLUS, PIECE_ROOM, RECORD_BYTES,
};

fn read(state: &Converter) -> (usize, usize, usize) {
    (state.offset(), state.records(), state.columns())
}

fn is_unnamed_from(state: &Converter, first: usize) -> bool {
    let mut places = (first..2 * COLUMNS).chain([RECORD_BYTES, usize::MAX]);
    places.all(|index| state.name(index).is_none())
}

#[test]
fn a_state_is_read_between_calls() {
    let mut out = vec![0; PIECE_ROOM];
    let mut state = Converter::new(CSVJ, CSV_PLUS);
    assert_eq!(read(&state), (0, 0, 0));
    state.piece(b"\"stop\",\"f\\u0061re\"", &mut out);
    assert_eq!(read(&state), (18, 0, 0));
    assert!(is_unnamed_from(&state, 0));
    state.piece(b"\n\"Mint\",\"1\"\n", &mut out);
    assert_eq!(read(&state), (30, 2, 2));
    let names = [&b"\"stop\""[..], b"\"f\\u0061re\""];
    let mut ended = state.clone();
    assert_eq!(ended.end(&mut out).report.number, 0);
    assert_eq!(read(&ended), (30, 2, 2));
    assert_eq!(state.piece(b"\"Harbour\",2\n", &mut out).report.number, 9);
    assert_eq!((state.records(), state.columns()), (2, 2));
    for state in [&ended, &state] {
        assert_eq!([0, 1].map(|index| state.name(index)), names.map(Some));
        assert!(is_unnamed_from(state, 2));
    }
}

#[test]
fn a_state_that_no_calls_have_made_is_read_inside_it() {
    let mut state = Converter {
        source: u32::MAX,
        target: u32::MAX,
        numbers: [usize::MAX; 14],
        ends: [usize::MAX; COLUMNS],
        name_ends: [usize::MAX; COLUMNS],
        bytes: [u8::MAX; RECORD_BYTES],
        names: [u8::MAX; RECORD_BYTES],
    };
    assert_eq!(read(&state), (usize::MAX, usize::MAX, COLUMNS));
    assert!(is_unnamed_from(&state, 0));
    // Ends at the last byte, before the start, at the start, and past the last byte.
    let ends = [
        RECORD_BYTES,
        RECORD_BYTES - 1,
        RECORD_BYTES - 1,
        RECORD_BYTES + 1,
    ];
    state.name_ends[..4].copy_from_slice(&ends);
    let lengths = [0, 1, 2, 3].map(|index| state.name(index).map(<[u8]>::len));
    assert_eq!(lengths, [Some(RECORD_BYTES), None, Some(0), None]);
    state.numbers[AT_RECORDS] = 0;
    assert_eq!(
        (state.numbers[AT_COLUMNS], state.columns()),
        (usize::MAX, 0)
    );
    assert!(is_unnamed_from(&state, 0));
}
