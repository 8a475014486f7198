//! The proved decoder against every vector and against the reference implementation.

use harness::compare::{decode_agrees, decode_random};
use harness::vectors::{load_folder, Call};
use harness::vectors_folder;
use hemakuliwi::raw::Report;

#[test]
fn every_vector_is_decoded_as_it_says() {
    let cases = load_folder(&vectors_folder()).expect("the vectors are of their format");
    let mut ran = 0;
    for case in cases {
        let Call::Decode {
            dialect,
            raw,
            room,
            expected,
        } = case.call
        else {
            continue;
        };
        let raw = raw.to_vec();
        let (content, kind) = expected
            .as_ref()
            .map_or((Vec::new(), 0), |(kind, content)| {
                (content.to_vec(), usize::from(*kind))
            });
        let mut lent = vec![0xA5; room.unwrap_or(raw.len() + 1)];
        let mut wanted = lent.clone();
        wanted[..content.len()].copy_from_slice(&content);
        let answer = hemakuliwi::raw::decode(dialect, &raw, &mut lent);
        let number = expected.as_ref().map_or_else(|fault| fault.number, |_| 0);
        let offset = expected.as_ref().map_or_else(|fault| fault.offset, |_| 0);
        let report = Report {
            number,
            record_number: 0,
            column: 0,
            offset,
        };
        assert_eq!(answer.report, report, "{}", case.name);
        assert_eq!(
            (answer.length, answer.kind),
            (content.len(), kind),
            "{}",
            case.name
        );
        assert_eq!(lent, wanted, "{}", case.name);
        for room in (0..=raw.len() + 1).take(200) {
            decode_agrees(dialect, &raw, room).unwrap();
        }
        ran += 1;
    }
    eprintln!("the proved decoder: {ran} vectors agree");
    assert!(ran >= 150);
}

#[test]
fn random_cells_are_decoded_as_the_reference_does() {
    let counts = decode_random(1, 400_000).unwrap();
    counts.print("the proved decoder on random cells");
    counts.require([0, 2, 3, 4, 10, 11], 1_000).unwrap();
}
