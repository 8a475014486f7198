//! The converter. Each comparison takes the converter that is compared with the reference implementation, so that wrong ones can be tried
//! too.

use super::{agree, converted, hex, room_lengths};
use crate::counts::Counts;
use crate::generate::sample;
use crate::rng::Rng;
use crate::rooms::WholeConverter;
use crate::whole::convert_whole;
use crate::{DIALECTS, UNKNOWN};
use reference::{convert, Converted};

/// The proved converter, answering in the reference's terms.
pub fn proved_converter(from: u32, to: u32, file: &[u8], room: &mut [u8]) -> Converted {
    converted(hemakuliwi::raw::convert(from, to, file, room))
}

/// Converts a file with both and compares the answers and the whole room.
pub fn convert_agrees(
    converter: WholeConverter,
    from: u32,
    to: u32,
    file: &[u8],
    room: usize,
) -> Result<Converted, String> {
    agree(
        || format!("convert {from} {to} {}", hex(file)),
        room,
        |room| converter(from, to, file, room),
        |room| convert(from, to, file, room),
    )
}

/// Converts a file with both: with room to spare, with just enough, with a byte too little and with none. All answers.
pub fn convert_in_rooms(
    converter: WholeConverter,
    from: u32,
    to: u32,
    file: &[u8],
) -> Result<Vec<Converted>, String> {
    // Where there is no text, room for the file shows what is written before a fault is found.
    let length = convert_whole(from, to, file).map_or(file.len(), |text| text.len());
    let lengths = room_lengths(length).into_iter();
    lengths
        .map(|room| convert_agrees(converter, from, to, file, room))
        .collect()
}

/// Compares the converters on this many random files, each converted to all dialects. Now and then a number is another dialect's or none's.
///
/// The reports, by target; a report is counted for the dialect that the file was made in and for the target that would be named.
pub fn convert_random(
    converter: WholeConverter,
    seed: u64,
    count: usize,
) -> Result<[Counts; 3], String> {
    let mut rng = Rng::new(seed);
    let mut by_target: [Counts; 3] = Default::default();
    for _ in 0..count {
        let (source, dialect) = rng.pick(&DIALECTS);
        let file = sample(&mut rng, dialect).file;
        for ((target, _), counts) in DIALECTS.iter().zip(&mut by_target) {
            let (from, to) = match rng.below(100) {
                0 => (rng.pick(&UNKNOWN), *target),
                1 => (source, rng.pick(&UNKNOWN)),
                2..=4 => (rng.pick(&[1, 2, 3]), *target),
                _ => (source, *target),
            };
            for answer in convert_in_rooms(converter, from, to, &file)? {
                counts.add(source, answer.report.number);
            }
        }
    }
    Ok(by_target)
}
