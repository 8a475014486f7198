//! The writer. Each comparison takes the writer that is compared with the reference implementation, so that wrong ones can be tried too.

use super::{agree, converted, hex, room_lengths};
use crate::counts::Counts;
use crate::generate::table_lists;
use crate::rng::Rng;
use crate::rooms::Writer;
use crate::whole::{write_whole, TableLists};
use crate::{DIALECTS, UNKNOWN};
use reference::{write, Converted, Table};

/// The proved writer, answering in the reference's terms.
pub fn proved_writer(target: u32, table: Table, room: &mut [u8]) -> Converted {
    let table = hemakuliwi::raw::Table {
        content: table.content,
        starts: table.starts,
        ends: table.ends,
        kinds: table.kinds,
        columns: table.columns,
        records: table.records,
    };
    converted(hemakuliwi::raw::write(target, table, room))
}

/// Writes a table with both and compares the answers and the whole room.
pub fn write_agrees(
    writer: Writer,
    target: u32,
    lists: &TableLists,
    room: usize,
) -> Result<Converted, String> {
    agree(
        || {
            format!(
                "write {target} columns {} records {} content {}\nstarts {:?}\nends {:?}\nkinds {:?}",
                lists.columns,
                lists.records,
                hex(&lists.content),
                lists.starts,
                lists.ends,
                lists.kinds
            )
        },
        room,
        |room| writer(target, lists.table(), room),
        |room| write(target, lists.table(), room),
    )
}

/// Writes a table with both: with room to spare, with just enough, with a byte too little and with none. All answers.
pub fn write_in_rooms(
    writer: Writer,
    target: u32,
    lists: &TableLists,
) -> Result<Vec<Converted>, String> {
    // Where there is no text, room for the content shows what is written before a fault is found.
    let length = write_whole(target, lists).map_or(lists.content.len(), |text| text.len());
    let lengths = room_lengths(length).into_iter();
    lengths
        .map(|room| write_agrees(writer, target, lists, room))
        .collect()
}

/// Compares the writers on this many random tables, each written in all dialects, and now and then in none.
///
/// A report of an unknown dialect is counted for the one that would be named.
pub fn write_random(writer: Writer, seed: u64, count: usize) -> Result<Counts, String> {
    let mut rng = Rng::new(seed);
    let mut counts = Counts::default();
    for _ in 0..count {
        let lists = table_lists(&mut rng);
        for (target, _) in DIALECTS {
            let asked = match rng.percent(1) {
                true => rng.pick(&UNKNOWN),
                false => target,
            };
            for answer in write_in_rooms(writer, asked, &lists)? {
                counts.add(target, answer.report.number);
            }
        }
    }
    Ok(counts)
}
