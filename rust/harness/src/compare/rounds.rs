//! Rounds of random inputs for all calls, as many as one likes. A round depends on its seed alone.

use super::{
    convert_random, decode_random, made_up_random, pieces_random, proved_converter, proved_reader,
    proved_writer, read_random, write_random, MadeUpCounts, PieceConverter, PROVED_PIECES,
};
use crate::counts::Counts;
use crate::lists::Reader;
use crate::rooms::{WholeConverter, Writer};
use crate::DIALECTS;
use std::fmt::{Display, Formatter, Result as Printed};

/// The calls that are compared with the reference implementation, beside the proved decoder.
pub struct Calls {
    /// Reads whole files.
    pub reader: Reader,
    /// Converts whole files.
    pub converter: WholeConverter,
    /// Writes tables.
    pub writer: Writer,
    /// Convert in pieces.
    pub pieces: &'static [PieceConverter],
}

/// The proved calls.
pub const PROVED: Calls = Calls {
    reader: proved_reader,
    converter: proved_converter,
    writer: proved_writer,
    pieces: &PROVED_PIECES,
};

/// How many inputs of each sort a round has.
const CELLS: usize = 200;
const FILES: usize = 200;
const CONVERTED: usize = 150;
const TABLES: usize = 150;
const LISTS: usize = 200;
const STATES: usize = 100;

/// How many inputs a round has.
pub const ROUND: usize = CELLS + FILES + CONVERTED + TABLES + LISTS + STATES;

/// What was compared in all rounds so far, and which reports came up.
#[derive(Debug, Default, PartialEq, Eq)]
pub struct Totals {
    rounds: usize,
    cells: Counts,
    files: Counts,
    converted: [Counts; 3],
    tables: Counts,
    lists: Counts,
    states: MadeUpCounts,
}

impl Totals {
    /// Compares the calls on the inputs of one more round.
    pub fn round(&mut self, calls: &Calls, seed: u64) -> Result<(), String> {
        // Each cell is decoded with two rooms.
        self.cells += &decode_random(seed, 2 * CELLS)?;
        self.files += &read_random(calls.reader, seed, FILES)?;
        let converted = convert_random(calls.converter, seed, CONVERTED)?;
        for (total, counts) in self.converted.iter_mut().zip(&converted) {
            *total += counts;
        }
        self.tables += &write_random(calls.writer, seed, TABLES)?;
        self.lists += &pieces_random(calls.pieces, seed, LISTS)?;
        self.states += made_up_random(calls.pieces, seed, STATES)?;
        self.rounds += 1;
        Ok(())
    }

    /// How many inputs were compared.
    pub fn inputs(&self) -> usize {
        self.rounds * ROUND
    }
}

/// The inputs of each sort, and under them how often each report number was answered.
impl Display for Totals {
    fn fmt(&self, out: &mut Formatter) -> Printed {
        let rounds = self.rounds;
        writeln!(out, "decode: {} raw cells", rounds * CELLS)?;
        write!(out, "{}", self.cells)?;
        writeln!(out, "read: {} files", rounds * FILES)?;
        write!(out, "{}", self.files)?;
        for ((_, target), counts) in DIALECTS.iter().zip(&self.converted) {
            writeln!(out, "convert to {target:?}: {} files", rounds * CONVERTED)?;
            write!(out, "{counts}")?;
        }
        writeln!(
            out,
            "write: {} tables, each in all dialects",
            rounds * TABLES
        )?;
        write!(out, "{}", self.tables)?;
        writeln!(
            out,
            "pieces, lent and by value: {} lists of calls, each number once for a list",
            rounds * LISTS
        )?;
        write!(out, "{}", self.lists)?;
        writeln!(
            out,
            "pieces, lent and by value: {} states that no calls made",
            rounds * STATES
        )?;
        let states = &self.states;
        writeln!(
            out,
            "    {} calls refused by a check, {} accepted, {} with a fault, {} refused as no state of a conversion",
            states.checked, states.accepted, states.faults, states.nowhere
        )
    }
}
