//! The limits of the rules.

/// The most bytes in a file, read or written.
pub const FILE_BYTES: usize = 16_777_215;
/// The most bytes in a record, without its ending.
pub const RECORD_BYTES: usize = 4_096;
/// The most columns in a table.
pub const COLUMNS: usize = 64;
/// The most bytes in a piece.
pub const PIECE_BYTES: usize = 4_096;
/// The room that a piece or end call needs for its output.
pub const PIECE_ROOM: usize = 49_152;
