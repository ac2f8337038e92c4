//! Document 02, 'Marks of a reel in one file': the file's limits, and what reading and writing say of its table.
pub mod draw;
pub mod read;
pub mod write;

#[cfg(test)]
mod known;

/// The longest file, in bytes.
const LONGEST: u64 = 65_536;

/// The bytes of a record, of a table number, and of the trailer: the table's position, the number of frames, the letters.
const RECORD: u64 = 8;
const TABLE_NUMBER: u64 = 4;
const TRAILER: u64 = 12;

const LETTERS: &[u8] = b"MRKS";

/// 11: a table number is below the one before it.
fn falls(table: &[u64]) -> bool {
    table.windows(2).any(|pair| pair[1] < pair[0])
}

/// The last table number, 0 without frames.
fn last(table: &[u64]) -> u64 {
    table.last().copied().unwrap_or(0)
}
