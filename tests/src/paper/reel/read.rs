//! Reading: the records and the table of a file, and where a frame's records are in it.
use super::{falls, last, LETTERS, LONGEST, RECORD, TABLE_NUMBER, TRAILER};
use crate::frame::{ends, ends_out, Ends};
use crate::refusal::{first_met, Refusal};
use std::ops::Range;

/// What an accepted file holds: its records, and for each frame the records up to its end.
#[derive(Clone, Debug, PartialEq)]
pub struct Reel {
    pub records: Vec<Ends>,
    pub table: Vec<u64>,
}

/// Place and length in bytes.
#[derive(Clone, Copy, Debug, PartialEq)]
pub struct Place {
    pub place: u64,
    pub len: u64,
}

/// An unsigned number, its low byte first.
fn unsigned(bytes: &[u8]) -> u64 {
    let high_first = bytes.iter().rev();
    high_first.fold(0, |number, byte| 256 * number + u64::from(*byte))
}

/// A number of two bytes in two's complement: from 32768 on the unsigned number is 65536 too large.
fn signed(bytes: &[u8]) -> i32 {
    match unsigned(bytes) as i32 {
        number @ 0..=32767 => number,
        number => number - 65536,
    }
}

fn record(bytes: &[u8]) -> Ends {
    ends(
        signed(&bytes[0..2]),
        signed(&bytes[2..4]),
        signed(&bytes[4..6]),
        signed(&bytes[6..8]),
    )
}

/// 10: the file is under 12 or over 65536 bytes, or lacks the letters.
fn no_reel(file: &[u8]) -> bool {
    let len = file.len() as u64;
    !(TRAILER..=LONGEST).contains(&len) || !file.ends_with(LETTERS)
}

/// What the file holds, or its refusal. Position and number of frames are taken as places in the file only once they give its
/// length.
pub fn read(file: &[u8]) -> Result<Reel, Refusal> {
    first_met(&[(10, no_reel(file))])?;
    let (before, trailer) = file.split_at(file.len() - TRAILER as usize);
    let (position, frames) = (unsigned(&trailer[0..4]), unsigned(&trailer[4..8]));
    let len = position + TABLE_NUMBER * frames + TRAILER;
    first_met(&[(11, len != file.len() as u64)])?;
    let (records, table) = before.split_at(position as usize);
    let table: Vec<u64> = table.chunks(TABLE_NUMBER as usize).map(unsigned).collect();
    first_met(&[(11, falls(&table) || RECORD * last(&table) != position)])?;
    let records: Vec<Ends> = records.chunks(RECORD as usize).map(record).collect();
    first_met(&[(12, records.iter().any(|ends| ends_out(*ends)))])?;
    Ok(Reel { records, table })
}

impl Reel {
    /// The numbers of a frame's records; none where the frame isn't below the number of frames.
    fn numbers_of(&self, frame: u32) -> Option<Range<u64>> {
        let frame = frame as usize;
        let end = *self.table.get(frame)?;
        let first = match frame {
            0 => 0,
            _ => self.table[frame - 1],
        };
        Some(first..end)
    }

    pub fn records_of(&self, frame: u32) -> Option<&[Ends]> {
        let numbers = self.numbers_of(frame)?;
        Some(&self.records[numbers.start as usize..numbers.end as usize])
    }

    fn place_of(&self, frame: u32) -> Option<Place> {
        let numbers = self.numbers_of(frame)?;
        Some(Place {
            place: RECORD * numbers.start,
            len: RECORD * (numbers.end - numbers.start),
        })
    }
}

/// Where a frame's records are in the file; none for a frame that it doesn't have.
pub fn find(file: &[u8], frame: u32) -> Result<Option<Place>, Refusal> {
    Ok(read(file)?.place_of(frame))
}
