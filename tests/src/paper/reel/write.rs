//! Writing: a file from a list of numbers, four to a record, and a table.
use super::{falls, last, LETTERS, LONGEST, RECORD, TABLE_NUMBER, TRAILER};
use crate::frame::out_of_range;
use crate::refusal::{first_met, Refusal};

/// So many bytes of a number, the low one first.
fn bytes_of(number: u64, count: u32) -> Vec<u8> {
    (0..count)
        .map(|k| (number / 256_u64.pow(k) % 256) as u8)
        .collect()
}

/// A coordinate's two bytes: in two's complement a negative number is 65536 larger.
fn coordinate_bytes(number: i32) -> Vec<u8> {
    let number = i64::from(number);
    let unsigned = if number < 0 { number + 65536 } else { number };
    bytes_of(unsigned as u64, 2)
}

fn file_of(list: &[i32], table: &[u64]) -> Vec<u8> {
    let records = list.iter().flat_map(|number| coordinate_bytes(*number));
    let position = RECORD * last(table);
    let numbers = table.iter().copied().chain([position, table.len() as u64]);
    records
        .chain(numbers.flat_map(|number| bytes_of(number, 4)))
        .chain(LETTERS.iter().copied())
        .collect()
}

/// Fills the buffer with the file of these records and this table.
pub fn write(list: &[i32], table: &[u32], out: &mut [u8]) -> Result<(), Refusal> {
    let table: Vec<u64> = table.iter().map(|number| u64::from(*number)).collect();
    let (numbers, frames) = (list.len() as u64, table.len() as u64);
    let len = 2 * numbers + TABLE_NUMBER * frames + TRAILER;
    let table_out = falls(&table) || numbers != 4 * last(&table);
    let number_out = list.iter().any(|number| out_of_range(i64::from(*number)));
    first_met(&[
        (10, len > LONGEST),
        (11, table_out || out.len() as u64 != len),
        (12, number_out),
    ])?;
    out.copy_from_slice(&file_of(list, &table));
    Ok(())
}
