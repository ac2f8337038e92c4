//! Writing and reading undo each other: the library's reader finds in a written file the records that were given, and the
//! library's writer makes of an accepted file's records and table the same file.
use super::Given;
use crate::c;
use crate::comparison::Comparison;
use crate::parts::reel::fields::Fields;
use crate::random::Random;
use paper::frame::Ends;
use paper::reel::read::{read, Reel};

const LISTS: u32 = 200_000;
const FILES: u32 = 400_000;

/// The numbers of the records that the reader found; none where it found none in the file.
fn numbers_at(file: &[u8], found: c::Frame) -> Option<Vec<i32>> {
    let place = found.place as usize;
    let bytes = file.get(place..place + found.len as usize)?;
    let number = |pair: &[u8]| i32::from(i16::from_le_bytes([pair[0], pair[1]]));
    (found.found == 1).then(|| bytes.chunks_exact(2).map(number).collect())
}

/// Writes the list and the table, and reads every frame.
fn read_back(comparison: &mut Comparison, random: &mut Random, given: &Given) {
    let file = given.write(comparison, random).to_vec();
    let mut first = 0;
    for (frame, end) in given.table.iter().enumerate() {
        let found = comparison.find(&file, frame as u32);
        let end = 4 * *end as usize;
        let records = Some(given.list[first..end].to_vec());
        let what = || format!("frame {frame} read back: {given:?}");
        comparison.equal(what, &numbers_at(&file, found), &records);
        first = end;
    }
    comparison.find(&file, given.table.len() as u32);
}

/// What the writer needs to make this reel's file again.
fn given_by(reel: &Reel) -> Given {
    let numbers = |ends: &Ends| [ends.x0, ends.y0, ends.x1, ends.y1];
    let list = reel.records.iter().flat_map(numbers).collect();
    Given::new(list, reel.table.iter().map(|end| *end as u32).collect())
}

/// A lawful file with up to two bits turned; where it is accepted, it is written again.
fn write_back(comparison: &mut Comparison, random: &mut Random) {
    let mut file = Fields::any(random).bytes();
    for _ in 0..random.below(3) {
        let place = random.below(file.len() as u32) as usize;
        file[place] ^= 1 << random.below(8);
    }
    if let Ok(reel) = read(&file) {
        let again = given_by(&reel).write(comparison, random).to_vec();
        comparison.equal(|| format!("written again: {reel:?}"), &again, &file);
    }
}

pub fn run(comparison: &mut Comparison, random: &mut Random) {
    for _ in 0..LISTS {
        let most = if random.one_in(16) { 60 } else { 6 };
        let (records, frames) = (random.below(most + 1), random.below(most + 1));
        let given = Given::lawful(random, records, frames);
        read_back(comparison, random, &given);
    }
    for _ in 0..FILES {
        write_back(comparison, random);
    }
}
