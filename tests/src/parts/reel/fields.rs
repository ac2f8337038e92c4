//! Files put together from their fields, so that each field can be wrong by itself.
use crate::make::coordinate;
use crate::random::Random;

const LETTERS: [u8; 4] = *b"MRKS";

#[derive(Clone, Debug)]
pub struct Fields {
    pub records: Vec<[i16; 4]>,
    pub table: Vec<u32>,
    pub position: u32,
    pub frames: u32,
    pub letters: [u8; 4],
}

impl Fields {
    /// Position and number of frames are those of these records and this table.
    pub fn new(records: Vec<[i16; 4]>, table: Vec<u32>) -> Fields {
        Fields {
            position: 8 * records.len() as u32,
            frames: table.len() as u32,
            letters: LETTERS,
            records,
            table,
        }
    }

    /// A lawful file of so many frames with so many records, which are none where there is no frame.
    pub fn lawful(random: &mut Random, records: u32, frames: u32) -> Fields {
        let records = if frames == 0 { 0 } else { records };
        let table = table(random, records, frames);
        Fields::new((0..records).map(|_| record(random)).collect(), table)
    }

    /// A lawful file; most have up to 6 records and frames.
    pub fn any(random: &mut Random) -> Fields {
        let most = if random.one_in(16) { 60 } else { 6 };
        let (records, frames) = (random.below(most + 1), random.below(most + 1));
        Fields::lawful(random, records, frames)
    }

    /// Puts in another last table number, where there is one.
    pub fn put_last(&mut self, number: u32) {
        if let Some(last) = self.table.last_mut() {
            *last = number;
        }
    }

    pub fn bytes(&self) -> Vec<u8> {
        let coordinates = self.records.iter().flatten();
        let trailer = [self.position, self.frames];
        let numbers = self.table.iter().chain(&trailer);
        let mut bytes = Vec::new();
        bytes.extend(coordinates.flat_map(|number| number.to_le_bytes()));
        bytes.extend(numbers.flat_map(|number| number.to_le_bytes()));
        bytes.extend(self.letters);
        bytes
    }
}

/// A record of coordinates in range.
pub fn record(random: &mut Random) -> [i16; 4] {
    [(); 4].map(|()| coordinate(random) as i16)
}

/// A table of so many frames that have so many records; some frames have none.
pub fn table(random: &mut Random, records: u32, frames: u32) -> Vec<u32> {
    let mut table: Vec<u32> = (0..frames).map(|_| random.below(records + 1)).collect();
    table.sort_unstable();
    if let Some(last) = table.last_mut() {
        *last = records;
    }
    table
}
