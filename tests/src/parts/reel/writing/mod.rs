//! The writer: lawful lists and tables, which the reader finds again, and every fault alone and together with others.
mod faults;
mod lawful;
mod longest;
mod numbers;

use crate::comparison::Comparison;
use crate::make::coordinate;
use crate::parts::reel::fields::table;
use crate::random::Random;

/// What the writer is given; `room` is the buffer's length.
#[derive(Clone, Debug)]
struct Given {
    list: Vec<i32>,
    table: Vec<u32>,
    room: usize,
}

impl Given {
    /// The buffer is as long as the file of this list and this table.
    fn new(list: Vec<i32>, table: Vec<u32>) -> Given {
        let room = 2 * list.len() + 4 * table.len() + 12;
        Given { list, table, room }
    }

    /// A lawful list of so many records, which are none where there is no frame.
    fn lawful(random: &mut Random, records: u32, frames: u32) -> Given {
        let records = if frames == 0 { 0 } else { records };
        let list = (0..4 * records).map(|_| coordinate(random)).collect();
        Given::new(list, table(random, records, frames))
    }

    /// Writes into a buffer of any bytes; hands back the buffer as the library left it.
    fn write<'a>(&self, comparison: &'a mut Comparison, random: &mut Random) -> &'a [u8] {
        let mut start = vec![0; self.room];
        random.fill(&mut start);
        comparison.write(&self.list, &self.table, &start)
    }
}

pub fn run(comparison: &mut Comparison, random: &mut Random) {
    lawful::run(comparison, random);
    faults::run(comparison, random);
    numbers::run(comparison, random);
    longest::run(comparison, random);
}
