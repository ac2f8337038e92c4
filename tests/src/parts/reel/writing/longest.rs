//! Lists and tables whose file has 65536 bytes, and longer ones.
use super::faults::add_any;
use super::Given;
use crate::comparison::Comparison;
use crate::make::coordinate;
use crate::parts::reel::fields::table;
use crate::random::Random;

/// Numbers of the list and of the table that make 65536 bytes. No table has a list of 32762 numbers.
const FULL: [(u32, u32); 6] = [
    (32_760, 1),
    (0, 16_381),
    (32_756, 3),
    (4, 16_379),
    (16_000, 8381),
    (32_762, 0),
];

/// Numbers that make more: first 2 to 8 bytes more, then so many that twice the list's length, four times the table's or the
/// file's length is small modulo 2^16.
const LONGER: [(u32, u32); 13] = [
    (32_763, 0),
    (32_761, 1),
    (32_757, 3),
    (32_760, 2),
    (32_764, 1),
    (0, 16_382),
    (4, 16_380),
    (16_000, 8382),
    (16_004, 8381),
    (32_768, 0),
    (0, 16_384),
    (32_772, 1),
    (65_540, 16_385),
];

const FAULTY: u32 = 60;

fn one(comparison: &mut Comparison, random: &mut Random, numbers: u32, frames: u32) {
    let list = (0..numbers).map(|_| coordinate(random)).collect();
    let given = Given::new(list, table(random, numbers / 4, frames));
    let file = given.write(comparison, random).to_vec();
    comparison.find(&file, 0);
    comparison.find(&file, frames.saturating_sub(1));
    let mut wrong = given.clone();
    for room in [0, 12, 65_535, 65_536, 65_537, given.room % 65_536] {
        wrong.room = room;
        wrong.write(comparison, random);
    }
    for _ in 0..FAULTY {
        let mut wrong = given.clone();
        add_any(random, &mut wrong);
        wrong.write(comparison, random);
    }
}

pub fn run(comparison: &mut Comparison, random: &mut Random) {
    for (numbers, frames) in FULL.into_iter().chain(LONGER) {
        one(comparison, random, numbers, frames);
    }
}
