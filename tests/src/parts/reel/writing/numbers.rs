//! The list's numbers: all from -140000 to 140000, numbers around the powers of 2, and numbers out of range in every place. The
//! table's numbers: around the right one, and near 2^32. The room: around the right one.
use super::faults::OUT;
use super::Given;
use crate::comparison::Comparison;
use crate::random::Random;

const WIDEST: i32 = 140_000;
const ANY: u32 = 300_000;
const LISTS: u32 = 300;

const FAR: [u32; 9] = [
    0x2000_0000,
    0x3FFF_FFFF,
    0x4000_0000,
    0x4000_0001,
    0x7FFF_FFFF,
    0x8000_0000,
    0xC000_0000,
    u32::MAX - 1,
    u32::MAX,
];

/// The number in one place of a list of one record.
fn alone(comparison: &mut Comparison, random: &mut Random, number: i32) {
    let mut list = vec![0; 4];
    list[random.below(4) as usize] = number;
    Given::new(list, vec![1]).write(comparison, random);
}

fn every_number(comparison: &mut Comparison, random: &mut Random) {
    for number in -WIDEST..=WIDEST {
        alone(comparison, random, number);
    }
    for power in 0..32 {
        for by in -2..=2 {
            let number = (1_i32 << power).wrapping_add(by);
            alone(comparison, random, number);
            alone(comparison, random, number.wrapping_neg());
        }
    }
    for _ in 0..ANY {
        let number = random.word() as i32 >> random.below(32);
        alone(comparison, random, number);
    }
}

/// A number out of range in every place.
fn every_place(comparison: &mut Comparison, random: &mut Random, given: &Given) {
    let mut wrong = given.clone();
    for place in 0..given.list.len() {
        for number in OUT {
            wrong.list[place] = number;
            wrong.write(comparison, random);
        }
        wrong.list[place] = given.list[place];
    }
}

/// Every table number in turn: those around it, 0, and far ones with its low bits and without.
fn every_table_number(comparison: &mut Comparison, random: &mut Random, given: &Given) {
    let mut wrong = given.clone();
    for place in 0..given.table.len() {
        let right = given.table[place];
        let near = [0, right.wrapping_sub(1), right + 1, right + 2];
        let shifted = FAR.map(|far| far.wrapping_add(right));
        for number in near.into_iter().chain(FAR).chain(shifted) {
            wrong.table[place] = number;
            wrong.write(comparison, random);
        }
        wrong.table[place] = right;
    }
}

/// Every room up to a few more than the right one.
fn every_room(comparison: &mut Comparison, random: &mut Random, given: &Given) {
    let mut wrong = given.clone();
    for room in (0..given.room + 14).chain([4096, 65_536, 65_537]) {
        wrong.room = room;
        wrong.write(comparison, random);
    }
}

pub fn run(comparison: &mut Comparison, random: &mut Random) {
    every_number(comparison, random);
    for _ in 0..LISTS {
        let (records, frames) = (random.below(5), random.below(5));
        let given = Given::lawful(random, records, frames);
        every_place(comparison, random, &given);
        every_table_number(comparison, random, &given);
        every_room(comparison, random, &given);
    }
}
