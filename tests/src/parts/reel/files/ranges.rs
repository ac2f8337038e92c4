//! Coordinates in range and out of it: all numbers of 16 bits, and the limits in every place of a file with every frame.
use crate::comparison::Comparison;
use crate::parts::reel::fields::Fields;
use crate::random::Random;

const FILES: u32 = 300;

const NUMBERS: [i16; 10] = [
    -32768, -16386, -16385, -16384, -1, 0, 16383, 16384, 16385, 32767,
];

/// Every number as each coordinate of a file's only record.
fn every_number(comparison: &mut Comparison) {
    for place in 0..4 {
        for number in i16::MIN..=i16::MAX {
            let mut record = [0; 4];
            record[place] = number;
            let file = Fields::new(vec![record], vec![1]).bytes();
            comparison.find(&file, 0);
            comparison.find(&file, 1);
        }
    }
}

/// The limits in every place of the file.
fn every_place(comparison: &mut Comparison, fields: &Fields) {
    for place in 0..fields.records.len() {
        for coordinate in 0..4 {
            for number in NUMBERS {
                let mut changed = fields.clone();
                changed.records[place][coordinate] = number;
                let file = changed.bytes();
                for frame in 0..fields.frames + 2 {
                    comparison.find(&file, frame);
                }
            }
        }
    }
}

pub fn run(comparison: &mut Comparison, random: &mut Random) {
    every_number(comparison);
    for _ in 0..FILES {
        let (records, frames) = (1 + random.below(6), 1 + random.below(4));
        every_place(comparison, &Fields::lawful(random, records, frames));
    }
}
