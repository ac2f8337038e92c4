//! Kind, column and row each of any sort by itself, so that conditions are met in every combination.
use super::floats::{at_place, lawful, special, HIGHEST_PLACE, LOWEST_PLACE, SIGN};
use super::{KINDS, TOUCHING};
use crate::comparison::Comparison;
use crate::random::Random;
use paper::pen::point;

const CASES: u32 = 8_000_000;

/// The ends of the range, and how many floats on each side are near.
const ENDS: [i32; 2] = [LOWEST_PLACE, HIGHEST_PLACE];
const NEAR: i32 = 2000;

/// The bits of infinity; with any fraction it is infinite or not a number.
const INFINITE: u32 = 0x7F80_0000;

/// One in two is lawful; the others are special, any bits, subnormal, infinite or not a number, or near an end of the range.
fn float(random: &mut Random, special: &[u32]) -> u32 {
    let sign = random.pick(&[0, SIGN]);
    match random.below(10) {
        0 => random.pick(special),
        1 => random.word() as u32,
        2 => sign | random.below(1 << 23),
        3 => sign | INFINITE | random.below(1 << 23),
        4 => at_place(random.pick(&ENDS) + random.between(-NEAR, NEAR)),
        _ => lawful(random),
    }
}

/// Three in four touch.
fn kind(random: &mut Random) -> u32 {
    match random.below(8) {
        0 => random.pick(&KINDS),
        1 => random.word() as u32,
        _ => TOUCHING,
    }
}

pub fn run(comparison: &mut Comparison, random: &mut Random) {
    let special = special();
    for _ in 0..CASES {
        let kind = kind(random);
        let point = point(float(random, &special), float(random, &special));
        comparison.pen(kind, point);
    }
}
