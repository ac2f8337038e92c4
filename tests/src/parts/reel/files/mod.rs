//! The reader: lawful files, and files with every fault alone and together with others.
pub mod faults;

mod changed;
mod largest;
mod lawful;
mod ranges;
mod trailers;

use crate::comparison::Comparison;
use crate::random::Random;

/// Frames that no file has. Four times some of them is small modulo 2^32.
pub const BEYOND: [u32; 8] = [
    16_382,
    0x2000_0000,
    0x3FFF_FFFF,
    0x4000_0000,
    0x4000_0001,
    0x8000_0000,
    0xC000_0002,
    u32::MAX,
];

pub fn run(comparison: &mut Comparison, random: &mut Random) {
    lawful::run(comparison, random);
    changed::run(comparison, random);
    trailers::run(comparison, random);
    largest::run(comparison, random);
    ranges::run(comparison, random);
    faults::run(comparison, random);
}
