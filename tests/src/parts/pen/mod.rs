//! The pen: floats near every half and whole number, of every exponent, at every limit, and random ones. Each is tried as the
//! column and as the row, with other floats beside it, so that an exchange of both is seen.
pub mod every_float;

mod crossed;
mod exponents;
mod floats;
mod halves;
mod mixed;

use crate::comparison::Comparison;
use crate::random::Random;
use floats::lawful;
use paper::pen::point;

const TOUCHING: u32 = 0;

/// Touching, hovering, and others; some of them are 0 or 1 once only 8 or 16 bits are kept.
const KINDS: [u32; 15] = [
    TOUCHING,
    1,
    2,
    3,
    255,
    256,
    257,
    65_535,
    65_536,
    65_537,
    0x7FFF_FFFF,
    0x8000_0000,
    0x8000_0001,
    u32::MAX - 1,
    u32::MAX,
];

/// The float touched as the column with any lawful row, and as the row with any lawful column.
fn both_places(comparison: &mut Comparison, random: &mut Random, float: u32) {
    comparison.pen(TOUCHING, point(float, lawful(random)));
    comparison.pen(TOUCHING, point(lawful(random), float));
}

pub fn run(comparison: &mut Comparison, random: &mut Random) {
    halves::run(comparison, random);
    exponents::run(comparison, random);
    crossed::run(comparison);
    mixed::run(comparison, random);
}
