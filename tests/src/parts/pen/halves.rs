//! Every whole number and every half of the range and some past its ends, with the floats on both sides.
use super::both_places;
use super::floats::around;
use crate::comparison::Comparison;
use crate::random::Random;

const FARTHEST: i32 = 16390;

/// At sizes of 8192 and more half a pixel is at most 512 floats wide, so all floats are tried there.
const REACH: i32 = 256;

pub fn run(comparison: &mut Comparison, random: &mut Random) {
    for halves in -2 * FARTHEST..=2 * FARTHEST {
        for float in around(halves as f32 / 2.0, REACH) {
            both_places(comparison, random, float);
        }
    }
}
