//! Lawful files: every frame, and frames that they don't have.
use super::BEYOND;
use crate::comparison::Comparison;
use crate::parts::reel::fields::Fields;
use crate::random::Random;

const FILES: u32 = 150_000;

pub fn run(comparison: &mut Comparison, random: &mut Random) {
    for _ in 0..FILES {
        let fields = Fields::any(random);
        let file = fields.bytes();
        for frame in (0..fields.frames + 2).chain(BEYOND) {
            comparison.find(&file, frame);
        }
    }
}
