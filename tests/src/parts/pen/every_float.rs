//! All 2^32 floats as the column, each with any lawful row, and all as the row, each with any lawful column. Each of the two
//! takes minutes, so they are run by hand.
use super::floats::lawful;
use super::TOUCHING;
use crate::comparison::Comparison;
use crate::random::Random;
use paper::pen::point;

pub fn as_column(comparison: &mut Comparison, random: &mut Random) {
    for float in 0..=u32::MAX {
        comparison.pen(TOUCHING, point(float, lawful(random)));
    }
}

pub fn as_row(comparison: &mut Comparison, random: &mut Random) {
    for float in 0..=u32::MAX {
        comparison.pen(TOUCHING, point(lawful(random), float));
    }
}
