//! Every exponent with both signs: the first fractions and the last, each bit of the fraction alone and all bits below it, and
//! random ones. The lowest exponent is the subnormals', the highest that of infinities and NaNs.
use super::both_places;
use super::floats::SIGN;
use crate::comparison::Comparison;
use crate::random::Random;

const FRACTION_BITS: u32 = 23;
const FRACTIONS: u32 = 1 << FRACTION_BITS;
const EDGE: u32 = 16;
const RANDOM: u32 = 1500;

fn fractions(random: &mut Random) -> Vec<u32> {
    let bits = (0..FRACTION_BITS).map(|bit| 1 << bit);
    let below = bits.clone().map(|bit| bit - 1);
    let edges = (0..EDGE).chain(FRACTIONS - EDGE..FRACTIONS);
    let any = (0..RANDOM).map(|_| random.below(FRACTIONS));
    bits.chain(below).chain(edges).chain(any).collect()
}

pub fn run(comparison: &mut Comparison, random: &mut Random) {
    for exponent in 0..256 {
        for fraction in fractions(random) {
            let float = exponent << FRACTION_BITS | fraction;
            both_places(comparison, random, float);
            both_places(comparison, random, float | SIGN);
        }
    }
}
