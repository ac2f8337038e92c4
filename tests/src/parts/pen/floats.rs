//! Floats as their bits: neighbours, those at which an answer changes, and random ones that give a coordinate.
use crate::random::Random;

pub const SIGN: u32 = 0x8000_0000;

/// Sizes at which something changes: subnormals, the smallest normal float, halves and whole numbers, the range's ends, where
/// floats have no more quarters and no more halves, where integers of 16, 32 and 64 bits end, the largest float, infinity.
const SIZES: [f32; 31] = [
    0.0,
    f32::from_bits(0x0040_0000),
    f32::MIN_POSITIVE,
    1.0e-20,
    0.25,
    0.5,
    1.0,
    1.5,
    2.0,
    2.5,
    8191.5,
    8192.0,
    16382.5,
    16383.0,
    16383.5,
    16384.0,
    16384.5,
    16385.0,
    16385.5,
    32767.5,
    32768.0,
    65535.5,
    65536.0,
    4_194_304.0,
    8_388_608.0,
    2_147_483_648.0,
    4_294_967_296.0,
    9_223_372_036_854_775_808.0,
    18_446_744_073_709_551_616.0,
    f32::MAX,
    f32::INFINITY,
];

/// Sizes of NaNs, first three signalling ones, then three quiet ones.
const NANS: [u32; 6] = [
    0x7F80_0001,
    0x7FA0_0000,
    0x7FBF_FFFF,
    0x7FC0_0000,
    0x7FC0_0001,
    0x7FFF_FFFF,
];

/// The places of the lowest float that gives a coordinate, -16384.5, and of the highest, the one below 16383.5.
pub const LOWEST_PLACE: i32 = -0x4680_0100;
pub const HIGHEST_PLACE: i32 = 0x467F_FDFF;

/// The bits of the float at a place in the order of floats; 0 is at place 0.
pub fn at_place(place: i32) -> u32 {
    let size = place.unsigned_abs();
    if place < 0 {
        size | SIGN
    } else {
        size
    }
}

/// The float and its neighbours, so many on each side.
pub fn around(float: f32, reach: i32) -> impl Iterator<Item = u32> {
    let size = (float.to_bits() & !SIGN) as i32;
    let place = if float < 0.0 { -size } else { size };
    (place - reach..=place + reach).map(at_place)
}

/// The sizes with their neighbours and the NaNs, all with both signs.
pub fn special() -> Vec<u32> {
    let sizes = SIZES.iter().flat_map(|size| around(*size, 1));
    sizes
        .chain(NANS)
        .flat_map(|float| [float & !SIGN, float | SIGN])
        .collect()
}

/// A float that gives a coordinate: one in two of any exponent, most of them near 0, the others anywhere in the range.
pub fn lawful(random: &mut Random) -> u32 {
    if random.one_in(2) {
        return at_place(random.between(LOWEST_PLACE, HIGHEST_PLACE));
    }
    // In parts of 1024 to a pixel, from -16384.5 up to, but without, 16383.5.
    let parts = random.between(-16_777_728, 16_776_703);
    (parts as f32 / 1024.0).to_bits()
}
