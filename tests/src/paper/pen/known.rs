//! Floats written as their bits, with answers found by hand from document 02's words, by the second implementation alone.
use super::{nearest, point, touched, worth, Point, Report, Worth};
use crate::frame::{pixel, Pixel};
use crate::refusal::Refusal;

const ONE: u32 = 0x3F80_0000;
const HALF: u32 = 0x3F00_0000;
const SIGN: u32 = 0x8000_0000;
const LARGEST: u32 = 0x7F7F_FFFF;
const INFINITY: u32 = 0x7F80_0000;
const NAN: u32 = 0x7FC0_0000;

/// 16383.5, the least float that is too large, and -16384.5, the least that is in range.
const TOP: u32 = 0x467F_FE00;
const BOTTOM: u32 = 0xC680_0100;

/// Infinities and NaNs of both signs; a quiet NaN's highest fraction bit is 1, a signalling one's 0.
const NO_NUMBERS: [u32; 12] = [
    INFINITY,
    0xFF80_0000,
    NAN,
    0xFFC0_0000,
    0x7F80_0001,
    0xFF80_0001,
    0x7FBF_FFFF,
    0xFFBF_FFFF,
    0x7FA0_0000,
    0xFFA0_0000,
    0x7FFF_FFFF,
    0xFFFF_FFFF,
];

type Answer = Result<Option<Pixel>, Refusal>;

fn refused(number: u32) -> Answer {
    Err(Refusal { number, place: 0 })
}

fn at(column: i32, row: i32) -> Answer {
    Ok(Some(pixel(column, row)))
}

fn touching(column: u32, row: u32) -> Answer {
    touched(Report::Touching(point(column, row)))
}

/// The float gives this coordinate as the column and as the row.
fn gives(float: u32, coordinate: i32) {
    assert_eq!(touching(float, ONE), at(coordinate, 1), "{float:#x}");
    assert_eq!(touching(ONE, float), at(1, coordinate), "{float:#x}");
}

/// The float is refused by this number as the column, as the row and as both.
fn is_refused(float: u32, number: u32) {
    let lawful = ONE;
    for (column, row) in [(float, lawful), (lawful, float), (float, float)] {
        assert_eq!(touching(column, row), refused(number), "{float:#x}");
    }
}

#[test]
fn worths() {
    let is = |float, p, exponent| assert_eq!(worth(float), Some(Worth { p, exponent }));
    is(ONE, 1 << 23, -23);
    is(0xC020_0000, -5 << 21, -22);
    is(0x3DCC_CCCD, 13_421_773, -27);
    is(0x0080_0000, 1 << 23, -149);
    is(0x007F_FFFF, (1 << 23) - 1, -149);
    is(0x8000_0001, -1, -149);
    is(SIGN, 0, -149);
    is(LARGEST, (1 << 24) - 1, 104);
}

#[test]
fn numbers_that_the_request_names() {
    // 0.49999997, -0.5 and minus zero.
    gives(0x3EFF_FFFF, 0);
    gives(HALF | SIGN, 0);
    gives(SIGN, 0);
}

#[test]
fn halves_and_their_neighbours() {
    gives(HALF, 1);
    gives(0x3F00_0001, 1);
    gives(0xBEFF_FFFF, 0);
    gives(0xBF00_0001, -1);
    // 1.5 and -1.5.
    gives(0x3FBF_FFFF, 1);
    gives(0x3FC0_0000, 2);
    gives(0xBFC0_0000, -1);
    gives(0xBFC0_0001, -2);
    // 2.5 and -2.5.
    gives(0x401F_FFFF, 2);
    gives(0x4020_0000, 3);
    gives(0xC020_0000, -2);
    gives(0xC020_0001, -3);
}

#[test]
fn other_fractions() {
    // 0, 123.25, 123.75, -7.75, -7.25, 0.1.
    gives(0, 0);
    gives(0x42F6_8000, 123);
    gives(0x42F7_8000, 124);
    gives(0xC0F8_0000, -8);
    gives(0xC0E8_0000, -7);
    gives(0x3DCC_CCCD, 0);
    // 8191.5 and the float below it, which is 8191.4995.
    gives(0x45FF_FC00, 8192);
    gives(0x45FF_FBFF, 8191);
}

#[test]
fn ends_of_the_range() {
    gives(0x467F_FC00, 16383);
    gives(TOP - 1, 16383);
    is_refused(TOP, 14);
    is_refused(0x4680_0000, 14);
    gives(0xC680_0000, -16384);
    gives(BOTTOM, -16384);
    is_refused(BOTTOM + 1, 14);
    // -16383.5 and the float below it.
    gives(0xC67F_FE00, -16383);
    gives(0xC67F_FE01, -16384);
}

#[test]
fn largest_and_smallest() {
    for sign in [0, SIGN] {
        is_refused(LARGEST | sign, 14);
        // 2^23, 2^24, 2^31, 2^32, 2^63, 2^64, 2^127.
        for power in [23, 24, 31, 32, 63, 64, 127] {
            is_refused((power + 127) << 23 | sign, 14);
        }
        // The smallest subnormal, the largest, the smallest normal.
        gives(1 | sign, 0);
        gives(0x007F_FFFF | sign, 0);
        gives(0x0080_0000 | sign, 0);
    }
}

#[test]
fn no_numbers() {
    for float in NO_NUMBERS {
        is_refused(float, 13);
        // 13 over both floats comes before 14 over both.
        for out in [TOP, BOTTOM + 1, LARGEST, LARGEST | SIGN] {
            assert_eq!(touching(float, out), refused(13));
            assert_eq!(touching(out, float), refused(13));
        }
    }
}

#[test]
fn column_and_row_are_each_their_own() {
    assert_eq!(touching(0x42F6_8000, 0xC0F8_0000), at(123, -8));
    assert_eq!(touching(0xC0F8_0000, 0x42F6_8000), at(-8, 123));
    assert_eq!(touching(BOTTOM, TOP - 1), at(-16384, 16383));
    assert_eq!(touching(TOP, BOTTOM), refused(14));
}

#[test]
fn not_touching_is_not_refused() {
    let points: [Point; 4] = [
        point(ONE, ONE),
        point(NAN, ONE),
        point(INFINITY, NAN),
        point(TOP, LARGEST),
    ];
    for point in points {
        assert_eq!(touched(Report::Hovering(point)), Ok(None));
    }
    assert_eq!(touched(Report::Lifted), Ok(None));
}

/// The exact point is at most half a pixel away, and halves go to the larger: n - 1/2 <= p / d < n + 1/2.
fn within_half(float: u32) {
    let worth = worth(float).expect("the float is finite");
    let n = i128::from(nearest(worth));
    let (p, d) = (i128::from(worth.p), 1_i128 << -worth.exponent);
    let low_enough = 2 * n * d - d <= 2 * p;
    assert!(low_enough && 2 * p < 2 * n * d + d, "{float:#x}");
}

/// All floats near 0.5, 1 and the range's ends, and some of each exponent for which p / d has a d from 1 to 2^100.
#[test]
fn every_answer_is_within_half_a_pixel() {
    for middle in [HALF, ONE, TOP, BOTTOM - SIGN] {
        for size in middle - 3000..middle + 3000 {
            within_half(size);
            within_half(size | SIGN);
        }
    }
    for field in 50..=150 {
        for fraction in (0..1 << 23).step_by(9973) {
            within_half(field << 23 | fraction);
            within_half(field << 23 | fraction | SIGN);
        }
    }
}
