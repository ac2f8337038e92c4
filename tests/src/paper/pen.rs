//! Document 02, 'The marking pen': the pixel of a report, from the bits of its floats, in whole numbers alone.
use crate::frame::{out_of_range, pixel, Pixel};
use crate::refusal::{first_met, Refusal};

#[cfg(test)]
mod known;

/// Column and row, each as the 32 bits of a float.
#[derive(Clone, Copy, Debug, PartialEq)]
pub struct Point {
    pub column: u32,
    pub row: u32,
}

#[derive(Clone, Copy, Debug, PartialEq)]
pub enum Report {
    Touching(Point),
    Hovering(Point),
    Lifted,
}

/// The exact worth of a finite float: p × 2^exponent.
#[derive(Clone, Copy, Debug, PartialEq)]
struct Worth {
    p: i64,
    exponent: i32,
}

/// Exponents are taken up to here on either side. The size of p is below 2^24, so p / 2^32 gives 0, and so does every fraction
/// nearer to 0. Where the exponent is positive it is 2^23 or more, so p × 2^32 is out of range, and so is every larger number.
const FARTHEST: i32 = 32;

pub const fn point(column: u32, row: u32) -> Point {
    Point { column, row }
}

/// A float's bits are one for the sign, 8 for the exponent and 23 for the fraction. None where it is infinite or not a number.
fn worth(float: u32) -> Option<Worth> {
    let (field, fraction) = ((float >> 23) % 256, i64::from(float % (1 << 23)));
    let (size, exponent) = match field {
        255 => return None,
        0 => (fraction, -149),
        _ => ((1 << 23) + fraction, field as i32 - 150),
    };
    let p = if float >> 31 == 1 { -size } else { size };
    Some(Worth { p, exponent })
}

/// The nearest whole number, halves to the larger: of p / d it is the floor of p / d + 1 / 2, which is (2p + d) / (2d).
fn nearest(worth: Worth) -> i64 {
    let exponent = worth.exponent.clamp(-FARTHEST, FARTHEST);
    let (p, d) = if exponent < 0 {
        (worth.p, 1 << -exponent)
    } else {
        (worth.p * (1 << exponent), 1)
    };
    (2 * p + d).div_euclid(2 * d)
}

/// The pixel that the pen touches; none where it isn't touching.
pub fn touched(report: Report) -> Result<Option<Pixel>, Refusal> {
    let Report::Touching(point) = report else {
        return Ok(None);
    };
    let coordinates = [point.column, point.row].map(|float| worth(float).map(nearest));
    first_met(&[
        (13, coordinates.contains(&None)),
        (14, coordinates.iter().flatten().any(|z| out_of_range(*z))),
    ])?;
    let [column, row] = coordinates.map(|z| z.expect("13 isn't met") as i32);
    Ok(Some(pixel(column, row)))
}
