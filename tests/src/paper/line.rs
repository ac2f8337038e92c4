//! Document 01, 'What a line is', and document 02, 'Halves go to the larger coordinate'.
use crate::frame::{ends_out, pixel, Ends, Pixel};

#[cfg(test)]
mod halves;
#[cfg(test)]
mod nudge;

#[derive(Clone, Copy, Debug, PartialEq)]
pub enum Axis {
    X,
    Y,
}

/// A line with its pixels in the order of its steps. Where a coordinate of an end is out of range there are no pixels: every
/// operation refuses such a line before it looks at them.
#[derive(Clone, Debug)]
pub struct Line {
    pub ends: Ends,
    pub axis: Axis,
    pub long: i64,
    pub short: i64,
    pub pixels: Vec<Pixel>,
}

/// The columns or the rows of both ends.
#[derive(Clone, Copy)]
struct Coordinates {
    first: i64,
    second: i64,
}

impl Coordinates {
    fn new(first: i32, second: i32) -> Coordinates {
        Coordinates {
            first: i64::from(first),
            second: i64::from(second),
        }
    }

    fn difference(self) -> i64 {
        self.second - self.first
    }

    /// The coordinate that is i away from the first end, towards the second.
    fn away(self, i: i64) -> i64 {
        self.first + i * self.difference().signum()
    }

    /// The whole number nearest to the exact coordinate at step i, a half to the larger: the floor of one half more than
    /// (first × L + i × (second − first)) / L. If L is 0 the line is its one pixel.
    fn nearest(self, long: i64, i: i64) -> i64 {
        if long == 0 {
            return self.first;
        }
        let numerator = self.first * long + i * self.difference();
        (2 * numerator + long).div_euclid(2 * long)
    }
}

impl Line {
    pub fn new(ends: Ends) -> Line {
        let x = Coordinates::new(ends.x0, ends.x1);
        let y = Coordinates::new(ends.y0, ends.y1);
        let (across, down) = (x.difference().abs(), y.difference().abs());
        let (long, short) = (across.max(down), across.min(down));
        let axis = if down > across { Axis::Y } else { Axis::X };
        let step = |i: i64| {
            let (column, row) = match axis {
                Axis::X => (x.away(i), y.nearest(long, i)),
                Axis::Y => (x.nearest(long, i), y.away(i)),
            };
            pixel(column as i32, row as i32)
        };
        let pixels = if ends_out(ends) {
            Vec::new()
        } else {
            (0..=long).map(step).collect()
        };
        Line {
            ends,
            axis,
            long,
            short,
            pixels,
        }
    }
}
