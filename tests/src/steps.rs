//! A line's pixel at each step, read off the list that the lister left, without the second implementation.
use crate::comparison::Listing;
use paper::frame::{Ends, Pixel};

/// The long axis of a line, as the lister names it, and the long coordinates of both ends.
#[derive(Clone, Copy, Debug, PartialEq)]
pub struct Along {
    axis: u32,
    first: i64,
    second: i64,
}

impl Along {
    /// None where the axis has no number of the lister's.
    fn new(axis: u32, ends: Ends) -> Option<Along> {
        let (first, second) = match axis {
            0 => (ends.x0, ends.x1),
            1 => (ends.y0, ends.y1),
            _ => return None,
        };
        Some(Along {
            axis,
            first: i64::from(first),
            second: i64::from(second),
        })
    }

    /// L and one more.
    fn pixels(&self) -> i64 {
        (self.second - self.first).abs() + 1
    }

    /// What a step adds to the long coordinate.
    fn towards(&self) -> i64 {
        (self.second - self.first).signum()
    }

    /// The long coordinate at a step.
    fn at(&self, step: i64) -> i64 {
        self.first + step * self.towards()
    }
}

/// The steps of a line with its short coordinate at each.
#[derive(Debug)]
pub struct Steps {
    pub along: Along,
    pub shorts: Vec<i32>,
}

impl Steps {
    /// The steps that the list gives, each run's short coordinate as often as it has pixels. None where the lister refused, or
    /// the runs do not have the line's long coordinates one after the other from the first end to the second.
    pub fn read(ends: Ends, listing: &Listing) -> Option<Steps> {
        let along = Along::new(listing.answer.axis, ends)?;
        let counted = 3 * listing.answer.runs as usize;
        let mut shorts = Vec::new();
        for run in listing.list.get(..counted)?.chunks_exact(3) {
            let (lowest, pixels) = (i64::from(run[1]), i64::from(run[2]));
            let before = shorts.len() as i64;
            let after = before + pixels;
            let fits = pixels >= 1 && after <= along.pixels();
            if !fits || lowest != along.at(before).min(along.at(after - 1)) {
                return None;
            }
            shorts.resize(after as usize, run[0]);
        }
        (shorts.len() as i64 == along.pixels()).then_some(Steps { along, shorts })
    }

    /// The step at the pixel's long coordinate, and how far the pixel's short coordinate is from the line's at that step; none
    /// where the line has no such step.
    pub fn beside(&self, pixel: Pixel) -> Option<(u64, u64)> {
        let (long, short) = match self.along.axis {
            0 => (pixel.column, pixel.row),
            _ => (pixel.row, pixel.column),
        };
        let step = (i64::from(long) - self.along.first) * self.along.towards();
        let own = self.shorts.get(usize::try_from(step).ok()?)?;
        Some((step as u64, u64::from(short.abs_diff(*own))))
    }
}
