//! A line's numbers.
use crate::c::Ends;

/// L and S, whether the long axis is y, and the decision number at the first end: L, or one less where the short coordinate
/// falls, since a half stays at the larger coordinate there.
pub struct Line {
    pub long: u32,
    pub short: u32,
    pub along_y: bool,
    pub rest: u32,
}

impl Line {
    pub fn of(ends: Ends) -> Line {
        let columns = ends.x1.abs_diff(ends.x0);
        let rows = ends.y1.abs_diff(ends.y0);
        let (long, along_y) = (columns.max(rows), columns < rows);
        let falls = if along_y { ends.x1 < ends.x0 } else { ends.y1 < ends.y0 };
        Line {
            long,
            short: columns.min(rows),
            along_y,
            rest: long - u32::from(falls),
        }
    }

    pub fn pixels(&self) -> u64 {
        u64::from(self.long) + 1
    }

    pub fn runs(&self) -> u64 {
        u64::from(self.short) + 1
    }
}
