//! Document 01, 'Frame, raster, run list': coordinates, ends and windows, with the conditions 1 to 4.
use crate::refusal::{first_met, Refusal};

pub const LOWEST: i64 = -16384;
pub const HIGHEST: i64 = 16383;
pub const LARGEST_SIDE: i64 = 8192;

/// The column and row of the first end and of the second.
#[derive(Clone, Copy, Debug, PartialEq)]
pub struct Ends {
    pub x0: i32,
    pub y0: i32,
    pub x1: i32,
    pub y1: i32,
}

#[derive(Clone, Copy, Debug, PartialEq)]
pub struct Window {
    pub left: i32,
    pub top: i32,
    pub width: u32,
    pub height: u32,
}

#[derive(Clone, Copy, Debug, PartialEq)]
pub struct Pixel {
    pub column: i32,
    pub row: i32,
}

pub const fn ends(x0: i32, y0: i32, x1: i32, y1: i32) -> Ends {
    Ends { x0, y0, x1, y1 }
}

pub const fn window(left: i32, top: i32, width: u32, height: u32) -> Window {
    Window {
        left,
        top,
        width,
        height,
    }
}

pub const fn pixel(column: i32, row: i32) -> Pixel {
    Pixel { column, row }
}

pub fn out_of_range(coordinate: i64) -> bool {
    !(LOWEST..=HIGHEST).contains(&coordinate)
}

/// 1: a coordinate of an end is out of range.
pub fn ends_out(ends: Ends) -> bool {
    [ends.x0, ends.y0, ends.x1, ends.y1]
        .iter()
        .any(|z| out_of_range(i64::from(*z)))
}

impl Window {
    /// 2: width or height is out of range.
    pub fn size_out(&self) -> bool {
        let out = |side: u32| side < 1 || i64::from(side) > LARGEST_SIDE;
        out(self.width) || out(self.height)
    }

    /// 3: left or top is out of the coordinate range, or the last column or row is above 16383.
    pub fn place_out(&self) -> bool {
        let out = |first: i32, side: u32| {
            out_of_range(i64::from(first)) || i64::from(first) + i64::from(side) - 1 > HIGHEST
        };
        out(self.left, self.width) || out(self.top, self.height)
    }

    /// The bytes of a row: width / 8, rounded up.
    pub fn row_bytes(&self) -> u64 {
        u64::from(self.width).div_ceil(8)
    }

    pub fn raster_bytes(&self) -> u64 {
        u64::from(self.height) * self.row_bytes()
    }

    /// 4: the raster's length isn't height times the bytes of a row.
    pub fn raster_out(&self, len: usize) -> bool {
        len as u64 != self.raster_bytes()
    }

    /// Whether the window can be made: 2 or 3 where it can't.
    pub fn check(&self) -> Result<(), Refusal> {
        first_met(&[(2, self.size_out()), (3, self.place_out())])
    }
}
