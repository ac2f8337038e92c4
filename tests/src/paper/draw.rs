//! Document 01, 'Operations': drawing a line in a window, and in a band of its rows.
use crate::frame::{ends_out, Window};
use crate::line::Line;
use crate::raster::{mark, Marks};
use crate::refusal::{first_met, Refusal};

/// A first row, counted from 0 at the window's top, and a number of rows.
#[derive(Clone, Copy, Debug, PartialEq)]
pub struct Band {
    pub first: u32,
    pub rows: u32,
}

impl Band {
    /// 6: the band has no rows or ends below the window.
    pub fn out(&self, window: Window) -> bool {
        self.rows == 0 || u64::from(self.first) + u64::from(self.rows) > u64::from(window.height)
    }

    /// Whether a row, counted from 0 at the window's top, is in the band.
    pub fn has(&self, row: i64) -> bool {
        let first = i64::from(self.first);
        first <= row && row < first + i64::from(self.rows)
    }
}

/// Marks the line's pixels in the window: how many they are, and how many were unmarked.
pub fn draw(line: &Line, window: Window, raster: &mut [u8]) -> Result<Marks, Refusal> {
    first_met(&[
        (1, ends_out(line.ends)),
        (2, window.size_out()),
        (3, window.place_out()),
        (4, window.raster_out(raster.len())),
    ])?;
    Ok(line
        .pixels
        .iter()
        .map(|pixel| mark(window, raster, *pixel))
        .sum())
}

/// What `draw_band` marks and answers where it doesn't refuse.
pub fn mark_band(line: &Line, window: Window, band: Band, raster: &mut [u8]) -> Marks {
    line.pixels
        .iter()
        .filter(|pixel| band.has(i64::from(pixel.row) - i64::from(window.top)))
        .map(|pixel| mark(window, raster, *pixel))
        .sum()
}

/// Marks the line's pixels in the band's rows of the window: how many they are, and how many were unmarked.
pub fn draw_band(
    line: &Line,
    window: Window,
    band: Band,
    raster: &mut [u8],
) -> Result<Marks, Refusal> {
    first_met(&[
        (1, ends_out(line.ends)),
        (2, window.size_out()),
        (3, window.place_out()),
        (4, window.raster_out(raster.len())),
        (6, band.out(window)),
    ])?;
    Ok(mark_band(line, window, band, raster))
}
