//! Document 01, 'Frame, raster, run list' and 'Operations': a raster's bits, the row view, the search. Document 02, 'How much
//! was new': the counts of a drawing.
use crate::frame::{pixel, Pixel, Window};
use crate::refusal::{first_met, Refusal};
use std::iter::Sum;
use std::ops::Range;

/// The counts of a drawing: its pixels in the window, and how many of those were unmarked. A pixel that is marked twice is
/// counted twice in `count` and once in `fresh`, since its bit is 1 the second time.
#[derive(Clone, Copy, Debug, Default, PartialEq)]
pub struct Marks {
    pub count: u64,
    pub fresh: u64,
}

pub const fn marks(count: u64, fresh: u64) -> Marks {
    Marks { count, fresh }
}

/// Wraps, since counts of a wrong library are added up too.
impl Sum for Marks {
    fn sum<I: Iterator<Item = Marks>>(all: I) -> Marks {
        all.fold(Marks::default(), |sum, one| {
            let count = sum.count.wrapping_add(one.count);
            marks(count, sum.fresh.wrapping_add(one.fresh))
        })
    }
}

/// A pixel's bit: the byte it is in and what it is worth there; none where the pixel isn't in the window.
pub fn bit_of(window: Window, pixel: Pixel) -> Option<(usize, u8)> {
    let column = i64::from(pixel.column) - i64::from(window.left);
    let row = i64::from(pixel.row) - i64::from(window.top);
    let inside = column >= 0
        && column < i64::from(window.width)
        && row >= 0
        && row < i64::from(window.height);
    if !inside {
        return None;
    }
    let byte = row as u64 * window.row_bytes() + column as u64 / 8;
    Some((byte as usize, 128 >> (column % 8)))
}

/// Marks the pixel if it is in the window: whether it is, and whether its bit was 0.
pub fn mark(window: Window, raster: &mut [u8], pixel: Pixel) -> Marks {
    match bit_of(window, pixel) {
        Some((byte, worth)) => {
            let unmarked = raster[byte] & worth == 0;
            raster[byte] |= worth;
            marks(1, u64::from(unmarked))
        }
        None => marks(0, 0),
    }
}

/// The place of a row's bytes in the raster; none where 2, 3, 4 or 6 is met.
pub fn row_view(window: Window, len: usize, row: u32) -> Option<Range<usize>> {
    let conditions = [
        (2, window.size_out()),
        (3, window.place_out()),
        (4, window.raster_out(len)),
        (6, row >= window.height),
    ];
    first_met(&conditions).ok()?;
    let from = (u64::from(row) * window.row_bytes()) as usize;
    Some(from..from + window.row_bytes() as usize)
}

/// The first marked pixel of the window: its rows from the top, in each its columns from the left.
pub fn first_marked(window: Window, raster: &[u8]) -> Result<Option<Pixel>, Refusal> {
    first_met(&[
        (2, window.size_out()),
        (3, window.place_out()),
        (4, window.raster_out(raster.len())),
    ])?;
    for down in 0..window.height as i32 {
        for across in 0..window.width as i32 {
            let at = pixel(window.left + across, window.top + down);
            if bit_of(window, at).is_some_and(|(byte, worth)| raster[byte] & worth != 0) {
                return Ok(Some(at));
            }
        }
    }
    Ok(None)
}
